"""A model of rules of the Alive language, written apart from the program: it reads good rules, gives them their classes and typings,
and decides them by going through all settings.

    python3 bench/rule_model.py RULES WIDTHS

prints, for each rule and typing over the widths (1,2,3), `admitted` or how many counterexamples there are, and the only one. It is
for small widths, and takes no bad rule file.
"""
import itertools
import re
import sys

from program import usage

EXTREMES = 'umin umax smin smax'.split()
BINARY = 'add sub mul udiv sdiv urem srem shl lshr ashr and or xor'.split() + EXTREMES
UNARY = 'abs ctpop ctlz cttz'.split()
CASTS = 'trunc zext sext'.split()
FLAGS = {**dict.fromkeys(['add', 'sub', 'mul', 'shl', 'trunc'], ['nuw', 'nsw']), **dict.fromkeys(['udiv', 'sdiv', 'lshr', 'ashr'], ['exact']),
         'or': ['disjoint'], 'zext': ['nneg'], 'icmp': ['samesign'], 'abs': ['minpoison'], **dict.fromkeys(['ctlz', 'cttz'], ['zeropoison'])}
POISON = 'poison'
UNDEFINED = 'undefined'
TOKEN = re.compile(r'\s*(u>>|u<=|u>=|u<|u>|%[A-Za-z0-9_.]+|[A-Za-z][A-Za-z0-9_]*|\d+|<<|>>|==|!=|<=|>=|&&|\|\||/u(?![A-Za-z0-9_.$-])|%u(?![A-Za-z0-9_.$-])|%|[-+*/&^|~!<>(),=])')
LEVELS = [{'*': 'mul', '/': 'sdiv', '/u': 'udiv', '%': 'srem', '%u': 'urem'}, {'+': 'add', '-': 'sub'},
          {'<<': 'shl', '>>': 'ashr', 'u>>': 'lshr'}, {'&': 'and'}, {'^': 'xor'}, {'|': 'or'}]
COMPARISONS = {'==': 'eq', '!=': 'ne', '<': 'slt', '<=': 'sle', '>': 'sgt', '>=': 'sge', 'u<': 'ult', 'u<=': 'ule', 'u>': 'ugt', 'u>=': 'uge'}


def signed(a, width):
    return a - (1 << width) if a >> (width - 1) else a


def binary(op, flags, width, a, b):
    """What an instruction with two operands does."""
    modulus = 1 << width
    if op in ('udiv', 'urem', 'sdiv', 'srem'):
        if b == POISON or b == 0:
            return UNDEFINED
        if op[0] == 's' and b == modulus - 1 and (a == POISON or a == modulus >> 1):
            return UNDEFINED
        if a == POISON:
            return POISON
        if op == 'udiv':
            return POISON if 'exact' in flags and a % b else a // b
        if op == 'urem':
            return a % b
        x, y = signed(a, width), signed(b, width)
        quotient = abs(x) // abs(y)
        quotient = -quotient if (x < 0) != (y < 0) else quotient
        rest = x - quotient * y
        if op == 'sdiv':
            return POISON if 'exact' in flags and rest else quotient % modulus
        return rest % modulus
    if POISON in (a, b):
        return POISON
    if op in EXTREMES:
        return {'min': min, 'max': max}[op[1:]](a, b, key=lambda x: signed(x, width) if op[0] == 's' else x)
    if op in ('add', 'sub', 'mul'):
        compute = {'add': lambda x, y: x + y, 'sub': lambda x, y: x - y, 'mul': lambda x, y: x * y}[op]
        if 'nuw' in flags and not 0 <= compute(a, b) < modulus:
            return POISON
        if 'nsw' in flags and not -(modulus >> 1) <= compute(signed(a, width), signed(b, width)) < modulus >> 1:
            return POISON
        return compute(a, b) % modulus
    if op == 'shl':
        if b >= width or 'nuw' in flags and a << b >= modulus:
            return POISON
        if 'nsw' in flags and not -(modulus >> 1) <= signed(a, width) << b < modulus >> 1:
            return POISON
        return (a << b) % modulus
    if op in ('lshr', 'ashr'):
        if b >= width or 'exact' in flags and a % (1 << b):
            return POISON
        return a >> b if op == 'lshr' else (signed(a, width) >> b) % modulus
    if 'disjoint' in flags and a & b:
        return POISON
    return {'and': a & b, 'or': a | b, 'xor': a ^ b}[op]


def unary(op, flags, width, a):
    """What an intrinsic with one operand gives, its truth value being true where a flag says it."""
    if a == POISON or flags and a == (1 << (width - 1) if op == 'abs' else 0):
        return POISON
    if op == 'abs':
        return abs(signed(a, width)) % (1 << width)
    if op == 'ctpop':
        return bin(a).count('1')
    digits = format(a, f'0{width}b')
    return width if a == 0 else digits.index('1') if op == 'ctlz' else digits[::-1].index('1')


def cast(op, flags, width, to, a):
    """What a cast from the one width to the other gives."""
    if a == POISON or 'nneg' in flags and signed(a, width) < 0:
        return POISON
    made = (signed(a, width) if op == 'sext' else a) % (1 << to)
    if op == 'trunc' and ('nuw' in flags and made != a or 'nsw' in flags and signed(made, to) != signed(a, width)):
        return POISON
    return made


def compare(predicate, width, a, b, flags=()):
    if POISON in (a, b):
        return POISON
    if 'samesign' in flags and (signed(a, width) < 0) != (signed(b, width) < 0):
        return POISON
    if predicate[0] == 's':
        a, b = signed(a, width), signed(b, width)
    kind = predicate if predicate in ('eq', 'ne') else predicate[1:]
    return int({'eq': a == b, 'ne': a != b, 'gt': a > b, 'ge': a >= b, 'lt': a < b, 'le': a <= b}[kind])


# ---- reading

class Reader:
    """Reads one line's terms and formulas."""

    def __init__(self, text):
        self.text, self.at = text, 0

    def peek(self):
        found = TOKEN.match(self.text, self.at)
        return found.group(1) if found else None

    def take(self):
        found = TOKEN.match(self.text, self.at)
        self.at = found.end()
        return found.group(1)

    def expect(self, token):
        taken = self.take()
        assert taken == token, (self.text, token, taken)

    def argument(self):
        self.expect('(')
        inner = self.term()
        self.expect(')')
        return inner

    def primary(self):
        token = self.take()
        if token == '-':
            digits = re.match(r'\d+', self.text[self.at:])
            if digits:
                self.at += digits.end()
                return ['lit', -int(digits.group())]
            return ['fn', '-', self.primary()]
        if token == '~':
            return ['fn', '~', self.primary()]
        if token == '(':
            inner = self.term()
            self.expect(')')
            return inner
        if token.isdigit():
            return ['lit', int(token)]
        if token in ('log2', 'abs'):
            return ['fn', token, self.argument()]
        if token == 'width':
            self.expect('(')
            register = self.take()
            self.expect(')')
            return ['width', register]
        if token[0] == '%':
            return ['reg', token]
        if re.fullmatch(r'C\d*', token):
            return ['const', token]
        if re.fullmatch(r't[1-9]\d*', token):
            return ['t', int(token[1:]) - 1]
        raise AssertionError((self.text, token))

    def term(self, level=5):
        if level < 0:
            return self.primary()
        left = self.term(level - 1)
        while self.peek() in LEVELS[level]:
            op = LEVELS[level][self.take()]
            left = ['bin', op, left, self.term(level - 1)]
        return left

    def atom(self):
        token = self.peek()
        if token in ('isPowerOf2', 'isSignBit'):
            self.take()
            return [token, self.argument()]
        if token == 'hasOneUse':
            self.take()
            self.expect('(')
            register = self.take()
            self.expect(')')
            return ['one', register]
        if token in ('MaskedValueIsZero', 'isKnownNonZero'):
            self.take()
            self.expect('(')
            fact = [token, self.take()]
            if token == 'MaskedValueIsZero':
                self.expect(',')
                fact.append(self.term())
            self.expect(')')
            return fact
        if token == '(':
            start = self.at
            try:
                self.take()
                inner = self.formula()
                self.expect(')')
                return inner
            except (AssertionError, AttributeError):
                self.at = start
        left = self.term()
        return ['cmp', COMPARISONS[self.take()] if self.peek() in COMPARISONS else self.fail(), left, self.term()]

    def fail(self):
        raise AssertionError(self.text)

    def negation(self):
        if self.peek() == '!':
            self.take()
            return ['not', self.negation()]
        return self.atom()

    def chain(self, mark, name, part):
        left = part()
        while self.peek() == mark:
            self.take()
            left = [name, left, part()]
        return left

    def formula(self):
        return self.chain('||', 'or', lambda: self.chain('&&', 'and', self.negation))


def operand(text, target):
    text = text.strip()
    width = None
    typed = re.match(r'i(\d+)\s+', text)
    if typed:
        width, text = int(typed.group(1)), text[typed.end():].strip()
    if text in ('true', 'false', 'undef'):
        return [width, [text]]
    reader = Reader(text)
    return [width, reader.term()]


def parts(text):
    """The operands of a statement: between commas outside parentheses."""
    out, depth, start = [], 0, 0
    for i, c in enumerate(text):
        depth += (c == '(') - (c == ')')
        if c == ',' and depth == 0:
            out.append(text[start:i])
            start = i + 1
    return out + [text[start:]]


def flags_before(word, text):
    """The flags that stand behind an opcode, and what stands behind them."""
    flags = []
    while text.split()[0] in FLAGS.get(word, []):
        flag, text = text.split(None, 1)
        flags.append(flag)
    return flags, text


def statement(line, target):
    """The register, the opcode, its flags (an `icmp`: and the predicate), the operands and the type that is written behind `to`."""
    register, right = (part.strip() for part in line.split('=', 1))
    word = right.split()[0]
    if word in BINARY:
        flags, rest = flags_before(word, right.split(None, 1)[1])
        return register, word, flags, [operand(x, target) for x in parts(rest)], None
    if word == 'icmp':
        flags, rest = flags_before(word, right.split(None, 1)[1])
        predicate, rest = rest.split(None, 1)
        return register, 'icmp', (flags, predicate), [operand(x, target) for x in parts(rest)], None
    if word == 'select':
        return register, 'select', None, [operand(x, target) for x in parts(right.split(None, 1)[1])], None
    if word in UNARY:
        flags, rest = flags_before(word, right.split(None, 1)[1])
        return register, word, flags, [operand(rest, target)], None
    if word in CASTS:
        flags, rest = flags_before(word, right.split(None, 1)[1])
        to = None
        if ' to ' in rest:
            rest, to = rest.split(' to ')
            to = int(to.strip()[1:])
        return register, word, flags, [operand(rest, target)], to
    if word == 'freeze':
        return register, 'freeze', ['choice', None], [operand(right.split(None, 1)[1], target)], None
    return register, 'copy', None, [operand(right, target)], None


class Rule:
    def __init__(self, text):
        lines = [line.split(';')[0].strip() for line in text.split('\n')]
        self.name = lines[0]
        body = [line for line in lines[1:] if line]
        self.formula, self.witness = None, []
        if body[0].startswith('Pre:'):
            self.formula = Reader(body.pop(0)[4:]).formula()
        if body[0].startswith('Wit:'):
            self.witness = [Reader(x).term() for x in parts(body.pop(0)[4:])]
        arrow = body.index('=>')
        self.source = [statement(line, False) for line in body[:arrow]]
        self.target = [statement(line, True) for line in body[arrow + 1:]]
        for half in (self.source, self.target):
            count = 0
            for st in half:
                for o in st[3]:
                    if o[1][0] == 'undef':
                        o[1] = ['undef', count]
                        count += 1
                if st[1] == 'freeze':
                    st[2][1] = count
                    count += 1
        assigned = {st[0] for st in self.source}
        self.inputs, self.constants = [], []
        for st in self.source:
            for _, v in st[3]:
                if v[0] == 'reg' and v[1] not in assigned and v[1] not in self.inputs:
                    self.inputs.append(v[1])
                if v[0] == 'const' and v[1] not in self.constants:
                    self.constants.append(v[1])
        self.classify()

    def classify(self):
        """Classes in the order of their first positions; class numbers are written into the nodes."""
        parent, fixed, less, literals, names = [], [], [], [], {}

        def new():
            parent.append(len(parent))
            return len(parent) - 1

        def find(i):
            while parent[i] != i:
                i = parent[i]
            return i

        def join(a, b):
            parent[find(a)] = find(b)

        def name(key, p):
            if key in names:
                join(names[key], p)
            names[key] = p

        def place(node, half):
            p = new()
            kind = node[0]
            if kind == 'lit':
                literals.append((p, node[1]))
            elif kind == 'reg':
                name(node[1], p)
            elif kind == 'const':
                name(node[1], p)
            elif kind == 't':
                name(('target', node[1]), p)
            elif kind == 'undef':
                name((half, node[1]), p)
            elif kind in ('true', 'false'):
                fixed.append((p, 1))
            elif kind == 'width':
                q = new()
                name(node[1], q)
                node.append(q)
            elif kind == 'fn':
                join(p, place(node[2], half))
            elif kind == 'bin':
                join(p, place(node[2], half))
                join(p, place(node[3], half))
            node.append(p)
            return p

        self.results = []
        for label, half in (('source', self.source), ('target', self.target)):
            for register, op, extra, operands, to in half:
                result = new()
                name(register, result)
                ps = []
                for width, v in operands:
                    p = place(v, label)
                    ps.append(p)
                    if width:
                        fixed.append((p, width))
                if op in BINARY:
                    join(result, ps[0])
                    join(result, ps[1])
                elif op == 'icmp':
                    join(ps[0], ps[1])
                    fixed.append((result, 1))
                elif op == 'select':
                    join(result, ps[1])
                    join(result, ps[2])
                    fixed.append((ps[0], 1))
                elif op == 'copy' or op in UNARY:
                    join(result, ps[0])
                elif op == 'freeze':
                    join(result, ps[0])
                    name((label, extra[1]), result)
                else:
                    less.append((result, ps[0]) if op == 'trunc' else (ps[0], result))
                    if to:
                        fixed.append((result, to))
                self.results.append(result)
        self.source_positions = len(parent) if not self.target else None

        def formula(f):
            if f[0] == 'cmp':
                join(place(f[2], 'pre'), place(f[3], 'pre'))
            elif f[0] in ('isPowerOf2', 'isSignBit'):
                place(f[1], 'pre')
            elif f[0] == 'MaskedValueIsZero':
                join(names[f[1]], place(f[2], 'pre'))
            elif f[0] == 'not':
                formula(f[1])
            elif f[0] in ('and', 'or'):
                formula(f[1])
                formula(f[2])

        if self.formula:
            formula(self.formula)
        for k, expression in enumerate(self.witness):
            p = place(expression, 'wit')
            name(('source', k), p)
        numbers = {}
        self.of = [numbers.setdefault(find(i), len(numbers)) for i in range(len(parent))]
        self.count = len(numbers)
        self.fixed = [(self.of[p], w) for p, w in fixed]
        self.less = [(self.of[a], self.of[b]) for a, b in less]
        self.literals = [(self.of[p], z) for p, z in literals]
        self.named = {self.of[r] for r in self.results[:len(self.source)]}
        for st in self.source:
            for _, v in st[3]:
                if v[0] in ('reg', 'const'):
                    self.named.add(self.of[v[-1]])

    def typings(self, widths):
        choices = []
        for c in range(self.count):
            only = {w for d, w in self.fixed if d == c}
            candidates = [] if len(only) > 1 else sorted(only) or widths
            choices.append([w for w in candidates if all(-(1 << (w - 1)) <= z < 1 << w for d, z in self.literals if d == c)])
        return [t for t in itertools.product(*choices) if all(t[a] < t[b] for a, b in self.less)]

    # ---- meaning, at a typing

    def term(self, typing, node, env):
        """A term's number, or None."""
        width = typing[self.of[node[-1]]]
        kind = node[0]
        if kind == 'lit':
            return node[1] % (1 << width)
        if kind in ('const', 'reg'):
            value = env[node[1]]
            return 0 if value == POISON else value
        if kind == 't':
            return env[('target', node[1])]
        if kind == 'width':
            bits = typing[self.of[node[2]]]
            return bits if bits < 1 << width else None
        if kind == 'fn':
            a = self.term(typing, node[2], env)
            if a is None:
                return None
            if node[1] == '-':
                return -a % (1 << width)
            if node[1] == '~':
                return (1 << width) - 1 - a
            if node[1] == 'abs':
                return abs(signed(a, width)) % (1 << width)
            return a.bit_length() - 1 if a and a & (a - 1) == 0 else None
        a, b = self.term(typing, node[2], env), self.term(typing, node[3], env)
        if a is None or b is None:
            return None
        value = binary(node[1], [], width, a, b)
        return None if value in (POISON, UNDEFINED) else value

    def terms(self):
        """All terms of the precondition and the target."""
        out = []

        def formula(f):
            if f[0] == 'cmp':
                out.extend(f[2:4])
            elif f[0] in ('isPowerOf2', 'isSignBit'):
                out.append(f[1])
            elif f[0] == 'MaskedValueIsZero':
                out.append(f[2])
            elif f[0] == 'not':
                formula(f[1])
            elif f[0] in ('and', 'or'):
                formula(f[1])
                formula(f[2])

        if self.formula:
            formula(self.formula)
        for st in self.target:
            out.extend(v for _, v in st[3] if v[0] in ('lit', 'const', 'fn', 'bin', 'width'))
        return out

    def truth(self, typing, f, env):
        if f[0] == 'cmp':
            return bool(compare(f[1], typing[self.of[f[2][-1]]], self.term(typing, f[2], env), self.term(typing, f[3], env)))
        if f[0] == 'isPowerOf2':
            return bin(self.term(typing, f[1], env)).count('1') == 1
        if f[0] == 'isSignBit':
            return self.term(typing, f[1], env) == 1 << (typing[self.of[f[1][-1]]] - 1)
        if f[0] in ('one', 'MaskedValueIsZero', 'isKnownNonZero'):
            return True
        if f[0] == 'not':
            return not self.truth(typing, f[1], env)
        both = self.truth(typing, f[1], env), self.truth(typing, f[2], env)
        return all(both) if f[0] == 'and' else any(both)

    def holds(self, typing, env):
        if any(self.term(typing, t, env) is None for t in self.terms()):
            return False
        return self.formula is None or self.truth(typing, self.formula, env)

    def facts(self):
        """What the precondition says of bits, which stands in the outermost `&&` alone."""
        out, left = [], [self.formula] if self.formula else []
        while left:
            f = left.pop()
            if f[0] == 'and':
                left += f[1:]
            elif f[0] in ('MaskedValueIsZero', 'isKnownNonZero'):
                out.append(f)
        return out

    def keeps(self, typing, env):
        """Whether registers are as the precondition says."""
        for f in self.facts():
            value = env[f[1]]
            if value != POISON and (value == 0 if f[0] == 'isKnownNonZero' else value & self.term(typing, f[2], env)):
                return False
        return True

    def value(self, typing, node, half, env):
        width = typing[self.of[node[-1]]]
        kind = node[0]
        if kind in ('reg', 'const'):
            return env[node[1]]
        if kind == 'undef':
            return env[(half, node[1])]
        if kind in ('true', 'false'):
            return int(kind == 'true')
        value = self.term(typing, node, env)
        return 0 if value is None else value

    def run(self, typing, half, statements, first, env):
        """The effect of the last of the statements, and what registers hold then."""
        effect = None
        for k, (register, op, extra, operands, to) in enumerate(statements):
            width = typing[self.of[self.results[first + k]]]
            widths = [typing[self.of[v[-1]]] for _, v in operands]
            values = [self.value(typing, v, half, env) for _, v in operands]
            if op in BINARY:
                effect = binary(op, extra, width, *values)
            elif op in UNARY:
                effect = unary(op, extra, width, *values)
            elif op == 'icmp':
                effect = compare(extra[1], widths[0], *values, extra[0])
            elif op == 'select':
                effect = POISON if values[0] == POISON else values[1] if values[0] else values[2]
            elif op == 'copy':
                effect = values[0]
            elif op == 'freeze':
                effect = env[(half, extra[1])] if values[0] == POISON else values[0]
            else:
                effect = cast(op, extra, widths[0], width, values[0])
            if effect == UNDEFINED:
                return UNDEFINED, env
            env = dict(env)
            env[register] = effect
        return effect, env

    def widths_of(self, typing):
        """The widths of inputs, constants and the target's choices, which are its undefs and its freezes."""
        width, choices = {}, {}
        for half, statements in (('source', self.source), ('target', self.target)):
            for st in statements:
                for _, v in st[3]:
                    if v[0] in ('reg', 'const'):
                        width.setdefault(v[1], typing[self.of[v[-1]]])
                    if v[0] == 'undef' and half == 'target':
                        choices[v[1]] = typing[self.of[v[-1]]]
                if st[1] == 'freeze' and half == 'target':
                    choices[st[2][1]] = typing[self.of[st[3][0][1][-1]]]
        return [width[x] for x in self.inputs], [width[c] for c in self.constants], [choices[k] for k in sorted(choices)]

    def bits(self, typing):
        inputs, constants, choices = self.widths_of(typing)
        return sum(w + 1 for w in inputs) + sum(constants) + sum(choices)

    def examples(self, typing):
        """All counterexamples: inputs, constants, the target's choices, chosen numbers and both effects."""
        inputs, constants, choices = self.widths_of(typing)
        for cs in itertools.product(*[range(1 << w) for w in constants]):
            known = dict(zip(self.constants, cs))
            if not self.holds(typing, known):
                continue
            for ts in itertools.product(*[range(1 << w) for w in choices]):
                for values in itertools.product(*[[*range(1 << w), POISON] for w in inputs]):
                    env = dict(known)
                    env.update(zip(self.inputs, values))
                    env.update({('target', k): t for k, t in enumerate(ts)})
                    found = self.compare(typing, env)
                    if found:
                        yield values, cs, ts, *found

    def compare(self, typing, env):
        """The chosen numbers and both effects where the source's doesn't allow the target's."""
        effect, env = self.run(typing, 'source', self.source[:-1], 0, env)
        if effect == UNDEFINED or not self.keeps(typing, env):
            return None
        chosen = [self.term(typing, w, env) or 0 for w in self.witness]
        with_choices = dict(env)
        with_choices.update({('source', k): u for k, u in enumerate(chosen)})
        source, _ = self.run(typing, 'source', self.source[-1:], len(self.source) - 1, with_choices)
        if source == UNDEFINED:
            return None
        target, _ = self.run(typing, 'target', self.target, len(self.source), env)
        if target != UNDEFINED and source in (POISON, target):
            return None
        return chosen, source, target

    def text(self, typing, example):
        """The lines of a counterexample as the program prints them."""
        values, cs, ts, us, source, target = example
        lines = [f'  {n} = {v}' for n, v in zip(self.inputs, values)] + [f'  {n} = {v}' for n, v in zip(self.constants, cs)]
        lines += [f'  t{k + 1} = {v}' for k, v in enumerate(ts)] + [f'  u{k + 1} = {v}' for k, v in enumerate(us)]
        return ''.join(line + '\n' for line in lines + [f'  source {source}', f'  target {target}'])


def rules_of(text):
    return [Rule(part) for part in re.split(r'(?m)^\s*Name:', text)[1:]]


if __name__ == '__main__':
    usage(__doc__)
    widths = [int(x) for x in sys.argv[2].split(',')]
    for rule in rules_of(open(sys.argv[1]).read()):
        for typing in rule.typings(widths):
            found = list(rule.examples(typing))
            head = f'{rule.name} [{" ".join(map(str, typing))}]:'
            print(head, 'admitted' if not found else f'{len(found)} counterexamples')
            if len(found) == 1:
                print(rule.text(typing, found[0]), end='')
