"""Random functions around rules that say something of bits: what the program writes for them beside two models.

    python3 bench/random_known_bits.py FUNCTIONS SEED

Modules of 50 functions with branches and loops are made around the sources of one to six rules, known ones and random
ones, most of which hold only by what they say of bits: those have operands of which that is known, or nearly. After one
step, after up to 20, and after up to 20 with `--fold`, what is written and reported must be what `rewrite_model.py`
makes of the function, which finds the known bits, the matches and the order of the rewrites by itself; and it must
refine what was read, by `ir_model.py`, at every argument (of at most 6 bits), every bound to 6 blocks and every choice.
Prints each function of which this is not so, and at the end how many there were, how many were rewritten, how many of
these by a rule for which some bit had to be known, and how often, by up to 20 steps without `--fold`; and how many
matches what isn't known of bits alone forbids in the functions as they are read.

A tenth as many functions of one block have words of up to 64 bits. There it is asked of single bits of each result
whether they are known to be 0, and whether to be 1, by a rule that matches only then, and compared with the model. At
the end stands how many bits were asked so, and how many of them are known.
"""
import os
import random
import re
import subprocess
import sys
import tempfile

sys.path.insert(0, os.path.dirname(os.path.abspath(__file__)))
import random_rewrites
from ir_model import functions_of, refines
from program import alive, usage
from random_rules import Maker
from rewrite_model import Strategy, by_places, known_before, known_result, verdicts_of
from rule_model import Rule, rules_of

MOST_BLOCKS = 6
IN_MODULE = 50
WIDTHS = '1-3'
# Which hold by what they say of bits.
BY_BITS = """
Name: or-known
Pre: MaskedValueIsZero(%x, C)
%r = or %x, C
=>
%r = add %x, C

Name: add-known
Pre: MaskedValueIsZero(%x, C)
%r = add %x, C
=>
%r = or %x, C

Name: xor-known
Pre: MaskedValueIsZero(%x, C)
%r = xor %x, C
=>
%r = or disjoint %x, C

Name: sub-known
Pre: MaskedValueIsZero(%x, ~C)
%r = sub C, %x
=>
%r = xor %x, C

Name: and-of-kept
Pre: MaskedValueIsZero(%x, ~C)
%r = and %x, C
=>
%r = %x

Name: and-of-none
Pre: MaskedValueIsZero(%x, C)
%r = and %x, C
=>
%r = 0

Name: not-zero
Pre: isKnownNonZero(%x)
%r = icmp eq %x, 0
=>
%r = 0

Name: above-zero
Pre: isKnownNonZero(%x)
%r = icmp ugt %x, 0
=>
%r = 1

Name: zext-for-sext
Pre: MaskedValueIsZero(%x, 1 << (width(%x) - 1))
%r = sext %x
=>
%r = zext %x

Name: lshr-for-ashr
Pre: MaskedValueIsZero(%x, 1 << (width(%x) - 1))
%r = ashr %x, %y
=>
%r = lshr %x, %y

Name: not-negative
Pre: MaskedValueIsZero(%x, 1 << (width(%x) - 1))
%r = icmp slt %x, 0
=>
%r = 0

Name: below-power
Pre: MaskedValueIsZero(%x, -C) && isPowerOf2(C)
%r = icmp ult %x, C
=>
%r = 1

Name: shifted-back
Pre: MaskedValueIsZero(%x, ~(-1 u>> C))
%s = shl %x, C
%r = lshr %s, C
=>
%r = %x

Name: shifted-up-again
Pre: MaskedValueIsZero(%x, ~(-1 << C))
%s = lshr %x, C
%r = shl %s, C
=>
%r = %x

Name: cut-and-extended
Pre: MaskedValueIsZero(%x, -1 << width(%t))
%t = trunc %x
%r = zext %t
=>
%r = add %x, 0

Name: rest-by-power
Pre: MaskedValueIsZero(%x, -C) && isPowerOf2(C)
%r = urem %x, C
=>
%r = %x

Name: chosen-by-bits
Pre: isKnownNonZero(%x)
%c = icmp eq %x, 0
%r = select %c, %y, %z
=>
%r = %z

Name: no-bit-of-half
Pre: MaskedValueIsZero(%t, C)
%t = lshr %x, 1
%r = and %t, C
=>
%r = 0

Name: either-not-zero
Pre: isKnownNonZero(%t)
%t = or %x, %y
%r = icmp ne %t, 0
=>
%r = 1

Name: one-or-none-squared
Pre: MaskedValueIsZero(%x, -2)
%r = mul %x, %x
=>
%r = %x

Name: times-one
Pre: MaskedValueIsZero(%x, -2) && isKnownNonZero(%x)
%r = mul %y, %x
=>
%r = %y

Name: at-least-one
Pre: isKnownNonZero(%x)
%r = umax %x, 1
=>
%r = %x

Name: disjoint-from-shift
Pre: MaskedValueIsZero(%y, -1 << C)
%s = shl %x, C
%r = add %s, %y
=>
%r = or %s, %y

Name: put-with-bits
Pre: hasOneUse(%t) && MaskedValueIsZero(%t, C)
%t = xor %x, %y
%r = or %t, C
=>
%u = xor %y, %x
%r = add %u, C

Name: quotient-with-bits
Pre: MaskedValueIsZero(%x, C) && isKnownNonZero(%y)
%o = or %x, C
%r = urem %o, %y
=>
%a = add %x, C
%r = urem %a, %y

Name: not-of-known
Pre: MaskedValueIsZero(%x, -1)
%r = xor %x, %y
=>
%r = %y

Name: agreed
Pre: MaskedValueIsZero(%x, C) && MaskedValueIsZero(%y, ~C)
%a = and %x, %y
%r = or %a, C
=>
%r = C
"""
# Which make bits known, or unknown, or move what knows them.
BESIDE = """
Name: mul-two
%r = mul %x, 2
=>
%r = shl %x, 1

Name: shl-one
%r = shl %x, 1
=>
%r = mul %x, 2

Name: lowest-by-rest
%r = and %x, 1
=>
%r = urem %x, 2

Name: rest-by-lowest
%r = urem %x, 2
=>
%r = and %x, 1

Name: less-with-product
%r = and %x, %y
=>
%n = mul %y, 1
%r = and %x, %n

Name: not-by-difference
%r = xor %x, -1
=>
%r = sub -1, %x

Name: two-for-one
%r = or %x, 1
=>
%a = and %x, -2
%r = add %a, 1

Name: sub-add
%1 = sub %x, %y
%r = add %1, %y
=>
%r = %x

Name: zext-twice-read
%r = zext %x
=>
%z = zext %x
%r = sub %z, 0

Name: frozen-choice
%r = select %c, %y, false
=>
%f = freeze %y
%r = and %c, %f
"""


class Free(Rule):
    """A rule without what it says of bits."""

    def keeps(self, typing, env):
        return True


def holds_by_bits(text, typings):
    """Whether a rule is wrong at some of the typings without what it says of bits."""
    rule = Free(re.split(r'(?m)^\s*Name:', text)[1])
    return any(rule.bits(t) <= 12 and any(True for _ in rule.examples(t)) for t in typings)


class Writer(random_rewrites.Writer):
    """Writes functions around the sources of rules, and knows what is known of most of its registers' bits."""

    def __init__(self, choose, rules):
        self.rules, self.bits = rules, {}
        super().__init__(choose, *choose.choice(rules))
        self.begin(self.rule, self.typing)

    def begin(self, rule, typing):
        """Goes on with this rule."""
        self.rule, self.typing, self.bound = rule, typing, {}
        widths = rule.widths_of(typing)[1]
        for _ in range(20):
            self.numbers = {c: self.random.randrange(1 << w) for c, w in zip(rule.constants, widths)}
            if rule.holds(typing, self.numbers):
                break

    def known(self, width, text):
        return self.bits.get(text) or known_before([], 0)(width, text)

    def emit(self, there, op, operands, width):
        """An instruction without flags."""
        name = self.fresh()
        texts = [text for _, text in operands]
        if op == 'select':
            text = 'select ' + ', '.join(f'i{w} {t}' for w, t in operands)
        elif op in ('zext', 'sext', 'trunc'):
            text = f'{op} i{operands[0][0]} {texts[0]} to i{width}'
        else:
            text = f'{op} i{operands[0][0]} {", ".join(texts)}'
        self.bits[name] = known_result((name, op, None, operands, width), self.known)
        self.lines.append(f'  {name} = {text}')
        there.append((name, width))
        return name

    def telling(self, there, width):
        """An instruction by whose result something may be known, as `emit` takes it."""
        def operand(p=0.75):
            return width, self.any_of(there, width) if self.chance(p) else self.number(width)

        kind = self.random.random()
        if kind < 0.45:
            return self.random.choice(['and', 'or', 'xor', 'and', 'or']), [operand(0.9), operand(0.3)], width
        if kind < 0.6:
            return self.random.choice(['add', 'sub']), [operand(), operand(0.5)], width
        if kind < 0.8:
            amount = str(self.random.randrange(width + 1)) if self.chance(0.9) else self.any_of(there, width)
            amount = ('true' if amount == '1' else 'false') if width == 1 and amount.isdigit() else amount
            return self.random.choice(['shl', 'lshr', 'ashr']), [operand(), (width, amount)], width
        if kind < 0.88 and width > 1:
            narrow = self.random.randrange(1, width)
            return self.random.choice(['zext', 'sext']), [(narrow, self.any_of(there, narrow))], width
        wide = [w for _, w in there if w > width]
        if kind < 0.93 and wide:
            w = self.random.choice(wide)
            return 'trunc', [(w, self.any_of(there, w))], width
        return 'select', [(1, self.any_of(there, 1)), operand(0.6), operand(0.6)], width

    def filler(self, there):
        if self.chance(0.3):
            return super().filler(there)
        self.emit(there, *self.telling(there, self.random.choice([w for _, w in there] or [2])))

    def says(self, register):
        """The bits that a rule says to be 0, and whether it says that there is one, of what it names so."""
        zeros, some = 0, False
        for fact in self.rule.facts():
            if fact[1] == register:
                if fact[0] == 'isKnownNonZero':
                    some = True
                else:
                    zeros |= self.rule.term(self.typing, fact[2], self.numbers) or 0
        return zeros, some

    def fitting(self, there, width, zeros, some):
        """A register of which that is known, or nearly."""
        if self.chance(0.12):
            zeros &= max(zeros - 1, 0)
        for _ in range(10):
            op, operands, width = self.telling(there, width)
            made = known_result((None, op, None, operands, width), self.known)
            if (not some or 1 in made) and all(made[i] == 0 for i in range(width) if zeros >> i & 1):
                return self.emit(there, op, operands, width)
        mask = str(self.random.randrange(1 << width) & ~zeros)
        name = self.emit(there, 'and', [(width, self.any_of(there, width)), (width, mask)], width)
        free = [1 << i for i in range(width) if not zeros >> i & 1]
        if some and free:
            name = self.emit(there, 'or', [(width, name), (width, str(self.random.choice(free)))], width)
        return name

    def operand(self, node, there):
        kind, width = node[0], self.width(node)
        if node[1] in self.bound or kind not in ('const', 'reg'):
            return super().operand(node, there)
        if kind == 'const':
            value = self.numbers[node[1]]
            self.bound[node[1]] = ('true' if value else 'false') if width == 1 else str(value)
            return self.bound[node[1]]
        zeros, some = self.says(node[1])
        if (zeros or some) and self.chance(0.85):
            name = self.fitting(there, width, zeros, some)
            self.bound[node[1]] = self.emit(there, 'freeze', [(width, name)], width) if self.chance(0.08) else name
        return super().operand(node, there)

    def body(self, there, first=0):
        super().body(there, first)
        while self.chance(0.55):
            self.begin(*self.random.choice(self.rules))
            super().body(there)


def made_rules(program, folder, choose, wanted):
    """Rules that hold by what they say of bits, with the typings at which the program admits them, and others."""
    known, beside, found = [], [], []
    path, made = os.path.join(folder, 'rule.alive'), 0
    maker = Maker(choose.random(), 1)

    def decided(text):
        with open(path, 'w') as file:
            file.write('Version: 2\n' + text)
        said = subprocess.run([program, 'verify', path, '--widths', WIDTHS], capture_output=True, text=True)
        if said.returncode not in (0, 1):
            return []
        return [tuple(map(int, w.split())) for w in re.findall(r'\[([\d ]+)\]: admitted$', said.stdout, re.M)]

    for texts, kept in ((BY_BITS, known), (BESIDE, beside)):
        for text in re.split(r'(?m)^(?=Name:)', texts)[1:]:
            typings = decided(text)
            assert typings and (kept is beside or holds_by_bits(text, typings)), text
            kept.append((text.strip() + '\n', typings))
    while len(found) < wanted:
        made += 1
        text = maker.rule(f'r{made}')
        if text is None:
            continue
        text = text.removeprefix('Version: 2\n')
        rule = rules_of(text)[0]
        if rule.facts() and all(rule.bits(t) <= 12 for t in rule.typings([1, 2, 3])):
            typings = decided(text)
            if typings and holds_by_bits(text, typings):
                found.append((text, typings))
    return known, beside, found


def chosen(choose, known, beside, found):
    """The rules of a file: one by what it says of bits at least."""
    rules = [choose.choice(choose.choice([known, known, found]))]
    for _ in range(choose.randrange(6)):
        rules.append(choose.choice(choose.choice([known, beside, found])))
    rules = list({text: (text, typings) for text, typings in rules}.values())
    choose.shuffle(rules)
    return rules


# ---- single bits of wide words

ASKS = """Version: 2
Name: or-known
Pre: MaskedValueIsZero(%x, C)
%r = or %x, C
=>
%r = add %x, C
"""
MOST_INSTRUCTIONS = 14
MOST_BITS = 6
CASTS_OF = {'trunc': lambda w, v: w > v, 'zext': lambda w, v: w < v, 'sext': lambda w, v: w < v}


class WideWriter:
    """Writes functions of one block, and the questions of what is known of its results."""

    def __init__(self, choose):
        self.random, self.lines, self.asked = choose, [], []
        self.there = [(f'%p{k}', w) for k, w in enumerate([1, choose.randint(2, 64), 64])]

    def operand(self, width, literal=0.35):
        registers = [name for name, w in self.there if w == width]
        kind = self.random.random()
        if registers and kind >= literal:
            return self.random.choice(registers)
        if kind < 0.03:
            return self.random.choice(['undef', 'poison'])
        power = 1 << self.random.randrange(width)
        number = self.random.choice([self.random.getrandbits(width), power, power - 1])
        number = (1 << width) - 1 - number if self.random.random() < 0.3 else number
        return str(number) if width > 1 else 'true' if number else 'false'

    def put(self, text, width):
        name = f'%v{len(self.lines)}'
        self.lines.append(f'  {name} = {text}')
        return name

    def instruction(self):
        width = self.random.choice(self.there)[1]
        kind = self.random.random()
        op = self.random.choice(['and', 'or', 'xor', 'add', 'sub', 'add', 'sub', 'shl', 'lshr', 'ashr', 'mul', 'urem'])
        if kind < 0.2:
            other = self.random.randint(1, 64)
            casts = [cast for cast, fits in CASTS_OF.items() if fits(width, other)]
            if casts:
                text = f'{self.random.choice(casts)} i{width} {self.operand(width, 0.1)} to i{other}'
                return self.there.append((self.put(text, other), other))
        if kind < 0.28:
            text = f'select i1 {self.operand(1)}, i{width} {self.operand(width)}, i{width} {self.operand(width)}'
        elif kind < 0.31:
            text = f'freeze i{width} {self.operand(width)}'
        elif op in ('shl', 'lshr', 'ashr') and width > 1 and self.random.random() < 0.9:
            amount = self.random.randrange(min(width + 2, (1 << width) - 1))
            text = f'{op} i{width} {self.operand(width, 0.15)}, {amount}'
        else:
            text = f'{op} i{width} {self.operand(width, 0.15)}, {self.operand(width, 0.6)}'
        return self.there.append((self.put(text, width), width))

    def ask(self, name, width):
        for bit in self.random.sample(range(width), min(width, MOST_BITS)):
            mask = str(1 << bit) if width > 1 else 'true'
            negated = self.put(f'xor i{width} {name}, -1' if width > 1 else f'xor i1 {name}, true', width)
            for value, word in ((0, name), (1, negated)):
                question = self.put(f'or i{width} {word}, {mask}', width)
                self.asked.append((question, name, width, bit, value))

    def function(self, name):
        for _ in range(self.random.randint(4, MOST_INSTRUCTIONS)):
            self.instruction()
        head = f'define i1 @{name}({", ".join(f"i{w} {p}" for p, w in self.there[:3])}) {{'
        for register, width in self.there[3:]:
            self.ask(register, width)
        total = 'false'
        for question, _, width, _, _ in self.asked:
            total = self.put(f'xor i1 {total}, ' + self.put(f'icmp eq i{width} {question}, 0', 1), 1)
        return '\n'.join([head, *self.lines, f'  ret i1 {total}', '}', ''])


class Run:
    """Counts what comes of functions, and prints what is wrong."""

    def __init__(self, program, folder, seed):
        self.program, self.choose = program, random.Random(seed)
        self.rules, self.module = os.path.join(folder, 'rules.alive'), os.path.join(folder, 'module.ll')
        self.made = self.rewritten = self.by_bits = self.rewrites = self.forbidden = self.wrong = 0

    def fault(self, what, *texts):
        self.wrong += 1
        print(what, *texts, sep='\n', flush=True)

    def optimise(self, *flags):
        words = [self.program, 'optimise', *flags, self.rules, self.module]
        return subprocess.run(words, capture_output=True, text=True)

    def write(self, rules, module):
        for path, text in ((self.rules, rules), (self.module, module)):
            with open(path, 'w') as file:
                file.write(text)

    def functions(self, parts):
        """Makes a module of functions around these rules, and compares what is written for it."""
        text = 'Version: 2\n' + '\n'.join(part for part, _ in parts)
        rules = rules_of(text)
        sources = [(rule, typing) for rule, (_, typings) in zip(rules, parts) for typing in typings]
        functions = [Writer(self.choose, sources).function(f'f{k}') for k in range(IN_MODULE)]
        self.write(text, '\n'.join(functions))
        verdicts = verdicts_of(self.program, self.rules, WIDTHS)
        for steps, *flags in ((1,), (20,), (20, '--fold')):
            said = self.optimise('--steps', str(steps), *flags)
            if said.returncode != 0:
                self.fault(text, *functions, said.stderr)
                continue
            strategy = Strategy(rules, verdicts, steps, bool(flags))
            report = self.compare(text, functions, said.stdout, strategy, steps > 1 and not flags)
            lines = re.findall(r'(?m)^(?:\S+ \[[\d ]*\]: \w+|@f\d+: .*)', said.stderr)
            if lines != strategy.report() + report:
                self.fault('the model reports otherwise', text, *functions, said.stderr, *strategy.report(), *report)
        self.made += IN_MODULE

    def compare(self, text, functions, written, strategy, counts):
        """The lines of the report on functions, which are compared with what was written for them."""
        report = []
        for part, before, after in zip(functions, functions_of('\n'.join(functions)), functions_of(written)):
            if counts:
                self.forbidden += strategy.forbidden_in(before)
            blocks, count, by_bits, limited = strategy.optimised(before)
            report.append(f'@{before.name}: {count} rewrites{", limit" if limited else ""}')
            now, expected = by_places(after, after.blocks), by_places(before, blocks)
            if now != expected:
                self.fault('the model makes another function', text, part, after_text(written, before.name), *expected)
            found = None if now == by_places(before, before.blocks) else refines(after, before, MOST_BLOCKS)
            if found:
                self.fault(found, text, part, after_text(written, before.name))
            if counts:
                self.rewritten, self.by_bits = self.rewritten + (count > 0), self.by_bits + (by_bits > 0)
                self.rewrites += count
        return report

    def single_bits(self, wanted):
        """How many bits were asked of such a number of blocks, and how many of them are known."""
        asked = known = 0
        for _ in range(wanted):
            writer = WideWriter(self.choose)
            text = writer.function('f')
            self.write(ASKS, text)
            said = self.optimise()
            before = functions_of(text)[0].blocks[0]
            bits = known_before(before, len(writer.lines))
            after = {line[0]: line[1] for line in functions_of(said.stdout)[0].blocks[0]}
            for question, register, width, bit, value in writer.asked:
                is_known = bits(width, register)[bit] == value
                asked, known = asked + 1, known + is_known
                if after.get(question) != ('add' if is_known else 'or'):
                    self.fault(f'bit {bit} of {register}', text, said.stdout, said.stderr)
        return asked, known


def after_text(text, name):
    return f'@{name}(' + text.split(f'@{name}(')[1].split('\n}')[0]


def main(program, wanted, seed):
    with tempfile.TemporaryDirectory() as folder:
        run = Run(program, folder, seed)
        kinds = made_rules(program, folder, run.choose, max(20, wanted // IN_MODULE // 2))
        while run.made < wanted:
            run.functions(chosen(run.choose, *kinds))
        asked, known = run.single_bits(wanted // 10)
    rules = sum(map(len, kinds))
    print(f'{run.made} functions around {rules} rules: {run.rewritten} rewritten, {run.by_bits} of these by bits that '
          f'had to be known, {run.rewrites} rewrites, {run.forbidden} matches forbidden by bits; '
          f'{asked} bits asked, {known} known; {run.wrong} wrong')
    return int(run.wrong > 0)


if __name__ == '__main__':
    usage(__doc__)
    sys.exit(main(alive(), int(sys.argv[1]), int(sys.argv[2])))
