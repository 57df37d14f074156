"""Random functions around the sources of random rules: what the program writes for them beside what `ir_model.py` finds.

    python3 bench/random_rewrites.py FUNCTIONS SEED [LLI]

Each rule that the program admits at some widths up to 3 is looked for in functions with branches and loops that are made around its
source: at every argument (of at most 6 bits), every bound to 6 blocks and every choice the function that is written must refine the one
read, after one step and after up to 20, with `--fold`, `--across`, both and neither. Prints each function of which this is not so, and at
the end how many there were, and how often they were rewritten with neither. With LLI, LLVM's interpreter, 500 functions are run by it too, before and
after, for 10 seconds at most, at arguments at which they return one number whatever is chosen. It gets the texts without the flags that its releases before 20 lack, and without the items of calls,
which the program drops: that number stays.
"""
import os
import random
import re
import subprocess
import sys
import tempfile

sys.path.insert(0, os.path.dirname(os.path.abspath(__file__)))
from ir_model import functions_of, refines
from program import alive, usage
from random_rules import Maker
from rule_model import BINARY, EXTREMES, FLAGS, POISON, UNARY, UNDEFINED, rules_of

MOST_BLOCKS = 6
LATER_FLAGS = re.compile(r'\b(icmp samesign|or disjoint|zext nneg|trunc(?: nuw| nsw)+)\b')
IN_MODULE = 50
MIXES = [[], ['--fold'], ['--across'], ['--fold', '--across']]
KNOWN = """
Name: add-zero
%r = add %x, 0
=>
%r = %x

Name: and-same
%r = and %x, %x
=>
%r = %x

Name: not-not
%1 = xor %x, -1
%r = xor %1, -1
=>
%r = %x

Name: sub-add
%1 = sub %x, %y
%r = add %1, %y
=>
%r = %x

Name: not-add
%1 = xor %x, -1
%2 = add %1, C
=>
%2 = sub C-1, %x

Name: mul-two
%r = mul %x, 2
=>
%r = shl %x, 1

Name: swap
%r = add %x, %y
=>
%r = add %y, %x

Name: neg-sub
%n = sub 0, %x
%r = sub %y, %n
=>
%r = add %y, %x

Name: select-not
%n = xor %c, true
%r = select %n, %x, %y
=>
%r = select %c, %y, %x

Name: sel-inc
%t = add %x, 1
%r = select %c, %x, %t
=>
%u = sub %t, 1
%r = select %c, %u, %t

Name: div-self
%r = udiv %x, %x
=>
%r = 1

Name: xor-undef
Wit: %x ^ t1
%r = xor %x, undef
=>
%r = or undef, 0

Name: and-undef
Wit: 0
%r = and %x, undef
=>
%r = 0

Name: shl-nsw-sdiv
Pre: C u< width(%x) - 1
%s = shl nsw %x, C
%r = sdiv %s, 1<<C
=>
%r = %x
"""
# of files of version 2
KNOWN_OF_SECOND = """
Name: to-umin
%c = icmp ult %x, %y
%r = select %c, %x, %y
=>
%r = umin %x, %y

Name: from-smax
%r = smax %x, %y
=>
%c = icmp sgt %x, %y
%r = select %c, %x, %y

Name: abs-of-negation
%n = sub 0, %x
%r = abs %n
=>
%r = abs %x

Name: smaller-of-two
%a = umax %x, C
%r = umin %a, C
=>
%r = C

Name: no-ones
%p = ctpop %x
%r = icmp eq %p, 0
=>
%r = icmp eq %x, 0

Name: ones-of-not
%n = xor %x, -1
%r = ctpop %n
=>
%p = ctpop %x
%r = sub width(%x), %p

Name: sign-by-zeros
%z = ctlz %x
%r = icmp eq %z, 0
=>
%r = icmp slt %x, 0

Name: zeros-kept
%z = cttz zeropoison %x
%r = umax %z, 0
=>
%r = or %z, 0

Name: select-freeze
%r = select %c, %y, false
=>
%f = freeze %y
%r = and %c, %f
"""


class Writer:
    """Writes functions around the source of a rule at a typing."""

    def __init__(self, choose, rule, typing):
        self.random, self.rule, self.typing = choose, rule, typing
        self.lines, self.count = [], 0
        self.bound = {}

    def chance(self, p):
        return self.random.random() < p

    def number(self, width):
        value = self.random.randrange(1 << width)
        if width == 1:
            return 'true' if value else 'false'
        return str(value - (1 << width) if value >> (width - 1) else value)

    def any_of(self, there, width):
        """An operand of the width: most often a register."""
        registers = [name for name, w in there if w == width]
        if registers and self.chance(0.75):
            return self.random.choice(registers)
        return 'poison' if self.chance(0.1) else 'undef' if self.chance(0.03) else self.number(width)

    def fresh(self):
        self.count += 1
        return f'%v{self.count}'

    def flags(self, op, own, p):
        """These flags and some more that it takes, each with a space behind it."""
        return ''.join(f'{flag} ' for flag in FLAGS.get(op, []) if flag in own or self.chance(p))

    def call(self, op, width, texts, truth):
        """The call of an intrinsic, with items or without."""
        arguments = [f'i{width} {"noundef " if self.chance(0.05) else ""}{t}' for t in texts] + ([f'i1 {truth}'] if FLAGS.get(op) else [])
        head = f'{"tail " if self.chance(0.3) else ""}call {"noundef " if self.chance(0.05) else ""}'
        return f'{head}i{width} @llvm.{op}.i{width}({", ".join(arguments)}){" #0" if self.chance(0.1) else ""}'

    def filler(self, there):
        """An instruction that has no part in the rule."""
        width = self.random.choice([w for _, w in there] or [2])
        name, kind = self.fresh(), self.random.random()
        a, b = self.any_of(there, width), self.any_of(there, width)
        if kind < 0.15:
            op = self.random.choice([*EXTREMES, *UNARY])
            truth = self.random.choice(['true', 'false'])
            self.lines.append(f'  {name} = {self.call(op, width, [a] if op in UNARY else [a, b], truth)}')
        elif kind < 0.7:
            op = self.random.choice(['add', 'sub', 'mul', 'and', 'or', 'xor', 'shl', 'lshr', 'udiv'])
            self.lines.append(f'  {name} = {op} {self.flags(op, [], 0.3)}i{width} {a}, {b}')
        elif kind < 0.9:
            self.lines.append(f'  {name} = icmp {self.flags("icmp", [], 0.3)}{self.random.choice(["eq", "ult", "sgt"])} i{width} {a}, {b}')
            width = 1
        else:
            self.lines.append(f'  {name} = freeze i{width} {a}')
        there.append((name, width))

    def width(self, node):
        return self.typing[self.rule.of[node[-1]]]

    def operand(self, node, there):
        kind, width = node[0], self.width(node)
        if kind in ('true', 'false', 'undef'):
            return kind
        if kind == 'lit':
            value = node[1] % (1 << width)
            return ('true' if value else 'false') if width == 1 else str(value)
        if node[1] not in self.bound:
            self.bound[node[1]] = self.number(width) if kind == 'const' else self.any_of(there, width)
        return self.bound[node[1]]

    def source(self, there, first=0, last=None):
        """Statements of the source, with other instructions between them."""
        for k, (register, op, extra, operands, _) in list(enumerate(self.rule.source))[first:last]:
            name, width = self.fresh(), self.typing[self.rule.of[self.rule.results[k]]]
            texts = [self.operand(v, there) for _, v in operands]
            widths = [self.width(v) for _, v in operands]
            if op in EXTREMES or op in UNARY:
                truth = 'true' if extra or self.chance(0.04) else 'false'
                text = self.call(op, width, texts, truth)
            elif op in BINARY:
                text = f'{op} {self.flags(op, extra, 0.04)}i{width} {", ".join(texts)}'
            elif op == 'icmp':
                text = f'icmp {self.flags(op, extra[0], 0.04)}{extra[1]} i{widths[0]} {", ".join(texts)}'
            elif op == 'select':
                text = 'select ' + ', '.join(f'i{w} {t}' for w, t in zip(widths, texts))
            elif op == 'freeze':
                text = f'freeze i{width} {texts[0]}'
            else:
                text = f'{op} {self.flags(op, extra, 0.04)}i{widths[0]} {texts[0]} to i{width}'
            self.bound[register] = name
            self.lines.append(f'  {name} = {text}')
            there.append((name, width))
            while self.chance(0.25):
                self.filler(there)

    def split(self):
        """How many statements of the source stand in a block above the others."""
        return self.random.randrange(len(self.rule.source)) if self.chance(0.5) else 0

    def forget(self, there):
        """Names that are bound to registers of other blocks are bound anew."""
        known = {name for name, _ in there}
        self.bound = {name: text for name, text in self.bound.items() if not text.startswith('%') or text in known}

    def body(self, there, first=0):
        while self.chance(0.4):
            self.filler(there)
        self.source(there, first)
        while self.chance(0.3):
            self.filler(there)

    def value(self, there, width):
        """A value to be returned: the root, if it fits."""
        name, w = there[-1]
        return name if w == width and self.chance(0.85) else self.any_of(there, width)

    def function(self, name):
        """A function in one of four shapes: straight, with a loop, with two ways that join, and with a block out of reach."""
        widths, bits = [], 0
        while bits < 6 and (not widths or self.chance(0.6)):
            widths.append(self.random.randint(1, min(3, 6 - bits)))
            bits += widths[-1]
        there = [(f'%p{k}', w) for k, w in enumerate(widths)]
        parameters = ', '.join(f'i{w} {"noundef " if self.chance(0.1) else ""}{p}' for p, w in there)
        root = self.typing[self.rule.of[self.rule.results[len(self.rule.source) - 1]]]
        result = root if self.chance(0.8) else 2
        head = f'define {"noundef " if self.chance(0.1) else ""}i{result} @{name}({parameters}) {{'
        shape = self.random.choice(['straight', 'loop', 'loop', 'loop', 'join', 'join', 'away'])
        if shape == 'straight':
            self.body(there)
            self.lines.append(f'  ret i{result} {self.value(there, result)}')
        elif shape == 'loop':
            self.loop(there, result)
        elif shape == 'join':
            self.join(there, result)
        else:
            self.lines.append(f'  ret i{result} {self.any_of(there, result)}\n\naway:')
            self.body(there)
            self.lines.append(f'  ret i{result} {self.value(there, result)}')
        return '\n'.join([head, *self.lines, '}', ''])

    def loop(self, there, result):
        split, outside = self.split(), list(there)
        self.lines.append('entry:')
        while self.chance(0.2):
            self.filler(outside)
        self.source(outside, 0, split)
        self.lines.append('  br label %loop\n\nloop:')
        phis = [(self.fresh(), w) for w in {self.typing[self.rule.of[r]] for r in self.rule.results} | {2}]
        inside = outside + phis
        counter = phis[[w for _, w in phis].index(2)][0]
        head, self.lines = self.lines, []
        self.body(inside, split)
        if self.chance(0.5):
            self.lines.append(f'  %next = add i2 {counter}, 1\n  %go = icmp ult i2 {counter}, {self.any_of(outside, 2)}')
            inside += [('%next', 2), ('%go', 1)]
        goes = self.any_of(inside, 1)
        goes = goes if goes != 'undef' else 'true'
        inner, self.lines = self.lines, head
        for name, width in phis:
            back = '%next' if width == 2 and ('%next', 2) in inside else self.any_of(inside, width)
            self.lines.append(f'  {name} = phi i{width} [ {self.any_of(outside, width)}, %entry ], [ {back}, %loop ]')
        self.lines += inner
        self.lines.append(f'  br i1 {goes}, label %loop, label %exit\n\nexit:')
        if self.chance(0.3):
            self.filler(inside)
        self.lines.append(f'  ret i{result} {self.value(inside, result)}')

    def join(self, there, result):
        """The root stands at the entry, in one of two ways, or behind both; what it reads there, at the entry or in one."""
        split, where = self.split(), self.random.choice(['entry', 'one', 'join', 'through'])
        self.lines.append('entry:')
        inner = list(there)
        if where == 'entry':
            self.body(inner)
        elif where != 'through':
            self.source(inner, 0, split)
        goes = self.any_of(inner, 1)
        goes = goes if goes != 'undef' else 'true'
        self.lines.append(f'  br i1 {goes}, label %one, label %other\n\none:')
        one, other = list(inner), list(inner)
        if where == 'one':
            self.source(one, split)
        elif where == 'through':
            self.source(one, 0, split)
        self.filler(one)
        self.lines.append('  br label %join\n\nother:')
        if where == 'entry' and self.chance(0.5):
            self.bound = {}
            self.source(other)
        self.lines.append('  br label %join\n\njoin:')
        name = self.fresh()
        self.lines.append(f'  {name} = phi i{result} [ {self.value(one, result)}, %one ], [ {self.value(other, result)}, %other ]')
        if where == 'through':
            self.merge(inner, other, split)
        if where in ('join', 'through'):
            self.forget(inner)
            self.source(inner, split)
            name = self.value(inner, result)
        self.lines.append(f'  ret i{result} {name if self.chance(0.7) else self.any_of(inner, result)}')

    def merge(self, there, other, count):
        """Phis of the first statements' registers, which only one way assigns."""
        for k in range(count):
            register, width = self.rule.source[k][0], self.typing[self.rule.of[self.rule.results[k]]]
            name = self.fresh()
            self.lines.append(f'  {name} = phi i{width} [ {self.bound[register]}, %one ], [ {self.any_of(other, width)}, %other ]')
            self.bound[register] = name
            there.append((name, width))


def run(program, *words):
    return subprocess.run([program, *words], capture_output=True, text=True)


def admitted(program, folder, choose, wanted):
    """Rules with the typings at which the program admits them: known ones, and random ones until there are enough."""
    maker, texts = Maker(choose.random()), []
    for head, known in (('', KNOWN), ('Version: 2\n', KNOWN_OF_SECOND)):
        texts += [head + part.strip() + '\n' for part in re.split(r'(?m)^(?=Name:)', known)[1:]]
    path, found, made = os.path.join(folder, 'rule.alive'), [], 0
    while len(found) < wanted:
        if not texts:
            made += 1
            text = maker.rule(f'r{made}')
            if text is None:
                continue
            texts.append(text)
        text = texts.pop(0)
        rule = rules_of(text)[0]
        with open(path, 'w') as file:
            file.write(text)
        said = run(program, 'verify', path, '--widths', '1-3')
        if said.returncode not in (0, 1):
            continue
        typings = [tuple(map(int, w.split())) for w in re.findall(r'\[([\d ]+)\]: admitted$', said.stdout, re.M)]
        if typings:
            found.append((text, rule, typings))
    return found


def lli_results(lli, folder, text, function, runs):
    """What LLVM's interpreter returns at these arguments."""
    head = re.search(rf'define (?:noundef )?i(\d+) @{function.name}\(', text)
    called = sorted(set(re.findall(r'i(\d+) @llvm\.(\w+)\.', text)))
    text = re.sub(r'(call |\(i\d+ |, i\d+ )noundef ', r'\1', text.replace(') #0\n', ')\n'))
    main = [LATER_FLAGS.sub(lambda found: found.group().split()[0], text), '\n']
    for width, op in called:
        second = '' if op == 'ctpop' else ', i1' if op in UNARY else f', i{width}'
        main.append(f'declare i{width} @llvm.{op}.i{width}(i{width}{second})\n')
    main += ['declare i32 @printf(ptr, ...)\n@form = constant [4 x i8] c"%d\\0A\\00"\ndefine i32 @main() {\n']
    for k, arguments in enumerate(runs):
        words = ', '.join(f'i{w} {v}' if w > 1 else f'i1 {"true" if v else "false"}' for (_, w, _), v in zip(function.parameters, arguments))
        main.append(f'  %r{k} = call i{head.group(1)} @{function.name}({words})\n  %z{k} = zext i{head.group(1)} %r{k} to i32\n')
        main.append(f'  call i32 (ptr, ...) @printf(ptr @form, i32 %z{k})\n')
    main.append('  ret i32 0\n}\n')
    path = os.path.join(folder, 'lli.ll')
    with open(path, 'w') as file:
        file.write(''.join(main))
    try:
        said = subprocess.run([lli, '-opaque-pointers', path], capture_output=True, text=True, timeout=10)
    except subprocess.TimeoutExpired:
        return None
    return None if said.returncode else [int(x) for x in said.stdout.split()]


def plain_runs(old, count):
    """Arguments at which a function returns one number, whatever is chosen, within the bound."""
    runs = []
    for value in range(1 << sum(w for _, w, _ in old.parameters)):
        arguments = []
        for _, width, _ in old.parameters:
            arguments.append(value % (1 << width))
            value >>= width
        last = old.outcomes(arguments, MOST_BLOCKS)[-1]
        if len(last) == 1:
            end = next(iter(last))
            if end != UNDEFINED and end[0] == 'return' and end[1] != POISON:
                runs.append((arguments, end[1]))
        if len(runs) == count:
            break
    return runs


def main(program, wanted, seed, lli=None):
    choose = random.Random(seed)
    made = rewritten = rewrites = wrong = by_lli = 0
    with tempfile.TemporaryDirectory() as folder:
        rules = admitted(program, folder, choose, max(30, wanted // IN_MODULE // 2))
        path = os.path.join(folder, 'module.ll')
        rules_path = os.path.join(folder, 'rules.alive')
        while made < wanted:
            text, rule, typings = choose.choice(rules)
            with open(rules_path, 'w') as file:
                file.write(text)
            parts = [Writer(choose, rule, choose.choice(typings)).function(f'f{k}') for k in range(IN_MODULE)]
            module = '\n'.join(parts)
            with open(path, 'w') as file:
                file.write(module)
            old = functions_of(module)
            for steps, *flags in ([steps, *flags] for steps in ('1', '20') for flags in MIXES):
                said = run(program, 'optimise', '--steps', steps, *flags, rules_path, path)
                if said.returncode != 0:
                    print(text, module, said.stderr, sep='\n')
                    return 1
                counts = [int(n) for n in re.findall(r'^@f\d+: (\d+) rewrites', said.stderr, re.M)]
                new = functions_of(said.stdout)
                for before, after, count, part in zip(old, new, counts, parts):
                    fault = refines(after, before, MOST_BLOCKS)
                    if fault:
                        wrong += 1
                        print(text, part, said.stdout.split(f'@{before.name}(')[1].split('\n}')[0], fault, sep='\n')
                    if steps == '1' and not flags:
                        rewritten += count > 0
                    elif not flags:
                        rewrites += count
                    if lli and steps == '20' and count and by_lli < 500:
                        runs = plain_runs(before, 4)
                        if runs:
                            by_lli += 1
                            lines = '\n'.join(re.findall(rf'(?ms)^define [^@]*@{before.name}\(.*?^\}}', said.stdout))
                            for source in (part, lines):
                                values = lli_results(lli, folder, source, before, [a for a, _ in runs])
                                if values != [v for _, v in runs]:
                                    wrong += 1
                                    print('lli:', source, runs, values, sep='\n')
            made += IN_MODULE
    print(f'{made} functions around {len(rules)} rules: {rewritten} rewritten, {rewrites} rewrites, {by_lli} run by lli too, {wrong} wrong')
    return int(wrong > 0)


if __name__ == '__main__':
    usage(__doc__)
    sys.exit(main(alive(), int(sys.argv[1]), int(sys.argv[2]), *sys.argv[3:4]))
