"""Random rules: what the program prints for them beside what `rule_model.py` finds.

    python3 bench/random_rules.py COUNT SEED [facts]

prints each rule at which they differ, and at the end how many rules there were, how many of them were decided, how many of these have
facts, which are the members of the precondition that say something of bits, and how often there was each answer. With `facts` each rule
that names a register has some, else one in ten.
"""
import os
import random
import re
import subprocess
import sys
import tempfile

sys.path.insert(0, os.path.dirname(os.path.abspath(__file__)))
from program import alive, usage
from rule_model import BINARY, CASTS, COMPARISONS, EXTREMES, FLAGS, LEVELS, UNARY, rules_of

PREDICATES = 'eq ne ugt uge ult ule sgt sge slt sle'.split()
OPERATORS = [op for level in LEVELS for op in level]
# words of files of version 2
SECOND = ['freeze', *EXTREMES, *UNARY]


class Maker:
    def __init__(self, seed, facts=0):
        self.random = random.Random(seed)
        self.facts = facts
        self.constants = []
        self.measured = []

    def chance(self, p):
        return self.random.random() < p

    def pick(self, items):
        return self.random.choice(items)

    def literal(self):
        return str(self.pick([0, 1, -1, 2, 3, -2, self.random.randint(-4, 7)]))

    def type(self, p):
        return f'i{self.random.randint(1, 3)} ' if self.chance(p) else ''

    def term(self, depth, leaves):
        if depth == 0 or self.chance(0.3):
            return self.pick(leaves) if leaves and self.chance(0.7) else self.literal()
        kind = self.random.random()
        if kind < 0.65:
            return f'{self.term(depth - 1, leaves)} {self.pick(OPERATORS)} {self.term(depth - 1, leaves)}'
        if kind < 0.75:
            return f'({self.term(depth - 1, leaves)})'
        if kind < 0.9 or not self.measured:
            return self.pick(['- (', '~(', 'log2(', 'abs(']) + self.term(depth - 1, leaves) + ')'
        return f'width({self.pick(self.measured)})'

    def formula(self, depth, leaves):
        kind = self.random.random()
        if depth == 0 or kind < 0.5:
            if kind < 0.15:
                return self.pick(['isPowerOf2(', 'isSignBit(']) + self.term(1, leaves) + ')'
            return f'{self.term(1, leaves)} {self.pick(list(COMPARISONS))} {self.term(1, leaves)}'
        if kind < 0.65:
            return '!' + self.formula(depth - 1, leaves)
        if kind < 0.75:
            return f'({self.formula(depth - 1, leaves)})'
        return f'{self.formula(depth - 1, leaves)} {self.pick(["&&", "||"])} {self.formula(depth - 1, leaves)}'

    def fact(self, registers):
        """What the precondition says of a register's bits."""
        register = self.pick(registers)
        if self.chance(0.3):
            return f'isKnownNonZero({register})'
        return f'MaskedValueIsZero({register}, {self.term(self.random.randint(0, 2), self.constants)})'

    def precondition(self, registers):
        """The members of the outermost `&&`."""
        members = []
        if self.constants and self.chance(0.5):
            members.append(self.formula(2, self.constants))
        if registers and self.chance(self.facts):
            members = [f'({member})' if '||' in member else member for member in members]
            members += [self.fact(registers) for _ in range(self.random.randint(1, 2))]
            self.random.shuffle(members)
        return ' && '.join(members)

    def operand(self, registers, target, undef):
        x = self.random.random()
        if x < 0.6 and registers:
            return self.pick(registers)
        if x < 0.66 and not target:
            return self.pick(['true', 'false'])
        if undef and x > 0.9:
            return 'undef'
        if self.constants and x < 0.85:
            return self.term(2, self.constants) if target and self.chance(0.6) else self.pick(self.constants)
        return self.literal()

    def flagged(self, op):
        """An opcode with some of its flags."""
        return ' '.join([op, *[f for f in FLAGS.get(op, []) if self.chance(0.25)], ''])

    def statement(self, register, registers, target, undef, frozen):
        kind, written = self.random.random(), self.type(0.1)
        if frozen and self.chance(0.2):
            return f'{register} = freeze {written}{self.operand(registers, target, False)}'

        def o():
            return self.operand(registers, target, undef)

        if kind < 0.1:
            return f'{register} = {self.flagged(self.pick(UNARY))}{written}{o()}'
        if kind < 0.62:
            return f'{register} = {self.flagged(self.pick(BINARY))}{written}{o()}, {o()}'
        if kind < 0.75:
            return f'{register} = {self.flagged("icmp")}{self.pick(PREDICATES)} {written}{o()}, {o()}'
        if kind < 0.87:
            return f'{register} = select {self.type(.05)}{o()}, {self.type(.05)}{o()}, {self.type(.05)}{o()}'
        to = f' to i{self.random.randint(1, 3)}' if self.chance(0.2) else ''
        return f'{register} = {self.flagged(self.pick(CASTS))}{written}{o()}{to}'

    def rule(self, name):
        """The text of a rule, or None where it would have another fault than one of classes."""
        registers = ['%x', '%y'][:self.random.randint(1, 2)]
        self.constants = ['C', 'C1'][:self.random.randint(0, 2)]
        self.measured = []
        count = self.random.randint(1, 3)
        source = []
        for k in range(count):
            last = k == count - 1
            source.append(self.statement('%r' if last else f'%{k}', registers + [f'%{j}' for j in range(k)] * 2, False, last, last))
        used = [set(re.findall(r'%\w+', s.split('=', 1)[1])) for s in source]
        if any(not any(f'%{k}' in u for u in used[k + 1:]) for k in range(count - 1)):
            return None
        there = sorted(set.union(*used))
        text = ' '.join(source)
        self.constants = [c for c in ('C', 'C1') if re.search(rf'\b{c}\b', text)]
        self.measured = there
        target, new = [], []
        for k in range(self.random.randint(1, 2)):
            target.append(self.statement(f'%t{k}', there + new, True, True, True))
            new.append(f'%t{k}')
        target[-1] = '%r' + target[-1][3:]
        if self.chance(0.2):
            copied = self.pick(there + new[:-1] + [self.term(2, self.constants)])
            target[-1] = f'%r = {self.type(.1)}{copied}'
        left_open = [sum(' '.join(half).count(word) for word in ('undef', 'freeze')) for half in (source, target)]
        before = self.precondition(there)
        words = set(' '.join(source + target).split())
        heads = ['Version: 2'] if not words.isdisjoint(SECOND) or has_facts(before) else []
        heads.append(f'Name: {name}')
        if before:
            heads.append(f'Pre: {before}')
        if left_open[0]:
            leaves = there + self.constants + [f't{k + 1}' for k in range(left_open[1])]
            heads.append('Wit: ' + ', '.join(self.term(2, leaves) for _ in range(left_open[0])))
        return '\n'.join(heads + source + ['=>'] + target) + '\n'


def has_facts(text):
    return 'MaskedValueIsZero' in text or 'isKnownNonZero' in text


def fits(rule, c, width):
    return all(-(1 << (width - 1)) <= z < 1 << width for d, z in rule.literals if d == c) and all(w == width for d, w in rule.fixed if d == c)


def has_typing(rule):
    """Whether there is a typing from 1 to 64: the least widths are raised until casts are met."""
    least = [1] * rule.count
    while True:
        before = list(least)
        for c in range(rule.count):
            bound = max([least[c]] + [least[a] + 1 for a, d in rule.less if d == c])
            while bound <= 64 and not fits(rule, c, bound):
                bound += 1
            if bound > 64:
                return False
            least[c] = bound
        if least == before:
            return True


def fault(rule):
    if rule.count > 8:
        return 'TooMany'
    if not has_typing(rule):
        return 'NoType'
    fixed = {c for c, _ in rule.fixed}
    if any(c not in rule.named and c not in fixed for c in range(rule.count)):
        return 'OpenType'
    return None


def agrees(rule, run, counts, line):
    """Whether the program's run on the rule, whose name stands on this line, is right."""
    expected = fault(rule)
    if expected:
        counts[expected] = counts.get(expected, 0) + 1
        return run.returncode == 3 and run.stderr == f'rules: line {line}: {expected}\n'
    rest, all_admitted = run.stdout, True
    for typing in rule.typings([1, 2, 3]):
        head = f'{rule.name} [{" ".join(map(str, typing))}]: '
        if not rest.startswith(head):
            return False
        rest = rest[len(head):]
        word = 'witness fails' if rule.witness else 'refuted'
        answers = [f'{word}\n' + rule.text(typing, e) for e in rule.examples(typing)] or ['admitted\n']
        found = [a for a in answers if rest.startswith(a)]
        if rest.startswith('budget\n') and rule.bits(typing) > 12:
            found = ['budget\n']
        if not found:
            return False
        kind = found[0].split('\n')[0]
        counts[kind] = counts.get(kind, 0) + 1
        all_admitted = all_admitted and kind == 'admitted'
        rest = rest[len(found[0]):]
    return rest == '' and run.returncode == (0 if all_admitted else 1)


def main(program, count, seed, facts=None):
    maker, counts, differ = Maker(seed, 1 if facts else 0.1), {}, 0
    rules, decided, known = 0, 0, 0
    with tempfile.TemporaryDirectory() as folder:
        path = os.path.join(folder, 'rule.alive')
        for i in range(count):
            text = maker.rule(f'r{i}')
            if text is None:
                continue
            rule = rules_of(text)[0]
            typings = rule.typings([1, 2, 3])
            if any(rule.bits(t) > 14 for t in typings):
                continue
            rules += 1
            if typings and not fault(rule):
                decided += 1
                known += has_facts(text)
            with open(path, 'w') as file:
                file.write(text)
            run = subprocess.run([program, 'verify', path, '--widths', '1-3'], capture_output=True, text=True)
            if not agrees(rule, run, counts, 1 + text.startswith('Version')):
                differ += 1
                print(text, run.returncode, run.stdout, run.stderr, sep='\n')
    print(f'{rules} rules, {decided} decided, {known} of these with facts:', counts, 'differ:', differ)


if __name__ == '__main__':
    usage(__doc__)
    main(alive(), int(sys.argv[1]), int(sys.argv[2]), *sys.argv[3:])
