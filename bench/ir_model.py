"""A model of functions as the program prints them, written apart from the program: all outcomes of a function at its arguments, for
every bound of blocks entered and every choice, and whether one function refines another.

An outcome is UNDEFINED, ('return', value) or ('running', block). A literal `undef` takes any number each time its instruction runs, and
`freeze` of poison gives any. It is for small widths and short functions.
"""
import itertools
import re

from rule_model import BINARY, CASTS, FLAGS, POISON, UNARY, UNDEFINED, binary, cast, compare, unary

CALL = re.compile(r'(?:tail |notail )?call (?:\w+ )*?i(\d+) @llvm\.(\w+)\.i\d+\((.*)\)')
HEAD = re.compile(r'define (noundef )?i(\d+) @([\w.]+)\((.*)\)(?: .*)? \{')


class Function:
    """A function read from its lines."""

    def __init__(self, lines):
        found = HEAD.match(lines[0])
        self.noundef, self.width, self.name = bool(found.group(1)), int(found.group(2)), found.group(3)
        self.parameters = []
        for text in filter(None, found.group(4).split(', ')):
            words = text.split()
            self.parameters.append((words[-1], int(words[0][1:]), 'noundef' in words))
        self.header = lines[0]
        self.labels, self.blocks = [], []
        fresh = sum(1 for name, _, _ in self.parameters if name[1:].isdigit())
        self.open('%' + str(fresh))
        joined = re.sub(r' \[\n((?:    i\d+ .*\n)*)  \]', lambda m: ' [' + m.group(1).replace('\n', '') + ']', '\n'.join(lines[1:-1]))
        for line in joined.split('\n'):
            label = re.match(r'([\w.]+):', line)
            if label and not self.blocks[0]:
                self.labels[0] = '%' + label.group(1)
            elif label:
                self.open('%' + label.group(1))
            elif line.strip():
                self.blocks[-1].append(self.instruction(line.strip()))
        self.place = {label: k for k, label in enumerate(self.labels)}

    def open(self, label):
        self.labels.append(label)
        self.blocks.append([])

    @staticmethod
    def instruction(line):
        """The register that is assigned, or None, the opcode, what belongs to it, and the operands with their widths."""
        register, text = line.split(' = ', 1) if ' = ' in line else (None, line)
        called = CALL.match(text)
        if called:
            # Items of the call and of its arguments are left out; a true truth value stands in the place of flags.
            width, op = int(called.group(1)), called.group(2)
            typed = [(int(words[0][1:]), words[-1]) for words in (a.split() for a in called.group(3).split(','))]
            if op in BINARY:
                return register, op, [], typed, width
            return register, op, [value for _, value in typed[1:] if value == 'true'], typed[:1], width
        word, rest = text.split(None, 1) if ' ' in text else (text, '')
        words = rest.replace(',', ' ').split()
        flags = [w for w in words if w in FLAGS.get(word, [])]
        if word in BINARY:
            width, a, b = words[len(flags):]
            return register, word, flags, [(int(width[1:]), a), (int(width[1:]), b)], int(width[1:])
        if word == 'icmp':
            predicate, width, a, b = words[len(flags):]
            return register, word, (flags, predicate), [(int(width[1:]), a), (int(width[1:]), b)], 1
        if word == 'phi':
            width = int(rest.split()[0][1:])
            return register, word, None, re.findall(r'\[ (\S+), (\S+) \]', rest), width
        if word == 'br' and rest.startswith('label'):
            return None, 'jump', rest.split()[1], [], None
        if word == 'br':
            _, condition, _, one, _, other = rest.replace(',', ' ').split()
            return None, 'branch', (one, other), [(1, condition)], None
        if word == 'switch':
            head, cases = rest.split(' [')
            width, value, _, other = head.replace(',', ' ').split()
            found = [(int(case), to) for case, to in re.findall(r'i\d+ (-?\d+), label (\S+?)(?=\s|\])', cases)]
            return None, word, ([(case % (1 << int(width[1:])), to) for case, to in found], other), [(int(width[1:]), value)], None
        if word == 'unreachable':
            return None, word, None, [], None
        words = words[len(flags):]
        typed = [(int(t[1:]), v) for t, v in zip(words[::2], words[1::2]) if t[0] == 'i']
        if word in CASTS:
            return register, word, flags, typed[:1], int(words[-1][1:])
        if word == 'select':
            return register, word, None, typed, typed[1][0]
        return register, word, None, typed, typed[0][0]

    # ---- runs

    @staticmethod
    def choices(operand, held):
        """The values that an operand may have."""
        width, text = operand
        if text[0] == '%':
            return [held[text]]
        if text == 'undef':
            return range(1 << width)
        if text == 'poison':
            return [POISON]
        if text in ('true', 'false'):
            return [int(text == 'true')]
        return [int(text) % (1 << width)]

    @staticmethod
    def effect(op, extra, operands, values, width):
        if op in BINARY:
            return binary(op, extra, width, *values)
        if op in UNARY:
            return unary(op, extra, width, values[0])
        if op == 'icmp':
            return compare(extra[1], operands[0][0], *values, extra[0])
        if op == 'select':
            return POISON if values[0] == POISON else values[1] if values[0] else values[2]
        return cast(op, extra, operands[0][0], width, values[0])

    def enter(self, block, before, held):
        """The ends of one block: UNDEFINED, ('return', value) or ('go', block, registers held)."""
        lines, start = self.blocks[block], 0
        assigned = dict(held)
        options = [assigned]
        while lines[start][1] == 'phi':
            register, _, _, entries, width = lines[start]
            operand = next((width, value) for value, label in entries if self.place[label] == before)
            options = [{**o, register: v} for o in options for v in self.choices(operand, held)]
            start += 1
        ends = []
        for option in options:
            self.follow(lines, start, option, ends)
        return ends

    def follow(self, lines, at, held, ends):
        """Adds the ends of a block from one of its lines on."""
        open_runs = [held]
        for register, op, extra, operands, width in lines[at:-1]:
            later = []
            for run in open_runs:
                for values in itertools.product(*[self.choices(o, run) for o in operands]):
                    if op == 'freeze':
                        gives = range(1 << width) if values[0] == POISON else [values[0]]
                    else:
                        gives = [self.effect(op, extra, operands, values, width)]
                    for given in gives:
                        if given == UNDEFINED:
                            ends.append(UNDEFINED)
                        else:
                            later.append({**run, register: given})
            open_runs = later
        for run in open_runs:
            ends.extend(self.ends(lines[-1], run))

    def ends(self, terminator, held):
        _, op, extra, operands, _ = terminator
        if op == 'unreachable':
            return [UNDEFINED]
        if op == 'jump':
            return [('go', self.place[extra], held)]
        value = operands[0][1]
        if op == 'branch':
            if value == 'undef':
                return [UNDEFINED]
            condition = self.choices(operands[0], held)[0]
            return [UNDEFINED] if condition == POISON else [('go', self.place[extra[0 if condition else 1]], held)]
        if op == 'switch':
            if value == 'undef':
                return [UNDEFINED]
            number = self.choices(operands[0], held)[0]
            to = next((to for case, to in extra[0] if case == number), extra[1])
            return [UNDEFINED] if number == POISON else [('go', self.place[to], held)]
        if self.noundef and value == 'undef':
            return [UNDEFINED]
        values = self.choices(operands[0], held)
        return [UNDEFINED if self.noundef and v == POISON else ('return', v) for v in values]

    def outcomes(self, arguments, most):
        """The outcomes for each bound of blocks entered, from 0 to the most."""
        held = {name: value for (name, _, _), value in zip(self.parameters, arguments)}
        if any(noundef and held[name] == POISON for name, _, noundef in self.parameters):
            return [{UNDEFINED}] * (most + 1)
        ended, running, found = set(), {(0, None, tuple(sorted(held.items(), key=str)))}, []
        for bound in range(most + 1):
            found.append(ended | {('running', block) for block, _, _ in running})
            if bound == most:
                break
            later = set()
            for block, before, registers in running:
                for end in self.enter(block, before, dict(registers)):
                    if end != UNDEFINED and end[0] == 'go':
                        later.add((end[1], block, tuple(sorted(end[2].items(), key=str))))
                    else:
                        ended = ended | {end}
            running = later
        return found


def allows(outcome, other):
    if outcome == UNDEFINED or outcome == other:
        return True
    return outcome[0] == other[0] == 'return' and outcome[1] == POISON


def refines(new, old, most):
    """None, or the arguments and the bound at which an outcome of the new function is none that the old one allows."""
    if new.header != old.header or len(new.labels) != len(old.labels):
        return 'header', None, None
    for arguments in itertools.product(*[[*range(1 << width), POISON] for _, width, _ in old.parameters]):
        before, after = old.outcomes(arguments, most), new.outcomes(arguments, most)
        for bound in range(most + 1):
            for outcome in after[bound]:
                if not any(allows(o, outcome) for o in before[bound]):
                    return arguments, bound, outcome
    return None


def functions_of(text):
    """The functions of a module's text, in order."""
    found, lines = [], None
    for line in text.split('\n'):
        if line.startswith('define'):
            lines = [line]
        elif lines is not None:
            lines.append(line)
            if line == '}':
                found.append(Function(lines))
                lines = None
    return found
