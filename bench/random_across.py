"""Random functions around rules whose statements stand in several blocks: what the program writes beside two models.

    python3 bench/random_across.py PROGRAM FUNCTIONS SEED [--lli LLI] [--wrong MODEL]

Modules of 50 functions are made around the sources of one to four rules, known ones and random ones, admitted or not.
Their graphs are diamonds, loops, loops in loops, loops around diamonds, some with blocks out of reach, and random ones.
The statements of a source stand in the root's block and in those that are passed before it; or one stands in a block
that only one way passes, or behind the root in a loop, and a phi has its register; or a phi has the operands of one.
With `--fold`, `--across`, both and neither, after one step and after up to 20, what is written and reported must be
what `rewrite_model.py` makes of the function, which tries each instruction for each statement; and it must refine what
was read, by `ir_model.py`, at every argument (of at most 6 bits), every bound to 6 blocks and every choice. With LLI,
LLVM's interpreter, functions of which `--across` makes something else are run by it, at most 500, before and after, as
`random_rewrites.py` does it.

Prints each function of which this is not so, and at the end how many there were, in how many something was rewritten
with `--across` by a match in several blocks, in how many of these one of its blocks is in a loop, and how often, by up
to 20 steps without `--fold`.

With `--wrong` the model is one that is wrong on purpose, and it is printed of how many functions it makes something
else than the program: `one-way` takes for a temporary what a phi has from its first block, `phi` a phi that has a
statement's operands, `unreached` looks for roots in blocks out of reach too, and `in-block` leaves no block.
"""
import argparse
import os
import random
import re
import sys
import tempfile

sys.path.insert(0, os.path.dirname(os.path.abspath(__file__)))
import random_known_bits
import random_rewrites
from ir_model import functions_of, refines
from random_folds import Maker as Graphs
from random_known_bits import after_text
from random_rewrites import lli_results, plain_runs
from random_rules import Maker
from rewrite_model import Strategy, by_places, passed_before, targets_of, verdicts_of
from rule_model import rules_of

MOST_BLOCKS = 6
MOST_BY_LLI = 500
IN_MODULE = 50
WIDTHS = '1-3'
MIXES = [[], ['--fold'], ['--across'], ['--fold', '--across']]
# For each block those that follow it.
GRAPHS = [
    [[1], []],
    [[1, 2], [3], [3], []],
    [[1, 2], [3], [3], [4], []],
    [[1, 2], [2], []],
    [[1], [1, 2], []],
    [[1], [2, 3], [1], []],
    [[1], [2, 3], [4], [4], [1, 5], []],
    [[1], [2], [2, 3], [1, 4], []],
    [[1, 2], [1, 3], [3], []],
    [[1], [], [1]],
    [[2, 3], [4], [4], [4], []],
]


class Part:
    """A rule at widths whose statements get these blocks. Where a phi stands for one its register is read; a statement
    that is left out is a phi of its operands."""

    def __init__(self, rule, typing, numbers, where):
        self.rule, self.typing, self.numbers, self.where = rule, typing, numbers, where
        self.bound, self.through, self.stands, self.left_out = {}, {}, {}, set()


class Writer(random_known_bits.Writer):
    """Writes functions around rules, block by block."""

    def graph(self):
        if self.chance(0.7):
            return [list(to) for to in self.random.choice(GRAPHS)]
        return [to for _, to in Graphs(self.random.random()).ends(self.random.randint(3, 7))]

    def lay_out(self):
        """The blocks, those that each walk passes before each of them, and the order in which they are written."""
        self.after = self.graph()
        size = len(self.after)
        ends = [(None, to) for to in self.after]
        self.reached = Graphs.reached(ends)
        self.before = [{d for d in range(size) if d != b and b not in Graphs.reached(ends, d)} if b in self.reached
                       else set(range(size)) - {b} for b in range(size)]
        self.edges = [[b for b in range(size) for to in self.after[b] if to == block] for block in range(size)]
        self.order = sorted(range(size), key=lambda b: len(self.before[b]) if b in self.reached else size + b)
        self.phis, self.own = [[] for _ in range(size)], [[] for _ in range(size)]
        # Roots, and how often one is taken where it may be.
        self.results, self.keen, self.texts = set(), 0.2, {}

    def part(self):
        self.begin(*self.random.choice(self.rules))
        last = len(self.rule.source) - 1
        root = self.random.choice(self.order)
        if self.chance(0.85):
            root = self.random.choice(sorted(self.reached - {0}) or [0])
        above = [b for b in self.order if b in self.before[root]] if root in self.reached else []
        line = above + [root]
        places = [self.random.randrange(len(line)) for _ in range(last)]
        if last and above and self.chance(0.6):
            places[0] = self.random.randrange(len(above))
        where = [line[k] for k in sorted(places)] + [root]
        part = Part(self.rule, self.typing, self.numbers, where)
        joins = [b for b in line if self.edges[b]]
        if last and joins and self.chance(0.35):
            self.add_phi(part, self.random.randrange(last), self.random.choice(joins))
        return part

    def width_of(self, part, k):
        return part.typing[part.rule.of[part.rule.results[k]]]

    def add_phi(self, part, k, join):
        """A phi that has the register of a statement from one block, or the statement's operands."""
        register, _, _, operands, _ = part.rule.source[k]
        width, name = self.width_of(part, k), self.fresh()
        widths = [part.typing[part.rule.of[node[-1]]] for _, node in operands]
        if widths == [width] * len(self.edges[join]) and self.chance(0.4):
            part.left_out.add(k)
            entry = lambda n, block: self.operand_of(part, operands[n][1], block)
        else:
            source = self.random.choice(self.edges[join])
            above = [b for b in self.order if b in self.before[source]] if source in self.reached else []
            part.where[k] = self.random.choice(above + [source] * 2)
            entry = lambda n, block: part.stands.get(register) if block == source else None
        part.through[register] = name
        self.phis[join].append((name, width, entry))

    def take(self, part):
        self.rule, self.typing, self.numbers = part.rule, part.typing, part.numbers
        self.bound = {**part.bound, **part.through}

    def operand_of(self, part, node, block):
        self.take(part)
        if node[0] != 'reg' or node[1] in self.bound:
            return self.operand(node, self.there(block))
        return None

    def any_of(self, there, width):
        roots = [name for name, w in there if w == width and name in self.results]
        return self.random.choice(roots) if roots and self.chance(self.keen) else super().any_of(there, width)

    def operand(self, node, there):
        text = self.bound.get(node[1]) if node[0] == 'reg' else None
        if text and text[0] == '%' and text not in {name for name, _ in there}:
            return self.any_of(there, self.width(node))
        return super().operand(node, there)

    def there(self, block):
        return self.parameters + [r for d in sorted(self.before[block]) for r in self.own[d]] + self.own[block]

    def block(self, block, parts):
        self.own[block] = [(name, width) for name, width, _ in self.phis[block]] + self.own[block]
        there, self.lines = self.there(block), []
        begun = len(there)
        todo = [[(part, k) for k, b in enumerate(part.where) if b == block and k not in part.left_out]
                for part in parts]
        while self.chance(0.25):
            self.filler(there)
        while any(todo):
            part, k = self.random.choice([left for left in todo if left]).pop(0)
            self.take(part)
            self.source(there, k, k + 1)
            register = part.rule.source[k][0]
            part.stands[register] = self.bound[register]
            part.bound.update(self.bound)
            if k == len(part.rule.source) - 1:
                self.results.add(self.bound[register])
        self.own[block] += there[begun:]
        self.texts[block] = self.lines

    def phi(self, block, name, width, entry):
        values = {}
        for n, source in enumerate(self.edges[block]):
            there = self.there(source)
            text = entry(n, source)
            fits = text and (text[0] != '%' or (text, width) in there)
            values.setdefault(source, text if fits else self.any_of(there, width))
        entries = [f'[ {values[source]}, %b{source} ]' for source in self.edges[block]]
        return f'  {name} = phi i{width} {", ".join(entries)}'

    def end(self, block, result):
        there, to = self.there(block), [f'label %b{b}' for b in self.after[block]]
        if not to:
            return f'  ret i{result} {self.any_of(there, result)}'
        if len(to) == 1:
            return f'  br {to[0]}'
        if len(to) == 2:
            goes = self.any_of(there, 1)
            return f'  br i1 {"true" if goes == "undef" else goes}, {", ".join(to)}'
        value = self.any_of(there, 2)
        cases = ''.join(f'    i2 {number}, {label}\n' for number, label in zip(['0', '1', '-2', '-1'], to[1:]))
        return f'  switch i2 {"1" if value == "undef" else value}, {to[0]} [\n{cases}  ]'

    def function(self, name):
        self.lay_out()
        parts = [self.part() for _ in range(self.random.choice([1, 1, 2, 3]))]
        result = self.width_of(parts[0], len(parts[0].rule.source) - 1)
        widths = [1, self.random.choice(parts[0].typing)]
        while sum(widths) <= 6 and len(widths) < 5:
            widths.append(self.random.choice([*parts[0].typing, 1]))
        self.parameters = [(f'%p{k}', w) for k, w in enumerate(widths[:-1])]
        for block in range(len(self.after)):
            if self.edges[block] and self.chance(0.6):
                width = self.random.choice([result, result, 1, 2])
                self.phis[block].append((self.fresh(), width, lambda n, source: None))
        joined = {name for phis in self.phis for name, _, _ in phis}
        for block in self.order:
            self.block(block, parts)
        self.keen, self.results = 0.85, self.results | joined
        head = ', '.join(f'i{w} {p}' for p, w in self.parameters)
        lines = [f'define i{result} @{name}({head}) {{']
        for block in range(len(self.after)):
            lines += ([''] if block else []) + [f'b{block}:']
            lines += [self.phi(block, *phi) for phi in self.phis[block]]
            lines += self.texts[block] + [self.end(block, result)]
        return '\n'.join([*lines, '}', ''])


# ---- rules


def several(text):
    """Whether a rule has temporaries."""
    return len(rules_of(text)[0].source) > 1


def made_rules(program, folder, choose, wanted):
    """Known rules with temporaries, random ones, most of them admitted, and known ones without; with widths at which
    functions have their sources."""
    path, maker = os.path.join(folder, 'rule.alive'), Maker(choose.random(), 0.2)
    known, found, others = [], [], []

    def decided(text, kept):
        with open(path, 'w') as file:
            file.write('Version: 2\n' + text)
        said = random_rewrites.run(program, 'verify', path, '--widths', WIDTHS)
        words = re.findall(r'(?m)^\S+ \[([\d ]+)\]: (.*)$', said.stdout) if said.returncode in (0, 1) else []
        typings = [tuple(map(int, widths.split())) for widths, word in words if word == 'admitted' or not kept]
        return typings, bool(words) and all(word == 'admitted' for _, word in words)

    texts = random_rewrites.KNOWN + random_rewrites.KNOWN_OF_SECOND + random_known_bits.BY_BITS
    for text in re.split(r'(?m)^(?=Name:)', texts)[1:]:
        typings, _ = decided(text, True)
        if typings:
            (known if several(text) else others).append((text.strip() + '\n', typings))
    made, refuted = 0, 0
    while made < wanted:
        text = maker.rule(f'r{made + refuted}')
        if text is None or not several(text):
            continue
        text = text.removeprefix('Version: 2\n')
        typings, admitted = decided(text, False)
        if typings and (admitted or refuted < wanted // 8):
            made, refuted = made + admitted, refuted + (not admitted)
            found.append((text, typings))
    return known, found, others


def chosen(choose, known, found, others):
    """The rules of a file: one with temporaries at least."""
    rules = [choose.choice(choose.choice([known, known, found])) for _ in range(choose.randint(1, 3))]
    rules += [choose.choice(others) for _ in range(choose.randrange(2))]
    rules = list({text: (text, typings) for text, typings in rules}.values())
    choose.shuffle(rules)
    return rules


# ---- models


class Spanning(Strategy):
    """The model, which counts rewrites by matches in several blocks, and of these those with a block in a loop."""

    def __init__(self, *words):
        super().__init__(*words)
        self.spans = self.in_loops = 0

    def note(self, function, blocks, block, match):
        places = {line[0]: b for b, lines in enumerate(blocks) for line in lines[:-1]}
        there = {places[match.bound[register]] for register, *_ in match.rule.source}
        if len(there) > 1:
            self.spans += 1
            self.in_loops += any(self.is_in_loop(function, blocks, b) for b in there)

    @staticmethod
    def is_in_loop(function, blocks, block):
        seen, work = set(), [function.place[name] for name in targets_of(blocks[block][-1])]
        while work:
            b = work.pop()
            if b not in seen:
                seen.add(b)
                work += [function.place[name] for name in targets_of(blocks[b][-1])]
        return block in seen


class OneWay(Spanning):
    """Takes for a temporary what a phi has from the first block that it names."""

    def temporaries(self, blocks, at, passed):
        found = super().temporaries(blocks, at, passed)
        lines = {line[0]: line for block in blocks for line in block[:-1] if line[1] != 'phi'}
        phis = [line for block, block_lines in enumerate(blocks) for place, line in enumerate(block_lines[:-1])
                if line[1] == 'phi' and line[3] and self.is_assigned(block, place, at, passed)]
        return found + [(phi[0], *lines[phi[3][0][0]][1:]) for phi in phis if self.across and phi[3][0][0] in lines]


class OfPhis(Spanning):
    """Takes for a temporary a phi that has the operands of a statement."""

    def temporaries(self, blocks, at, passed):
        found = super().temporaries(blocks, at, passed)
        for block, lines in enumerate(blocks):
            for place, (name, op, _, entries, width) in enumerate(lines[:-1]):
                if op == 'phi' and self.across and self.is_assigned(block, place, at, passed):
                    read = [(width, value) for value, _ in entries]
                    found += [(name, op, extra, read, width) for op, extra in self.statements(len(read))]
        return found

    def statements(self, count):
        return [(op, extra) for matcher in self.matchers for _, op, extra, operands, _ in matcher.rule.source
                if len(operands) == count and op not in ('icmp', 'select', 'trunc', 'zext', 'sext')]


class Unreached(Spanning):
    """Looks for roots in blocks out of reach too."""

    def roots(self, function, blocks):
        return {**{block: set() for block in range(len(blocks))}, **passed_before(function, blocks)}


class InBlock(Spanning):
    """Leaves no block."""

    def is_assigned(self, block, place, at, passed):
        return block == at[0] and place < at[1]


WRONG = {'one-way': OneWay, 'phi': OfPhis, 'unreached': Unreached, 'in-block': InBlock}


# ---- the comparison


class Run(random_known_bits.Run):
    def __init__(self, program, folder, seed, lli, wrong):
        super().__init__(program, folder, seed)
        self.folder, self.lli, self.model, self.is_wrong = folder, lli, WRONG.get(wrong, Spanning), bool(wrong)
        self.by_lli = self.in_loops = self.spans = 0
        self.differ = set()

    def around(self, rules):
        """Makes a module of functions around these rules, and compares what is written for it."""
        text = 'Version: 2\n' + '\n'.join(part for part, _ in rules)
        read = rules_of(text)
        sources = [(rule, typing) for rule, (_, typings) in zip(read, rules) for typing in typings]
        parts = [Writer(self.choose, sources).function(f'f{k}') for k in range(IN_MODULE)]
        self.write(text, '\n'.join(parts))
        self.olds, self.seen = functions_of('\n'.join(parts)), {}
        verdicts = verdicts_of(self.program, self.rules, WIDTHS)
        written = {}
        for steps in (1, 20):
            for flags in MIXES:
                said = self.optimise('--steps', str(steps), *flags)
                if said.returncode != 0:
                    self.fault('it ends otherwise', text, *parts, said.stderr)
                    continue
                strategy = self.model(read, verdicts, steps, '--fold' in flags, '--across' in flags)
                counts = steps > 1 and flags == ['--across']
                report = self.functions_agree(text, parts, said.stdout, strategy, counts)
                written[steps, *flags] = said.stdout
                lines = re.findall(r'(?m)^(?:\S+ \[[\d ]*\]: \w+|@f\d+: .*)', said.stderr)
                if lines != strategy.report() + report and not self.is_wrong:
                    self.fault('the model reports otherwise', text, *parts, said.stderr, *strategy.report(), *report)
        self.made += IN_MODULE
        if self.lli and not self.is_wrong:
            self.run_by_lli(parts, written)

    def functions_agree(self, text, parts, written, strategy, counts):
        report = []
        for k, (before, after) in enumerate(zip(self.olds, functions_of(written))):
            spans, loops = strategy.spans, strategy.in_loops
            blocks, count, _, limited = strategy.optimised(before)
            report.append(f'@{before.name}: {count} rewrites{", limit" if limited else ""}')
            now, expected = by_places(after, after.blocks), by_places(before, blocks)
            if now != expected:
                self.differ.add((self.made, k))
                if not self.is_wrong:
                    after_words = after_text(written, before.name)
                    self.fault('the model makes another function', text, parts[k], after_words, *expected)
            if self.is_wrong:
                continue
            self.check_refines(text, parts[k], k, written, before, after, now)
            if counts:
                self.rewrites += strategy.spans - spans
                self.rewritten += strategy.spans > spans
                self.in_loops += strategy.in_loops > loops
        return report

    def check_refines(self, text, part, k, written, before, after, now):
        """What was seen to refine the function, or is it, is not looked at again."""
        seen = self.seen.setdefault(k, [by_places(before, before.blocks)])
        if now not in seen:
            seen.append(now)
            found = refines(after, before, MOST_BLOCKS)
            if found:
                self.fault(found, text, part, after_text(written, before.name))

    def run_by_lli(self, parts, written):
        for part, before in zip(parts, self.olds):
            for fold in ([], ['--fold']):
                texts = [self.text_in(written.get((20, *fold, *flag), ''), before.name) for flag in ([], ['--across'])]
                if self.by_lli == MOST_BY_LLI or texts[0] == texts[1]:
                    continue
                runs = plain_runs(before, 4)
                if not runs:
                    break
                self.by_lli += 1
                for source in (part, texts[1]):
                    values = lli_results(self.lli, self.folder, source, before, [arguments for arguments, _ in runs])
                    if values != [value for _, value in runs]:
                        self.fault('lli', source, runs, values)
                break

    @staticmethod
    def text_in(module, name):
        return '\n'.join(re.findall(rf'(?ms)^define [^@]*@{name}\(.*?^\}}', module))


def main():
    words = argparse.ArgumentParser()
    words.add_argument('program')
    words.add_argument('functions', type=int)
    words.add_argument('seed', type=int)
    words.add_argument('--lli')
    words.add_argument('--wrong', choices=WRONG)
    words = words.parse_args()
    with tempfile.TemporaryDirectory() as folder:
        run = Run(words.program, folder, words.seed, words.lli, words.wrong)
        kinds = made_rules(words.program, folder, run.choose, max(20, words.functions // IN_MODULE // 2))
        while run.made < words.functions:
            run.around(chosen(run.choose, *kinds))
    if words.wrong:
        print(f'{words.wrong}: {len(run.differ)} of {run.made} functions differ')
        return int(not run.differ)
    print(f'{run.made} functions around {sum(map(len, kinds))} rules: {run.rewritten} rewritten across blocks, '
          f'{run.in_loops} of these in loops, {run.rewrites} rewrites across blocks; {run.by_lli} run by lli too; '
          f'{run.wrong} wrong')
    return int(run.wrong > 0)


if __name__ == '__main__':
    sys.exit(main())
