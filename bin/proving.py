"""Proves the crates below a program, several at a time, in the order in which a first build ends soonest.

`rt all check` proves the same. But it takes crates by how many stand below them, lets one that waits for another hold a
processor, and looks at all sources on one processor first. So each crate is proved here by the calls of the toolchain
by which `rt all check` proves it: over what was built of the crates below it, keeping what it keeps. The longest chain
of what is left comes first, and a check gets more jobs where few crates can begin. Where a kit lacks these calls,
`rt all check` does it.
"""

import concurrent.futures
import importlib.machinery
import importlib.util
import inspect
import os
import re
import shutil
import signal
import subprocess
import sys
import tempfile

# What a proof takes of memory, at most.
ROOM = 3 << 30
# The most jobs of one check, which is what the gate gives one.
MOST_JOBS = 4
# How commands of the toolchain are called.
TALKS = {
    "stdin": subprocess.DEVNULL,
    "stdout": subprocess.PIPE,
    "stderr": subprocess.STDOUT,
    "text": True,
    "errors": "replace",
}


def lanes():
    """How many proofs are made side by side: as many as processors and memory allow."""
    with open("/proc/meminfo", encoding="utf-8") as it:
        free = int(re.search(r"MemAvailable:\s+(\d+)", it.read())[1]) * 1024
    return max(1, min(len(os.sched_getaffinity(0)), free // ROOM))


def proof_seconds(file):
    """The seconds of a processor that each crate's proof took, by the column `proof` of a table in docs/BENCH.md."""
    found, head = {}, []
    for line in file.read_text().splitlines():
        cells = [it.strip(" `") for it in line.split("|")[1:-1]]
        if cells[:1] == ["crate"]:
            head = cells
        elif not cells:
            head = []
        elif "proof" in head and cells[head.index("proof")].isdecimal():
            found[cells[0]] = int(cells[head.index("proof")])
    return found


class Order:
    """Which crates are proved next, by what each stands on, the lowest crates first, and by the seconds of proofs."""

    def __init__(self, uses, seconds):
        mean = sum(seconds.values()) / max(len(seconds), 1)
        self.uses, self.seconds, self.proved = uses, {it: seconds.get(it, mean) for it in uses}, set()
        # Of each crate the seconds of the longest chain of proofs that it begins.
        chains = dict.fromkeys(uses, 0)
        for crate in reversed(list(uses)):
            chains[crate] += self.seconds[crate]
            for below in uses[crate]:
                chains[below] = max(chains[below], chains[crate])
        self.waiting = sorted(uses, key=lambda it: -chains[it])

    def begin(self, idle):
        """Takes those that may begin on so many idle processors, each with its number of jobs."""
        ready = [it for it in self.waiting if self.proved.issuperset(self.uses[it])]
        for number, crate in enumerate(ready):
            jobs = min(MOST_JOBS, -(-idle // (len(ready) - number)))
            if jobs:
                idle -= jobs
                self.waiting.remove(crate)
                yield crate, jobs

    def end(self, crate):
        """Takes a crate that is proved."""
        self.proved.add(crate)
        if crate in self.waiting:
            self.waiting.remove(crate)

    def minutes_left(self):
        """The minutes of a processor that the proofs which are left take, where the machine is as that of the table."""
        return round(sum(self.seconds[it] for it in self.uses if it not in self.proved) / 60)


def run(order, at_once, prove, ended):
    """Proves crates side by side, until none is left that may begin."""
    running = {}
    with concurrent.futures.ThreadPoolExecutor(at_once) as pool:
        while True:
            for crate, jobs in order.begin(at_once - sum(jobs for _, jobs in running.values())):
                running[pool.submit(prove, crate, jobs)] = crate, jobs
            if not running:
                return
            for it in concurrent.futures.wait(running, return_when=concurrent.futures.FIRST_COMPLETED).done:
                crate, _ = running.pop(it)
                ended(crate, *it.result())


def command():
    """The command rt as a module, or None where that isn't one or lacks a call that is made here."""
    sys.dont_write_bytecode = True
    try:
        loader = importlib.machinery.SourceFileLoader("rt", os.path.realpath(shutil.which("rt")))
        rt = importlib.util.module_from_spec(importlib.util.spec_from_loader("rt", loader))
        loader.exec_module(rt)
        lib = rt.rtlib
        if hasattr(rt, "share_work"):
            inspect.signature(rt.share_work).bind(True)
        inspect.signature(lib.guarded).bind()
        inspect.signature(lib.crates_below).bind("")
        inspect.signature(lib.lock).bind([])
        inspect.signature(lib.stop_on_unread).bind("", [])
        inspect.signature(lib.stop_on_links).bind("")
        inspect.signature(lib.stop_on_text).bind(None, "check")
        inspect.signature(lib.Crate.is_built).bind(None)
        inspect.signature(lib.Crate.build_rlib).bind(None, ["--jobs", "1"], anew=False)
        return rt
    except (Exception, SystemExit):
        return None


class Proofs:
    """The proofs of a program's crates, which say how far they are. What was said of those that fail is kept."""

    def __init__(self, program, order, say):
        self.program, self.order, self.say, self.failed = program, order, say, {}

    def ended(self, crate, status, said):
        if status:
            self.failed[crate] = said
            self.say(f"{crate} is not proved")
            return
        self.order.end(crate)
        so_far = f"{len(self.order.proved)} of {len(self.order.uses)} crates are proved ({crate})"
        self.say(f"{so_far}; minutes of a processor left: {self.order.minutes_left()}")

    def begin(self, at_once):
        done, total = len(self.order.proved), len(self.order.uses)
        self.say(f"the program is proved before it runs: {total} crates, of which {done} are, {at_once} at a time")
        self.say(f"minutes of a processor left, by the times in docs/BENCH.md: {self.order.minutes_left()}")

    def by_calls(self, rt):
        """Proves the crates below the program as `rt all check` does each, and returns whether all are proved."""
        lib, folder = rt.rtlib, str(self.program)
        # Before any thread begins. An interrupt ends this at once, and with it what it started.
        if hasattr(rt, "share_work"):
            # Some kits keep what one clone proved for the others.
            rt.share_work(True)
        lib.guarded()
        signal.signal(signal.SIGINT, signal.SIG_DFL)
        crates = {it.name: it for it in lib.crates_below(folder)}
        held = lib.lock(crates.values())
        try:
            lib.stop_on_unread(folder, crates.values())
            for it in crates.values():
                lib.stop_on_links(it.folder)
                lib.stop_on_unread(it.folder, crates.values())
                lib.stop_on_text(it, "check")
            # The program itself is proved where it is built.
            self.order.waiting.remove(self.program.name)
            for name in list(self.order.waiting):
                if crates[name].is_built():
                    self.order.end(name)
            at_once = lanes()
            self.begin(at_once)
            run(self.order, at_once, lambda name, jobs: prove(crates[name], jobs), self.ended)
        finally:
            for it in held:
                os.close(it)
        return not self.failed

    def by_all_check(self):
        """The same by `rt all check`, which proves the program too. It says of a crate all at once, when it is done."""
        crate, said, at_once = "", {"": []}, lanes()
        self.begin(at_once)
        with subprocess.Popen(["rt", "all", "check", "--jobs", str(at_once)], cwd=self.program, **TALKS) as ran:
            for line in map(str.rstrip, ran.stdout):
                if line.startswith("== "):
                    crate = line[3:]
                    said[crate] = []
                elif line.startswith("rt: waiting for another rt "):
                    self.say(line.removeprefix("rt: "))
                else:
                    said[crate].append(line)
                    if line.startswith("logic=proved "):
                        self.ended(crate, 0, "")
        if ran.returncode:
            lost = [it.partition(":")[0] for it in said.get("summary", ()) if ": failed (" in it]
            self.failed = {it: "\n".join(said.get(it, ())) for it in lost or [""]}
        return not ran.returncode

    def faults(self):
        """The lines on the crates that are not proved."""
        for crate, said in self.failed.items():
            yield f"== {crate}"
            yield from (it for it in said.splitlines() if not re.search(r": proved$|^statements |^so far: ", it))


def prove(crate, jobs):
    """Proves a crate over those below it, and returns the status and what was said."""
    os.makedirs(f"{crate.folder}/out", exist_ok=True)
    with tempfile.TemporaryFile("a+", errors="replace") as crate.out:
        try:
            status = crate.build_rlib(["--jobs", str(jobs)], anew=False)
        except SystemExit:
            status = 2
        crate.out.seek(0)
        return status, crate.out.read()
