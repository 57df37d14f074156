"""What the benches share: the programs that they run, and how their use is printed."""
import functools
import os
import pathlib
import subprocess
import sys

TOP = pathlib.Path(__file__).resolve().parent.parent


def usage(text):
    """Prints a bench's use and ends, where `--help` asks for that."""
    if {'-h', '--help'} & set(sys.argv[1:]):
        print(text.strip())
        sys.exit(0)


@functools.cache
def alive():
    """The program: the one that ALIVE names, or the one that `bin/alive` proves and builds."""
    if 'ALIVE' in os.environ:
        return str(pathlib.Path(os.environ['ALIVE']).resolve())
    if subprocess.run([TOP / 'bin' / 'build']).returncode != 0:
        sys.exit('the program was not built; ALIVE may name one')
    return str(TOP / 'bin' / 'out' / 'alive_cli')


@functools.cache
def bench_parts():
    """The program of the crate `bench_parts`: the one that BENCH_PARTS names, or the one that is proved and built."""
    if 'BENCH_PARTS' in os.environ:
        return str(pathlib.Path(os.environ['BENCH_PARTS']).resolve())
    crate = TOP / 'crates' / 'bench_parts'
    subprocess.run(['rt', 'run', '--', 'search', 'pigeonhole', '2'], cwd=crate, check=True, stdout=sys.stderr)
    return str(crate / 'out' / 'bench_parts')
