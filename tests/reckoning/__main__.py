"""Reckons a fresh run of a network, from the rules of the language and of runs alone, without the program:

    python3 tests/reckoning [-c CONFIG] [-l LIMIT] [-o DIR] INI NED..

    python3 tests/reckoning -s SCENARIO

It prints the answer of the run as the program would, and writes both result files into DIR, or prints them where no DIR is given; of a scenario of crates/check_scenarios it
prints what that leads to. What it does not know it refuses with status 2. tests/compare calls it for networks that are made by chance, and compares the program's answers and files."""
import argparse
import pathlib
import sys

sys.dont_write_bytecode = True
sys.path.insert(0, str(pathlib.Path(__file__).resolve().parent))

from ned import NotReckoned
from reckon import Texts, reckon
from scenarios import play


def read(path):
    return pathlib.Path(path).read_text(encoding="utf-8")


def reckoned(said):
    """What is printed: of a scenario, or of a run."""
    if said.s:
        return play(read(said.s))
    found = reckon(Texts(read(said.ini), [read(it) for it in said.ned], said.c), said.l)
    if not said.o:
        return f"done {found.answer}\n{found.scalars}{found.vectors}"
    for ending, text in (("sca", found.scalars), ("vec", found.vectors)):
        (pathlib.Path(said.o) / f"{said.c}-#0.{ending}").write_text(text, encoding="utf-8")
    return f"done {found.answer}\n"


def main():
    words = argparse.ArgumentParser(prog="reckoning")
    words.add_argument("-c", default="General")
    words.add_argument("-l", type=int, default=1000000)
    words.add_argument("-o")
    words.add_argument("-s")
    words.add_argument("ini", nargs="?")
    words.add_argument("ned", nargs="*")
    said = words.parse_args()
    if not said.s and not said.ned:
        words.error("a scenario, or an ini file and NED files")
    try:
        print(reckoned(said), end="")
    except (NotReckoned, RecursionError) as why:
        print(f"not reckoned: {why}", file=sys.stderr)
        return 2
    return 0


sys.exit(main())
