"""The code on a page, for the lists of its last block `walks` or `points`: its lists, its names, and what it prints. See check.py."""
import re
import subprocess
import sys
from pathlib import Path

import page_thirds
from differences import expect
from worked import numbers_of

ROOT = Path(__file__).resolve().parent.parent
LANGUAGES = ("c", "rust", "rattle", "python")
# By the kind of its block and the language of the code, the sources that have the names in it; Python is run.
SOURCES = {"walks": {"c": ["callers/c/mavrihkel.h", "callers/c/walks.c", "callers/c/cases.h"],
                     "rust": ["callers/rust/src/lib.rs"],
                     "rattle": [f"crates/{crate}/src/lib.rt" for crate in ("lent_comparison", "comparison", "two_walks", "refusals")],
                     "python": ["second/walkers.py"]},
           "points": {"c": ["callers/c/mavrihkel.h", "callers/c/third_moments.c", "callers/c/cases.h"],
                      "rust": ["callers/rust/src/lib.rs", "callers/rust/src/third_moments.rs"],
                      "rattle": [f"crates/{crate}/src/lib.rt" for crate in ("third_moments", "third_order", "refusals")],
                      "python": ["second/figures.py", "second/third_moments.py"]}}
LIST = re.compile(r"[\[{]([-\d, ]+)[\]}]")
NAME = re.compile(r"(?:\.|::)([a-z]\w*)|\b([A-Za-z]\w*[\d_]\w*)\b")


def check(where, kind, code, found):
    """Its lists are those of the block, it has no other number unless it is run, and its sources have every name that follows a dot
    or two colons, or that has a digit or an underscore."""
    lists = [numbers_of(points) for points in found.get("walks", found.get("of"))]
    written = [[int(each) for each in listed.split(",")] for listed in LIST.findall(code)]
    expect(written in ([], lists), where, f"the lists are {lists}")
    rest = LIST.sub("", code)
    expect(kind == "python" or not re.search(r"\b\d", rest), where, "a number that nothing checks")
    known = {word for source in SOURCES["walks" if "walks" in found else "points"][kind] for word in re.findall(r"\w+", (ROOT / source).read_text())}
    names = {name for either in NAME.findall(rest) for name in either if name}
    expect(names <= known, where, f"nothing is called {', '.join(sorted(names - known))}")
    if kind == "python":
        ran = subprocess.run([sys.executable, "-B", "-"], input=code, cwd=ROOT / "second", stdout=subprocess.PIPE, text=True, check=True)
        expect(ran.stdout == printed(kind, found), where, f"it prints {ran.stdout}")


def printed(kind, found):
    """What code in that language prints: of two walks all values in a line, or the struct of callers/rust; else see page_thirds.py."""
    if "walks" not in found:
        return page_thirds.printed(kind, found)
    answer = found["answer"]
    if kind != "rust":
        return " ".join(map(str, answer.fields())) + "\n"
    totals = ", ".join(f"{name}: {value}" for name, value in answer.differences._asdict().items())
    return (f"Comparison {{ differences: Totals {{ {totals} }}, first_to_second: {answer.first_to_second}, "
            f"second_to_first: {answer.second_to_first}, longer: {numbers_of(found['walks'][answer.part.which])} }}\n")
