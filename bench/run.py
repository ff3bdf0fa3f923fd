#!/usr/bin/env python3
"""Speed of `plots` as ratios: beside the same program in C and in Rust, on the same inputs, in one run.
Then that of the library's calls.

python3 bench/run.py [--rounds N] [--write docs/SPEED.md] [--plots PROGRAM]
python3 bench/run.py [--walks] [--runs] [--masks]

The second prints the tables of the calls on two walks, on runs or on masks, taken from C, alone.

Builds what it needs and makes the inputs: what rt builds lies in out/ of its crate, all else under
target/. On each input the three programs must first write the same bytes; then they are timed in
turns. Exits 1 on a difference, and where `plots` takes 4 MB of memory or more.
"""
import argparse
import os
import re
import subprocess
import sys
from pathlib import Path

sys.dont_write_bytecode = True
from inputs import TIMED, UNTIMED, make_inputs  # noqa: E402

ROOT = Path(__file__).resolve().parent.parent
BENCH = ROOT / "bench"
BUILT = ROOT / "target" / "bench"
CALLERS = ROOT / "callers" / "rust"
PLOTS = ROOT / "crates" / "plots"
EXPORTS = ROOT / "crates" / "exports"
LIBRARY = EXPORTS / "out" / "libexports.a"
MOST_KILOBYTES = 4_000
TABLE_BEGINS = "<!-- bench/run.py writes from here -->\n"
TABLE_ENDS = "<!-- to here -->\n"


# The programs beside `plots`. The calls of document 01 test 28 first; no line can meet it, so one of them leaves that out.
BESIDE = ("C", "Rust", "C without 28")


# Building

def run(*command, folder=ROOT):
    """What the command writes on standard output; the whole run ends if it fails."""
    done = subprocess.run(command, cwd=folder, stdin=subprocess.DEVNULL, capture_output=True, text=True)
    if done.returncode != 0:
        sys.exit(f"{done.stdout}{done.stderr}failed: {' '.join(map(str, command))}")
    return done.stdout


def build(plots):
    """The programs by name; `plots` is proved and built if that has not been done for this source."""
    BUILT.mkdir(parents=True, exist_ok=True)
    if plots is None:
        run("rt", "run", folder=PLOTS)
        plots = PLOTS / "out" / "plots"
    run("gcc", "-O3", "-o", BUILT / "plots_c", BENCH / "plots.c")
    run("gcc", "-O3", "-DTEST_28=0", "-o", BUILT / "plots_c_without_28", BENCH / "plots.c")
    run("rustc", "--edition", "2021", "-O", "-o", BUILT / "plots_rust", BENCH / "plots.rs")
    run("gcc", "-O3", "-o", BUILT / "peak", BENCH / "peak.c")
    return {"plots": plots, "C": BUILT / "plots_c", "C without 28": BUILT / "plots_c_without_28",
            "Rust": BUILT / "plots_rust"}


# Measuring

def written(program, path):
    """What the program writes on this input."""
    with open(path, "rb") as given:
        return subprocess.run([program], stdin=given, stdout=subprocess.PIPE, check=True).stdout


def compare(programs, paths):
    """End the whole run if two programs write different bytes on some input."""
    for name, path in paths.items():
        wanted = written(programs["plots"], path)
        for other in BESIDE:
            if written(programs[other], path) != wanted:
                sys.exit(f"plots and the program in {other} differ on the input '{name}', {path}")


def cpu_seconds(program, path):
    """CPU time of one run, user and system together: only their sum is counted exactly."""
    with open(path, "rb") as given, open(os.devnull, "wb") as dropped:
        child = subprocess.Popen([program], stdin=given, stdout=dropped)
        _, status, used = os.wait4(child.pid, 0)
        child.returncode = os.waitstatus_to_exitcode(status)
    if child.returncode != 0:
        sys.exit(f"{program} ended with {child.returncode} on {path}")
    return used.ru_utime + used.ru_stime


def least_times(programs, paths, rounds):
    """The least time of each program on each input; in each round every one of them takes its turn."""
    least = {(name, input_name): float("inf") for input_name in TIMED for name in programs}
    for _ in range(rounds):
        for name, input_name in least:
            seconds = cpu_seconds(programs[name], paths[input_name])
            least[name, input_name] = min(least[name, input_name], seconds)
    return least


def peak_kilobytes(program, path):
    """The most memory that the program held."""
    with open(path, "rb") as given:
        done = subprocess.run([BUILT / "peak", program], stdin=given, stdout=subprocess.DEVNULL,
                              stderr=subprocess.PIPE, check=True)
    return int(done.stderr.split()[-1])


# The table

def table(head, rows):
    """A table of Markdown."""
    lines = [head, ["---"] * len(head)] + rows
    return "".join("| " + " | ".join(cells) + " |\n" for cells in lines)


def program_table(programs, paths, rounds):
    """The ratios of the programs."""
    least = least_times(programs, paths, rounds)
    rows = [[told] + [f"{least['plots', name] / least[other, name]:.2f}" for other in BESIDE]
            for name, (_, told) in TIMED.items()]
    return table(["Input, 1,000,000 lines each"] + [f"`plots` / {other}" for other in BESIDE], rows)


def printed_tables(printed):
    """What a benchmark of the library prints: tables separated by an empty line, columns by two spaces or more."""
    tables = []
    for part in printed.strip().split("\n\n"):
        head, *rows = [re.split(r"\s{2,}", line.strip()) for line in part.splitlines()]
        tables.append(table(head, rows))
    return "\n".join(tables)


def library_tables():
    """The ratios of the calls on lists of points, for third moments, on two walks, on runs and on fixes, by the callers' own benchmark."""
    return printed_tables(run("cargo", "run", "--quiet", "--release", "--bin", "bench", folder=CALLERS))


def tables_from_c(name, *objects):
    """What the program in C of this name prints, built with the library."""
    run("gcc", "-O3", "-o", BUILT / name, BENCH / f"{name}.c", *objects, LIBRARY)
    return printed_tables(run(BUILT / name))


def walk_tables():
    """The ratios of the call on two walks, beside a loop that is built twice."""
    objects = []
    for loop, options in (("with_vectors", []), ("without_vectors", ["-fno-tree-vectorize"])):
        objects.append(BUILT / f"{loop}.o")
        run("gcc", "-O3", *options, f"-DLOOP={loop}", "-c", "-o", objects[-1], BENCH / "double_loop.c")
    return tables_from_c("walks", *objects)


def region_tables():
    """The ratios of the call on runs, beside the closed formula and beside a table."""
    return tables_from_c("runs")


def mask_tables():
    """The ratios of the calls on masks."""
    return tables_from_c("masks")


def machine():
    """The kind of machine and the compilers."""
    model = re.search(r"model name\s*:\s*(.*)", Path("/proc/cpuinfo").read_text())
    versions = [run(*command).splitlines()[0].strip()
                for command in (("gcc", "--version"), ("rustc", "--version"), ("rt", "version"))]
    return f"{model[1] if model else 'Unknown processor'}, {os.cpu_count()} cores; {'; '.join(versions)}.\n"


def report(programs, paths, rounds):
    """All of the figures, and whether the memory is within its limit."""
    peaks = {name: peak_kilobytes(programs["plots"], path) for name, path in paths.items()}
    most = max(peaks.values())
    text = f"{machine()}\nThe least of {rounds} rounds.\n\n{program_table(programs, paths, rounds)}"
    text += f"\nPeak memory of `plots`: {most:,} kB at most, {peaks['long']:,} kB on {UNTIMED['long'][1]}.\n"
    if CALLERS.exists():
        run("rt", "lib", folder=EXPORTS)
        text += f"\nCalls of the library from Rust:\n\n{library_tables()}"
        text += f"\nThe call of the library on two walks, from C:\n\n{walk_tables()}"
        text += f"\nThe call of the library on runs, from C:\n\n{region_tables()}"
        text += f"\nCalls of the library on masks, from C:\n\n{mask_tables()}"
    return text, most < MOST_KILOBYTES


def write_table(path, text):
    """Put the figures between the two marks of the page."""
    page = Path(path).read_text()
    before, marked, rest = page.partition(TABLE_BEGINS)
    _, ends, after = rest.partition(TABLE_ENDS)
    if not marked or not ends:
        sys.exit(f"{path} has no place for the table")
    Path(path).write_text(before + marked + text + ends + after)


def main():
    parser = argparse.ArgumentParser(description="Speed of plots as ratios.")
    parser.add_argument("--rounds", type=int, default=40)
    parser.add_argument("--write", metavar="FILE", help="put the table into this page")
    parser.add_argument("--plots", metavar="PROGRAM", help="measure this program instead of crates/plots/out/plots")
    parser.add_argument("--walks", action="append_const", dest="alone", const=walk_tables, help="the call on two walks alone")
    parser.add_argument("--runs", action="append_const", dest="alone", const=region_tables, help="the call on runs alone")
    parser.add_argument("--masks", action="append_const", dest="alone", const=mask_tables, help="the calls on masks alone")
    chosen = parser.parse_args()
    if chosen.alone:
        BUILT.mkdir(parents=True, exist_ok=True)
        run("rt", "lib", folder=EXPORTS)
        print("\n".join(tables() for tables in chosen.alone), end="")
        return
    if chosen.write and chosen.plots:
        sys.exit("only figures of crates/plots/out/plots, which is proved, are written down")
    programs = build(chosen.plots and Path(chosen.plots).resolve())
    paths = make_inputs(BUILT)
    compare(programs, paths)
    text, within = report(programs, paths, chosen.rounds)
    print(text, end="")
    if not within:
        sys.exit(f"plots took {MOST_KILOBYTES:,} kB of memory or more")
    if chosen.write:
        write_table(chosen.write, text)


if __name__ == "__main__":
    main()
