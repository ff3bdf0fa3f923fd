"""What the comparisons share: their options, and how a program that prints a line of numbers at a time is set
beside the lines that are wanted of it.
"""
import argparse
import subprocess

RUN_SECONDS = 120
SHOWN = 160
SHORT_BUFFER = 100


def chosen_options(description):
    """The options of the command: PROGRAM [--seed N] [--cases N] [--long]."""
    parser = argparse.ArgumentParser(description=description)
    parser.add_argument("program")
    parser.add_argument("--seed", type=int, default=1)
    parser.add_argument("--cases", type=int, default=200)
    parser.add_argument("--long", action="store_true")
    return parser.parse_args()


def line(*numbers):
    """One line of the program."""
    return " ".join(map(str, numbers))


def any_buffer(rng, length):
    """A caller's buffer of this length and one value behind its end: any numbers of 64 bits."""
    return [rng.getrandbits(63) - rng.getrandbits(63) for _ in range(length + 1)]


def answered(number, values, buffer):
    """The number that a call with this buffer is to answer, and the buffer afterwards with the value behind its end."""
    if len(buffer) - 1 < len(values):
        return SHORT_BUFFER, *buffer
    return number, *values, *buffer[len(values):]


def printed_by(program, given):
    """The lines that the program prints for the bytes that it is given, and how it ended."""
    done = subprocess.run([program], input=given, stdout=subprocess.PIPE, timeout=RUN_SECONDS)
    return done.stdout.decode("ascii").splitlines(), done.returncode


def shortened(text):
    """The front of a line."""
    return text if len(text) <= SHOWN else f"{text[:SHOWN]} .. ({len(text)} characters)"


def show_fields(wanted, got):
    """Both lines from shortly before they differ."""
    same = 0
    wanted, got = wanted.split(), got.split()
    while same < min(len(wanted), len(got)) and wanted[same] == got[same]:
        same += 1
    start = max(0, same - 6)
    print(f"field {same} differs, shown from field {start}\n"
          f"    second program: {shortened(line(*wanted[start:]))}\n    program:        {shortened(line(*got[start:]))}")


def differs(program, given, wanted, case_told):
    """Run the program and show the first line that is not as wanted, with its case as `case_told` tells it from the
    line's place, or that lines are missing; answer whether there is a difference."""
    got, status = printed_by(program, given)
    for place, lines in enumerate(zip(wanted, got)):
        if lines[0] != lines[1]:
            print(f"DIFFERENCE on: {case_told(place)}")
            show_fields(*lines)
            return True
    if status != 0 or len(got) != len(wanted):
        print(f"the program ended with {status} after {len(got)} of {len(wanted)} lines")
        return True
    return False


def exit_status(summary, missing):
    """Print the summary, and what was to be seen and was not: then the exit status is 1."""
    print(summary + (f"; NOT SEEN: {missing}" if any(missing) else ""))
    return 1 if any(missing) else 0
