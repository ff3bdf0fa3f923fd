"""Sets a text program beside text.output on made-up input.

python3 second/compare.py PROGRAM [--seed N] [--cases N] [--long]

PROGRAM may be a command of several words in one string.  Standard output is
compared byte by byte.  Exits 1 with a small input on a difference, and 1 if
some refusal number that can arise was not seen, or rings of some kind walked one of
the two ways.
"""
import fcntl
import random
import re
import shlex
import struct
import subprocess
import sys
import tempfile
import termios
import threading
import time

import text
from beside import chosen_options
from figures import ACCEPTED, Kind, closed_totals
from inputs import fixed_inputs
from limits import byte_limit_inputs, endless_inputs, line_limit_inputs, long_inputs
from madeup import random_input

# 27 shows as the missing centre of a sheet with outlines; 32 leaves no outline without
# one.  The others of documents 01 and 02 cannot arise in text: 2 to 8 and 31 belong to
# the list, map, cell and mask calls, which no line makes; 11 needs a total over 10^18,
# but outlines have their bounds and 26 keeps sheets within it; 28 needs a walk or sheet
# from elsewhere, but both come from the lines alone.
CAN_ARISE = (1, 9, 10, 21, 22, 23, 24, 25, 26, 27, 32)
# Rings to be accepted: of either kind, the totals of one of the two ways are turned.
RINGS = {f"{kind.value} walked {way}" for kind in Kind for way in ("anticlockwise", "clockwise")}

RUN_SECONDS = 120
SHRINK_SECONDS = 60
WAITED_CHUNKS = 200
DID_NOT_END = b"(the program did not end in time)\n"


# Running the program

def chunk_sizes(rng, size):
    """Sizes of the parts in which the input is written to the pipe."""
    most = rng.choice([1, 7, 64] if size < 3_000 else [4_096, 8_192, 65_536, 70_000])
    exact = rng.random() < 0.5
    while size > 0:
        chunk = min(size, most if exact else rng.randint(1, most))
        yield chunk
        size -= chunk


def bytes_waiting(pipe):
    """Bytes in the pipe that the program has not taken yet."""
    return struct.unpack("i", fcntl.ioctl(pipe, termios.FIONREAD, b"\0" * 4))[0]


def feed(process, data, sizes):
    """Write the input part by part; the first parts each only when the last one was taken."""
    start = 0
    try:
        for chunk, size in enumerate(sizes):
            process.stdin.write(data[start:start + size])
            process.stdin.flush()
            start += size
            while (chunk < WAITED_CHUNKS and process.poll() is None
                   and bytes_waiting(process.stdin) > 0):
                time.sleep(0)
        process.stdin.close()
    except BrokenPipeError:
        pass    # reading ends with 10


def feed_without_end(process, piece):
    """Write the piece again and again, until the program reads no more."""
    try:
        while True:
            process.stdin.write(piece)
            process.stdin.flush()
    except BrokenPipeError:
        pass


def printed_by(command, data, chunk_seed, without_end=False):
    """Standard output of the program; its input is a file, or a pipe if a chunk seed is given
    or the data come again and again without end."""
    with tempfile.TemporaryFile() as given, tempfile.TemporaryFile() as printed:
        piped = without_end or chunk_seed is not None
        if not piped:
            given.write(data)
            given.seek(0)
        process = subprocess.Popen(command, stdin=subprocess.PIPE if piped else given,
                                   stdout=printed, stderr=subprocess.DEVNULL)
        if without_end:
            threading.Thread(target=feed_without_end, args=(process, data), daemon=True).start()
        elif piped:
            sizes = chunk_sizes(random.Random(chunk_seed), len(data))
            threading.Thread(target=feed, args=(process, data, sizes), daemon=True).start()
        try:
            process.wait(RUN_SECONDS)
        except subprocess.TimeoutExpired:
            process.kill()
            process.wait()
            return DID_NOT_END
        printed.seek(0)
        output = printed.read()
        if process.returncode < 0:
            output += b"(the program was ended by signal %d)\n" % -process.returncode
        return output


# Shrinking

def shrunk(parts, differs, deadline):
    """Leave out runs of parts, long ones first, while the outputs still differ."""
    size = max(1, len(parts) // 2)
    while True:
        shorter = False
        start = 0
        while start < len(parts):
            if time.monotonic() > deadline:
                return parts
            rest = parts[:start] + parts[start + size:]
            if differs(rest):
                parts = rest
                shorter = True
            else:
                start += size
        if size == 1 and not shorter:
            return parts
        size = max(1, size // 2)


def smallest_difference(data, differs):
    """Shrink by lines, then by bytes."""
    deadline = time.monotonic() + SHRINK_SECONDS
    data = b"".join(shrunk(split_lines(data), lambda rest: differs(b"".join(rest)), deadline))
    return shrunk(data, differs, deadline)


# Reporting

def split_lines(data):
    """Lines with their newlines; only a newline separates them."""
    return re.findall(rb"[^\n]*\n|[^\n]+", data)


def shown(lines, most):
    """Lines as they would be written in a program, the middle left out if there are many."""
    told = [repr(line) if len(line) < 200 else f"{line[:60]!r}... ({len(line)} bytes)" for line in lines]
    if len(told) > most:
        told[most // 2:-most // 2] = [f"... ({len(told) - most} lines)"]
    return "".join(f"    {line}\n" for line in told) or "    (nothing)\n"


def report(name, command, data, chunk_seed):
    """Print the smallest input found and both outputs."""
    def differs(candidate):
        return printed_by(command, candidate, chunk_seed) != text.output(candidate)
    small = smallest_difference(data, differs)
    fed = "a file" if chunk_seed is None else f"a pipe, chunk seed {chunk_seed}"
    print(f"DIFFERENCE on: {name} ({len(data)} bytes, through {fed})\n"
          f"input, shrunk to {len(small)} bytes:\n{shown(split_lines(small), 30)}", end="")
    show_outputs(command, text.output(small), printed_by(command, small, chunk_seed))


def show_outputs(command, wanted, got):
    """Both outputs, from shortly before they differ."""
    wanted, got = split_lines(wanted), split_lines(got)
    same = 0
    while same < min(len(wanted), len(got)) and wanted[same] == got[same]:
        same += 1
    start = max(0, same - 3)
    print(f"outputs differ from output line {same + 1}, shown from line {start + 1}\n"
          f"second program:\n{shown(wanted[start:], 12)}"
          f"{shlex.join(command)}:\n{shown(got[start:], 12)}", end="")


def numbers_seen(output, wanted):
    """Those of the wanted refusal numbers that this output shows."""
    return {number for number in wanted if re.search(
        rb"(?m)^S\t[1-9].*\t-\t-$" if number == 27 else rb"(?m)^R\t\d+\t%d$" % number, output)}


def rings_seen(data):
    """Of each accepted ring its kind and the way in which it was walked."""
    program, seen = text.TextProgram(), set()
    for line in text.lines(data):
        walk = program.walk
        if program.refusal(line) == ACCEPTED and line == b"E":
            way = "anticlockwise" if closed_totals(walk).a2 > 0 else "clockwise"
            seen.add(f"{walk.kind.value} walked {way}")
    return seen


def all_inputs(rng, cases, with_long):
    """Every input of a run."""
    yield from fixed_inputs()
    yield from byte_limit_inputs(rng)
    yield from line_limit_inputs()
    for case in range(cases):
        name, data = random_input(rng)
        yield f"{name}, case {case}", data
    if with_long:
        yield from long_inputs(rng)


def ends_without_end_of_input(command):
    """On input that never ends the program ends, with what it prints for as much as it may read."""
    for name, piece in endless_inputs():
        wanted = text.output(piece * (text.MOST_BYTES // len(piece) + 2))
        got = printed_by(command, piece, None, without_end=True)
        if got != wanted:
            print(f"DIFFERENCE on: {name} without end")
            show_outputs(command, wanted, got)
            return False
    return True


def main():
    """Run every input; answer the exit status."""
    chosen = chosen_options("Set a text program beside the second program.")
    command = shlex.split(chosen.program)
    rng = random.Random(chosen.seed)
    inputs = lines = 0
    missing, missing_rings = set(CAN_ARISE), set(RINGS)
    for name, data in all_inputs(rng, chosen.cases, chosen.long):
        chunk_seed = rng.choice([None, rng.randrange(1_000_000)])
        wanted = text.output(data)
        if printed_by(command, data, chunk_seed) != wanted:
            report(name, command, data, chunk_seed)
            return 1
        inputs += 1
        lines += data.count(b"\n") + (not data.endswith(b"\n") and data != b"")
        missing -= numbers_seen(wanted, missing)
        if missing_rings:
            missing_rings -= rings_seen(data)
    if not ends_without_end_of_input(command):
        return 1
    seen = " ".join(str(number) for number in CAN_ARISE if number not in missing)
    print(f"{inputs} inputs, {lines} lines, no difference; refusals seen: {seen}"
          + (f"; NOT SEEN: {sorted(missing)}" if missing else "")
          + (f"; NOT SEEN: {sorted(missing_rings)}" if missing_rings else ""))
    return 1 if missing or missing_rings else 0


if __name__ == "__main__":
    sys.exit(main())
