"""listing.py OURS THEIRS CAPTURE..: runs two programs on each capture and on its first bytes, compares what they write, and
prints what the rest of the capture takes as ns for each byte: the median processor time of whole runs, less that of runs
on the first bytes. So the start of a program does not count."""
import os
import statistics
import subprocess
import sys
import tempfile

ROUNDS = 9
FIRST = 65536


def words(program):
    return subprocess.run(["tools/launch", "--how", program], stdout=subprocess.PIPE, check=True, text=True).stdout.splitlines()


def run(command, capture):
    """The processor time of one run, in ns, and what it wrote."""
    with open(capture, "rb") as given, tempfile.TemporaryFile() as written:
        moves = [(os.POSIX_SPAWN_DUP2, given.fileno(), 0), (os.POSIX_SPAWN_DUP2, written.fileno(), 1)]
        _, status, used = os.wait4(os.posix_spawn(command[0], command, os.environ, file_actions=moves), 0)
        if status != 0:
            sys.exit(f"bench: FAILED, {command[-1]} ended with {status}")
        written.seek(0)
        return (used.ru_utime + used.ru_stime) * 1e9, written.read()


def rest(command, captures):
    """For each capture the median of runs on it, less that of runs on its first bytes; the runs take turns."""
    times = [[run(command, c)[0] for c in captures] for _ in range(ROUNDS)]
    medians = [statistics.median(t) for t in zip(*times)]
    return [whole - first for whole, first in zip(medians[::2], medians[1::2])]


ours, theirs = words(sys.argv[1]), words(sys.argv[2])
captures = []
for path in sys.argv[3:]:
    first = path + ".first"
    with open(path, "rb") as whole, open(first, "wb") as part:
        part.write(whole.read(FIRST))
    captures += [path, first]
for capture in captures:
    if run(ours, capture)[1] != run(theirs, capture)[1]:
        sys.exit(f"bench: FAILED, the two listings of {capture} differ")
print(f"{os.path.basename(sys.argv[2])}: medians of {ROUNDS} rounds, less those of the first {FIRST} bytes")
for capture, x, y in zip(captures[::2], rest(ours, captures), rest(theirs, captures)):
    size = os.path.getsize(capture) - FIRST
    print(f"{os.path.basename(capture):6} listing    {size:8}  proved {x / size:.2f}, plain C {y / size:.2f}, ratio {x / y:.2f}")
