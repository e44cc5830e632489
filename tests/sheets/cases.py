"""cases.py FOLDER LEAST runs the program `sheets` on the cases of a folder, 1 on, and compares with what the model has of each:
K.args with one argument a line, K.in on standard input, K.out on standard output and K.said on descriptor 3. The words that
start the program come on standard input, a line each, so that no shell is started for a case. A difference is shown with
both sides; the status is 1 where there is one, or where there are fewer than so many cases."""
import os
import pathlib
import subprocess
import sys
import tempfile

SAID = 3  # where the program says how it ended
SHOWN = 300  # so many bytes of each side are shown


def run(words, given, said):
    """What the program writes, what it says and what else is to be told of it: its status and its standard error."""
    os.ftruncate(said, 0)
    os.lseek(said, 0, os.SEEK_SET)
    with open(given, "rb") as text:
        ended = subprocess.run(words, stdin=text, capture_output=True, pass_fds=(said,), check=False)
    return ended.stdout, os.pread(said, os.fstat(said).st_size, 0), f"{ended.returncode} {ended.stderr.decode()}"


def show(what, expected, got):
    """The two sides from the first byte on in which they differ."""
    at = next((k for k, pair in enumerate(zip(expected, got)) if pair[0] != pair[1]), min(len(expected), len(got)))
    print(f"  {what}, from byte {at} on: the model has {expected[at:][:SHOWN]!r}")
    print(f"  {what}, from byte {at} on: the program {got[at:][:SHOWN]!r}")


def compare(words, case, said):
    """Whether the program does with a case what the model does."""
    part = {suffix: case.with_suffix(suffix) for suffix in (".args", ".in", ".out", ".said")}
    given = part[".args"].read_bytes().split(b"\n")[:-1]
    out, told, ended = run(words + given, part[".in"], said)
    sides = [("output", part[".out"].read_bytes(), out), ("descriptor 3", part[".said"].read_bytes(), told), ("end", "0 ", ended)]
    if all(expected == got for _, expected, got in sides):
        return True
    print(f"sheets: FAILED case {case.name}, arguments {given[:6]!r}, input {part['.in'].read_bytes()[:SHOWN]!r}")
    for what, expected, got in sides:
        if expected != got:
            show(what, expected, got)
    return False


def main(folder, least):
    words = [word.encode() for word in sys.stdin.read().splitlines()]
    cases = sorted((path.with_suffix("") for path in pathlib.Path(folder).glob("*.args")), key=lambda path: int(path.name))
    with tempfile.TemporaryFile() as file:
        os.dup2(file.fileno(), SAID)
        different = sum(not compare(words, case, SAID) for case in cases)
    print(f"sheets: {len(cases)} cases, {different or 'no'} difference{'s' if different > 1 else ''}")
    return 1 if different or len(cases) < least else 0


sys.exit(main(sys.argv[1], int(sys.argv[2])))
