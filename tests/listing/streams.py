"""./list on captures that are still coming and on pipes that take its listing slowly, against the papers' listing.

    streams.py    one line for each difference; the status is 1 where there is one
"""
import fcntl
import glob
import os
import select
import signal
import subprocess
import tempfile
import time

from lister import listing, night

LIST = os.path.join(os.path.dirname(__file__), "../../list")
PATIENCE = 60  # seconds, on a busy machine
GOOD = bytes.fromhex("0da20f0330482f0a")
failed = []
compared = 0


def same(what, got, wanted):
    global compared
    compared += 1
    if got != wanted:
        failed.append(f"{what}: {got[-300:]!r} instead of {wanted[-300:]!r}")


def program(command):
    """The number of the program that ./list runs, once it runs."""
    end = time.time() + PATIENCE
    while time.time() < end:
        above = {}
        for path in glob.glob("/proc/[0-9]*/stat"):
            try:
                number, _, rest = open(path).read().rpartition(")")
                words = open(path[: -len("stat")] + "cmdline", "rb").read()
            except OSError:
                continue
            above[int(number.split()[0])] = int(rest.split()[1]), words
        for number, (parent, words) in above.items():
            while b"crates/night/out/night" in words and parent in above:
                if parent == command.pid:
                    return number
                parent = above[parent][0]
        time.sleep(0.01)
    raise TimeoutError("./list runs no program")


class Reader:
    """Takes what a command writes, as far as it has come."""

    def __init__(self, pipe):
        self.pipe = pipe

    def take(self, size, patience=PATIENCE):
        """So many bytes, or what came in the meantime."""
        got, end = b"", time.time() + patience
        while len(got) < size and select.select([self.pipe], [], [], max(0, end - time.time()))[0]:
            more = os.read(self.pipe, size - len(got))
            if not more:
                break
            got += more
        return got.decode()


def comes(what, reader, send, steps):
    """Each step's bytes one after another, its text before the next step's bytes, and no text before its last byte."""
    same(f"{what}, before any byte", reader.take(17), "Interbus capture\n")
    for sent, text in steps:
        for byte in sent[:-1]:
            send(bytes([byte]))
        same(f"{what}, too early", reader.take(1, 0.05), "")
        send(sent[-1:])
        same(what, reader.take(len(text)), text)


# a frame, noise, one that is dropped by the next, one that runs away, one without a message, one with a bad 94; the next
# stays open
STEPS = (
    (GOOD, "at 0 ok 162 15 3 48 0\n"),
    (b"\x0aU\x0d\x05\x0d", "at 10 dropped\n"),
    (bytes(500) + b"\x0a", "at 12 refused 5\n"),
    (b"\x0d\x0a", "at 514 refused 4\n"),
    (b"\x0dU\x5e\x5e\x4a\x0a", "at 516 refused 3 in 2\n"),
    (b"\x0dU", ""),
)
ENDING = "at 522 open\nok 1 refused 3 dropped 1\n"


def pause(number):
    """As ^Z and fg do."""
    os.kill(number, signal.SIGSTOP)
    time.sleep(0.005)
    os.kill(number, signal.SIGCONT)


def live():
    with subprocess.Popen([LIST], stdin=subprocess.PIPE, stdout=subprocess.PIPE, bufsize=0) as command:
        reader = Reader(command.stdout.fileno())
        comes("a live capture", reader, command.stdin.write, STEPS)
        pause(program(command))
        same("a live capture that was stopped", reader.take(1, 0.05), "")
        command.stdin.close()
        same("a live capture's end", reader.take(1000), ENDING)
    same("a live capture's status", str(command.returncode), "0")


def followed():
    """README's command for a capture that grows."""
    with tempfile.NamedTemporaryFile(buffering=0) as line:
        tail = subprocess.Popen(["tail", "-c", "+1", "-f", line.name], stdout=subprocess.PIPE)
        with subprocess.Popen([LIST], stdin=tail.stdout, stdout=subprocess.PIPE, bufsize=0) as command:
            tail.stdout.close()
            reader = Reader(command.stdout.fileno())
            comes("tail -f", reader, line.write, STEPS)
            tail.terminate()
            tail.wait()
            same("tail -f, its end", reader.take(1000), ENDING)


def slow(stopped):
    """A pipe of one page whose reader takes odd parts. A program that is stopped and goes on has written only a part."""
    capture = night(65537 if stopped else 200000, 5)
    what = "a slow pipe, the program stopped now and then" if stopped else "a slow pipe"
    pipe, into = os.pipe()
    fcntl.fcntl(into, 1031, 4096)  # F_SETPIPE_SZ
    with tempfile.TemporaryFile() as line:
        line.write(capture)
        line.seek(0)
        command = subprocess.Popen([LIST], stdin=line, stdout=into)
    os.close(into)
    reader = Reader(pipe)
    got = reader.take(17)
    number = program(command)
    parts = (1, 700, 4096, 13, 2000)
    more, turn = "some", 0
    while more:
        time.sleep(0.001)
        if stopped and turn < 20:
            pause(number)
        more = reader.take(parts[turn % len(parts)])
        got += more
        turn += 1
    os.close(pipe)
    same(what, got, listing(capture))
    same(f"{what}: status", str(command.wait()), "0")


def main():
    live()
    followed()
    slow(False)
    slow(True)
    for line in failed:
        print("listing: FAILED,", line)
    print(f"listing: {compared} comparisons on streams")
    return 1 if failed or compared < 34 else 0


if __name__ == "__main__":
    raise SystemExit(main())
