"""The commands on a pseudo-terminal, as an operator types: terminal.py FOLDER CRATES runs ./list, ./rehearse and ./sheet of
the folder FOLDER, which is not ready, with a rt first in PATH that stands in for the prover and proves so many crates for
./list. One line for each difference; the status is 1 where there is one."""
import os
import pty
import re
import select
import signal
import sys
import time

from heed import heed

failed = []
compared = 0


def same(what, held, shown):
    global compared
    compared += 1
    if not held:
        failed.append(f"{what}: {shown!r}")


def play(folder, words, steps, limit=60):
    """Runs the words on a terminal. A step is what to wait for and what to type then. What was shown, and the status."""
    child, terminal = pty.fork()
    if child == 0:
        os.chdir("/")
        heed(os.path.join(folder, words[0]), [os.path.join(folder, words[0])] + words[1:])
    shown, end = "", time.time() + limit
    todo = list(steps)
    at = 0
    while time.time() < end:
        if todo and todo[0][0] in shown[at:]:
            at = shown.index(todo[0][0], at) + len(todo[0][0])
            os.write(terminal, todo.pop(0)[1])
        if not select.select([terminal], [], [], 0.2)[0]:
            continue
        try:
            got = os.read(terminal, 65536)
        except OSError:
            break
        if not got:
            break
        shown += got.decode().replace("\r\n", "\n")
    else:
        os.kill(child, signal.SIGTERM)
        shown += "\n(it did not end)"
    status = os.waitstatus_to_exitcode(os.waitpid(child, 0)[1])
    os.close(terminal)
    return shown, status


def main(folder, crates):
    shown, status = play(folder, ["list", "--ready"], [(", 2 of", b"\x03")])
    same("^C while it proves: status 130", status == 130, (shown, status))
    os.rmdir(os.path.join(os.environ["STUB"], "busy"))
    shown, status = play(folder, ["list", "--ready"], [])
    steps = re.findall(r"^list: proving (\w+), (\d+) of (\d+)$", shown, re.M)
    same("progress, every crate once", [s[1:] for s in steps] == [(str(n + 1), str(crates)) for n in range(crates)], (shown, status))
    same("progress ends with the program", steps and steps[-1][0] == "night", shown)
    same("it says that it is ready", shown.endswith("list: ready\n") and status == 0, (shown, status))

    shown, status = play(folder, ["list"], [("waiting for a capture", b"\x04")])
    same("./list waits and says so", shown.endswith("Interbus capture\nok 0 refused 0 dropped 0\n") and status == 0, (shown, status))
    shown, status = play(folder, ["list"], [("waiting for a capture", b"\x03")])
    same("^C while it waits: status 130, no totals", status == 130 and "refused" not in shown, (shown, status))

    # each answer comes before the next line is typed
    calls = [("waiting for calls", b"desk.new\n"), ("ok", b"desk.expire 7\n"), ("no 22", b"rem -\n"), ("ok rem=0", b"\x04")]
    shown, status = play(folder, ["rehearse"], calls)
    same("./rehearse answers each line at once", shown.count("\nok\n") == 1 and "\nno 22\n" in shown and "ok rem=" in shown and status == 0, (shown, status))
    shown, status = play(folder, ["rehearse"], [("waiting for calls", b"desk.new\n"), ("ok", b"\x03")])
    same("^C while it rehearses: status 130", status == 130, (shown, status))

    # a sheet that is typed, and a setting that is broken off: the file stays, and nothing is left beside it
    sheet = os.path.join(folder, "typed")
    shown, status = play(folder, ["sheet", "make", "-f", sheet], [("waiting for a text", b"15 48 U8 1 7\n\x04")])
    same("./sheet waits for a text and makes the file", os.path.exists(sheet) and status == 0, (shown, status))
    shown, status = play(folder, ["sheet", "add", "-f", sheet], [("waiting for a line", b"16 48 U8 1 7\n\x03")])
    same("^C while a line is typed: status 130", status == 130, (shown, status))
    shown, status = play(folder, ["sheet", "show", "-f", sheet], [])
    same("./sheet shows what was typed", shown == "15 48 U8 1 7\n" and status == 0, (shown, status))
    beside = [name for name in os.listdir(folder) if "typed" in name]
    same("nothing is left beside the file", beside == ["typed"], beside)

    for line in failed:
        print("commands: FAILED on a terminal,", line)
    print(f"commands: {compared} comparisons on a terminal")
    return 1 if failed or compared < 12 else 0


sys.exit(main(sys.argv[1], int(sys.argv[2])))
