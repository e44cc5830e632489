"""The night listing by the papers alone, to hold ./list against. It shares no code with the library.

    lister.py list < capture       its listing
    lister.py night LENGTH SEED    a night of so many bytes, in which frames also run away
    lister.py bytes FILE.hex       the bytes that it spells, one by one
"""
import os
import re
import sys

sys.path.insert(0, os.path.join(os.path.dirname(__file__), "../../examples/night"))
from make import Night, remainder  # noqa: E402, the sample night's own


def told(frame):
    """What its line says of a frame that a 10 closed: over 494 bytes come first, then the lowest number."""
    if len(frame) > 494:
        return "refused 5"
    bad = re.search(rb"\x5e[^\x4a\x4d\x9e]", frame, re.S)
    if bad:
        return f"refused 3 in {bad.start()}"
    message = re.sub(rb"\x5e(.)", lambda pair: bytes([pair[1][0] - 64]), frame[1:-1], flags=re.S)
    if len(message) < 6:
        return "refused 4"
    if len(message) > 246:
        return "refused 5"
    if remainder(message):
        return "refused 7"
    if 0 in message[:2]:
        return "refused 8"
    if message[2] > 9:
        return "refused 9"
    return "ok %d %d %d %d" % tuple(message[:4]) + f" {len(message) - 6}"


def events(capture):
    """The place of each 13 and what its line says, by the next 10 or 13."""
    for start in re.finditer(rb"\r", capture):
        place = start.start()
        end = re.compile(rb"[\r\n]").search(capture, place + 1)
        if not end:
            yield place, "open"
        elif end[0] == b"\r":
            yield place, "dropped"
        else:
            yield place, told(capture[place : end.end()])


def line(place, what):
    return f"at {place} {what}\n"


def totals(whats):
    kinds = [what.split()[0] for what in whats]
    return "ok %d refused %d dropped %d\n" % tuple(kinds.count(kind) for kind in ("ok", "refused", "dropped"))


def listing(capture):
    found = list(events(capture))
    return "Interbus capture\n" + "".join(line(*event) for event in found) + totals(what for _, what in found)


def runaway(dice):
    """A frame around the longest one and far over it, with a bad 94 now and then; a 10 closes it, or it stays open."""
    size = dice.one_of((490, 491, 492, 493, 494, 800, 3000))
    return b"\r" + bytes(dice.one_of((0x55, 0x5E, 0x4A, 0x9E)) for _ in range(size)) + dice.one_of((b"\n", b""))


def night(length, seed):
    made = Night(seed)
    while len(made.line) < length:
        made.turn()
        if made.dice.below(20) == 0:
            made.line += runaway(made.dice)
    return bytes(made.line[:length])


def spelled(path):
    """The bytes of a .hex file: 0D is one byte, 300*0D three hundred, 300*5E9E so many pairs; '#' starts a comment."""
    for text in open(path):
        for word in text.split("#")[0].split():
            times, _, byte = word.rpartition("*")
            yield from bytes.fromhex(byte) * int(times or 1)


if __name__ == "__main__":
    if sys.argv[1] == "list":
        sys.stdout.write(listing(sys.stdin.buffer.read()))
    elif sys.argv[1] == "bytes":
        for byte in spelled(sys.argv[2]):
            os.write(1, bytes([byte]))
    else:
        sys.stdout.buffer.write(night(int(sys.argv[2]), int(sys.argv[3])))
