"""receiver.py calls | answers: the call lines of tests/vectors/receiver_night.calls, and what each must answer, worked out
apart from the library: all bytes since `rx.new` are kept and joined, and each answer is looked up in one reading of them."""
import re

from wire import bad, framed, longest, printed, remainder, say, script

LARGEST = 2**64 - 1
LONGEST = (65536 - len("rx.feed ")) // 2  # bytes: no call line holds more


def judged(frame):
    """What the listing says of a frame, from its 13 to its 10."""
    message = re.sub(rb"\x5e([\x4a\x4d\x9e])", lambda pair: bytes([pair[1][0] - 64]), frame[1:-1])
    bad = re.search(rb"\x5e(?![\x4a\x4d\x9e])", frame[1:-1])
    faults = (
        (5, len(frame) > 494),
        (f"3 in {bad.start() + 1}" if bad else 3, bad),
        (4, len(message) < 6),
        (5, len(message) > 246),
        (7, remainder(message) != 0),
        (8, 0 in message[:2]),
        (9, message[2:3] > b"\x09"),
    )
    number = next((number for number, holds in faults if holds), None)
    return f"refused {number}" if number else "ok {} {} {} {}".format(*message[:4]) + f" {len(message) - 6}"


class Capture:
    """The bytes since `rx.new`, the first of which has that place."""

    def __init__(self, place):
        self.place, self.bytes = place, b""

    def lines(self):
        """Each line, and how many bytes there are up to the one that ends it; an open frame's ends with the capture."""
        for found in re.finditer(rb"\r[^\r\n]*", self.bytes):
            end = self.bytes[found.end():found.end() + 1]
            said = {b"\n": judged(found[0] + end), b"\r": "dropped", b"": "open"}[end]
            yield found.end() + 1, f"at {self.place + found.start()} {said}"

    def feed(self, chunk):
        before, after = len(self.bytes), len(self.bytes) + len(chunk)
        if self.place + after > LARGEST:
            return "no 60 taken=0 lines="
        self.bytes += chunk
        return "ok lines=" + ";".join(line for end, line in self.lines() if before < end <= after)

    def end(self):
        lines = [line for _, line in self.lines()]
        kinds = " ".join(f"{kind} {sum(line.split()[2] == kind for line in lines)}" for kind in ("ok", "refused", "dropped"))
        return "ok text=" + "".join(line + r"\n" for line in lines if line.endswith("open")) + kinds + r"\n"


capture = Capture(0)


def new(place=0):
    global capture
    capture = Capture(place)
    say(f"rx.new {place}", "ok")


def feed(*chunks):
    for chunk in chunks:
        say(f"rx.feed {chunk.hex() or '-'}", capture.feed(chunk))


def end():
    say("rx.end", capture.end())


def night(*chunks, place=0):
    new(place)
    feed(*chunks)
    end()


def cut(data, *places):
    bounds = [0, *places, len(data)]
    return [data[a:b] for a, b in zip(bounds, bounds[1:])]


def each(data):
    return cut(data, *range(1, len(data)))


# ---- the telegrams

ACK = bytes.fromhex("0da20f0330482f0a")  # the manual's
SAMPLE = ACK + bytes.fromhex("0d0a0d05")  # 01's
F493 = framed(longest(bytes([10, 13, 9, 94])))
F494 = framed(longest(bytes([10, 13, 10, 94])))  # a type over 9
ALTERED = F494[:301] + framed(b"\r")[1:3] + F494[303:]
BROKEN = F494[:-2] + b"\x41\n"  # its last 94 is followed by 65
FRAMES = {
    F493: "ok 10 13 9 94 240",
    F494: "refused 9",
    ALTERED: "refused 7",
    BROKEN: "refused 3 in 491",
    b"\r" + bytes(492) + b"\n": "refused 5",
}
assert [len(frame) for frame in FRAMES] == [493, 494, 494, 494, 494]
assert [judged(frame) for frame in FRAMES] == list(FRAMES.values())

# ---- before the first rx.new

end()
feed(b"\r", b"\n")
bad("rx.new", "rx.new -", "rx.new -1", f"rx.new {LARGEST + 1}", "rx.new 0 0", "rx.feed", "rx.feed 0", "rx.feed 0D")
bad("rx.feed 0d 0a", "rx.end 0", "rx.end ", "rx.", "rx", "rx.open")
end()

# ---- the papers' own examples

examples = len(script)
night(bytes.fromhex("0da20f030d"), bytes.fromhex("30482f0a0d"))
night(SAMPLE)
# the script must agree with the papers before it may judge the library
assert [answer for _, answer in script[examples:]] == [
    "ok", "ok lines=at 0 dropped", "ok lines=at 4 refused 4", r"ok text=at 9 open\nok 0 refused 1 dropped 1\n",
    "ok", "ok lines=at 0 ok 162 15 3 48 0;at 8 refused 4", r"ok text=at 10 open\nok 1 refused 1 dropped 0\n",
]

# ---- cut at every place; what is left to say is asked in the middle and changes nothing, as empty chunks do

for place in range(len(SAMPLE) + 1):
    new(10**place)
    first, second = cut(SAMPLE, place)
    feed(first)
    end()
    feed(b"", second, b"")
    end()
    end()
night(*each(SAMPLE))
for chunks in ([], [b""], [b"\r\r\n"], each(b"\r\r\n"), [b"\n\n", b"", b"\r"], [b"\r\n" * 3], [b"\0\x5e", b"\xff\r\x5e", b"\n"]):
    night(*chunks)

# ---- 493, 494 and 495 bytes; a longer one is refused 5 whatever else is wrong with it

LONGER = [frame[:-1] + b"\0\n" for frame in (F493, F494, BROKEN)]
for frame in (*FRAMES, *LONGER):
    for places in ((), (1,), (2, 300), (492,), (493,), (494,), range(100, 500, 100)):
        night(*cut(frame, *places), ACK)

# ---- runaways: closed, dropped, left open

RUNAWAY = b"\r" + b"\x5e" * 600
for last in (b"\n", b"\r", b"\r" + ACK, b""):
    night(RUNAWAY + last)
    night(*cut(RUNAWAY, 1, 493), last)
new()
feed(b"\r", *[b"A" * 2000] * 2)
end()
feed(b"\n", ACK)
end()

# ---- 60: the largest place is reached and not passed; after a refusal the same receiver goes on

for over in (0, 1):
    night(ACK + bytes(over), place=LARGEST - len(ACK))
    night(bytes(over), b"", place=LARGEST)
new(LARGEST - 5)
feed(b"\r\r", b"\n" * 4)
end()
feed(b"\0\0\n", b"\r", b"")
end()
feed(b"\n")
end()

# ---- the driver's longest chunk, one with a long answer at the largest places, and the longest that a call line can have

night(ACK * 500)
new(LARGEST - 1 - 4092)
feed(b"\r")
feed(b"\r" * 4092, b"\n")
end()
new()
feed(b"\r")
bad("rx.feed " + "0d" * (LONGEST + 1))
feed(b"A" * (LONGEST - len(ACK) - 1) + b"\n" + ACK)
end()

printed()
