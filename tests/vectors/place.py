"""place.py calls | answers: the call lines of tests/vectors/place_night.calls, and what each must answer: number 3 with
the place of the first faulty 94, the start byte's being 0, through every call that reads a frame and in the receiver's
lines. Each place and each number stands here beside its frame, counted by hand; nothing here looks for a 94."""
from wire import lent, printed, say

LARGEST = 2**64 - 1

# frames that are refused 3, and the place
FAULTY = (
    ("0d 5e 0a", 1),  # the first byte after the start and the last before the end
    ("0d 5e 41 0a", 1),  # T7
    ("0d 5e a1 0f 08 66 34 12 96 5b 0a", 1),  # right after the start
    ("0d 5e 0f 08 66 34 12 96 5b 0a", 1),  # in the first byte's place
    ("0d a1 0f 08 66 34 12 96 5b 5e 0a", 9),  # just before the end
    ("0d a1 0f 08 66 34 12 96 5e 0a", 8),  # in the last byte's place
    ("0d a1 0f 08 66 34 12 5e 5b 0a", 7),  # one before that
    ("0d a1 0f 08 66 5e 41 96 5b 0a", 5),  # the call scripts' example
    ("0d a2 5e 4a 08 11 5e 91 63 7e 0a", 6),  # the manual's example 3 as printed: a right one before it
    # two faulty ones, and more: the first counts
    ("0d a1 5e 41 08 5e 42 12 96 5b 0a", 2),
    ("0d a1 5e 41 5e 42 12 96 5b 0a", 2),
    ("0d a1 0f 08 66 5e 12 96 5b 5e 0a", 5),
    ("0d 5e 0f 08 66 34 12 96 5b 5e 0a", 1),
    ("0d 5e 5e 0a", 1),
    ("0d 5e 5e 5e 5e 5e 5e 5e 0a", 1),
    ("0d 5e 40 5e 4b 5e 4c 5e 4e 5e 9d 5e 9f 0a", 1),
    # right ones before a faulty one, and after it
    ("0d 5e 4a 5e 41 0a", 3),
    ("0d 5e 4d 0f 08 5e 41 0a", 5),
    ("0d 5e 9e 5e 4d 5e 4a 5e 0a", 7),
    ("0d 5e 4a 0f 5e 4d 66 5e 9e 12 5e 41 5b 0a", 10),
    ("0d 5e 41 5e 4a 5e 4d 5e 9e 0a", 1),
    ("0d a1 5e 4a 5e 41 5e 4d 0a", 4),
    ("0d 5e 4a 5e 41 5e 4d 5e 42 5e 9e 5e 0a", 3),
    # a 94 before a right pair's own: the second one is right
    ("0d 5e 5e 4a 0a", 1),
    ("0d 5e 5e 4d 0a", 1),
    ("0d 5e 5e 9e 0a", 1),
    ("0d a1 0f 5e 5e 4a 12 96 5b 0a", 3),
    ("0d 5e 4a 5e 5e 4a 0a", 3),
    ("0d 5e 9e 5e 5e 9e 5e 9e 0a", 3),
    ("0d 5e 5e 5e 4a 0a", 1),
    ("0d 5e 4a 5e 5e 5e 4d 5e 0a", 3),
    # a code that no 94 stands before is a byte like others
    ("0d 4a 5e 0a", 2),
    ("0d 9e 4d 4a 5e 41 4a 0a", 4),
    ("0d 5e 4a 4a 5e 4b 0a", 4),
    ("0d 5e 9e 9e 5e 0a", 4),
    # with what later rows refuse as well: a short message, a wrong remainder, address 0, a type over 9
    ("0d 00 00 ff 66 12 34 5e 0a", 7),
    ("0d 5e 00 00 00 0a", 1),
)

# frames with a faulty 94 that are refused with a lower number, which has no place
LOWER = (
    ("0d a1 5e 41 0d 5b 0a", 2),  # a 13 behind it
    ("0d a1 5e 41 0a 5b 0a", 2),  # a 10
    ("0d a1 0d 5e 41 5b 0a", 2),  # before it
    ("0d a1 0a 5e 41 5b 0a", 2),
    ("0d 0d 5e 0a", 2),
    ("0d 0a 5e 0a", 2),
    ("0d 5e 0d 0a", 2),  # as its next byte
    ("0d 5e 0a 0a", 2),
    ("0d a1 5e 0d 5e 4a 5b 0a", 2),
    ("0d 5e 41 5e 42 0a 5e 43 0d 5e 0a", 2),
    ("0d a1 5e 41 5b", 1),  # no end byte
    ("a1 5e 41 5b 0a", 1),  # no start byte
    ("5e 0a", 1),
    ("0d 5e", 1),
    ("5e", 1),
    ("0a 5e 41 0d", 1),
    ("0d a1 5e 41 0d 5b", 1),  # a 13 between them too
)

# and such as have no faulty one
RIGHT = (
    ("0d 5e 4a 0a", 4),
    ("0d 5e 4a 5e 4d 5e 9e 0a", 4),
    ("0d 5e 9e 9e 0a", 4),
    ("0d 4a 4d 9e 0a", 4),
    ("0d 5e 4a 4a 5e 4d 4d 5e 9e 0a", 4),
    ("0d 5e 4a 5e 4d 5e 9e 5e 9e 5e 9e 5e 9e 0a", 7),
)


def hexed(frame):
    return frame.replace(" ", "")


def refusal(number, place=None):
    return f"no {number}" if place is None else f"no {number} place={place}"


def each(frame, told, room=4):
    """The frame through each call that reads one, none of which it changes anything of."""
    for call in ("read", "desk.reply", "bench.tele"):
        say(f"{call} {frame} {lent(room)}", f"{told} buf={lent(room)}")


def desk(tickets="161:7:15:4:102:60000:0:0", turn=162, closed="-"):
    say("desk.dump", f"ok turn={turn} tickets={tickets} closed={closed}")


def bench():
    say("bench.dump", "ok address=15 regs=102:3:7:3412")


def fed(chunks, *lines):
    """Chunks of bytes as hex, the lines coming with the last of them."""
    for chunk in chunks[:-1]:
        say(f"rx.feed {chunk or '-'}", "ok lines=")
    say(f"rx.feed {chunks[-1]}", "ok lines=" + ";".join(lines))


def totals(ok, refused, dropped, open=None):
    first = "" if open is None else rf"at {open} open\n"
    say("rx.end", rf"ok text={first}ok {ok} refused {refused} dropped {dropped}\n")


# ---- the call scripts' example

say("desk.new", "ok")
say("desk.open 7 15 4 102 - 1000 3 0 000000000000000000000000", "ok address=161 n=8 count=1 buf=0d0fa104669ee60a00000000")
say("desk.reply 0da10f08665e41965b0a 0000", "no 3 place=5 buf=0000")
say("desk.cancel 7 161 40", "ok job=7 address=161 folder=3")

# ---- without a bench, and before a ticket is open: ahead of 17, and of 61 where the last one was cancelled

say("bench.tele 0d5e410a eeee", "no bench")
say("desk.reply 0da20f08665e41965b0a eeee", "no 3 place=5 buf=eeee")
say("desk.reply 0da10f08665e41965b0a eeee", "no 3 place=5 buf=eeee")
say("desk.reply 0da10f08663412965b0a eeee", "no 61 buf=eeee")

# ---- each call, on a desk and on a bench that stay as they are

say("desk.new", "ok")
say(f"desk.open 7 15 4 102 - 60000 0 0 {lent(12)}", "ok address=161 n=8 count=1 buf=0d0fa104669ee60aeeeeeeee")
say("bench.new 15", "ok")
say("bench.add 102 3 7", "ok")
say("bench.set 102 4660", "ok")
for frame, place in FAULTY:
    each(hexed(frame), refusal(3, place))
desk()
bench()
for frame, number in (*LOWER, *RIGHT):
    each(hexed(frame), refusal(number))
desk()
bench()
for frame, place in FAULTY:
    each(hexed(frame), refusal(3, place), room=0)  # ahead of 6 and 37

# the bench's own telegram and one for another module, each with a 94 put in: ahead of 35, 36 and 37
for frame, place in (("0d 0f a2 04 5e 66 c7 b6 0a", 4), ("0d 10 a2 04 66 5e 0a", 5), ("0d 0f a2 08 66 5e 82 db 0a", 5)):
    each(hexed(frame), refusal(3, place))
bench()

# ---- every byte after a 94

for after in range(256):
    told = {74: refusal(4), 77: refusal(4), 158: refusal(4), 10: refusal(2), 13: refusal(2)}.get(after, refusal(3, 2))
    each(f"0da15e{after:02x}08660a", told)

# ---- a 94 at each place of 12, alone and with another one behind it

for first in range(1, 11):
    body = ["41"] * 10
    body[first - 1] = "5e"
    each("0d" + "".join(body) + "0a", refusal(3, first))
    for second in range(first + 1, 11):
        two = list(body)
        two[second - 1] = "5e"
        say(f"read 0d{''.join(two)}0a {lent(1)}", f"no 3 place={first} buf=ee")
# and with right pairs all before it, after it and on both sides
for before in range(6):
    for after in range(6):
        each("0d" + "5e9e" * before + "5e41" + "5e4a" * after + "0a", refusal(3, 2 * before + 1))

# ---- long frames: the reader keeps its order, whatever the length

for length in (493, 494, 495, 600):
    filler = length - 4
    for frame, place in (
        ("0d" + "5e41" + "41" * filler + "0a", 1),
        ("0d" + "41" * filler + "5e41" + "0a", length - 3),
        ("0d" + "41" * filler + "415e" + "0a", length - 2),
        ("0d" + "41" * 255 + "5e" + "41" * (filler - 254) + "0a", 256),
        ("0d" + "41" * 254 + "5e" + "41" * (filler - 254) + "5e" + "0a", 255),
        ("0d" + "5e9e" * 200 + "5e" + "41" * (filler - 400) + "41" + "0a", 401),
    ):
        assert len(frame) == 2 * length
        each(frame, refusal(3, place))
    each("0d" + "41" * filler + "5e0d" + "0a", refusal(2))
each("0d" + "41" * 3900 + "5e0a", refusal(3, 3901))
desk()
bench()

# ---- the receiver's lines: the place counts from the frame's own start byte

for place, (frame, wrong) in enumerate(FAULTY, 990):
    frame = hexed(frame)
    behind = 2 * wrong + 2  # digits: the cut is behind the 94
    for chunks in ((frame,), (frame[:behind], frame[behind:]), (frame[: behind - 2], "", "5e", frame[behind:])):
        say(f"rx.new {place}", "ok")
        fed(chunks, f"at {place} refused 3 in {wrong}")
        totals(0, 1, 0)
    say(f"rx.new {place}", "ok")
    fed(("5e0a41" + frame + "5e0d",), f"at {place + 3} refused 3 in {wrong}")
    totals(0, 1, 0, open=place + 4 + len(frame) // 2)
    fed((frame[2:],), f"at {place + 4 + len(frame) // 2} refused 3 in {wrong}")
    totals(0, 2, 0)

# byte by byte
say("rx.new 0", "ok")
fed(("0d", "5e", "4a", "5e", "5e", "4a", "0a"), "at 0 refused 3 in 3")
fed(("0d", "a2", "5e", "0a"), "at 7 refused 3 in 2")
totals(0, 2, 0)
# a stray 13 drops the frame and a stray 10 ends it: what comes behind has a place of its own
say("rx.new 0", "ok")
fed(("0da15e410d5b0a",), "at 0 dropped", "at 4 refused 4")
fed(("0d5e0d5e0a",), "at 7 dropped", "at 9 refused 3 in 1")
fed(("0da15e0a5e410a",), "at 12 refused 3 in 2")
totals(0, 3, 2)
# several in one chunk, right frames between them
say("rx.new 0", "ok")
fed(
    ("0da20f0330482f0a" + "0da20f5e030a" + "0da20f0330482f0a" + "0d5e4a5e0a" + "0d0a" + "0d5e5e0a",),
    "at 0 ok 162 15 3 48 0", "at 8 refused 3 in 3", "at 14 ok 162 15 3 48 0", "at 22 refused 3 in 3", "at 27 refused 4",
    "at 29 refused 3 in 1",
)
totals(2, 4, 0)

# ---- 493 and 494 bytes are read; 495 and more are 5, without a place, whatever is in them

for length in (493, 494, 495):
    filler = length - 4
    for frame, place in (
        ("0d" + "5e41" + "41" * filler + "0a", 1),
        ("0d" + "41" * filler + "5e41" + "0a", length - 3),
        ("0d" + "41" * filler + "415e" + "0a", length - 2),
        ("0d" + "41" * 255 + "5e" + "41" * (filler - 254) + "0a", 256),
        ("0d" + "5e9e" * 200 + "5e5e" + "4a" + "41" * (filler - 401) + "0a", 401),
    ):
        assert len(frame) == 2 * length
        line = f"at 7 refused 3 in {place}" if length < 495 else "at 7 refused 5"
        for cut in sorted({0, 1, place, place + 1, 492, length - 1}):
            say("rx.new 7", "ok")
            fed((frame[: 2 * cut], frame[2 * cut :]), line)
            totals(0, 1, 0)
# a runaway with faulty ones that a second start drops, and one that stays open
say("rx.new 0", "ok")
fed(("0d" + "5e" * 600, "0d5e0a"), "at 0 dropped", "at 601 refused 3 in 1")
fed(("0d" + "5e" * 600,))
totals(0, 1, 1, open=604)
# at the largest places
say(f"rx.new {LARGEST - 5}", "ok")
fed(("0da15e0a",), f"at {LARGEST - 5} refused 3 in 2")
say("rx.feed 0d5e0a", "no 60 taken=0 lines=")
totals(0, 1, 0)

printed()
