"""Writes the call lines that crates/rehearsal is run on (its `stdin`): the worked examples of the papers, both sides of
every limit of a telegram, each number alone and each pair of numbers together, faults at the first and the last place.
The answers that it is held to (its `stdout`) are those of tests/model, which was written from the papers alone."""

SPECIAL = (10, 13, 94)


def remainder(data):
    rest = int.from_bytes(data, "big") << 16
    while rest.bit_length() > 16:
        rest ^= 0x11021 << (rest.bit_length() - 17)
    return rest


def sealed(head):
    return head + remainder(head).to_bytes(2, "big")


def framed(message):
    body = b"".join(bytes([94, b + 64]) if b in SPECIAL else bytes([b]) for b in message)
    return b"\x0d" + body + b"\x0a"


def text(data):
    return data.hex() or "-"


def lent(count):
    return bytes((0xA1 + i % 91) for i in range(count))


def read(frame, room):
    print("read", text(frame), text(lent(room)))


def write(dest, src, sort, register, data, room):
    print("write", dest, src, sort, register, text(data), text(lent(room)))


def message(dest=15, src=162, sort=5, register=48, data=b"\x03"):
    return sealed(bytes([dest, src, sort, register]) + data)


# the examples of the call format itself
for line in (
    "rem 0fa20466", "read 0d0fa204 ffff", "val.put 4 -2 000000", "cat 104 50",
    "sheet.write 15:48:3:1:3412;15:50:1:2:0102 000000000000000000000000000000000000000000000000000000000000000000000000",
    "sheet.check 010002000c0000001c0000000f300301000000000f320102020000003412",
    "sheet.read 010002000c0000001c0000000f300301000000000f3201020200000034120102 1 00000000",
):
    print(line)

# T1 to T4, and the telegrams of the manual's sections 2.2 to 2.4: example 3's reply as printed, then converted
for data in ("0fa20466", "0fa2053003", "0aa205238813", "a20a08115e91"):
    print("rem", data)
for frame in (
    "0d0fa20466c7b60a", "0d0fa2053003bce10a", "0da20f0330482f0a", "0d5e4aa2052388133b550a", "0da25e4a0323818d0a",
    "0d5e4aa2041175830a", "0da25e4a08115e91637e0a", "0da25e4a08115e9e91637e0a", "0d5e4a4205325e4d9cf00a",
):
    read(bytes.fromhex(frame), 4)
write(15, 162, 5, 48, b"\x03", 12)
write(10, 162, 5, 0x23, b"\x88\x13", 12)
write(10, 162, 4, 0x11, b"", 12)
write(162, 10, 8, 0x11, b"\x5e\x91", 12)

# T5 to T8
read(bytes.fromhex("0d5e4a4205325e4d9cf00a"), 3)
read(b"\x0d\x0a", 3)
read(bytes.fromhex("0d5e410a"), 3)
read(framed(bytes.fromhex("0fa20466c7b7")), 3)

# the shortest frames
for frame in (b"", b"\x0d", b"\x0a", b"\x0d\x0a", b"\x0a\x0d", b"\x0d\x0d", b"\x0d\x0d\x0a", b"\x0d\x5e\x0a"):
    read(frame, 2)

# both sides: 5 and 6 message bytes, 240 and 241 data bytes, buffers of the data's length and one less
read(framed(message(data=b"")[:5]), 8)
read(framed(message(data=b"")), 0)
for count in (239, 240, 241):
    data = bytes((i * 7 + 3) % 256 for i in range(count))
    telegram = framed(message(data=data))
    for room in (count - 1, count, count + 1):
        read(telegram, room)
    for room in (len(telegram) - 1, len(telegram), len(telegram) + 1):
        write(15, 162, 5, 48, data, room)
special = bytes([94] * 240)
write(10, 13, 9, 94, special, 493)
write(10, 13, 9, 94, special, 492)
read(framed(sealed(bytes([10, 13, 9, 94]) + special)), 240)

# addresses and types at their limits
for dest, src, sort in ((0, 162, 4), (15, 0, 4), (0, 0, 4), (255, 255, 9), (1, 1, 0), (15, 162, 9), (15, 162, 10), (15, 162, 255)):
    read(framed(message(dest, src, sort)), 4)
    write(dest, src, sort, 48, b"\x03", 16)

# each number alone and each pair together: the lower number is the answer, wherever its fault stands


def faulty(faults, late):
    head = bytes([0 if 8 in faults else 15, 162, 77 if 9 in faults else 5, 48])
    data = bytes(241 if 5 in faults else 8)
    whole = sealed(head + data)
    if 4 in faults:
        whole = whole[:5]
    if 7 in faults:
        place = len(whole) - 1 if late else 3
        whole = whole[:place] + bytes([whole[place] ^ 1]) + whole[place + 1:]
    body = framed(whole)[1:-1]
    if 3 in faults:
        body = body + b"\x5e" if late else b"\x5e\x41" + body
    if 2 in faults:
        body = body + b"\x0d" if late else b"\x0a" + body
    frame = b"\x0d" + body + b"\x0a"
    if 1 in faults:
        frame = frame[:-1] if late else frame[1:]
    return frame


for late in (False, True):
    for a in range(1, 10):
        for b in range(a, 10):
            faults = {a, b}
            read(faulty(faults, late), 3 if 6 in faults else 300)

# where a substitution broke: the first faulty 94 right after the start, just before the end, of two, after a right one and
# before one, with a 10 or 13 too (2, without a place), without an end (1), past what a telegram has; then at the desk, on a
# bench and in the receiver's lines
BROKEN = (
    "0d5e0a", "0d5ea10f08663412965b0a", "0da10f08663412965b5e0a", "0da15e41085e4212965b0a", "0da10f08665e12965b5e0a", "0d5e4a5e410a",
    "0d5e9e5e4d5e4a5e0a", "0da15e415e4a0a", "0d5e5e4a0a", "0da10f5e5e4a12965b0a", "0d5e4a5e5e4a0a", "0d5e5e0a", "0d5e4a4a0a",
)
LOWER = ("0da15e410d5b0a", "0da10a5e415b0a", "0d5e0d0a", "0d5e0a0a", "0da15e415b", "5e410a")
for frame in BROKEN + LOWER:
    read(bytes.fromhex(frame), 3)
LAST = [b"\x0d" + bytes([65] * (length - 3)) + b"\x5e\x0a" for length in (258, 493, 494, 495, 600)]
for frame in LAST:
    read(frame, 0)
print("desk.open 7 15 4 102 - 1000 0 0", text(lent(8)))
print("bench.new 15")
for frame in [bytes.fromhex(frame) for frame in BROKEN + LOWER] + LAST:
    print("desk.reply", text(frame), text(lent(2)))
    print("bench.tele", text(frame), text(lent(2)))
    print("rx.feed", text(frame[:-2]))
    print("rx.feed", text(frame[-2:]))
    print("rx.end")
    print("rx.new 7")
print("desk.dump")

# the writer's order is 5, 8, 9, 6
for faults in ({5}, {8}, {9}, {6}, {5, 8}, {5, 9}, {5, 6}, {8, 9}, {8, 6}, {9, 6}, {5, 8, 9, 6}):
    write(0 if 8 in faults else 15, 162, 10 if 9 in faults else 5, 48, bytes(241 if 5 in faults else 2), 3 if 6 in faults else 600)

# values at their limits, every refusal number of them, and the catalogue
for kind, size, low, high in ((1, 1, 0, 255), (2, 1, -128, 127), (3, 2, 0, 65535), (4, 2, -32768, 32767), (5, 4, 0, 2**32 - 1), (6, 4, -2**31, 2**31 - 1), (7, 8, 0, 2**64 - 1)):
    for value in (low, low - 1, high, high + 1):
        if -2**63 <= value < 2**64:
            print("val.put", kind, value, text(lent(size + 1)))
    print("val.put", kind, high, text(lent(size - 1)))
    print("val.get", kind, text(bytes([255] * size)), 0)
    print("val.get", kind, text(lent(size * 2)), 1)
    print("val.get", kind, text(lent(size * 2)), 2)
    print("val.get", kind, text(lent(size * 2)), 2**63)
    print("val.get", kind, text(lent(size + 1)), 0)
print("val.get 4 0080 0")
print("val.get 3 5e91 0")
for line in ("val.get 0 00 0", "val.get 8 00 0", "val.get 1 - 0", "val.put 0 0 00", "val.put 8 999 -", "cat 103 16", "cat 116 62", "cat 104 19", "cat 104 20", "cat 0 0"):
    print(line)

# lines that are no calls
for line in ("", "rem", "rem 0", "rem 0G", "rem 0FA2", "rem 00 ", " rem 00", "rem  00", "read 0d0a", "write 256 1 1 1 - -", "write 1 1 1 1 -", "val.get 1 00 18446744073709551616", "val.put 1 - 00", "val.put 1 +1 00", "val.put 1 -0 00", "nothing", "rem 00 00", "sheet.check", "sheet.write 256:48:1:1:01 -"):
    print(line)
