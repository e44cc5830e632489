"""sheet.py calls | answers: the call lines of tests/vectors/sheet_night.calls, and what each must answer. Which number is
told stands here beside each list of settings and each sheet, worked out by hand from the papers; nothing here reads a sheet
or judges one. Only right sheets are put together, and a wrong one is such a sheet with bytes changed at places that stand
here as well."""
import itertools

from wire import LINE, SIZES, WRAP, bad, changed, laid, lent, little, named, printed, say, script, text

LARGEST = 2**64 - 1

# ---- the calls


def written(settings, room=None):
    """The writer takes these, into so many bytes or the very length."""
    sheet = laid(settings)
    room = len(sheet) if room is None else room
    say(f"sheet.write {named(settings)} {lent(room)}", f"ok n={len(sheet)} buf={lent(room, sheet)}")
    return sheet


def unwritten(number, settings, room=4):
    say(f"sheet.write {named(settings)} {lent(room)}", f"no {number} buf={lent(room)}")


def right(sheet, count):
    say(f"sheet.check {text(sheet)}", f"ok count={count}")


def wrong(number, sheet, index=0, room=2):
    """A sheet that is refused, whatever is asked of it."""
    say(f"sheet.check {text(sheet)}", f"no {number}")
    say(f"sheet.read {text(sheet)} {index} {lent(room)}", f"no {number} buf={lent(room)}")


def either(number, sheet):
    """The same, checked and read by turns, where there are many of a sort."""
    if len(script) % 2:
        say(f"sheet.check {text(sheet)}", f"no {number}")
    else:
        unread(number, sheet, 0, 2)


def read(sheet, index, setting, room=None):
    module, register, kind, count, value = setting
    room = len(value) if room is None else room
    said = f"ok module={module} reg={register} kind={kind} count={count} n={len(value)} buf={lent(room, value)}"
    say(f"sheet.read {text(sheet)} {index} {lent(room)}", said)


def unread(number, sheet, index, room=4):
    say(f"sheet.read {text(sheet)} {index} {lent(room)}", f"no {number} buf={lent(room)}")


def whole(settings):
    """Written, checked, and every setting read back."""
    sheet = written(settings)
    right(sheet, len(settings))
    for index, setting in enumerate(settings):
        read(sheet, index, setting)
    return sheet


def refused_both(number, settings):
    """Settings that the writer refuses, whatever the room, and a sheet that has them as they stand."""
    sheet = laid(settings)
    unwritten(number, settings)
    if len(sheet) > 100:  # its lines are long
        say(f"sheet.check {text(sheet)}", f"no {number}")
    else:
        unwritten(number, settings, len(sheet) + 1)
        wrong(number, sheet)


# ---- the call scripts' example

say(
    "sheet.write 15:48:3:1:3412;15:50:1:2:0102 000000000000000000000000000000000000000000000000000000000000000000000000",
    "ok n=32 buf=010002000c0000001c0000000f300301000000000f320102020000003412010200000000",
)
say("sheet.check 010002000c0000001c0000000f300301000000000f320102020000003412", "no 70")
say(
    "sheet.read 010002000c0000001c0000000f300301000000000f3201020200000034120102 1 00000000",
    "ok module=15 reg=50 kind=1 count=2 n=2 buf=01020000",
)

# ---- the empty sheet: 12 bytes, and not one less or more

EMPTY = bytes.fromhex("0100 0000 0c000000 0c000000")
assert laid(()) == EMPTY
for room in (0, 1, 11):
    unwritten(57, (), room)
for room in (12, 13, 40):
    written((), room)
right(EMPTY, 0)
for index in (0, 1, LARGEST):
    unread(56, EMPTY, index, 0)
    unread(56, EMPTY, index, 240)
for length in range(12):
    wrong(65, EMPTY[:length])
for more in ("00", "01", "ff", "0000", "00" * 8, "0f30030100000000"):
    wrong(70, EMPTY + bytes.fromhex(more))
wrong(67, changed(EMPTY, (2, "01")))  # a record, and the values still at 12
wrong(67, changed(EMPTY, (2, "01"), (8, "14")))  # a record, and none there
wrong(67, changed(EMPTY, (2, "01"), (8, "14")) + bytes(7))
wrong(69, changed(EMPTY, (2, "01"), (8, "14")) + bytes(8))  # a record of noughts: module 0
wrong(68, changed(EMPTY, (2, "02"), (8, "1c")) + bytes(16))  # two: equal ones
wrong(67, changed(EMPTY, (2, "02"), (8, "1c")) + bytes(15))
wrong(67, changed(EMPTY, (8, "14")) + bytes(8))  # no record, and the values at 20
wrong(67, changed(EMPTY, (8, "0d")) + bytes(1))
wrong(67, changed(EMPTY, (4, "0d")))
wrong(66, changed(EMPTY, (0, "02")))

# ---- four records, of four sizes; the records are at 12, 20, 28 and 36, the values at 44, and the sheet has 60 bytes

FOUR = (
    (15, 48, 3, 1, bytes.fromhex("3412")),
    (15, 50, 1, 2, bytes.fromhex("0102")),
    (16, 10, 5, 1, bytes.fromhex("78563412")),
    (160, 255, 7, 1, bytes.fromhex("8877665544332211")),
)
SHEET = bytes.fromhex(
    "0100 0400 0c000000 2c000000"
    "0f300301 00000000  0f320102 02000000  100a0501 04000000  a0ff0701 08000000"
    "3412 0102 78563412 8877665544332211"
)
assert laid(FOUR) == SHEET
whole(FOUR)
for room in (0, 1, 11, 12, 44, 59):
    unwritten(57, FOUR, room)
for room in (61, 62, 100):
    written(FOUR, room)
for index, setting in enumerate(FOUR):
    length = len(setting[4])
    for room in (0, length - 1):
        unread(57, SHEET, index, room)
    for room in (length + 1, 240, 241):
        read(SHEET, index, setting, room)
# no such record, ahead of a short buffer
for index in (4, 5, 7, 8, 127, 128, 255, 256, 260, 65535, 65536, 2**31, WRAP - 4, WRAP - 1, WRAP, WRAP + 1, WRAP + 3, 2**63, LARGEST - 3, LARGEST):
    unread(56, SHEET, index, 0)
    unread(56, SHEET, index, 8)

# ---- each length of it

for length in range(12):
    either(65, SHEET[:length])
for length in range(12, 44):
    either(67, SHEET[:length])
for length in range(44, 60):
    either(70, SHEET[:length])
for more in (1, 2, 8, 100):
    wrong(70, SHEET + bytes(more))
wrong(66, b"\0" + SHEET)  # one byte before it: version 256
wrong(67, SHEET[:2] + b"\0" + SHEET[2:])

# ---- each byte of it changed: the place, other bytes for it, and the number, or none where that is a right sheet too

CHANGES = (
    (0, "00 02 03 11 81 fe ff", 66),
    (1, "01 02 80 ff", 66),
    (2, "00 01 02 03 05 06 08 14 80 81 84 ff", 67),
    (3, "01 02 04 80 ff", 67),
    (4, "00 08 0b 0d 0e 14 2c 8c ff", 67),
    (8, "00 0c 24 2b 2d 2e 34 3c 3d ac ff", 67),
    *((place, "01 0c 80 ff", 67) for place in (5, 6, 7)),
    *((place, "01 2c 80 ff", 67) for place in (9, 10, 11)),
    # 15 48, before 15 50; two bytes of a U16
    (12, "01 02 0d 0e", None),
    (12, "00", 69),
    (12, "10 11 a0 a1 ff", 68),
    (13, "00 01 2f 31", None),
    (13, "32 33 ff", 68),
    (14, "04", None),
    (14, "01 02 05 06 07", 70),
    (14, "00 08 09 83 ff", 69),
    (15, "02 03 78", 70),
    (15, "00 79 f0 f1 ff", 69),
    (16, "01 02 2c ff", 70),
    # 15 50, between 15 48 and 16 10; two bytes of U8
    (20, "00 01 0e 10 11 a0 a1 ff", 68),
    (21, "31 33 fe ff", None),
    (21, "00 2f 30", 68),
    (22, "02", None),
    (22, "03 04 05 06 07", 70),
    (22, "00 08 81 ff", 69),
    (23, "01 03 f0", 70),
    (23, "00 f1 ff", 69),
    (24, "00 01 03 04 2e ff", 70),
    # 16 10, between 15 50 and 160 255; four bytes of a U32
    (28, "11 9f a0", None),
    (28, "00 01 0e 0f a1 ff", 68),
    (29, "00 01 09 0b 32 ff", None),
    (30, "06", None),
    (30, "01 02 03 04 07", 70),
    (30, "00 08 0d 85 ff", 69),
    (31, "02 3c", 70),
    (31, "00 3d 3e 78 f0 f1 ff", 69),
    (32, "00 02 03 05 06 30 ff", 70),
    # 160 255, after 16 10; eight bytes of a U64
    (36, "10 11 9f", None),
    (36, "00 01 0f", 68),
    (36, "a1 a2 ff", 69),
    (37, "00 01 0a 0b fe", None),
    (38, "01 02 03 04 05 06", 70),
    (38, "00 08 0f 87 ff", 69),
    (39, "02 1e", 70),
    (39, "00 1f 20 3c f0 f1 ff", 69),
    (40, "00 04 07 09 0c 34 ff", 70),
    # the upper bytes of each value offset
    *((place, "01 02 80 ff", 70) for offset in (16, 24, 32, 40) for place in range(offset + 1, offset + 4)),
    # the values: any bytes
    *((place, "00 5a", None) for place in range(44, 60)),
)
for place, others, number in CHANGES:
    for other in others.split():
        if number is None:
            right(changed(SHEET, (place, other)), 4)
        else:
            either(number, changed(SHEET, (place, other)))
# what those right ones are read as
read(changed(SHEET, (12, "01")), 0, (1, *FOUR[0][1:]))
read(changed(SHEET, (13, "31")), 0, (15, 49, *FOUR[0][2:]))
read(changed(SHEET, (14, "04")), 0, (15, 48, 4, *FOUR[0][3:]))
read(changed(SHEET, (37, "00")), 3, (160, 0, *FOUR[3][2:]), 9)
read(changed(SHEET, (44, "ff")), 0, (15, 48, 3, 1, b"\xff\x12"))
read(changed(SHEET, (59, "ff")), 3, (160, 255, 7, 1, bytes.fromhex("88776655443322ff")))
read(changed(SHEET, (47, "ff")), 0, FOUR[0])  # another's value is nothing to it
read(changed(SHEET, (48, "ff")), 1, FOUR[1])

# ---- the header's numbers as a whole

for version in (0, 2, 255, 256, 257, 258, 0x0100, 0x8001, 65535):
    either(66, changed(SHEET, (0, little(version, 2))))
for count in (0, 1, 3, 5, 127, 128, 129, 255, 256, 260, 0x0400, 0x8004, 65535):
    either(67, changed(SHEET, (2, little(count, 2))))
for offset in (0, 11, 13, 20, 44, 60, 12 + 2**8, 12 + 2**16, 12 + 2**24, 12 + 2**31, 12 * 2**8, 12 * 2**24, WRAP - 12, WRAP - 1):
    either(67, changed(SHEET, (4, little(offset))))
for offset in (0, 11, 12, 36, 43, 45, 52, 60, 61, 44 + 2**8, 44 + 2**16, 44 + 2**24, 44 + 2**31, 44 * 2**8, 44 * 2**24, WRAP - 44, WRAP - 1):
    either(67, changed(SHEET, (8, little(offset))))
# the count and the values' offset by it, so that the header is right and records or values are not
for count, number in ((0, 70), (1, 70), (2, 70), (3, 70), (5, 68), (6, 68), (7, 67), (8, 67), (128, 67), (129, 67), (65535, 67)):
    wrong(number, changed(SHEET, (2, little(count, 2)), (8, little(12 + 8 * count))))
# both offsets moved by what stands between: eight bytes more in front of the records
wrong(67, changed(SHEET, (4, "14"), (8, "34"))[:12] + bytes(8) + SHEET[12:])

# ---- value offsets

for index, offset in enumerate((0, 2, 4, 8)):
    place = 16 + 8 * index
    others = {offset + 1, offset + 2, offset + 2**8, offset + 2**16, offset + 2**24, offset + 2**31, offset + 44, 16, 17, 60}
    others |= {WRAP - 1, WRAP - 2, WRAP - 8, WRAP - 32, WRAP - 44, WRAP - 45, 2**31, 2**31 - 1}  # into records, header, before it
    others |= {offset - 1, offset * 2**24} if offset else {2**24}
    for other in sorted(others):
        either(70, changed(SHEET, (place, little(other))))
# every one of them from the start of the sheet, or one more with a byte between, or two exchanged
wrong(70, changed(SHEET, (16, little(44)), (24, little(46)), (32, little(48)), (40, little(52))))
wrong(70, changed(SHEET, (16, little(1)), (24, little(3)), (32, little(5)), (40, little(9))))
wrong(70, changed(SHEET, (16, little(1)), (24, little(3)), (32, little(5)), (40, little(9)))[:44] + b"\0" + SHEET[44:])
wrong(70, changed(SHEET, (24, little(3)), (32, little(5)), (40, little(9)))[:46] + b"\0" + SHEET[46:])
wrong(70, changed(SHEET, (40, little(9)))[:52] + b"\0" + SHEET[52:])
wrong(70, SHEET[:52] + b"\0" + SHEET[52:])
wrong(70, changed(SHEET, (16, little(2)), (24, little(0))))
wrong(70, changed(SHEET, (24, little(0)), (32, little(2)), (40, little(6)))[:46] + SHEET[48:])  # one value for two records
wrong(70, changed(SHEET, (40, little(WRAP - 8))))  # with its eight bytes it comes to 0 again
wrong(70, changed(SHEET, (32, little(WRAP - 4)), (40, little(0))))

# ---- order: by module, then register

for first, second in (
    ((15, 48), (15, 49)), ((15, 0), (15, 255)), ((15, 255), (16, 0)), ((1, 255), (160, 0)), ((127, 128), (128, 127)),
    ((1, 0), (1, 1)), ((159, 255), (160, 0)), ((15, 127), (15, 128)),
):
    one, other = ((*first, 1, 1, b"\x01"), (*second, 1, 1, b"\x02"))
    whole((one, other))
    refused_both(68, (other, one))
    refused_both(68, (one, one))
    refused_both(68, (other, other))
    refused_both(68, (one, other, other))
    refused_both(68, (one, other, one))
    refused_both(68, (one, one, other))
# the same key is one, whatever kind, count and value
refused_both(68, ((15, 48, 1, 1, b"\x01"), (15, 48, 3, 2, b"\x01\x02\x03\x04")))
refused_both(68, (*FOUR, FOUR[3]))
refused_both(68, (FOUR[0], *FOUR))
refused_both(68, FOUR[::-1])
refused_both(68, (FOUR[0], FOUR[2], FOUR[1], FOUR[3]))
# of wrong modules too: ahead of 69
refused_both(68, ((0, 1, 1, 1, b"\x01"), (0, 1, 1, 1, b"\x01")))
refused_both(68, ((161, 1, 1, 1, b"\x01"), (160, 1, 1, 1, b"\x01")))

# ---- modules, kinds, counts

for module in (1, 2, 10, 13, 94, 127, 128, 159, 160):
    whole(((module, 0, 1, 1, b"\x01"),))
for module in (0, 161, 162, 192, 255):
    refused_both(69, ((module, 0, 1, 1, b"\x01"),))
refused_both(69, ((0, 255, 1, 1, b"\x01"), (1, 0, 1, 1, b"\x01")))
refused_both(69, ((160, 255, 1, 1, b"\x01"), (161, 0, 1, 1, b"\x01")))
for kind in (0, 8, 9, 16, 127, 128, 129, 135, 255):
    for value in (b"", b"\x01", bytes(2), bytes(8)):
        refused_both(69, ((15, 48, kind, 1, value),))
    refused_both(69, ((15, 48, kind, 0, b""),))
for kind, size in SIZES.items():
    most = 240 // size
    for count in (1, 2, most):
        whole(((15, kind, kind, count, bytes((7 * place + kind) % 256 for place in range(count * size))),))
    refused_both(69, ((15, kind, kind, most + 1, bytes((most + 1) * size)),))
    refused_both(69, ((15, kind, kind, 0, b""),))
    unwritten(69, ((15, kind, kind, 0, bytes(size)),))
    wrong(69, laid(((15, kind, kind, 0, bytes(size)),)))
    # over 240, with a few bytes, also such as count times size is where only its lowest byte is kept
    for count in sorted({most + 1, 240 if size > 1 else 241, 241, 255}):
        refused_both(69, ((15, kind, kind, count, bytes(size)),))
        refused_both(69, ((15, kind, kind, count, bytes(count * size % 256)),))
refused_both(69, ((15, 48, 1, 255, bytes(255)),))
refused_both(69, ((15, 48, 7, 255, bytes(2040)),))
# a value that is not count times size: 69 of settings, and of a sheet 70, since that ends elsewhere
for kind, size in SIZES.items():
    for count in (1, 3, 30):
        for length in sorted({0, count * size - 1, count * size + 1, count * size + size}):
            unwritten(69, ((15, 48, kind, count, bytes(length)),))
            wrong(70, laid(((15, 48, kind, count, bytes(length)),)))
unwritten(69, ((15, 48, 1, 240, bytes(239)),), 259)
unwritten(69, ((15, 48, 1, 240, bytes(241)),), 261)
# one byte from one value to the next: the whole is as long as it should be
moved = ((15, 48, 3, 1, b"\x01\x02\x03"), (15, 50, 3, 1, b"\x04"))
unwritten(69, moved)
wrong(70, laid(moved))
# the first, the middle, the last one of three
for place in range(3):
    for kind, count, value in ((8, 1, b"\x01"), (1, 0, b""), (1, 241, bytes(241)), (3, 121, bytes(242)), (7, 31, bytes(248))):
        three = [(15, register, 1, 1, b"\x01") for register in range(3)]
        three[place] = (15, place, kind, count, value)
        refused_both(69, three)
    for value in (b"", b"\x01\x02"):
        three[place] = (15, place, 1, 1, value)
        unwritten(69, three)
        wrong(70, laid(three))

# ---- each number of the reader and all of them together, in every choice: the lowest is told

TOGETHER = {66: (0, "02"), 67: (4, "0d"), 68: (28, "0f32"), 69: (22, "08"), 70: (40, "09")}
for choice in range(1, 7):
    for numbers in itertools.combinations(range(65, 71), choice):
        sheet = changed(SHEET, *(TOGETHER[number] for number in numbers if number > 65))
        wrong(numbers[0], sheet[:11] if 65 in numbers else sheet, index=4, room=0)
ALL = changed(SHEET, *TOGETHER.values())
for length in range(12):
    either(65, ALL[:length])
for length in range(12, 60):
    either(66, ALL[:length])
# the four faults of 67, with all that comes behind them and without
BEHIND = changed(SHEET, *(TOGETHER[number] for number in (68, 69, 70)))
for header in ((2, "81"), (2, "ffff"), (2, "03"), (2, "05"), (4, "0b"), (4, "00"), (7, "01"), (8, "2b"), (8, "2d"), (11, "80")):
    wrong(67, changed(SHEET, header))
    wrong(67, changed(BEHIND, header))
    wrong(66, changed(BEHIND, header, (1, "01")))
for length in range(12, 44):
    either(67, BEHIND[:length])
wrong(68, BEHIND[:44])

# ---- two and three faults in any records: it matters which number, not which record stands first


def not_above(record):
    return (12 + 8 * record, SHEET[4 + 8 * record:6 + 8 * record])  # the key of the one before


def no_kind(record):
    return (14 + 8 * record, "08")


def no_count(record):
    return (15 + 8 * record, "00")


def no_offset(record):
    return (16 + 8 * record, "63")


for record in range(4):
    wrong(69, changed(SHEET, no_kind(record)))
    wrong(69, changed(SHEET, no_count(record)))
    wrong(70, changed(SHEET, no_offset(record)))
    if record:
        wrong(68, changed(SHEET, not_above(record)))
for one, other in itertools.product(range(4), repeat=2):
    wrong(69, changed(SHEET, no_kind(one), no_offset(other)))
    wrong(69, changed(SHEET, no_count(one), no_offset(other)))
    if one:
        wrong(68, changed(SHEET, not_above(one), no_kind(other)))
        wrong(68, changed(SHEET, not_above(one), no_offset(other)))
        for third in range(4):
            either(68, changed(SHEET, not_above(one), no_kind(other), no_offset(third)))
# by the sheet's end, and by its modules
for end in (SHEET[:-1], SHEET + b"\0"):
    wrong(70, end)
    wrong(69, changed(end, no_kind(0)))
    wrong(69, changed(end, no_kind(3)))
    wrong(69, changed(end, (12, "00")))
    wrong(69, changed(end, (36, "a1")))
    wrong(68, changed(end, not_above(1)))
    wrong(68, changed(end, not_above(3)))
    wrong(68, changed(end, (12, "00"), not_above(3)))
    wrong(68, changed(end, not_above(1), (36, "a1")))
    wrong(67, changed(end, (8, "2d")))
    wrong(66, changed(end, (0, "00")))

# ---- 128 settings and 129

MANY = [(1, register, 1, 1, bytes([255 - register])) for register in range(200)]
ACROSS = [(module, 255 - module, 3, 1, little(module * 257, 2)) for module in range(1, 161)]
for settings in (MANY, ACROSS):
    most = written(settings[:128])
    right(most, 128)
    for index in (0, 64, 127):
        read(most, index, settings[index], 3)
    unread(56, most, 128, 0)
    unwritten(79, settings[:129], len(laid(settings[:129])))
    unwritten(79, settings)
    wrong(67, laid(settings[:129]))
most = laid(MANY[:128])
unwritten(57, MANY[:128], len(most) - 1)
written(MANY[:128], len(most) + 1)
unread(57, most, 127, 0)
unread(56, most, WRAP + 127, 1)
wrong(70, most + b"\0")
wrong(70, most[:-1])
wrong(70, most[:12 + 8 * 128])
wrong(67, most[:12 + 8 * 128 - 1])
wrong(69, changed(most, (12 + 8 * 127 + 2, "08")))
wrong(68, changed(most, (12 + 8 * 127, most[12 + 8 * 126:14 + 8 * 126])))
written(MANY[:127])
# 200 can be named, and no more
bad(f"sheet.write {named([(1, register, 1, 1, bytes(1)) for register in range(201)])} eeeeeeee")

# ---- the writer's numbers in every choice: 79, 68, 69, 57, wherever in the list the faults stand

for length in (4, 129):
    for late, later in itertools.product((False, True), repeat=2):
        for numbers in itertools.chain.from_iterable(itertools.combinations((68, 69, 57), choice) for choice in range(4)):
            settings = [list(setting) for setting in (FOUR if length == 4 else MANY[:129])]
            if 68 in numbers:
                place = length - 1 if late else 1
                settings[place][:2] = settings[place - 1][:2]
            if 69 in numbers:
                settings[length - 1 if later else 0][2] = 8
            needed = len(laid(settings))
            told = [79] if length == 129 else list(numbers)
            if not told:
                written(settings, needed + 2)
            elif length == 4:
                unwritten(told[0], settings, needed - 1 if 57 in numbers else needed)
            elif late and later:
                unwritten(79, settings, 0 if 57 in numbers else needed)
# 68 and 69 by other faults, either first; with no room at all
for one, other in (((15, 48, 1, 1, b"\x01"), (15, 48, 1, 1, b"\x01")), ((15, 49, 1, 1, b"\x01"), (15, 48, 1, 1, b"\x01"))):
    for wrong_one in ((0, 255, 1, 1, b"\x01"), (14, 0, 8, 1, b"\x01"), (14, 0, 1, 0, b""), (14, 0, 1, 241, bytes(241)), (14, 0, 3, 1, b"\x01")):
        unwritten(68, (wrong_one, one, other), 0)
        unwritten(69, (wrong_one, one), 0)
    for wrong_one in ((161, 0, 1, 1, b"\x01"), (16, 0, 0, 1, b"\x01"), (16, 0, 7, 31, bytes(248)), (16, 0, 1, 1, b""), (16, 0, 1, 1, b"\x01\x02")):
        unwritten(68, (one, other, wrong_one), 0)
        unwritten(69, (one, wrong_one), 0)

# ---- the largest sheet there is: 12 + 8 * 128 + 240 * 128 bytes. A line has room for it, and for its settings, not for both


def full(length):
    return [(1, register, 1, length, bytes((7 * register + place) % 256 for place in range(length))) for register in range(128)]


most = laid(full(240))
assert len(most) == 31756
read(most, 127, full(240)[127], 241)
unwritten(57, full(240), 100)
# and the largest one that a line can have written
assert len(laid(full(120))) == 16396
written(full(120), 16397)

# ---- lines that are no calls

for line in (
    "sheet", "sheet.", "sheet.new", "SHEET.check -", "sheet.check", "sheet.check ", "sheet.check  -", "sheet.check - ", "sheet.check - -",
    "sheet.check 0", "sheet.check 0G", "sheet.check 0A", "sheet.check 0x00", "sheet.read", "sheet.read -", "sheet.read - 0", "sheet.read - 0 ",
    "sheet.read - - -", "sheet.read - -1 -", "sheet.read - 18446744073709551616 -", "sheet.read - 0 - -", "sheet.read - 0 0", "sheet.read 0 0 -",
    "sheet.write", "sheet.write -", "sheet.write - ", "sheet.write  -", "sheet.write - - -", "sheet.write - 0", "sheet.write -- -",
    "sheet.write ; -", "sheet.write :::: -", "sheet.write 15 -", "sheet.write 15:48:1:1 -", "sheet.write 15:48:1:1: -", "sheet.write 15:48:1:1:0 -",
    "sheet.write 15:48:1:1:0A -", "sheet.write 15:48:1:1:01: -", "sheet.write 15:48:1:1:01:- -", "sheet.write 15:48:1:1:01; -",
    "sheet.write ;15:48:1:1:01 -", "sheet.write 15:48:1:1:01;;15:49:1:1:01 -", "sheet.write -;15:48:1:1:01 -", "sheet.write 15:48:1:1:01;- -",
    "sheet.write 15:48:1:1:01,15:49:1:1:01 -", "sheet.write 15:48:1:1:01 15:49:1:1:01 -", "sheet.write 15 48 1 1 01 -", "sheet.write :48:1:1:01 -",
    "sheet.write 15::1:1:01 -", "sheet.write 15:48::1:01 -", "sheet.write 15:48:1::01 -", "sheet.write 256:48:1:1:01 -", "sheet.write 15:256:1:1:01 -",
    "sheet.write 15:48:256:1:01 -", "sheet.write 15:48:1:256:01 -", "sheet.write -1:48:1:1:01 -", "sheet.write +1:48:1:1:01 -",
    "sheet.write 0fh:48:1:1:01 -", "sheet.write 15:48:1:1:0102", "sheet.write 15:48:1:1:01 -;",
):
    bad(line)
written(FOUR)  # and none of them is anything to the next call
right(SHEET, 4)
say("sheet.write 15:48:1:0:- -", "no 69 buf=-")  # `-` for no bytes, in a setting too
say("sheet.check -", "no 65")
say("sheet.read - 0 -", "no 65 buf=-")

assert all(len(call) <= LINE for call, _ in script)
printed()
