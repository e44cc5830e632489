"""edits.py calls | answers: the call lines of tests/vectors/edits_night.calls, and what each must answer. Which settings
are left, where a new one stands and which number is told stands here beside each call, worked out by hand from the papers;
nothing here reads a sheet or judges one. Only right sheets are put together, each from the settings that it has, and a
wrong one is such a sheet with bytes changed at places that stand here as well."""
import itertools

from wire import LINE, SIZES, WRAP, bad, changed, laid, little, named, printed, say, script, text

LARGEST = 2**64 - 1
MARK = b"\xee"  # what stands behind a sheet

# ---- the calls


def over(buf, sheet):
    """The buffer with this sheet in its first bytes, all others as they were."""
    assert len(sheet) <= len(buf)
    return sheet + buf[len(sheet):]


def edited(call, buf, length, words, left):
    """The call leaves the sheet of these settings. Hands over the buffer after it."""
    sheet = laid(left)
    after = over(buf, sheet)
    say(f"sheet.{call} {text(buf)} {length} {words}", f"ok n={len(sheet)} buf={text(after)}")
    return after


def unedited(number, call, buf, length, words):
    say(f"sheet.{call} {text(buf)} {length} {words}", f"no {number} buf={text(buf)}")


def one(index, key):
    return f"{index} {key[0]} {key[1]}"


def buffer(settings, behind=3):
    """These settings' sheet, and so many marked bytes behind it."""
    return laid(settings) + MARK * behind


def removed(settings, index, left, buf=None):
    """The record of this number, which is one of these settings, is thrown out, and those are left."""
    buf = buffer(settings) if buf is None else buf
    return edited("rem", buf, len(laid(settings)), one(index, settings[index]), left)


def module_removed(settings, module, left, buf=None):
    buf = buffer(settings) if buf is None else buf
    return edited("remmod", buf, len(laid(settings)), module, left)


def added(settings, new, left, buf=None):
    """The setting is added, into just the room where no buffer is named, and those are there then."""
    buf = buffer(settings, 8 + len(new[4])) if buf is None else buf
    return edited("add", buf, len(laid(settings)), named([new]), left)


def not_removed(number, settings, index, key, behind=3):
    """The record of this number, or with this key: neither is there, or something else is wrong."""
    unedited(number, "rem", buffer(settings, behind), len(laid(settings)), one(index, key))


def no_module(number, settings, module, behind=3):
    unedited(number, "remmod", buffer(settings, behind), len(laid(settings)), module)


def not_added(number, settings, new, behind=None):
    """The setting is not added, though there is just the room for it where nothing else is said."""
    behind = 8 + len(new[4]) if behind is None else behind
    unedited(number, "add", buffer(settings, behind), len(laid(settings)), named([new]))


# ---- the call scripts' example

say(
    "sheet.rem 010002000c0000001c0000000f300301000000000f3201020200000034120102ff 32 0 15 48",
    "ok n=22 buf=010001000c000000140000000f32010200000000010201020200000034120102ff",
)
say(
    "sheet.remmod 010002000c0000001c0000000f300301000000000f3201020200000034120102ff 32 16",
    "no 77 buf=010002000c0000001c0000000f300301000000000f3201020200000034120102ff",
)
say(
    "sheet.add 010001000c000000140000000f300301000000003412ffffffffffffffffffffff 22 15:50:1:2:0102",
    "ok n=32 buf=010002000c0000001c0000000f300301000000000f3201020200000034120102ff",
)

# ---- four records, of four sizes and three modules; the records are at 12, 20, 28 and 36, the values at 44, 60 bytes in all

A = (15, 48, 3, 1, bytes.fromhex("3412"))
B = (15, 50, 1, 2, bytes.fromhex("0102"))
C = (16, 10, 5, 1, bytes.fromhex("78563412"))
D = (160, 255, 7, 1, bytes.fromhex("8877665544332211"))
FOUR = (A, B, C, D)
SHEET = bytes.fromhex(
    "0100 0400 0c000000 2c000000"
    "0f300301 00000000  0f320102 02000000  100a0501 04000000  a0ff0701 08000000"
    "3412 0102 78563412 8877665544332211"
)
assert laid(FOUR) == SHEET
EMPTY = bytes.fromhex("0100 0000 0c000000 0c000000")
assert laid(()) == EMPTY

# what is left of it, byte by byte, with the old sheet's last bytes and two marked ones behind that
say(
    f"sheet.rem {SHEET.hex()}eeee 60 0 15 48",
    "ok n=50 buf=01000300" "0c00000024000000" "0f32010200000000" "100a050102000000" "a0ff070106000000" "0102" "78563412"
    "8877665544332211" "34128877665544332211" "eeee",
)
say(
    f"sheet.rem {SHEET.hex()}eeee 60 1 15 50",
    "ok n=50 buf=01000300" "0c00000024000000" "0f30030100000000" "100a050102000000" "a0ff070106000000" "3412" "78563412"
    "8877665544332211" "34128877665544332211" "eeee",
)
say(
    f"sheet.rem {SHEET.hex()}eeee 60 2 16 10",
    "ok n=48 buf=01000300" "0c00000024000000" "0f30030100000000" "0f32010202000000" "a0ff070104000000" "3412" "0102"
    "8877665544332211" "785634128877665544332211" "eeee",
)
say(
    f"sheet.rem {SHEET.hex()}eeee 60 3 160 255",
    "ok n=44 buf=01000300" "0c00000024000000" "0f30030100000000" "0f32010202000000" "100a050104000000" "3412" "0102"
    "78563412" "34120102785634128877665544332211" "eeee",
)
say(
    f"sheet.remmod {SHEET.hex()}eeee 60 15",
    "ok n=40 buf=01000200" "0c0000001c000000" "100a050100000000" "a0ff070104000000" "78563412" "8877665544332211"
    "08000000" "3412" "0102" "78563412" "8877665544332211" "eeee",
)
say(
    f"sheet.remmod {SHEET.hex()}eeee 60 16",
    "ok n=48 buf=01000300" "0c00000024000000" "0f30030100000000" "0f32010202000000" "a0ff070104000000" "3412" "0102"
    "8877665544332211" "785634128877665544332211" "eeee",
)
say(
    f"sheet.remmod {SHEET.hex()}eeee 60 160",
    "ok n=44 buf=01000300" "0c00000024000000" "0f30030100000000" "0f32010202000000" "100a050104000000" "3412" "0102"
    "78563412" "34120102785634128877665544332211" "eeee",
)
# the same with other bytes behind, or none
for behind in (0, 1, 8, 100):
    buf = buffer(FOUR, behind)
    removed(FOUR, 0, (B, C, D), buf)
    removed(FOUR, 1, (A, C, D), buf)
    removed(FOUR, 2, (A, B, D), buf)
    removed(FOUR, 3, (A, B, C), buf)
    module_removed(FOUR, 15, (C, D), buf)
    module_removed(FOUR, 16, (A, B, D), buf)
    module_removed(FOUR, 160, (A, B, C), buf)
# bytes behind that look like records, values or a sheet
for tail in (SHEET, SHEET[12:44], EMPTY, bytes(60), b"\xff" * 9, SHEET[:44]):
    removed(FOUR, 0, (B, C, D), SHEET + tail)
    module_removed(FOUR, 15, (C, D), SHEET + tail)
    added((B, C, D), A, FOUR, laid((B, C, D)) + bytes(10) + tail)

# ---- fewer records, down to none

for setting in FOUR:
    for behind in (0, 1, 30):
        removed((setting,), 0, (), buffer((setting,), behind))
        module_removed((setting,), setting[0], (), buffer((setting,), behind))
for first, second in itertools.combinations(FOUR, 2):
    removed((first, second), 0, (second,))
    removed((first, second), 1, (first,))
module_removed((A, B), 15, ())
module_removed((A, C), 15, (C,))
module_removed((A, C), 16, (A,))
# one after the other within one buffer, from the front, from the end, from the middle
for order in (((0, A), (0, B), (0, C), (0, D)), ((3, D), (2, C), (1, B), (0, A)), ((1, B), (1, C), (0, A), (0, D)), ((2, C), (0, A), (1, D), (0, B))):
    buf, held = buffer(FOUR, 5), list(FOUR)
    for index, setting in order:
        left = [other for other in held if other is not setting]
        assert held[index] is setting
        buf, held = removed(held, index, left, buf), left
    unedited(77, "rem", buf, 12, one(0, A))
    unedited(77, "remmod", buf, 12, 15)
for order in itertools.permutations(((15, A), (16, C), (160, D))):
    buf, held = buffer(FOUR, 1), list(FOUR)
    for module, _ in order:
        left = [other for other in held if other[0] != module]
        buf, held = module_removed(held, module, left, buf), left
    unedited(77, "remmod", buf, 12, order[0][0])

# ---- modules of several records: at the front, in the middle, at the end, all of them

M1 = [(1, register, 1, 1, bytes([register])) for register in (0, 1, 255)]
M2 = [(2, 0, 3, 2, b"\x21\x22\x23\x24"), (2, 255, 2, 1, b"\x25")]
M3 = [(3, 0, 7, 1, bytes(range(0x31, 0x39)))]
M160 = [(160, register, 5, 1, little(register * 0x01010101)) for register in (0, 128, 254, 255)]
MODULES = M1 + M2 + M3 + M160
module_removed(MODULES, 1, M2 + M3 + M160)
module_removed(MODULES, 2, M1 + M3 + M160)
module_removed(MODULES, 3, M1 + M2 + M160)
module_removed(MODULES, 160, M1 + M2 + M3)
for settings, module in ((M1, 1), (M2, 2), (M3, 3), (M160, 160)):
    module_removed(settings, module, ())
    for behind in (0, 1):
        module_removed(settings, module, (), buffer(settings, behind))
module_removed(M1 + M3, 1, M3)
module_removed(M1 + M3, 3, M1)
for module in (0, 4, 10, 13, 94, 127, 128, 159, 161, 162, 254, 255):
    no_module(77, MODULES, module)
no_module(77, M1 + M3, 2)
no_module(77, M2 + M3, 1)
for index, setting in enumerate(MODULES):
    removed(MODULES, index, MODULES[:index] + MODULES[index + 1:])
# the same register in many modules: only the module counts
SAME = [(module, 48, 1, 1, bytes([module])) for module in (14, 15, 16)]
for place, (module, *_) in enumerate(SAME):
    module_removed(SAME, module, SAME[:place] + SAME[place + 1:])
for module in (13, 17, 48, 49):
    no_module(77, SAME, module)

# ---- nothing to remove: both sides of the last record and of the modules

NONE = (15, 49)  # which no record of FOUR has
for index in (4, 5, 7, 8, 127, 128, 255, 256, 65535, 65536, 2**31, WRAP - 4, WRAP - 1, WRAP, WRAP + 1, WRAP + 3, 2**61, 2**63, LARGEST - 3, LARGEST):
    not_removed(77, FOUR, index, NONE)
for settings in ((), (A,), (A, B), (A, B, C)):
    not_removed(77, settings, len(settings), (160, 255))
    not_removed(77, settings, len(settings), (160, 255), 0)
    not_removed(77, settings, LARGEST, (0, 0))
for module in (0, 1, 14, 17, 48, 159, 161, 255):
    no_module(77, FOUR, module)
    no_module(77, FOUR, module, 0)
for module in (0, 1, 15, 160, 161, 255):
    no_module(77, (), module)
    no_module(77, (), module, 0)
# a call that refuses leaves the sheet to the next
removed(FOUR, 3, (A, B, C))
module_removed((A, B, C), 16, (A, B))

# ---- a new setting at each place, of each size

for kind, size in SIZES.items():
    shape = (kind, 1, bytes(range(0xA1, 0xA1 + size)))
    for key in ((1, 0), (14, 255), (15, 0), (15, 47)):
        new = (*key, *shape)
        added(FOUR, new, (new, A, B, C, D))
    new = (15, 49, *shape)
    added(FOUR, new, (A, new, B, C, D))
    for key in ((15, 51), (15, 255), (16, 0), (16, 9)):
        new = (*key, *shape)
        added(FOUR, new, (A, B, new, C, D))
    for key in ((16, 11), (17, 0), (160, 0), (160, 254)):
        new = (*key, *shape)
        added(FOUR, new, (A, B, C, new, D))
    for key in ((16, 11), (17, 0), (160, 255)):
        new = (*key, *shape)
        added((A, B, C), new, (A, B, C, new))
        added((), new, (new,))
# byte by byte
say(
    f"sheet.add {SHEET.hex()}{'ee' * 12} 60 15:49:3:1:aabb",
    "ok n=70 buf=01000500" "0c00000034000000" "0f30030100000000" "0f31030102000000" "0f32010204000000" "100a050106000000"
    "a0ff07010a000000" "3412" "aabb" "0102" "78563412" "8877665544332211" "eeee",
)
say(
    f"sheet.add {SHEET.hex()}{'ee' * 12} 60 1:0:1:1:aa",
    "ok n=69 buf=01000500" "0c00000034000000" "0100010100000000" "0f30030101000000" "0f32010203000000" "100a050105000000"
    "a0ff070109000000" "aa" "3412" "0102" "78563412" "8877665544332211" "eeeeee",
)
say("sheet.add 010000000c0000000c000000eeeeeeeeeeeeeeeeeeee 12 15:48:3:1:3412", "ok n=22 buf=010001000c000000140000000f300301000000003412")
# registers and modules are numbers of a byte, not signed ones
LOW, HIGH = (127, 127, 1, 1, b"\x01"), (128, 128, 1, 1, b"\x02")
for key, place in (((127, 126), 0), ((127, 128), 1), ((127, 255), 1), ((128, 0), 1), ((128, 127), 1), ((128, 129), 2), ((129, 0), 2), ((1, 255), 0)):
    new = (*key, 1, 1, b"\x03")
    left = [LOW, HIGH]
    left.insert(place, new)
    added((LOW, HIGH), new, left)

# ---- its room: just enough, one byte less, and others

NEW = (15, 49, 5, 1, bytes.fromhex("a1a2a3a4"))  # 12 bytes more
for settings, left in ((FOUR, (A, NEW, B, C, D)), ((A, B), (A, NEW, B)), ((A,), (A, NEW)), ((B,), (NEW, B)), ((), (NEW,))):
    for behind in (0, 1, 4, 7, 8, 9, 11):
        not_added(80, settings, NEW, behind)
    for behind in (12, 13, 14, 100):
        added(settings, NEW, left, buffer(settings, behind))
for kind, size in SIZES.items():
    for count in (1, 240 // size):
        new = (15, 49, kind, count, bytes((5 * place + kind) % 256 for place in range(size * count)))
        for settings, left in ((FOUR, (A, new, B, C, D)), ((), (new,))):
            not_added(80, settings, new, 7 + size * count)
            added(settings, new, left)

# ---- in the freed room: all of it, and one byte too much

for index, (gone, rest) in enumerate(((A, (B, C, D)), (B, (A, C, D)), (C, (A, B, D)), (D, (A, B, C)))):
    buf = removed(FOUR, index, rest, SHEET)
    length = len(laid(rest))
    fits, long = len(gone[4]), len(gone[4]) + 1
    before, behind = (1, 0, 1, fits, bytes(range(0xB0, 0xB0 + fits))), (160, 0, 1, fits, bytes(range(0xC0, 0xC0 + fits)))
    for key in ((1, 0), (15, 49), (160, 0)):
        unedited(80, "add", buf, length, named([(*key, 1, long, bytes(long))]))
    assert edited("add", buf, length, named([gone]), FOUR) == SHEET  # the very bytes there were
    edited("add", buf, length, named([before]), (before, *rest))
    edited("add", buf, length, named([behind]), (*rest, behind) if gone is D else (*rest[:-1], behind, rest[-1]))
# a module's room, by one setting and by one byte more
buf = module_removed(FOUR, 15, (C, D), SHEET)  # 20 bytes are free
fits = (15, 48, 1, 12, bytes(range(12)))
edited("add", buf, 40, named([fits]), (fits, C, D))
unedited(80, "add", buf, 40, named([(15, 48, 1, 13, bytes(13))]))
buf = module_removed((A, B), 15, (), laid((A, B)))
unedited(80, "add", buf, 12, named([(15, 48, 1, 13, bytes(13))]))
edited("add", buf, 12, named([fits]), (fits,))
# nine bytes are freed: a value of two is one byte too long
TINY = (14, 0, 1, 1, b"\x01")
buf = removed((TINY, A), 0, (A,), laid((TINY, A)))
unedited(80, "add", buf, 22, named([(14, 0, 3, 1, b"\x01\x02")]))
edited("add", buf, 22, named([(14, 1, 2, 1, b"\x02")]), ((14, 1, 2, 1, b"\x02"), A))

# ---- there and back again

for index, (gone, rest) in enumerate(((A, (B, C, D)), (B, (A, C, D)), (C, (A, B, D)), (D, (A, B, C)))):
    for behind in (0, 1, 40):
        buf = removed(FOUR, index, rest, buffer(FOUR, behind))
        assert added(rest, gone, FOUR, buf) == buffer(FOUR, behind)
        buf = added(rest, gone, FOUR, buffer(rest, 8 + len(gone[4]) + behind))
        assert buf == buffer(FOUR, behind)
        removed(FOUR, index, rest, buf)
# a module thrown out, its settings put back in either order; and settings put in, their module thrown out
for first, second, between in ((A, B, (A, C, D)), (B, A, (B, C, D))):
    buf = module_removed(FOUR, 15, (C, D), buffer(FOUR))
    buf = added((C, D), first, between, buf)
    assert added(between, second, FOUR, buf) == buffer(FOUR)
    buf = added((C, D), first, between, buffer((C, D), 23))
    buf = added(between, second, FOUR, buf)
    module_removed(FOUR, 15, (C, D), buf)
# from the empty sheet on, in every order: the same sheet each time
for order in itertools.permutations(FOUR):
    buf, held = EMPTY + MARK * 50, ()
    for new in order:
        left = tuple(setting for setting in FOUR if setting in held or setting is new)
        buf, held = added(held, new, left, buf), left
    assert buf == SHEET + MARK * 2
# the same key with other kinds, one after the other
buf, held = buffer((A, B, C), 30), B
for new in ((15, 50, 7, 1, bytes(range(8))), (15, 50, 1, 1, b"\xaa"), (15, 50, 3, 2, bytes(4)), B):
    buf = removed((A, held, C), 1, (A, C), buf)
    buf, held = added((A, C), new, (A, new, C), buf), new
# the setting that was thrown out is not there any more, and the one that was added is
buf = removed(FOUR, 1, (A, C, D))
unedited(77, "rem", buf, 50, one(3, B))
unedited(78, "add", buf, 50, named([C]))
buf = added((A, C, D), B, FOUR, buf)
unedited(78, "add", buf, 60, named([B]))

# ---- 69: modules, kinds, counts and values, on both sides

for module in (1, 2, 159, 160):
    new = (module, 100, 1, 1, b"\xaa")
    added((), new, (new,))
new = (160, 254, 1, 1, b"\xaa")
added(FOUR, new, (A, B, C, new, D))
for module in (0, 161, 162, 192, 254, 255):
    for settings in ((), FOUR):
        not_added(69, settings, (module, 100, 1, 1, b"\xaa"))
for kind in (0, 8, 9, 16, 127, 128, 129, 135, 255):
    for value in (b"", b"\xaa", bytes(2), bytes(8)):
        not_added(69, FOUR, (15, 49, kind, 1, value))
for kind, size in SIZES.items():
    most = 240 // size
    for count, length in ((0, 0), (0, size), (most + 1, (most + 1) * size), (most + 1, size), (241, 241 * size % 256), (255, 255 * size % 256)):
        not_added(69, FOUR, (15, 49, kind, count, bytes(length)))
    for count in (1, 3, most):
        for length in sorted({0, count * size - 1, count * size + 1, count * size + size}):
            not_added(69, FOUR, (15, 49, kind, count, bytes(length)))
        new = (15, 49, kind, count, bytes(count * size))
        added(FOUR, new, (A, new, B, C, D))
not_added(69, FOUR, (15, 49, 1, 1, bytes(257)))  # one byte, and 256 more
not_added(69, FOUR, (15, 49, 7, 255, bytes(2040)))

# ---- 78: each record's key, with the same value or another, another count or another kind

for setting in FOUR:
    module, register, kind, count, value = setting
    for new in (setting, (module, register, kind, count, bytes(len(value))), (module, register, 1, 1, b"\xaa"), (module, register, 7, 30, bytes(240))):
        not_added(78, FOUR, new)
        not_added(78, (setting,), new)
        not_added(78, FOUR, new, 0)  # ahead of the room
# both sides: each key beside it is free
for key, left in (
    ((15, 47), 0), ((15, 49), 1), ((14, 48), 0), ((16, 48), 3), ((16, 50), 3), ((14, 50), 0), ((15, 10), 0), ((16, 9), 2),
    ((16, 11), 3), ((17, 10), 3), ((159, 255), 3), ((160, 254), 3),
):
    new = (*key, 1, 1, b"\xaa")
    added(FOUR, new, (*FOUR[:left], new, *FOUR[left:]))

# ---- 128 records

MANY = [(1, register, 1, 1, bytes([255 - register])) for register in range(256)]
ACROSS = [(module, 255 - module, 3, 1, little(module * 257, 2)) for module in range(1, 161)]
for settings in (MANY, ACROSS):
    most = settings[10:138]
    for index in (0, 64, 127):
        rest = most[:index] + most[index + 1:]
        removed(most, index, rest)
        added(rest, most[index], most)
        not_added(80, rest, most[index], 7 + len(most[index][4]))
    for new in (settings[9], settings[138]):  # before all of them and behind
        not_added(79, most, new)
        not_added(79, most, new, 0)
    not_removed(77, most, 128, (159, 0))
    not_removed(77, most, LARGEST, (159, 0))
    not_added(78, most, most[0])
    not_added(78, most, most[127], 0)
    not_added(69, most, (*settings[9][:2], 8, 1, b"\xaa"))
    not_added(69, most, (*settings[9][:2], 1, 1, b""), 0)
module_removed(MANY[:128], 1, ())
module_removed(ACROSS[:128], 1, ACROSS[1:128])
module_removed(ACROSS[:128], 64, ACROSS[:63] + ACROSS[64:128])
module_removed(ACROSS[:128], 128, ACROSS[:127])
no_module(77, ACROSS[:128], 129)
no_module(77, ACROSS[:128], 0)
no_module(77, MANY[:128], 2)
# one between two of the 128, which are all that even registers there are
EVEN = [(5, register, 1, 1, bytes([register])) for register in range(0, 256, 2)]
assert len(EVEN) == 128
not_added(79, EVEN, (5, 101, 1, 1, b"\xaa"))
not_added(79, EVEN, (5, 255, 1, 1, b"\xaa"), 0)
not_added(79, EVEN, (4, 255, 1, 1, b"\xaa"))
not_added(79, EVEN, (6, 0, 1, 1, b"\xaa"))
not_added(78, EVEN, (5, 100, 1, 1, b"\xaa"))
buf = removed(EVEN, 127, EVEN[:127], laid(EVEN))  # and in the room of one of them
new = (5, 101, 1, 1, b"\xaa")
buf = added(EVEN[:127], new, EVEN[:51] + [new] + EVEN[51:127], buf)
unedited(79, "add", buf, 1164, "5:255:1:1:aa")

# ---- the longest values

LONG = [(30, register, 1, 240, bytes((place + 80 * register) % 256 for place in range(240))) for register in range(3)]
assert len(laid(LONG)) == 756
for index in range(3):
    rest = LONG[:index] + LONG[index + 1:]
    buf = removed(LONG, index, rest, buffer(LONG, 2))
    assert added(rest, LONG[index], LONG, buf) == buffer(LONG, 2)
    not_added(80, rest, LONG[index], 247)
module_removed(LONG, 30, ())
short = (30, 1, 1, 1, b"\x01")
buf = removed(LONG, 1, [LONG[0], LONG[2]], laid(LONG))
edited("add", buf, 508, named([short]), [LONG[0], short, LONG[2]])
removed([LONG[0], short, LONG[2]], 1, [LONG[0], LONG[2]])
removed([LONG[0], short, LONG[2]], 0, [short, LONG[2]])
for kind, size in SIZES.items():
    value = bytes((3 * place + kind) % 256 for place in range(240))
    new = (16, 10, kind, 240 // size, value)
    added((A, B, D), new, (A, B, new, D))
    removed((A, B, new, D), 2, (A, B, D))
    removed((A, B, new, D), 0, (B, new, D))
    module_removed((A, B, new, D), 15, (new, D))

# ---- every stated length of a buffer of 64 bytes whose first 60 are the sheet

CALLS = (("rem", one(0, A)), ("remmod", "15"), ("add", named([(15, 49, 1, 1, b"\xaa")])))
for length in range(67):
    number = 65 if length < 12 else 67 if length < 44 else 70 if length < 60 or 60 < length <= 64 else 80
    for call, words in CALLS:
        if length != 60:
            unedited(number, call, SHEET + MARK * 4, length, words)
edited("rem", SHEET + MARK * 4, 60, one(0, A), (B, C, D))
edited("remmod", SHEET + MARK * 4, 60, 15, (C, D))
unedited(80, "add", SHEET + MARK * 4, 60, CALLS[2][1])  # this one for the room
# over it: by one and by far, also where the lower bytes of the number are the sheet's length
for length in (65, 124, 255, 316, 65535, 65596, 2**31, WRAP - 1, WRAP, WRAP + 60, WRAP + 64, 2**63, 2**63 + 60, LARGEST - 3, LARGEST):
    for call, words in CALLS:
        unedited(80, call, SHEET + MARK * 4, length, words)
# a buffer that the sheet fills, one byte less of it and one byte more
for call, words in CALLS:
    for number, length in ((70, 59), (80, 61)):
        unedited(number, call, SHEET, length, words)
    for number, length in ((70, 59), (80, 60), (80, 61)):
        unedited(number, call, SHEET[:59], length, words)
# no buffer at all, the empty sheet, and what is too short for it
for call, words in CALLS:
    unedited(65, call, b"", 0, words)
    for length in (1, 12, 60, WRAP, LARGEST):
        unedited(80, call, b"", length, words)
    for length in range(12):
        unedited(65, call, EMPTY[:length], length, words)
        unedited(80, call, EMPTY[:length], length + 1, words)
        unedited(65, call, EMPTY, length, words)
    unedited(70, call, EMPTY + MARK, 13, words)
    unedited(80, call, EMPTY, 13, words)
unedited(77, "rem", EMPTY, 12, one(0, A))
unedited(77, "remmod", EMPTY, 12, 15)
unedited(80, "add", EMPTY, 12, named([A]))
# the stated length is of the sheet, so a longer sheet that stands there is wrong, and bytes past it are not looked at
unedited(70, "rem", buffer((A, B)), 30, one(0, A))
edited("rem", laid((A,)) + SHEET, 22, one(0, A), ())
edited("add", laid((A,)) + SHEET, 22, named([B]), (A, B))

# ---- sheets that are not right, in every choice of faults, with a length over the buffer and with the call's own number

TOGETHER = {66: (0, "02"), 67: (4, "0d"), 68: (28, "0f32"), 69: (22, "08"), 70: (40, "09")}
OWN = (  # nothing to remove there, and settings that can't be added
    ("rem", one(4, NONE)), ("remmod", "17"), ("add", named([(0, 0, 0, 0, b"")])), ("add", named([A])), ("add", named([(15, 49, 7, 30, bytes(240))])),
)
for choice in range(1, 6):
    for numbers in itertools.combinations(range(66, 71), choice):
        sheet = changed(SHEET, *(TOGETHER[number] for number in numbers))
        for call, words in CALLS + OWN:
            unedited(numbers[0], call, sheet + MARK * 10, 60, words)
            if len(script) % 4 == 0:
                unedited(80, call, sheet, 61, words)
                unedited(65, call, sheet, 11, words)
for call, words in OWN:
    unedited(80, call, SHEET, 61, words)
    unedited(80, call, SHEET, LARGEST, words)
    unedited(70, call, SHEET, 59, words)
    unedited(70, call, SHEET + MARK * 30, 61, words)
    unedited(67, call, SHEET, 43, words)
    unedited(65, call, SHEET, 11, words)
# each number by other faults
for number, changes in (
    (66, ((1, "01"),)), (66, ((0, "00"),)), (66, ((0, "ffff"),)), (67, ((2, "03"),)), (67, ((2, "05"),)), (67, ((2, "81"),)),
    (67, ((3, "01"),)), (67, ((4, "0b"),)), (67, ((7, "01"),)), (67, ((8, "2b"),)), (67, ((8, "2d"),)), (67, ((11, "80"),)),
    (68, ((20, "0f30"),)), (68, ((20, "0e"),)), (68, ((13, "32"),)), (68, ((36, "100a"),)), (68, ((36, "01"),)), (69, ((12, "00"),)),
    (69, ((36, "a1"),)), (69, ((36, "ff"),)), (69, ((14, "00"),)), (69, ((38, "08"),)), (69, ((15, "00"),)), (69, ((15, "79"),)),
    (69, ((23, "f1"),)), (69, ((31, "3d"),)), (69, ((39, "1f"),)), (70, ((16, "01"),)), (70, ((24, "01"),)), (70, ((24, "03"),)),
    (70, ((32, "00"),)), (70, ((43, "80"),)), (70, ((40, "f8ffffff"),)), (70, ((14, "05"),)), (70, ((15, "02"),)), (70, ((38, "06"),)),
    (70, ((2, "03"), (8, "24"))), (68, ((2, "05"), (8, "34"))), (67, ((2, "8100"), (8, "1404"))),
):
    sheet = changed(SHEET, *changes)
    for call, words in CALLS:
        unedited(number, call, sheet + MARK * 9, 60, words)
# a fault in the record that is to be thrown out, and one in another: it doesn't matter which
for index, setting in enumerate(FOUR):
    for place, byte, number in ((14, "08", 69), (15, "00", 69), (16, "63", 70)):
        for record in range(4):
            unedited(number, "rem", changed(SHEET, (place + 8 * record, byte)), 60, one(index, setting))
# a sheet of 129 records, and of 128 with a fault in the last one
TOO_MANY = laid(MANY[:129])
unedited(67, "rem", TOO_MANY, len(TOO_MANY), one(128, MANY[128]))
unedited(67, "remmod", TOO_MANY, len(TOO_MANY), 1)
unedited(67, "add", TOO_MANY + MARK * 9, len(TOO_MANY), named([MANY[129]]))
LAST = changed(laid(MANY[:128]), (12 + 8 * 127 + 4, little(126)))
unedited(70, "rem", LAST, 1164, one(0, MANY[0]))
unedited(70, "remmod", LAST, 1164, 2)
unedited(70, "add", LAST, 1164, named([MANY[128]]))
# values are any bytes
for byte in (0x00, 0x0A, 0x0D, 0x5E, 0xEE, 0xFF):
    odd = (15, 48, 1, 3, bytes([byte] * 3))
    removed((odd, B), 1, (odd,))
    removed((odd, B), 0, (B,))
    added((B,), odd, (odd, B))

# ---- an adding's own numbers in every choice: 69, 78, 79, 80; then with a wrong sheet, and with a length over the buffer

FULL = MANY[:128]
for choice in range(5):
    for numbers in itertools.combinations((69, 78, 79, 80), choice):
        settings = FULL if 79 in numbers else FULL[:127]
        key = (1, 5) if 78 in numbers else (1, 200)
        new = (*key, 1, 1, b"" if 69 in numbers else b"\xaa")
        behind = 7 + len(new[4]) if 80 in numbers else 9
        if not numbers:
            added(settings, new, settings + [new], buffer(settings, 9))
            continue
        not_added(numbers[0], settings, new, behind)
        sheet = changed(laid(settings), (12 + 8 * 3 + 4, "04"))  # the fourth record's offset, which is 3
        unedited(70, "add", sheet + MARK * behind, len(sheet), named([new]))
        unedited(80, "add", buffer(settings, behind), len(laid(settings)) + behind + 1, named([new]))
# 69 in each way, with all the others
for new in (
    (0, 5, 1, 1, b"\xaa"), (161, 5, 1, 1, b"\xaa"), (1, 5, 0, 1, b"\xaa"), (1, 5, 8, 1, b"\xaa"), (1, 5, 1, 0, b""),
    (1, 5, 1, 241, bytes(241)), (1, 5, 3, 121, bytes(242)), (1, 5, 1, 2, b"\xaa"),
):
    not_added(69, FULL, new, 0)

# ---- the largest sheet there is: 12 + 8 * 128 + 240 * 128 bytes. A line has room for it and a setting

GREAT = [(1, register, 1, 240, bytes((7 * register + place) % 256 for place in range(240))) for register in range(128)]
assert len(laid(GREAT)) == 31756 and len(laid(GREAT[:127])) == 31508
not_added(80, GREAT[:127], GREAT[127], 247)
added(GREAT[:127], GREAT[127], GREAT)
removed(GREAT, 0, GREAT[1:], laid(GREAT))

# ---- an evening's sheet: two modules go back to the maker, one register is set anew, a borrowed module comes

SHEETS = [
    (10, 48, 1, 1, b"\x01"), (10, 50, 3, 1, little(4095, 2)), (15, 48, 1, 1, b"\x03"), (15, 51, 5, 1, little(80000)),
    (15, 52, 3, 1, little(1, 2)), (16, 50, 3, 1, little(500, 2)), (16, 51, 3, 1, little(6000, 2)), (16, 52, 3, 1, little(5000, 2)),
    (20, 62, 1, 1, b"\x64"), (20, 64, 1, 8, b"trilobit"),
]
TEN, VARIA, FIFTEEN, TWENTY = SHEETS[:2], SHEETS[5:8], SHEETS[2:5], SHEETS[8:]
buf = buffer(SHEETS, 0)
buf = module_removed(SHEETS, 10, FIFTEEN + VARIA + TWENTY, buf)
unedited(77, "remmod", buf, len(laid(FIFTEEN + VARIA + TWENTY)), 10)
buf = module_removed(FIFTEEN + VARIA + TWENTY, 20, FIFTEEN + VARIA, buf)
edge = (16, 51, 3, 1, little(6200, 2))
unedited(78, "add", buf, len(laid(FIFTEEN + VARIA)), named([edge]))
buf = removed(FIFTEEN + VARIA, 4, FIFTEEN + [VARIA[0], VARIA[2]], buf)
buf = added(FIFTEEN + [VARIA[0], VARIA[2]], edge, FIFTEEN + [VARIA[0], edge, VARIA[2]], buf)
evening = FIFTEEN + [VARIA[0], edge, VARIA[2]]
borrowed = (11, 36, 3, 1, little(7, 2))
buf = added(evening, borrowed, [borrowed] + evening, buf)
say(f"sheet.check {text(buf[:len(laid([borrowed] + evening))])}", "ok count=7")
say(f"sheet.read {text(buf[:len(laid([borrowed] + evening))])} 5 eeee", "ok module=16 reg=51 kind=3 count=1 n=2 buf=3818")
say(
    f"sheet.write {named([borrowed] + evening)} {'ee' * len(laid([borrowed] + evening))}",
    f"ok n={len(laid([borrowed] + evening))} buf={text(buf[:len(laid([borrowed] + evening))])}",
)

# ---- lines that are no calls

H = SHEET.hex()
for line in (
    "sheet.rem", "sheet.rem ", "sheet.rem -", f"sheet.rem {H}", f"sheet.rem {H} 60", f"sheet.rem {H} 60 0", f"sheet.rem {H} 60 0 15",
    f"sheet.rem {H} 60 0 15 ", f"sheet.rem {H} 60 0 15 48 ", f"sheet.rem {H} 60 0 15 48 0", f"sheet.rem {H}  60 0 15 48",
    f"sheet.rem {H} 60 0  15 48", f"sheet.rem {H} 60 0 15:48", f"sheet.rem {H} - 0 15 48", f"sheet.rem {H} 60 - 15 48",
    f"sheet.rem {H} 60 0 - -", f"sheet.rem {H} 60 0 256 48", f"sheet.rem {H} 60 0 15 256", f"sheet.rem {H} 60 0 -1 48", f"sheet.rem {H} 60 0 15 -1",
    f"sheet.rem {H} -60 0 15 48", f"sheet.rem {H} +60 0 15 48", f"sheet.rem {H} 60 -1 15 48", f"sheet.rem {H} 0x3c 0 15 48",
    f"sheet.rem {H} 18446744073709551616 0 15 48", f"sheet.rem {H} 60 18446744073709551616 15 48", f"sheet.rem {H} 18446744073709551676 0 15 48",
    f"sheet.rem {H}0 60 0 15 48", f"sheet.rem {H}EE 60 0 15 48", f"sheet.rem 60 {H} 0 15 48", f"SHEET.rem {H} 60 0 15 48", f"sheet.rem{H} 60 0 15 48",
    f"sheet.remove {H} 60 0 15 48", "sheet.remmod", "sheet.remmod -", f"sheet.remmod {H}", f"sheet.remmod {H} 60", f"sheet.remmod {H} 60 ",
    f"sheet.remmod {H} 60 15 ", f"sheet.remmod {H} 60 15 48", f"sheet.remmod {H} 60 256", f"sheet.remmod {H} 60 -1", f"sheet.remmod {H} 60 -",
    f"sheet.remmod {H} 18446744073709551616 15", f"sheet.remmod {H} - 15", f"sheet.remmod {H}e 60 15", f"sheet.remmod  {H} 60 15",
    "sheet.add", "sheet.add -", f"sheet.add {H}", f"sheet.add {H} 60", f"sheet.add {H} 60 ", f"sheet.add {H} 60 -", f"sheet.add {H} 60 15:49:1:1",
    f"sheet.add {H} 60 15:49:1:1:", f"sheet.add {H} 60 15:49:1:1:0", f"sheet.add {H} 60 15:49:1:1:0A", f"sheet.add {H} 60 15:49:1:1:aa;",
    f"sheet.add {H} 60 ;15:49:1:1:aa", f"sheet.add {H} 60 15:49:1:1:aa;15:51:1:1:aa", f"sheet.add {H} 60 15:49:1:1:aa 15:51:1:1:aa",
    f"sheet.add {H} 60 15 49 1 1 aa", f"sheet.add {H} 60 256:49:1:1:aa", f"sheet.add {H} 60 15:256:1:1:aa", f"sheet.add {H} 60 15:49:256:1:aa",
    f"sheet.add {H} 60 15:49:1:256:aa", f"sheet.add {H} 60 -1:49:1:1:aa", f"sheet.add {H} 60 15:49:1:1:aa:", f"sheet.add {H} 60 :49:1:1:aa",
    f"sheet.add {H} 18446744073709551616 15:49:1:1:aa", f"sheet.add {H} - 15:49:1:1:aa", f"sheet.add 15:49:1:1:aa {H} 60",
    f"sheet.add {H} 60 15:49:1:1:aa {'ee' * 9}", "sheet.edit - 0", "sheet.new",
):
    bad(line)
removed(FOUR, 1, (A, C, D), SHEET)  # and none of them is anything to the next call
# numbers with zeros before them
edited("rem", SHEET, "0000000060", "00 0015 048", (B, C, D))
edited("remmod", SHEET, "060", "00000000000000000000000000016", (A, B, D))
edited("add", laid((B, C, D)) + bytes(10), "050", "015:0048:03:001:3412", FOUR)
say("sheet.add - 0 15:49:1:0:-", "no 65 buf=-")  # `-` for no bytes, in a setting too
say(f"sheet.add {H} 60 15:49:1:0:-", f"no 69 buf={H}")

assert all(len(call) <= LINE for call, _ in script)
printed()
