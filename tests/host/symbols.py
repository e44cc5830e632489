"""symbols.py HEADER ARCHIVE CONSTANTS: the functions that the header declares are the ones that the archive exports, what the archive
needs from outside is what docs/C.md says, and the header's constants are those that tests/host/constants.h has numbers for, both ways."""
import re
import sys

header = open(sys.argv[1], encoding="ascii").read()
header = re.sub(r"/\*.*?\*/", "", header, flags=re.S)
declared = sorted(re.findall(r"^[a-z][\w ]*[ *](\w+)\([^)]*\);", header, flags=re.M))

# the archive's first member, "/", is its index: how many symbols, where each is, their names
archive = open(sys.argv[2], "rb").read()
if archive[:8] != b"!<arch>\n" or archive[8:24].strip() != b"/":
    sys.exit("symbols: the archive has no index")
index = archive[68:68 + int(archive[56:66])]
count = int.from_bytes(index[:4], "big")
exported = sorted(name.decode() for name in index[4 + 4 * count:].split(b"\0")[:count])

if not declared or declared != exported:
    sys.exit(f"symbols: the header declares {declared}, the archive exports {exported}")
print("symbols: header and archive have the same", len(declared), "functions")

NEEDED = ["memcpy", "memset"]


def members(data):
    """The files of an archive, each from its header of 60 bytes on, at an even place."""
    at = 8
    while at < len(data):
        name, size = data[at:at + 16].strip(), int(data[at + 48:at + 58])
        if name not in (b"/", b"//"):  # its index, and long names
            yield data[at + 60:at + 60 + size]
        at += 60 + size + size % 2


def undefined(file):
    """The names that a 64-bit object file uses and does not have: global symbols of no section."""
    def number(at, size):
        return int.from_bytes(file[at:at + size], "little")
    if file[:6] != b"\x7fELF\x02\x01":
        sys.exit("symbols: a member of the archive is no object file")
    first, each, many = number(40, 8), number(58, 2), number(60, 2)
    sections = [first + each * k for k in range(many)]
    for table in sections:
        if number(table + 4, 4) != 2:  # a symbol table
            continue
        names = number(sections[number(table + 40, 4)] + 24, 8)
        start, size = number(table + 24, 8), number(table + 32, 8)
        for symbol in range(start + 24, start + size, 24):
            if number(symbol + 6, 2) == 0:
                name = names + number(symbol, 4)
                yield file[name:file.index(b"\0", name)].decode()


needed = sorted({name for file in members(archive) for name in undefined(file)})
if needed != NEEDED:
    sys.exit(f"symbols: the archive needs {needed} from outside, and docs/C.md says {NEEDED}")
print("symbols: the archive needs", " and ".join(needed), "from outside")

stated = sorted(set(re.findall(r"\bKAMZHOR_\w+", header)) - {"KAMZHOR_H"})
looked_at = sorted(re.findall(r"\bIS\((KAMZHOR_\w+), \d+\)", open(sys.argv[3], encoding="ascii").read()))
if not stated or stated != looked_at:
    sys.exit(f"symbols: constants of only one of the header and {sys.argv[3]}: {sorted(set(stated) ^ set(looked_at))}")
print("symbols: each of the header's", len(stated), "constants has its number in", sys.argv[3])
