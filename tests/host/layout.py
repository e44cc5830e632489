"""layout.py HEADER CRATES <LAYOUT: the structs and the calls of the header are those of the Rattle sources. LAYOUT is what
tests/host/layout.c writes of the C side. The other side is worked out here from the #[repr(C)] declarations, by the rules of x86-64:
name, type, place and size of every field, in order, and the size of the whole; then each call's parameters and what it gives.
Every such struct of the sources has its pair in the header and the reverse, and so has every call."""
import pathlib
import re
import sys

# the library's struct and the header's
PAIRS = {
    "FrameAnswer": "kamzhor_frame", "ValueAnswer": "kamzhor_value", "Receiver": "kamzhor_receiver", "Tally": "kamzhor_tally",
    "StepAnswer": "kamzhor_step", "SizeAnswer": "kamzhor_size", "EntryAnswer": "kamzhor_entry",
    "Request": "kamzhor_request", "Ticket": "kamzhor_ticket", "Desk": "kamzhor_desk", "Marks": "kamzhor_desk.marks",
    "OpenAnswer": "kamzhor_opened", "ReplyAnswer": "kamzhor_booked", "CloseAnswer": "kamzhor_closed", "SeenAnswer": "kamzhor_seen",
    "AfterDeskOpen": "kamzhor_desk_opened", "AfterDeskReply": "kamzhor_desk_booked", "AfterDeskClose": "kamzhor_desk_closed",
    "AfterDeskSweep": "kamzhor_desk_swept",
    "Waiting": "kamzhor_waiting", "Lane": "kamzhor_lane", "Lanes": "kamzhor_lanes", "JoinAnswer": "kamzhor_joined",
    "GrantAnswer": "kamzhor_granted", "AfterLanesJoin": "kamzhor_lanes_joined", "AfterLanesGrant": "kamzhor_lanes_granted",
    "AfterLanesWithdraw": "kamzhor_lanes_withdrawn",
    "HostEdge": "kamzhor_edge", "HostOut": "kamzhor_edge_out", "HostBox": "kamzhor_box", "AfterBoxAsk": "kamzhor_box_asked",
    "Scan": "kamzhor_scan", "ScanAnswer": "kamzhor_scanned", "AfterScanStep": "kamzhor_scan_asked",
    "Head": "kamzhor_setting", "CheckAnswer": "kamzhor_checked", "RecordAnswer": "kamzhor_record",
    "Register": "kamzhor_held", "Bench": "kamzhor_bench", "TakeAnswer": "kamzhor_taken", "RegisterAnswer": "kamzhor_register",
    "AfterBenchBuild": "kamzhor_bench_built", "AfterBenchTake": "kamzhor_bench_answered",
}

# an entry of the list of numbers that kamzhor_after_desk_expire_all is lent: no struct in the library
ENTRY = {"kamzhor_due": [("job", "u32"), ("address", "u32"), ("folder", "u32")]}

# the crate whose calls are those of the archive
EXPORTS = "kamzhor_c"

# what a field or a parameter is called there and here
RENAMED = {"unit": "module", "sort": "type", "register": "reg", "short": "short_pass", "long": "long_pass", "filters": "box",
           "head": "setting", "at": "place"}

# how many bytes a number has, which is its alignment too, and what C calls it
NUMBERS = {"u8": (1, "uint8_t"), "bool": (1, "uint8_t"), "u16": (2, "uint16_t"), "u32": (4, "uint32_t"), "u64": (8, "uint64_t"),
           "usize": (8, "size_t")}


def fail(what):
    sys.exit("layout: FAILED, " + what)


def same(what, ours, theirs):
    if ours == theirs:
        return
    if isinstance(ours, list) and isinstance(theirs, list):
        ours, theirs = [x for x in ours if x not in theirs] or ours, [x for x in theirs if x not in ours] or theirs
    fail(f"{what}: the library has {ours}, the header {theirs}")


# ---- the library's side

def sources(crates):
    """Its structs as lists of fields and their types, and the archive's calls."""
    structs, calls, marked = {}, {}, 0
    for path in sorted(pathlib.Path(crates).glob("*/src/*.rt")):
        text = re.sub(r"^\s*//.*\n", "", path.read_text(encoding="utf-8"), flags=re.M)
        marked += text.count("#[repr(C)]")
        for name, value in re.findall(r"^(?:pub )?const (\w+): usize = (\d+);", text, flags=re.M):
            text = text.replace(f"; {name}]", f"; {value}]")
        for name, body in re.findall(r"#\[repr\(C\)\]\s*(?:#\[[^\]]*\]\s*)*pub struct (\w+) \{\n(.*?)\n\}", text, flags=re.S):
            if name in structs:
                fail(f"two structs are called {name}")
            structs[name] = re.findall(r"^    pub (\w+): (.+),$", body, flags=re.M)
            same(f"the lines of {name}", len(structs[name]), len(body.split("\n")))
        if path.parts[-3] != EXPORTS:
            continue
        for name, parameters, gives in re.findall(r'extern "C" fn (\w+)(?:<\'a>)?\(([^)]*)\)\s*->\s*(\w+)', text):
            listed = [p.strip() for p in parameters.split(",") if p.strip()]
            calls[name] = [tuple(p.split(": ")) for p in listed], gives
    same("how many structs", len(structs), marked)
    return structs, calls


def array(kind):
    """What an array's elements are and how many it has: 1 of anything else."""
    found = re.fullmatch(r"\[(\w+); (\d+)\]", kind)
    return (found.group(1), int(found.group(2))) if found else (kind, 1)


def laid_out(fields):
    """Each field with its place and size, and the alignment and the size of the whole."""
    at, widest, places = 0, 1, []
    for name, kind in fields:
        element, count = array(kind)
        alignment, size = (NUMBERS[element][0],) * 2 if element in NUMBERS else laid_out(STRUCTS[element])[1]
        at = (at + alignment - 1) // alignment * alignment
        places.append((RENAMED.get(name, name), at, size * count))
        at += size * count
        widest = max(widest, alignment)
    return places, (widest, (at + widest - 1) // widest * widest)


def in_c(kind):
    """What C calls a type."""
    return NUMBERS[kind][1] if kind in NUMBERS else "struct " + PAIRS[kind]


def parameter(name, kind):
    """The C parameters that one stands for: a slice is a pointer and a length of any name."""
    slice_of = re.fullmatch(r"&(?:'a )?(mut )?\[(\w+)\]", kind)
    if slice_of:
        return [(("" if slice_of.group(1) else "const ") + in_c(slice_of.group(2)) + " *", name), ("size_t", None)]
    lent = re.fullmatch(r"&mut (\w+)", kind)
    return [(in_c(lent.group(1)) + " *" if lent else in_c(kind), RENAMED.get(name, name))]


# ---- the header's side

def header_of(path):
    """Its structs as lists of fields and their types, and its calls."""
    text = re.sub(r"/\*.*?\*/", "", pathlib.Path(path).read_text(encoding="ascii"), flags=re.S)
    structs = {}
    for name, body in re.findall(r"^struct (kamzhor_\w+) \{\n(.*?)^\};", text, flags=re.S | re.M):
        for inner, field in re.findall(r"    struct \{\n(.*?)    \} (\w+);", body, flags=re.S):
            structs[f"{name}.{field}"] = fields_of(inner)
            body = body.replace("struct {\n" + inner + "    }", f"struct {name}.{field}")
        structs[name] = fields_of(body)
    calls = {}
    for gives, name, parameters in re.findall(r"^([a-z][\w ]*[ *])(\w+)\(([^)]*)\);", text, flags=re.M):
        listed = [] if parameters == "void" else [" ".join(p.split()) for p in parameters.split(",")]
        parted = [re.fullmatch(r"(.*[ *])(\w+)", p).groups() for p in listed]
        calls[name] = [(kind.strip(), called) for kind, called in parted], gives.strip()
    return structs, calls


def fields_of(body):
    return [(name, kind.strip()) for kind, name in re.findall(r"^\s*(\S.*[ *])(\w+)(?:\[\w+\])?;", body, flags=re.M)]


# ---- one beside the other

STRUCTS, CALLS = sources(sys.argv[2])
HEADER, PROTOTYPES = header_of(sys.argv[1])
WHOLE, FIELDS = {}, {}
for line in sys.stdin:
    type_name, field_name, first, second = line.split()
    if field_name == "-":
        WHOLE[type_name] = int(first), int(second)
    else:
        FIELDS.setdefault(type_name, []).append((field_name, int(first), int(second)))

same("the structs that have a pair", sorted(STRUCTS), sorted(PAIRS))
same("the structs of the header", sorted([*PAIRS.values(), *ENTRY]), sorted(HEADER))
for ours, theirs in [*PAIRS.items(), *((name, name) for name in ENTRY)]:
    fields = ENTRY[ours] if ours in ENTRY else STRUCTS[ours]
    places, whole = laid_out(fields)
    same(theirs, [(RENAMED.get(n, n), in_c(array(k)[0])) for n, k in fields], HEADER[theirs])
    holder, dot, field = theirs.partition(".")
    told = FIELDS[holder]
    if dot:  # a struct without a name: its fields are told as the holder's
        start = next(at for name, at, size in told if name == field)
        same(theirs, places, [(n[len(field) + 1:], at - start, size) for n, at, size in told if n.startswith(field + ".")])
    else:
        same(theirs, places, [entry for entry in told if "." not in entry[0]])
        same(theirs, whole, WHOLE[theirs])
print("layout: the header's", len(HEADER), "structs have the library's fields, places and sizes")

same("the calls", sorted(CALLS), sorted(PROTOTYPES))
for name, (parameters, gives) in CALLS.items():
    theirs, given = PROTOTYPES[name]
    ours = [c for p in parameters for c in parameter(*p)]
    same(name, ours, [(kind, called if i < len(ours) and ours[i][1] else None) for i, (kind, called) in enumerate(theirs)])
    same(name, in_c(gives), given)
print("layout: the header's", len(CALLS), "calls have the library's parameters, in its order")
