"""What the repository has: its crates, their definitions, laws, functions and wrong programs, by name."""
import functools
import pathlib
import re
import sys

ROOT = pathlib.Path(__file__).resolve().parents[2]
CRATES = ROOT / "crates"

# a definition or law of antt: `NAME :` or a record or data type, at the line's start or, in a record or section, after `pub`
WORDS = r"(?:(?:abbrev|unfoldable|opaque)\s+)*"
ANTT = re.compile(rf"^(?:{WORDS}|\s*{WORDS}pub\s+)(?:(?:record|data)\s+(\S+)|([^\s:({{]+)\s*:(?=\s|$))", re.M)
# a function, constant, type or module of Rattle
RATTLE = re.compile(r"^\s*(?:pub(?:\(crate\))?\s+)?(?:extern\s+\"C\"\s+)?(?:fn|const|static|struct|enum|mod)\s+(\w+)", re.M)


def read(path):
    try:
        return path.read_text(encoding="utf-8")
    except (OSError, UnicodeDecodeError) as problem:
        sys.exit(f"promises: {path} cannot be read: {problem}")


# Library crates whose calls docs/PROMISES.md need not name: the parts of the test tool `rehearsal`. No other crate is exempt,
# and no crate of the product stands on one of these.
EXEMPT = {"words", "answers", "telegram_calls", "values_calls", "sheet_calls", "overdue_calls", "desk_calls", "bench_calls", "receiver_calls", "lanes_calls", "varia_calls", "scan_calls"}


# Static libraries, each of which exports the calls of a library crate to C and promises what that one promises.
EXPORTS = {"kamzhor_c": "kamzhor"}


@functools.lru_cache(maxsize=None)
def listed():
    """The crates of crates.txt, in order, each with those that it stands on. A line is NAME: DEP .. or NAME staticlib: DEP .."""
    lines = (line for line in read(ROOT / "crates.txt").splitlines() if line.strip() and not line.startswith("#"))
    return {name.split()[0]: stands_on.split() for name, _, stands_on in (line.partition(":") for line in lines)}


def library():
    """The crates of the product's library: all that have a src/lib.rt, but for those that are exempt by name and those for C."""
    return [c for c in listed() if (CRATES / c / "src" / "lib.rt").is_file() and c not in EXEMPT and c not in EXPORTS]


def exported(crate):
    """The symbols that a crate's sources have for C, by name: their parameters, answer and clauses, with single blanks."""
    heads = {}
    for path in sources(crate, "src", ".rt"):
        text = re.sub(r"//.*", "", read(path))
        for found in re.finditer(r'#\[unsafe\(no_mangle\)\]\s+pub extern "C" fn (\w+)', text):
            heads[found.group(1)] = " ".join(head(text, found.end()).split())
    return heads


@functools.lru_cache(maxsize=None)
def sources(crate, part, suffix):
    """The files of a part of a crate, with the folders below it."""
    return tuple(sorted((CRATES / crate / part).rglob("*" + suffix)))


@functools.lru_cache(maxsize=None)
def named(crate, part):
    """The names that a part of a crate has: specs, proofs, src or must-fail."""
    if part == "must-fail":
        return {p.stem for p in sources(crate, part, ".edit")}
    if part == "src":
        return {m.group(1) for p in sources(crate, part, ".rt") for m in RATTLE.finditer(read(p))}
    return {m.group(1) or m.group(2) for p in sources(crate, part, ".antt") for m in ANTT.finditer(read(p))}


def edits():
    """The wrong programs that every gate tries."""
    return {(p.parts[-3], p.stem) for p in CRATES.glob("*/must-fail/*.edit")}


def wrong():
    """The wrong programs that tests/wrong/run tries on demand, as paths from the top."""
    return {str(p.relative_to(ROOT)) for p in (ROOT / "tests" / "wrong").glob("*/*.edit")}


# ---- public calls

# `pub fn`, whether it stands at the line's start or in an `impl`
PUB_FN = re.compile(r'\bpub\s+(?:(?:const|unsafe|extern\s+"C")\s+)*fn\s+(\w+)')
CLAUSE = re.compile(r"(?:requires|ensures|invariant|decreases)\s*$")


def past(text, at):
    """The place after the brace that closes the one at this place."""
    depth = 0
    for i in range(at, len(text)):
        depth += {"{": 1, "}": -1}.get(text[i], 0)
        if depth == 0:
            return i + 1
    return len(text)


def head(text, at):
    """A function's head: up to the brace that opens its body, which follows no clause."""
    i = text.find("{", at)
    while i >= 0 and CLAUSE.search(text, at, i):
        i = text.find("{", past(text, i))
    return text[at:i] if i >= 0 else text[at:]


class Call:
    """A public function: where it stands, what its `ensures` names, and from which crate that name comes."""

    def __init__(self, crate, path, name, said, uses):
        self.crate, self.path, self.name = crate, path, name
        self.requires = re.search(r"\brequires\b", said) is not None
        stated = [said[m.end() : past(said, m.end() - 1) - 1] for m in re.finditer(r"\bensures\s*\{", said)]
        answer, relation = "result", stated[0] if len(stated) == 1 else ""
        named = re.match(r"\s*([A-Z]\w*)\s", relation)
        self.contract = named.group(1) if named and not re.search(r"[≡×⊎→]", relation) else None
        # what the relation must speak of: all that is given, each lent buffer as it is afterwards, and the answer where there is one
        given = re.findall(r"[(,]\s*(?:mut\s+)?(\w+)\s*:(?!:)", said.split("ensures")[0])
        lent = [f"{room}.new" for room in re.findall(r"(\w+):\s*&\s*mut\b", said)]
        self.unsaid = [part for part in given + lent + [answer] * ("->" in said) if not re.search(rf"\b{part}\b", relation)]
        # and what it may speak of: each of these as it is, or what a definition of a specs/ makes of it, but no number and no sum
        known = {*given, answer, "now", "old", "new", *uses}
        self.beside = [word for word in re.findall(r"[^\s().«»]+", relation) if word not in known]
        self.home = uses.get(self.contract)


def calls(crate):
    """Every `pub fn` of a crate."""
    for path in sources(crate, "src", ".rt"):
        text = re.sub(r"//.*", "", read(path))
        uses = brought(text, "ghost use")
        for found in PUB_FN.finditer(text):
            yield Call(crate, path.relative_to(ROOT), found.group(1), head(text, found.end()), uses)


def brought(text, word):
    """What a file brings in from the specs/ of a crate, by name."""
    uses = {}
    for home, items in re.findall(rf"^{word} Rattle\.(?!std\.)(\w+)\.specs\.[\w.-]+\.\{{(.*?)\}}", text, re.M | re.S):
        for item in items.split(","):
            name, _, other = item.strip().partition(" as ")
            uses[other or name] = home if not other else None
    return uses


# ---- laws

# `(a b : T) .. → Settled (CONTRACT a b ..)`, or with an answer and a buffer `(λ o. CONTRACT a b .. o.0 o.1)`, or two, with `o.2`
SETTLED = re.compile(r"((?:\([^()]*\) )*)(?:→ )?Settled (?:\{A = [^{}]*\} )?(?:(\w+)|\((\w+)((?: \w+)*)\)|\(λ o\. (\w+)((?: \w+)*) o\.0 o\.1(?: o\.2)?\))")


def settles(crate, law):
    """The contract of which a law says `Settled`, whatever the call is given, and the crate that it comes from; else why it does not."""
    for path in sources(crate, "proofs", ".antt"):
        text = re.sub(r"--.*", "", read(path))
        found = re.search(rf"^pub {re.escape(law)} :(.*?)^(?:unfolding\b|{re.escape(law)}\b)", text, re.M | re.S)
        if found:
            return settled_of(text, " ".join(found.group(1).split()))
    return None, None, "is no law at the start of a line there"


def settled_of(text, said):
    fits = SETTLED.fullmatch(said)
    if not fits:
        return None, None, "does not end in `Settled` of a contract alone"
    given = [name for names in re.findall(r"\(([^():]*):", fits.group(1)) for name in names.split()]
    contract = fits.group(2) or fits.group(3) or fits.group(5)
    taken = (fits.group(4) or fits.group(6) or "").split()
    uses = brought(text, "use")
    own = {m.group(1) or m.group(2) for m in ANTT.finditer(text)}
    if uses.get("Settled") != "rows" or own & {"Settled", contract}:
        return None, None, "has another `Settled` than that of rows/specs, or a contract of its own"
    if given != taken or len(set(given)) < len(given):
        return None, None, f"is not about any {contract}: it has {' '.join(given) or 'nothing'} and speaks of {' '.join(taken) or 'nothing'}"
    return contract, uses.get(contract), ""
