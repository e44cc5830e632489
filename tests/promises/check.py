"""Holds the documents to the repository. A citation stands between backticks and has one of these forms:

    CRATE/specs: NAME, NAME      definitions           CRATE/src: NAME          functions, constants, types
    CRATE/proofs: NAME, NAME     laws                  CRATE/must-fail: NAME    wrong programs
    CRATE::NAME                  a public call         docs/DECISIONS: 7, 8     entries, or the words that one begins with
    tests/host/run               a file or folder, from the top or from crates/ on
"""
import pathlib
import re
import sys

import names

faults = []


def fault(where, text):
    faults.append(f"{where}: {text}")


# ---- citations

PART = re.compile(r"([\w-]+)/(specs|proofs|src|must-fail): (.+)")
DECISION = re.compile(r"docs/DECISIONS: (.+)")
CALL = re.compile(r"(\w+)::(\w+)")
PATH = re.compile(r"[\w./-]*[/.][\w./-]*")
WHAT = {"specs": "definition", "proofs": "law", "src": "function, constant or type", "must-fail": "wrong program"}


def decided(entry):
    text = names.read(names.ROOT / "docs" / "DECISIONS.md")
    if entry.isdigit():
        return re.search(rf"^{entry}\. ", text, re.M) is not None
    return re.search(rf"^(?:#+ |[-\d.]+ \*\*){re.escape(entry)}", text, re.M) is not None


def cite(where, span):
    """Looks a citation up. False where the span has none of the forms."""
    part, decision, call = PART.fullmatch(span), DECISION.fullmatch(span), CALL.fullmatch(span)
    if part:
        crate, place, cited = part.groups()
        for name in cited.split(", "):
            if name not in names.named(crate, place):
                elsewhere = [f"{c}/{place}" for c in names.listed() if name in names.named(c, place)]
                hint = f"; it is in {', '.join(elsewhere)}" if elsewhere else ""
                fault(where, f"crates/{crate}/{place} has no {WHAT[place]} {name}{hint}")
    elif decision:
        entries = decision.group(1).split(", ")
        for entry in entries if all(e.isdigit() for e in entries) else [decision.group(1)]:
            if not decided(entry):
                fault(where, f"docs/DECISIONS.md has no entry {entry}")
    elif call:
        crate, name = call.groups()
        if name not in {c.name for c in names.calls(crate)}:
            fault(where, f"crates/{crate}/src has no pub fn {name}")
    elif PATH.fullmatch(span):
        if not (names.ROOT / span).exists() and not (names.CRATES / span).exists():
            fault(where, f"there is no file or folder {span}, neither at the top nor in crates/")
    else:
        return False
    return True


def tables(text):
    """The rows of a document's tables: line number, heading above, cells. Rows of dashes and headings of tables are left out."""
    heading, lines = "", text.splitlines()
    for at, line in enumerate(lines):
        if line.startswith("## "):
            heading = line[3:]
        later = lines[at + 1] if at + 1 < len(lines) else ""
        if line.startswith("|") and not re.fullmatch(r"[|\s:-]+", line) and not re.fullmatch(r"\|[|\s:-]+", later):
            yield at + 1, heading, [c.strip() for c in line.strip().strip("|").split("|")]


def spans(text):
    return re.findall(r"`([^`]+)`", text)


def check_promises(text):
    """Each row names what keeps its sentence, and each name is there. The count of rows that are open comes back."""
    still_open = []
    for at, heading, cells in tables(text):
        where = f"docs/PROMISES.md:{at}"
        kept = " ".join(cells[1:])
        if "(open)" in kept:
            still_open.append((at, cells[0]))
        elif not spans(kept):
            fault(where, "the row names nothing that keeps it, and does not say (open)")
        for span in spans(kept):
            if not cite(where, span):
                fault(where, f"`{span}` has none of the forms of a citation (tests/promises/check.py has them)")
    return still_open


QUOTED = re.compile(r"    (\w+) : ")
WORD = re.compile(r"[^\W\d][\w']*")


def check_quotes(text):
    """Each law that is quoted, `    NAME : ..` and the lines under it, says itself in words that its own file in proofs/ has. How many there are comes back."""
    quotes = []
    for at, line in enumerate(text.splitlines(), 1):
        if QUOTED.match(line):
            quotes.append((at, []))
        if quotes and line.startswith("    ") and quotes[-1][0] + len(quotes[-1][1]) == at:
            quotes[-1][1].append(line)
    files = [re.sub(r"--.*", "", names.read(p)) for p in sorted(names.CRATES.glob("*/proofs/**/*.antt"))]
    for at, lines in quotes:
        name, *words = WORD.findall(" ".join(lines))
        missing = [[w for w in words if w not in said] for said in map(set, map(WORD.findall, filter(re.compile(rf"^ *pub {name} :", re.M).search, files)))]
        if not missing:
            fault(f"docs/PROMISES.md:{at}", f"no proofs/ has a law {name}")
        elif all(missing):
            fault(f"docs/PROMISES.md:{at}", f"{name} is quoted with words that its file does not have: {', '.join(min(missing, key=len))}")
    return len(quotes)


TOP = {"crates", "docs", "examples", "include", "tests", "tools"}


def check_others():
    """What the other documents cite in these forms is there too, and the files that they name from the top on."""
    for path in sorted((names.ROOT / "docs").glob("*.md")) + [names.ROOT / "README.md"]:
        if path.name == "PROMISES.md":
            continue
        for at, line in enumerate(names.read(path).splitlines(), 1):
            for span in spans(line):
                where = f"{path.relative_to(names.ROOT)}:{at}"
                if PART.fullmatch(span) or DECISION.fullmatch(span):
                    cite(where, span)
                elif span.split("/")[0] in TOP and PATH.fullmatch(span.split()[0]):
                    cite(where, span.split()[0])


# ---- the public calls

ROWS_OF_CALLS = "Two outcomes are equal"


def check_calls(text):
    """The table names every public call, its contract is the one in `ensures`, and its law is about that contract."""
    rows = {}
    for at, heading, cells in tables(text):
        if heading == ROWS_OF_CALLS:
            for span in spans(cells[0]):
                if span in rows:
                    fault(f"docs/PROMISES.md:{at}", f"{span} has a second row")
                rows[span] = (at, cells)
    count = 0
    for crate in names.library():
        for call in names.calls(crate):
            count += 1
            check_call(call, rows.pop(f"{crate}::{call.name}", None))
    for span, (at, _) in rows.items():
        fault(f"docs/PROMISES.md:{at}", f"{span} is no public call of the library's crates")
    return count


def check_call(call, row):
    name = f"{call.crate}::{call.name}"
    if call.requires:
        fault(call.path, f"{name} has a `requires`; a public call answers everything")
    if call.contract is None:
        fault(call.path, f"the `ensures` of {name} is not one named relation")
        return
    if call.unsaid:
        fault(call.path, f"the `ensures` of {name} does not speak of {', '.join(call.unsaid)}")
    if call.beside:
        fault(call.path, f"the `ensures` of {name} speaks of {', '.join(call.beside)}, which it is not given and no specs/ defines")
    if call.home is None:
        fault(call.path, f"{name} promises {call.contract}, which no `ghost use` brings from a specs/")
        return
    if row is None:
        fault("docs/PROMISES.md", f'"{ROWS_OF_CALLS}" has no row for {name}, which promises {call.contract}')
        return
    at, cells = row
    where = f"docs/PROMISES.md:{at}"
    if len(cells) < 4:
        fault(where, f"{name}: the row has not the four columns call, contract, law, wrong programs")
        return
    if spans(cells[1]) != [f"{call.home}/specs: {call.contract}"]:
        fault(where, f"the contract in the `ensures` of {name} is {call.home}/specs: {call.contract}")
    check_law(where, call, [PART.fullmatch(s) for s in spans(cells[2])])
    if wrong_programs(cells[3]) < 2:
        fault(where, f"{name} has fewer than two wrong programs")


def check_law(where, call, laws):
    """One law, which says `Settled` of the very contract in the call's `ensures`."""
    if len(laws) != 1 or not laws[0] or laws[0].group(2) != "proofs" or not laws[0].group(3).endswith("_settled"):
        fault(where, f"{call.crate}::{call.name}: the third column wants one citation CRATE/proofs: .._settled")
        return
    crate, law = laws[0].group(1), laws[0].group(3)
    contract, home, why = names.settles(crate, law)
    if why:
        fault(where, f"{law} of {crate} {why}")
    elif (contract, home) != (call.contract, call.home):
        fault(where, f"{law} of {crate} speaks of {home}/specs: {contract}, the call promises {call.home}/specs: {call.contract}")


def wrong_programs(cell):
    """How many a cell names: edits of the gate, edits on demand, and a call below whose own wrong programs count here too."""
    count = 0
    for span in spans(cell):
        part = PART.fullmatch(span)
        count += len(part.group(3).split(", ")) if part and part.group(2) == "must-fail" else 1
    return count


# ---- wrong programs, and what a reader has to believe


def check_edits(text):
    cited = set()
    for span in spans(text):
        part = PART.fullmatch(span)
        if part and part.group(2) == "must-fail":
            cited |= {(part.group(1), name) for name in part.group(3).split(", ")}
    for crate, name in sorted(names.edits() - cited):
        fault("docs/PROMISES.md", f"does not name the wrong program {crate}/must-fail: {name}")
    check_wrong(text)
    return len(names.edits())


def check_wrong(text):
    """Those of tests/wrong stand in the row of a call of their crate."""
    cited = set()
    for at, heading, cells in tables(text):
        if heading == ROWS_OF_CALLS:
            for span in spans(cells[-1]):
                if span.startswith("tests/wrong/"):
                    cited.add(span)
                    if span.split("/")[2] != cells[0].strip("`").split("::")[0]:
                        fault(f"docs/PROMISES.md:{at}", f"{span} is of another crate than {cells[0]}")
    for path in sorted(names.wrong() - cited):
        fault("docs/PROMISES.md", f'"{ROWS_OF_CALLS}" does not name the wrong program {path}')


def check_crates():
    """Every folder of crates/ is listed, who is exempt is a part of a test tool, and every file of definitions or laws is checked."""
    listed = names.listed()
    for path in sorted(names.CRATES.iterdir()):
        if path.is_dir() and path.name not in listed:
            fault("crates.txt", f"does not list crates/{path.name}, so nothing proves it")
    for crate in sorted(names.EXEMPT - set(listed)):
        fault("tests/promises/names.py", f"exempts {crate}, which crates.txt does not list")
    for crate in names.library():
        for below in set(listed[crate]) & names.EXEMPT:
            fault("crates.txt", f"{crate} stands on {below}, whose calls need no promise")
    for path in sorted(names.CRATES.glob("*/specs/*.antt")) + sorted(names.CRATES.glob("*/proofs/*.antt")):
        if path.name != "Lib.antt" and not re.search(rf"^pub mod {path.stem}$", names.read(path.parent / "Lib.antt"), re.M):
            fault(str(path.relative_to(names.ROOT)), "is not in its Lib.antt, so nothing checks it")


def check_exports():
    """What C links has the symbols of the library crate that promises them, with the same parameters, answers and clauses."""
    for crate, of in names.EXPORTS.items():
        ours, theirs = names.exported(crate), names.exported(of)
        for name in sorted(ours.keys() | theirs.keys()):
            if ours.get(name) != theirs.get(name):
                fault(f"crates/{crate}/src", f"{name} is not the export that crates/{of}/src has, or has other clauses")


def check_specs():
    """What is promised stands in specs/ alone: neither a definition nor a contract leans on what a proofs/ declares."""
    for path in sorted(names.CRATES.glob("*/specs/**/*.antt")) + sorted(names.CRATES.glob("*/src/**/*.rt")):
        for at, line in enumerate(names.read(path).splitlines(), 1):
            if re.match(r"(ghost )?use Rattle\.(?!std\.)\S*proofs", line):
                fault(f"{path.relative_to(names.ROOT)}:{at}", "leans on what a proofs/ declares")
    numbers = re.findall(r"^(\d+)\. ", names.read(names.ROOT / "docs" / "DECISIONS.md"), re.M)
    for number in sorted({n for n in numbers if numbers.count(n) > 1}, key=int):
        fault("docs/DECISIONS.md", f"has two entries {number}")


def check_sample():
    """README's sample night is the stored one, whose answers tests/model/run looks at."""
    rows = [cells for _, heading, cells in tables(names.read(names.ROOT / "README.md")) if heading == "Rehearse a night"]
    for column, file in enumerate(("night.calls", "night.answers")):
        stored = names.read(names.ROOT / "examples" / "rehearsal" / file).splitlines()
        if [" ".join(spans(cells[column])) for cells in rows] != stored:
            fault("README.md", f"the sample under \"Rehearse a night\" is not that of examples/rehearsal/{file}")


# ---- the paper, where it is at hand


def plain(text):
    """Words only: without quotes, backticks, bold, brackets for words left out, and with single blanks."""
    return re.sub(r"\s+", " ", re.sub(r"[\"“”`*|]", " ", text)).strip()


def pieces(section):
    """The sentences of a section of the paper, the cells of its tables and the lines of its samples."""
    for line in section.splitlines():
        if line.startswith("|"):
            yield from (c for c in line.strip().strip("|").split("|") if not re.fullmatch(r"[\s:-]*", c))
        else:
            line = re.sub(r"^- |^```.*", "", line)
            yield from re.split(r"(?<=[.:;])\s+", line)


def check_paper(text, paper):
    """Each sentence of the paper stands in the section of its name, in the paper's order."""
    sections = re.split(r"^## ", names.read(paper), flags=re.M)
    ours = {s.splitlines()[0]: plain("\n".join(s.splitlines()[1:])) for s in re.split(r"^## ", text, flags=re.M)[1:]}
    order = [h for h in ours if h in {s.splitlines()[0].strip() for s in sections[1:]}]
    wanted = [s.splitlines()[0].strip() for s in sections[1:]]
    if order != wanted:
        fault("docs/PROMISES.md", f"has the paper's sections as {order}, the paper as {wanted}")
    count = 0
    for number, section in enumerate(sections):
        heading, _, body = section.partition("\n")
        heading = heading.strip() if number else "The papers"
        there, from_here = ours.get(heading, ""), 0
        for piece in pieces(body):
            want = plain(piece).rstrip(".:;")
            if not want:
                continue
            count += 1
            at = there.find(want, from_here)
            if at < 0:
                early = " (it stands too early)" if want in there else ""
                fault("docs/PROMISES.md", f"{heading!r} has not{early}: {want}")
            else:
                from_here = at
    return count


def main(words):
    text = names.read(names.ROOT / "docs" / "PROMISES.md")
    still_open = check_promises(text)
    check_others()
    quotes = check_quotes(text)
    calls = check_calls(text)
    edits = check_edits(text)
    check_crates()
    check_exports()
    check_specs()
    check_sample()
    said = ""
    if words[:1] == ["--paper"] and len(words) == 2:
        said = f", {check_paper(text, pathlib.Path(words[1]))} sentences and cells of the paper"
    elif words:
        print("usage: tests/promises/run [--paper FILE]", file=sys.stderr)
        return 2
    for line in faults:
        print(f"promises: {line}")
    for at, sentence in still_open:
        print(f"promises: open, line {at}: {sentence}")
    print(f"promises: library crates: {' '.join(names.library())}")
    print(f"promises: {calls} public calls, {edits} wrong programs at the gate, {len(names.wrong())} on demand, {quotes} laws quoted{said}, {len(still_open)} rows open, {len(faults)} faults")
    return 1 if faults else 0


sys.exit(main(sys.argv[1:]))
