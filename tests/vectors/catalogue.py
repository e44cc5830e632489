"""catalogue.py calls | answers: a call line for each of the 65536 pairs of module type and register, and what each must answer
by tests/vectors/catalogue.txt, which was typed in from the paper: type, register, kind, read or write, lowest, highest."""
import pathlib
import sys

rows = {}
for line in (pathlib.Path(__file__).parent / "catalogue.txt").read_text().splitlines():
    model, register, kind, right, low, high = line.split()
    key = int(model, 16), int(register, 16)
    assert key not in rows, line
    rows[key] = f"ok kind={int(kind)} write={'rw'.index(right)} lo={int(low)} hi={int(high)}"
assert len(rows) == 28, "the paper has 28 rows"

for model in range(256):
    for register in range(256):
        said = rows.get((model, register), "no 50")
        print(f"cat {model} {register}" if sys.argv[1:] == ["calls"] else said)
