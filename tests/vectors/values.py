#!/usr/bin/env python3
"""values.py < CALLS: what these calls on register values must answer, worked out from the paper and not from the code under
test. The calls are the lines of tests/vectors/values.calls and of crates/values_vectors/stdin, written by hand; what each
must answer comes from the rules below, which are 01's "Register values" and rows 40 to 44 in Python's own integers.
"""
import sys

# kind: size, signed
KINDS = {1: (1, False), 2: (1, True), 3: (2, False), 4: (2, True), 5: (4, False), 6: (4, True), 7: (8, False)}


def hexed(data):
    return data.hex() or "-"


def can_hold(kind, value):
    size, signed = KINDS[kind]
    try:
        value.to_bytes(size, "little", signed=signed)
    except OverflowError:
        return False
    return True


def read(kind, data, element):
    if kind not in KINDS:
        return "no 40"
    size, signed = KINDS[kind]
    if len(data) == 0 or len(data) % size:
        return "no 41"
    parts = [data[i:i + size] for i in range(0, len(data), size)]
    if element >= len(parts):
        return "no 42"
    return f"ok value={int.from_bytes(parts[element], 'little', signed=signed)}"


def refusal(kind, value, room=None):
    if kind not in KINDS:
        return "no 40"
    if not can_hold(kind, value):
        return "no 43"
    if room is not None and room < KINDS[kind][0]:
        return "no 44"
    return None


def laid(data, room):
    """Ten bytes AA, with as much of data in the first `room` of them as finds place."""
    data = data[:room]
    return (data + bytes([0xAA]) * 10)[:10]


def write(kind, value, room):
    no = refusal(kind, value, len(room))
    if no:
        return f"{no} buf={hexed(room)}"
    size, signed = KINDS[kind]
    return f"ok buf={hexed(value.to_bytes(size, 'little', signed=signed) + room[size:])}"


def keep(kind, value):
    no = refusal(kind, value)
    size = KINDS.get(kind, (0, False))[0]
    return no or str(value % 256 ** size)


def text(word):
    return bytes.fromhex("" if word == "-" else word)


def masked(v, mask):
    """Bit by bit, as the paper says it: a one in the mask sets, clears or inverts that bit, a zero keeps it."""
    made = {"set": lambda b: 1, "clear": lambda b: 0, "toggle": lambda b: 1 - b}
    shown = []
    for name, of in made.items():
        bits = [(of(v >> k & 1) if mask >> k & 1 else v >> k & 1) for k in range(64)]
        shown.append(f"{name} {sum(b << k for k, b in enumerate(bits))}")
    return " ".join(shown)


def answer(call, *words):
    if call == "val.get":
        return read(int(words[0]), text(words[1]), int(words[2]))
    if call == "val.put":
        return write(int(words[0]), int(words[1]), text(words[2]))
    if call == "load":
        return str(int.from_bytes(text(words[0])[:8], "little"))
    numbers = [int(word) for word in words]
    if call == "keep":
        return keep(*numbers)
    if call == "size":
        return str(KINDS.get(numbers[0], (0, False))[0])
    if call == "fill":
        n, size, room = numbers
        return hexed(laid((n % 256 ** size).to_bytes(size, "little"), room))
    if call == "mask":
        return masked(*numbers)
    if call == "bit":
        v, place = numbers
        return (format(v, "064b")[::-1] + "0" * 192)[place]
    raise SystemExit(f"no such call: {call}")


for line in sys.stdin.read().splitlines():
    said = answer(*line.split())
    # the program says each line again before its answer, `rehearsal` does not
    print(said if line.startswith("val.") else f"{line}: {said}")
