"""remainder.py calls | answers: the call lines of tests/vectors/remainder.calls, and what each must answer, worked out apart
from the library: by the long division that the other scripts seal their telegrams with as well."""
from wire import printed, remainder, say

# what the papers themselves say: T1 to T4, and that the messages of the manual's sections 2.2 to 2.4, whole, leave 0. The
# script must agree with them before it may judge the library
KNOWN = {
    "0fa20466": 0xC7B6,
    "0fa2053003": 0xBCE1,
    "0aa205238813": 0x3B55,
    "a20a08115e91": 0x637E,
    "0fa20466c7b6": 0,
    "0fa2053003bce1": 0,
    "a20f0330482f": 0,
    "0aa2052388133b55": 0,
    "a20a0323818d": 0,
    "0aa204117583": 0,
    "a20a08115e91637e": 0,
    "0a4205320d9cf0": 0,
    b"123456789".hex(): 0x31C3,
    "": 0,
}
for text, known in KNOWN.items():
    assert remainder(bytes.fromhex(text)) == known, text

strings = [bytes.fromhex(text) for text in KNOWN] + [bytes([byte]) for byte in range(256)]
# and strings as long as a message, and far longer
strings += [bytes([byte]) * count for byte in (0x00, 0xFF, 0x5E) for count in (240, 246, 247, 4094)]
for data in strings:
    say(f"rem {data.hex() or '-'}", f"ok rem={remainder(data)}")
printed()
