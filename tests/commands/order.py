"""order.py NAME <crates.txt: the crates that NAME stands on and NAME, in the order in which rt proves them: each behind those that
it stands on, which come in the order of its line."""
import sys

BELOW = {}
for text in sys.stdin:
    head, colon, parts = text.split("#")[0].partition(":")
    if colon:
        BELOW[head.split()[0]] = parts.split()


def known(name, seen={}):
    """The crates below one, each once."""
    if name not in seen:
        found = []
        for part in BELOW[name]:
            if part in BELOW:
                found += [crate for crate in known(part) + [part] if crate not in found]
        seen[name] = found
    return seen[name]


print(*known(sys.argv[1]), sys.argv[1], sep="\n")
