"""medians.py: reads the lines of several runs of bench and prints, for each input and call, the median of the runs, with the
least and the greatest. A run of its own has one place in memory for each thing, and that place alone can change a time; so one
run says little."""
import statistics
import sys

runs = {}
for line in sys.stdin:
    name, call, size, ours, theirs = line.split()
    runs.setdefault((name, call, int(size)), []).append((float(ours), float(theirs)))
print(f"{'input':6} {'call':10} {'bytes':>6} {'proved':>8} {'least':>8} {'most':>8} {'plain C':>8} {'least':>8} {'most':>8} {'ratio':>6}")
for (name, call, size), times in runs.items():
    ours, theirs = zip(*times)
    x, y = statistics.median(ours), statistics.median(theirs)
    print(f"{name:6} {call:10} {size:6} {x:8.2f} {min(ours):8.2f} {max(ours):8.2f} {y:8.2f} {min(theirs):8.2f} {max(theirs):8.2f} {x / y:6.2f}")
print(f"medians of {len(times)} runs of 41 rounds each")
