"""edges.py: writes call lines on both sides of what a line may be: its length, its words, its numbers, its settings. The last one
has no newline."""
import sys

LINES = [
    "", " ", "rem", "rem ", "rem  00", "rem 00 ", "rem 00 00", "rem 0", "rem 0G", "rem AB", "rem --", "rem\0 00", "rem 00\r",
    " rem 00", "REM 00",
    "cat 007 050", "cat 256 1", "cat +1 1", "cat -0 1", "cat 1", "cat 1 1 1", "desk.", "desk.opened", "bench.dum", "lane.", "rx", "tally.",
    "val.put 4 -0 000000", "val.put 4 - 000000", "val.put 0 --1 00", "val.put 7 18446744073709551615 0000000000000000",
    "val.put 7 18446744073709551616 0000000000000000", "val.put 7 -9223372036854775808 00", "val.put 7 -9223372036854775809 00",
    "val.get 7 0000000000000000 18446744073709551615", "val.get 7 0000000000000000 18446744073709551616",
    "val.get 7 - 0", "val.get 256 00 0",
    "bench.dump", "bench.add 1 1 1", "bench.new 256", "bench.new 161", "bench.dump", "bench.new 160", "bench.new 0", "bench.dump",
    "desk.expall 0 200", "desk.expall 0 201", "desk.expall 0 0", "desk.cancel 4294967296 161 0", "desk.cancel 4294967295 256 0",
    "rx.new 18446744073709551615", "rx.feed 0d", "rx.feed -", "rx.end", "rx.new 18446744073709551616", "tally.set 4294967296 0 0",
    "sheet.write - -", "sheet.write  -", "sheet.write ; -", "sheet.write 1:1:1:1:00; -", "sheet.write 1:1:1:1 -", "sheet.write 1:1:1:1:0 -",
    "sheet.write " + ";".join(f"1:{i}:1:1:00" for i in range(200)) + " 00",
    "sheet.write " + ";".join(f"1:{i % 256}:1:1:00" for i in range(201)) + " 00",
    "sheet.write " + ";".join(f"1:{i}:1:1:-" for i in range(128)) + " 00",
    "sheet.write 1:1:1:240:" + "00" * 20000 + " 00",
    "sheet.add 010000000c0000000c00000000000000000000000000000000 12 1:2:3:1:0102",
    "sheet.add 010000000c0000000c00000000000000000000000000000000 12 1:2:3:1:0102 ",
    "sheet.add 010000000c0000000c00000000000000000000000000000000 12 1:2:3:1:-",
    "sheet.add 010000000c0000000c00000000000000000000000000000000 12 -",
    "sheet.add 010000000c0000000c00000000000000000000000000000000 12 1:2:3:1:0102;1:3:3:1:0102",
    "sheet.add - 0 1:2:3:1:0102", "sheet.rem - 0 0 0 0", "sheet.rem - 1 0 0 0", "sheet.rem - 0 0 256 0",
    "sheet.remmod - 18446744073709551615 0",
    "sheet.read - 0 -", "sheet.check -", "varia.dump", "varia.display - -", "varia.short 65536 1 1 -", "varia.new 1 1", "varia.display - -",
    "varia.display 0102 -", "varia.display - 0102", "varia.moving 65535", "varia.moving 65536", "scan.dump", "scan.step 0 -", "scan.new 0",
    "scan.step 0 -", "scan.dump", "scan.dumps", "desk.new", "varia.dump", "scan.dump",
    "rem " + "ab" * 32766, "rem " + "ab" * 32766 + "0", "rem " + "ab" * 32767, "x" * 65536, "x" * 65537, "x" * 200000,
    "rx.new 0", "rx.feed " + "0d" * 32764, "tally.get", "rx.end", "rx.feed " + "0d0a" * 16382, "tally.set 0 4294967290 0",
    "rx.feed " + "0d0a" * 16382, "tally.get", "rx.end",
    "desk.open 1 15 5 48 " + "00" * 241 + " 100 0 0 -", "lane.join 1 15 5 48 " + "00" * 241 + " 100 0",
    "lane.join 1 15 5 48 " + "0a" * 240 + " 100 0", "lane.dump", "lane.withdraw 1 18446744073709551615", "lane.withdraw 1 0",
    "lane.grant 0 " + "ee" * 493, "lane.grant 0 " + "ee" * 494, "lane.grant 0 " + "ee" * 20000, "lane.dump", "desk.dump",
    "rem 0fa20466",
]
sys.stdout.write("\n".join(LINES))
