"""rests.py calls | answers: the call lines of tests/vectors/rests_night.calls, and what each must answer. Which address is
given, which number is told and what the desk shows stands here line by line, worked out by hand from the papers; nothing
here follows a desk. Only the bytes of telegrams are worked out, by long division, and how far it was from the turn to an
address."""
from wire import HOSTS, WRAP, booked, cancelled, expired, fill, given, misread, new, no_cancel, no_expiry, not_booked
from wire import not_given, printed, say, shown, telegram

# ---- before the first desk.new nothing has been closed

shown(161, [], [])
not_booked(17, 161)

# ---- the night of the request: job 7 gives up, job 8 asks the same register of the same module, the answer to job 7 comes

new()
given(161, 0, job=7)
cancelled(161, 40, job=7)
not_booked(61, 161)  # late, and nobody's
shown(162, [], [(161, 40)])
given(162, 50, job=8)  # the turn's; 161 rests
not_booked(61, 161)  # still not job 8's
shown(163, [(162, 8, 60000, 50)], [(161, 40)])
booked(162, job=8)
not_booked(17, 162)  # its last ticket was booked
not_booked(61, 161)  # as before
shown(163, [], [(161, 40)])  # a booking leaves no closing

# ---- both sides of 1000 ms after a cancel, on a desk with no other address to give

fill(0)
not_given(15, 0)  # all open
cancelled(200, 5000)
not_given(15, 5000)  # age 0
not_given(15, 5001)  # 1
not_given(15, 5998)  # 998
not_given(15, 5999)  # 999
given(200, 6000)  # 1000: free
not_given(15, 6000)  # all open again
cancelled(200, 7000)
given(200, 8001)  # 1001
# the rest counts from the cancel's clock and not from the opening's, here 8001
cancelled(200, 8501)
not_given(15, 9001)  # age 500
not_given(15, 9500)  # 999
given(200, 9501)  # 1000
# a clock set back by one ends the rest: age 4294967295
cancelled(200, 9600)
not_given(15, 9600)  # age 0
given(200, 9599)
# far set back too, and half way round; what was closed long ago is free
cancelled(200, 9700)
given(200, 0)
cancelled(200, 9700)
given(200, 9700 + 2**31)
cancelled(200, 9700)
given(200, 70000)
# 999 back is free, as all ages but 0 to 999 are
cancelled(200, 9700)
given(200, 8701)

# ---- both sides after an expiry, which rests from the call's clock and not from when the ticket was due

fill(0, short=[200])
no_expiry(99)
expired(200, 100)
not_given(15, 100)  # age 0
not_given(15, 1098)  # 998
not_given(15, 1099)  # 999
given(200, 1100, wait=100)  # 1000
expired(200, 1500)  # due since 1200
not_given(15, 2200)  # 1000 after it was due, age 700
not_given(15, 2499)  # 999
given(200, 2500, wait=100)
expired(200, 3000)
given(200, 4001, wait=100)  # 1001
expired(200, 5000)
given(200, 4999, wait=100)  # set back by one
shown(201, [(a, a, 100 if a == 200 else 60000, 4999 if a == 200 else 0) for a in HOSTS], [])

# ---- the clock wraps in the middle of a rest

fill(WRAP - 7000)
cancelled(200, WRAP - 6)
not_given(15, WRAP - 6)  # age 0
not_given(15, WRAP - 1)  # 5
not_given(15, 0)  # 6
not_given(15, 993)  # 999
given(200, 994)  # 1000
cancelled(200, WRAP - 1)
not_given(15, 998)  # 999
given(200, 999)  # 1000
cancelled(200, 0)
given(200, WRAP - 1)  # set back by one, over the wrap
cancelled(200, WRAP - 1000)
not_given(15, WRAP - 1)  # 999
given(200, 0)  # 1000
fill(WRAP - 296, short=[200])
expired(200, WRAP - 96)  # due since 100 ms
not_given(15, 903)  # 999
given(200, 904)  # 1000

# ---- a clock gone round starts the rest again: the closing is kept until the address is given, a refused opening leaves it

fill(0)
cancelled(200, 5000)
not_given(16, 6000, would=200, room=7)  # free at 6000, and 8 bytes are wanted
shown(161, [(a, a, 60000, 0) for a in HOSTS if a != 200], [(200, 5000)])
not_given(15, 5500)  # the clock has gone round: age 500
not_given(15, 5500, room=0)  # 15 goes before 16
not_given(14, 5500, wait=0)  # 10 to 14 go before 15
not_given(14, 5500, wait=60001)
not_given(10, 5500, job=0)
given(200, 6000)
shown(201, [(a, a, 60000, 6000 if a == 200 else 0) for a in HOSTS], [])

# ---- all 95 rest, closed by cancels at 100 to 194, each a millisecond after the one before it

fill(0)
for n, address in enumerate(HOSTS):
    cancelled(address, 100 + n)
CLOSED = [(address, 100 + n) for n, address in enumerate(HOSTS)]
shown(161, [], CLOSED)  # closing moves no turn
not_given(15, 194)  # 255 has just been closed
not_given(15, 1099)  # 161 is at 999
shown(161, [], CLOSED)
given(161, 1100)  # 161 at 1000
not_given(15, 1100)  # 161 open, 162 at 999, the others younger
given(162, 1102)  # 162 at 1001, 163 at 1000
given(163, 1102)
not_given(15, 1102)  # three open, 92 resting
shown(164, [(161, 161, 60000, 1100), (162, 162, 60000, 1102), (163, 163, 60000, 1102)], CLOSED[3:])
given(164, 99)  # set back before all of them: 164 was closed at 103
given(165, 103)  # 165 at 104: one before
given(167, 105)  # 166 was closed at 105, age 0, and is passed over; 167 at 106
given(169, 107)  # 168 at 107, age 0; 169 at 108
shown(
    170,
    [(161, 161, 60000, 1100), (162, 162, 60000, 1102), (163, 163, 60000, 1102), (164, 164, 60000, 99),
     (165, 165, 60000, 103), (167, 167, 60000, 105), (169, 169, 60000, 107)],
    [(166, 105), (168, 107), *CLOSED[9:]],
)
given(170, 5000)  # all rests are over, the turn's is given: not 166, the lowest

# ---- all 95 rest, closed by expiries at one clock

fill(0, wait=100)
for address in HOSTS:
    expired(address, 100)  # the due one with the lowest address
no_expiry(100)
not_given(15, 100)
not_given(15, 1099)
for address in HOSTS:
    not_booked(61, address)  # each was expired
given(161, 1100)
given(162, 1100)
shown(163, [(161, 161, 60000, 1100), (162, 162, 60000, 1100)], [(address, 100) for address in HOSTS[2:]])

# ---- some open, some resting, one booked

fill(0)
cancelled(170, 1000)
cancelled(180, 1500)
booked(190)
given(190, 1500)  # free at once; 170 and 180 come before it from the turn on, and rest
shown(191, [(a, a, 60000, 1500 if a == 190 else 0) for a in HOSTS if a not in (170, 180)], [(170, 1000), (180, 1500)])
cancelled(250, 1600)
no_cancel(250, 1700)  # it has no ticket, and its closing stays at 1600
no_cancel(160, 1700)
given(170, 2000)  # 250 rests (400), 170 is at 1000
not_given(15, 2499)  # 180 at 999, 250 at 899
given(180, 2500)
not_given(15, 2599)  # 250 at 999
given(250, 2600)
not_given(15, 2600)
booked(161)
booked(200, sort=0, data=b"")
cancelled(162, 3000)
given(161, 3000)  # the turn is at 251: round to 161
given(200, 3000)  # 162 is passed over
not_given(15, 3000)
booked(200)
given(200, 3000)  # the same address at the same clock
not_given(15, 3999)
given(162, 4000)

# ---- the room wanted is that of the address which is given: 8 bytes on 161, 9 on 162 for this register

register = next(r for r in range(256) if [len(telegram(15, a, 4, r)) for a in (161, 162)] == [8, 9])
fill(0)
cancelled(162, 0)
cancelled(161, 1000)
not_given(16, 1999, would=162, register=register, room=8)  # 161 is at 999
given(161, 2000, register=register, room=8)  # 1000
not_given(16, 2000, would=162, register=register, room=8)
given(162, 2000, register=register, room=9)

# ---- 61 ahead of 18 to 20, behind 1 to 9, until the address is given again

for way in ("cancel", "expire"):
    new()
    given(161, 0, job=7, wait=100)
    (cancelled if way == "cancel" else expired)(161, 100, job=7)
    not_booked(61, 161)
    not_booked(61, 161, source=16)  # another module: no ticket, so not 18
    not_booked(61, 161, sort=3)  # another kind: not 19
    not_booked(61, 161, register=103)  # another register: not 20
    not_booked(61, 161, source=161, sort=4, register=0, data=b"")  # all of them
    not_booked(61, 161, sort=3, register=0, data=b"", room=0)
    misread(161)  # the reader's numbers go first
    not_booked(17, 162)  # never given
    not_booked(17, 160)  # no host's
    not_booked(17, 15, source=161)
    no_cancel(161, 200, job=7)
    no_expiry(100000)
    shown(162, [], [(161, 100)])
    for address in HOSTS[1:]:
        given(address, 1099)  # 161 rests till the turn has come round
    not_given(15, 1099)
    not_booked(61, 161)
    not_given(16, 1100, would=161, room=7)  # at the rest's end it is not given yet
    not_booked(61, 161)
    given(161, 90000, job=8)  # long after
    not_booked(18, 161, source=16)
    not_booked(19, 161, sort=3)
    not_booked(20, 161, register=103)
    booked(161, job=8)  # the answer to job 7 would have fitted by chance: accepted
    not_booked(17, 161)  # its last ticket was booked
    not_booked(17, 161, source=16)
    given(161, 90000, job=9)  # free at once
    cancelled(161, 90000, job=9)
    not_booked(61, 161)
    not_given(15, 90999)
    given(161, 91000, job=10)
    booked(161, job=10)
    not_booked(17, 161)

# ---- a fresh desk has no rests; a cancel is read with its clock

new()
given(161, 0)
cancelled(161, 0)
new()
not_booked(17, 161)
shown(161, [], [])
given(161, 0)
say("desk.cancel 161 161", "bad line")
say("desk.cancel 161 161 4294967296", "bad line")
say("desk.cancel 161 161 -1", "bad line")
say("desk.cancel 161 161 0 0", "bad line")
shown(162, [(161, 161, 60000, 0)], [])
cancelled(161, WRAP - 1)
shown(162, [], [(161, WRAP - 1)])

printed()
