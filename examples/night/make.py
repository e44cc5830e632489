"""Writes the sample night: a captured line with the traffic of four rigs, noise between the frames, and frames that
were damaged, cut or written wrongly. It shares no code with the library, and always writes the same bytes.

    python3 examples/night/make.py > examples/night/capture.bin
"""

import sys

RIGS = {  # module address: (registers that are read, with their size; registers that are written, with theirs)
    15: ({0x1A: 2, 0x66: 2, 0x71: 4, 0x1B: 2}, {0x24: 2, 0x30: 1, 0x31: 1}),
    10: ({0x10: 2, 0x11: 2, 0x90: 4}, {0x32: 1, 0x34: 1}),
    16: ({0x13: 2, 0x66: 2}, {0x32: 2, 0x33: 2, 0x34: 2}),
    94: ({0x66: 2, 0x36: 4}, {0x26: 2, 0x3E: 1}),
}
NACK, CHECK_ERROR, BUSY, ACK, READ, WRITE, DATAGRAM = 0, 1, 2, 3, 4, 5, 8


class Dice:
    """The same throws on every machine: x -> 48271 x modulo 2^31 - 1."""

    def __init__(self, seed):
        self.x = seed

    def below(self, n):
        self.x = self.x * 48271 % 2147483647
        return self.x % n

    def one_of(self, things):
        things = list(things)
        return things[self.below(len(things))]

    def bytes(self, n):
        return bytes(self.below(256) for _ in range(n))


def remainder(message):
    """Long division on paper: x^16 + x^12 + x^5 + 1 is taken away from the highest term down."""
    rest = int.from_bytes(message, "big") << 16
    while rest >> 16:
        rest ^= 0x11021 << (rest.bit_length() - 17)
    return rest


def sealed(*message):
    message = bytes(message)
    return message + remainder(message).to_bytes(2, "big")


def framed(message):
    out = bytearray([13])
    for byte in message:
        out += bytes([94, byte + 64]) if byte in (10, 13, 94) else bytes([byte])
    return bytes(out) + b"\n"


class Night:
    def __init__(self, seed):
        self.dice = Dice(seed)
        self.host = 161
        self.line = bytearray()

    def next_host(self):
        host = self.host
        self.host = 161 if host == 255 else host + 1
        return host

    def exchange(self):
        """A request of the host and the rig's answer."""
        host, rig = self.next_host(), self.dice.one_of(sorted(RIGS))
        reads, writes = RIGS[rig]
        trouble = self.dice.below(25)
        answer = {0: NACK, 1: BUSY, 2: CHECK_ERROR}.get(trouble)
        if self.dice.below(3):
            register = self.dice.one_of(sorted(reads))
            request = sealed(rig, host, READ, register)
            reply = sealed(host, rig, DATAGRAM, register, *self.dice.bytes(reads[register]))
        else:
            register = self.dice.one_of(sorted(writes))
            request = sealed(rig, host, WRITE, register, *self.dice.bytes(writes[register]))
            reply = sealed(host, rig, ACK, register)
        if answer is not None:
            reply = sealed(host, rig, answer, register)
        return framed(request), framed(reply)

    def noise(self):
        """What a bad connector adds between frames: no start byte, but now and then an end byte."""
        return bytes(b for b in self.dice.bytes(self.dice.below(12)) if b != 13)

    def turn(self):
        request, reply = self.exchange()
        fault = self.dice.below(40)
        if fault == 0:  # a bit turned over: mostly the remainder shows it
            at = 1 + self.dice.below(len(reply) - 2)
            reply = reply[:at] + bytes([reply[at] ^ (1 << self.dice.below(8))]) + reply[at + 1 :]
        elif fault == 1:  # the rig stopped in the middle, and the next frame begins
            reply = reply[: 1 + self.dice.below(len(reply) - 2)]
        elif fault == 2:  # the end byte came too early
            reply = reply[: 1 + self.dice.below(5)] + b"\n"
        elif fault == 3:  # a substitution torn apart
            reply = reply[:4] + bytes([94, 65]) + reply[4:]
        elif fault == 4:  # a start byte out of nowhere
            request = b"\r" + request
        elif fault == 5:  # an end byte lost: two frames run together up to the next start
            request = request[:-1]
        elif fault == 6:
            request = framed(sealed(0, self.host, READ, 0x66))
        elif fault == 7:
            request = framed(sealed(15, self.host, 10 + self.dice.below(200), 0x66))
        elif fault == 8:  # the line stuck: a frame far too long
            reply = b"\r" + bytes([0x55]) * 300 + b"\n"
        elif fault == 9:  # the longest data a telegram may have, and one byte more
            reply = framed(sealed(self.host, 15, DATAGRAM, 0x71, *self.dice.bytes(240 + self.dice.below(2))))
        self.line += request + reply
        if self.dice.below(5) == 0:
            self.line += self.noise()


def capture():
    night = Night(20240613)
    night.line += b"\x00\xff\x55"
    for _ in range(260):
        night.turn()
    return night.line + framed(sealed(15, 200, READ, 0x66))[:5]


if __name__ == "__main__":
    sys.stdout.buffer.write(capture())
