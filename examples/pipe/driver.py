#!/usr/bin/env python3
"""A driver's start-up and readout against the twin, through a pipe: a record in, a line out.

The twin is `bin/replay -`: it prints a record's line as soon as the record is complete, so a harness in any language can ask and wait
for the answer. use: examples/pipe/driver.py
"""
import os
import struct
import subprocess
import sys

ROOT = os.path.dirname(os.path.dirname(os.path.dirname(os.path.abspath(__file__))))


class Refused(Exception):
    """The twin answered with another number than 0."""


class Twin:
    """One twin behind a pipe. Each call sends one record of the log and waits for its line."""

    VERSION, WRITE, READ, SAMPLE, CYCLE, CLOCK = 1, 1, 2, 3, 4, 5

    def __init__(self):
        self.replay = subprocess.Popen([os.path.join(ROOT, "bin", "replay"), "-"], stdin=subprocess.PIPE, stdout=subprocess.PIPE, bufsize=0)
        self.replay.stdin.write(bytes([self.VERSION]))

    def record(self, body):
        self.replay.stdin.write(struct.pack(">H", len(body)) + body)
        words = self.replay.stdout.readline().split()
        if int(words[1]) != 0:
            raise Refused(int(words[1]))
        return bytes.fromhex(words[2].decode()) if len(words) > 2 else b""

    def write(self, address, byte):
        self.record(bytes([self.WRITE, address, byte]))

    def read(self, address, count):
        return self.record(bytes([self.READ, address, count]))

    def sample(self, x, y, z, temperature=0):
        self.record(struct.pack(">BhhhB", self.SAMPLE, x, y, z, temperature))

    def start_cycle(self):
        self.record(bytes([self.CYCLE]))

    def clock(self, microseconds):
        """Time that passes; no other record takes any."""
        self.record(struct.pack(">BI", self.CLOCK, microseconds))

    def close(self):
        """The end of the log: the pins, as the last line has them."""
        self.replay.stdin.close()
        pins = self.replay.stdout.read().decode().split()[1:]
        self.replay.wait()
        return pins


def main():
    twin = Twin()
    print("chip number %02X" % twin.read(0x00, 1)[0])
    twin.write(0x0F, 0x0C)
    print("range code %02X: 16 g" % twin.read(0x0F, 1)[0])
    try:
        twin.write(0x0F, 0x04)
    except Refused as refusal:
        print("range code 04 is refused with %s, and %02X stays" % (refusal, twin.read(0x0F, 1)[0]))
    twin.write(0x3E, 0x40)
    for n in range(40):
        twin.start_cycle()
        twin.sample(n, -n, 1024)
    status = twin.read(0x0E, 1)[0]
    print("40 samples: %d frames held, overrun %d" % (status % 128, status // 128))
    frames = twin.read(0x3F, 12)
    for at in range(0, len(frames), 6):
        print("frame", *(value >> 4 for value in struct.unpack("<hhh", frames[at:at + 6])))
    for address, byte in (0x16, 0x07), (0x21, 0x09):  # any-motion, with a latch time of 250 us
        twin.write(address, byte)
    twin.sample(500, 0, 0)
    for microseconds in 249, 1:
        twin.clock(microseconds)
        print("%d us later: motion %s" % (microseconds, "shown" if twin.read(0x09, 1)[0] & 0x04 else "over"))
    print("pins", *twin.close())


if __name__ == "__main__":
    sys.exit(main())
