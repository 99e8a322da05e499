#!/usr/bin/env python3
"""A recorder's start-up, an overrun that is noticed, and a jolt that INT1 shows for a latch time, on the twin's module.

use: examples/python/demo.py [LIBRARY]; LIBRARY is the shared library or the PREFIX that it was installed under. Without it, see twin.py.
"""
import struct
import sys

import twin

LEVELS = {twin.LOW: "low", twin.HIGH: "high", twin.RELEASED: "released"}


def frames_of(data):
    """The counts of frames of three axes, six bytes each."""
    return [tuple(value >> 4 for value in frame) for frame in struct.iter_unpack("<hhh", data)]


def overrun(chip):
    chip.write(0x3E, 0x40)
    for n in range(40):
        chip.cycle()
        chip.sample(n, -n, 1024, temperature=0x17)
    status = chip.read(0x0E, 1)[0]
    print("40 samples: %d frames held, overrun %d" % (status % 128, status // 128))
    for frame in frames_of(chip.read(0x3F, 12)):
        print("frame", *frame)


def jolt(chip):
    """Any-motion on INT1, with a latch time of 250 us."""
    for address, byte in (0x16, 0x07), (0x19, 0x04), (0x21, 0x09):
        chip.write(address, byte)
    chip.sample(500, 0, 0)
    print("a jolt: INT1", LEVELS[chip.int1()])
    other = chip.copy()
    chip.clock(249)
    print("249 us later: INT1", LEVELS[chip.int1()])
    chip.clock(1)
    print("1 us later: INT1 %s; a copy at the jolt still shows %s" % (LEVELS[chip.int1()], LEVELS[other.int1()]))


def main():
    chip = twin.Twin(*sys.argv[1:2])
    print("chip number %02X" % chip.read(0x00, 1)[0])
    chip.write(0x0F, 0x0C)
    try:
        chip.write(0x0F, 0x07)
    except twin.Refused as refusal:
        print("range code 07 is refused: %s; %02X stays" % (refusal, chip.read(0x0F, 1)[0]))
    overrun(chip)
    jolt(chip)
    try:
        chip.write(0x0F, 0x103)
    except ValueError as error:
        print("not handed to the chip:", error)


if __name__ == "__main__":
    sys.exit(main())
