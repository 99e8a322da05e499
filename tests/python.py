"""What examples/python/twin.py promises: random events as the proved replay prints them, arguments that are told and never wrapped, copies,
and libraries that are none. tests/python runs it; it prints the checks and those that failed. use: tests/python.py LIBRARY FOLDER"""
import copy
import os
import random
import re
import struct
import subprocess
import sys

ROOT = os.path.dirname(os.path.dirname(os.path.abspath(__file__)))
sys.path.insert(0, os.path.join(ROOT, "examples", "python"))
import twin

LIBRARY, ROOM = sys.argv[1:]
LOGS, RECORDS = 400, 60
BUSY = (0x0F, 0x13, 0x14, 0x16, 0x17, 0x18, 0x19, 0x1A, 0x1B, 0x20, 0x21, 0x22, 0x23, 0x24, 0x25, 0x26, 0x27, 0x28, 0x29, 0x30, 0x36, 0x38, 0x39,
        0x3A, 0x3E)
TIMES = (250, 500, 1000, 4000, 12500, 20000, 25000, 50000, 250000, 500000, 1000000, 2000000, 4000000, 8000000, 40000000, 88000000)
checks = failed = 0


def holds(what, fact):
    global checks, failed
    checks += 1
    if not fact:
        failed += 1
        print("tests/python.py: not so:", what, file=sys.stderr)


def raised(kind, call, *arguments):
    """What the call raises, where that is of this kind, or None."""
    try:
        call(*arguments)
    except kind as error:
        return error
    except Exception as error:
        print("tests/python.py: it raised", repr(error), file=sys.stderr)
    return None


def refused(number, call, *arguments):
    error = raised(twin.Refused, call, *arguments)
    return error is not None and error.number == number and error.words in str(error) and str(number) in str(error)


# ---- random events: each as what is asked of the module and as a record of the log (docs/LOG.md)

def some_count(chance):
    return chance.choice((0, 0, -2048, 2047, -2040, 1031, 40)) + chance.randint(-6, 6) if chance.random() < 0.97 else chance.randint(-0x8000, 0x7FFF)


def a_write(address, byte):
    return "write", (address, byte), struct.pack(">BBB", 1, address, byte)


def some_start(chance):
    """In half of the logs low-g and high-g are on, after 2 ms each, so that their statuses do not come by luck alone."""
    return [a_write(0x22, 0x00), a_write(0x25, 0x00), a_write(0x17, 0x0F)] if chance.random() < 0.5 else []


def some_write(chance):
    address = chance.choice(BUSY) if chance.random() < 0.8 else chance.randrange(0x100)
    byte = chance.randrange(0x100) if chance.random() < 0.4 else chance.choice((0x01, 0x02, 0x04, 0x07, 0x09, 0x0F, 0x40, 0x58, 0x7F, 0x80, 0xFF, 0x50))
    if address == 0x14 and chance.random() < 0.8:
        byte = 0xB5  # seldom a soft reset
    return a_write(address, byte)


def some_read(chance):
    address = chance.choice((0x3F, 0x02, 0x09, 0x0E, 0x00, chance.randrange(0x100)))
    length = chance.choice((1, 6, 12, 63, 192, chance.randrange(0x100)))
    return "read", (address, length), struct.pack(">BBB", 2, address, length)


def some_sample(chance):
    falls = chance.random() < 0.4  # nothing on any axis, which low-g asks for
    counts = tuple(chance.randint(-6, 6) if falls else some_count(chance) for _ in range(3))
    temperature = chance.randrange(0x100)
    return "sample", counts + (temperature,), struct.pack(">BhhhB", 3, *counts, temperature)


def some_clock(chance):
    time = max(0, chance.choice(TIMES) + chance.randint(-1, 1)) if chance.random() < 0.9 else chance.randrange(1 << 32)
    return "clock", (time,), struct.pack(">BI", 5, time)


def some_event(chance):
    kind = chance.randrange(16)
    if kind < 5:
        return some_write(chance)
    if kind < 8:
        return some_read(chance)
    if kind < 14:
        return some_sample(chance)
    return some_clock(chance) if kind == 14 else ("cycle", (), b"\x04")


def lines_of(chip, events):
    """The lines that the replay prints of these events."""
    lines = []
    for number, (name, arguments, _) in enumerate(events, 1):
        try:
            data = getattr(chip, name)(*arguments)
            lines.append(("%d 0 %s" % (number, data.hex().upper())) if data else "%d 0" % number)
        except twin.Refused as refusal:
            lines.append("%d %d" % (number, refusal.number))
    return lines + ["pins %s %s" % tuple("01Z"[level] for level in chip.pins())]


def as_the_replay():
    chance = random.Random(25)
    logs = {}
    for n in range(LOGS):
        events = some_start(chance) + [some_event(chance) for _ in range(RECORDS)]
        name = os.path.join(ROOM, "%d.log" % n)
        with open(name, "wb") as log:
            log.write(b"\x01" + b"".join(struct.pack(">H", len(record)) + record for _, _, record in events))
        logs[name] = events
    text = subprocess.run([os.path.join(ROOT, "bin", "replay")] + list(logs), stdout=subprocess.PIPE, check=True).stdout.decode()
    printed = [line for line in text.splitlines()]
    chip = twin.Twin(LIBRARY)
    ours, answers, statuses, levels = [], set(), set(), set()
    for name, events in logs.items():
        chip.power_up()
        lines = lines_of(chip, events)
        ours += [name] + lines
        answers.update(int(line.split()[1]) for line in lines[:-1])
        statuses.update(int(line.split()[2][:2], 16) for (kind, asked, _), line in zip(events, lines)
                        if kind == "read" and asked[0] == 0x09 and line.split()[1] == "0")
        levels.add(lines[-1])
    for ours_is, theirs_is in zip(ours, printed):
        holds("the module prints %r, and the replay %r" % (ours_is, theirs_is), ours_is == theirs_is)
    holds("the replay prints as many lines", len(printed) == len(ours))
    holds("every answer of an event came", answers == {0, 1, 2, 4, 5, 6, 11, 12, 13})
    holds("each detector's status came", all(any(status >> bit & 1 for status in statuses) for bit in range(4)))
    holds("each level of each pin came", {level[5] for level in levels} == {level[7] for level in levels} == set("01Z"))


# ---- arguments

def arguments():
    chip = twin.Twin(LIBRARY)
    before = bytes(chip._record)
    calls = [
        ("address of a write", lambda value: chip.write(value, 0x03), 0xFF),
        ("byte", lambda value: chip.write(0x0F, value), 0xFF),
        ("address of a read", lambda value: chip.read(value, 1), 0xFF),
        ("temperature", lambda value: chip.sample(1, 2, 3, value), 0xFF),
        ("microseconds", chip.clock, 0xFFFFFFFF),
    ]
    for what, call, most in calls:
        for value in (-1, most + 1, most + 1 + 0x0F, -most, 1 << 64, -(1 << 64)):
            holds("%s of %d is told" % (what, value), raised(ValueError, call, value))
    calls += [("x", lambda value: chip.sample(value, 0, 0), 0), ("y", lambda value: chip.sample(0, value, 0), 0),
              ("z", lambda value: chip.sample(0, 0, value), 0), ("length", lambda value: chip.read(0x00, value), 0)]
    for what, call, _ in calls:
        for value in (3.0, 3.5, float("nan"), None, "3", b"\x03", [3], 3j):
            holds("%s of %r is told" % (what, value), raised(TypeError, call, value))
    holds("a length below 0 is told", raised(ValueError, chip.read, 0x00, -1) and raised(ValueError, chip.read, 0x3F, -(1 << 70)))
    for value in (2048, -2049, 32767, 32768, 40000, -40000, 65535, 65536, 65537, -65536, 1 << 31, 1 << 32, 1 << 64, -(1 << 64), 10 ** 30):
        for counts in ((value, 0, 0), (0, value, 0), (0, 0, value)):
            holds("a sample of %r is refused 4" % (counts,), refused(4, chip.sample, *counts))
    for length in (0, 193, 256, 257, 1 << 32, (1 << 32) + 1, 1 << 64, 10 ** 30):
        holds("a read of %d bytes is refused 5" % length, refused(5, chip.read, 0x3F, length))
        holds("and at 0x40 refused 1", refused(1, chip.read, 0x40, length))
    holds("nothing of it changed the chip", bytes(chip._record) == before)
    chip.clock(0xFFFFFFFF)
    chip.write(0x0F, 0x03)
    holds("and the chip answers", chip.read(0x0F, 1) == b"\x03")


# ---- copies, power-up, words and libraries

def copies():
    chance = random.Random(15)
    chip = twin.Twin(LIBRARY)
    for _ in range(40):
        lines_of(chip, [some_event(chance) for _ in range(20)])
        more = [some_event(chance) for _ in range(60)]
        before = bytes(chip._record)
        others = [chip.copy(), copy.copy(chip), copy.deepcopy(chip)]
        lines = [lines_of(other, more) for other in others]
        holds("what happens to a copy does not happen to the chip", bytes(chip._record) == before)
        holds("a copy is in the same state", lines == 3 * [lines_of(chip, more)])
    # by what both show: the bytes of two records do not tell whether they are in the same state
    chip.power_up()
    more = [some_event(chance) for _ in range(400)]
    holds("power-up makes it a new chip", lines_of(chip, more) == lines_of(twin.Twin(LIBRARY), more))


def words():
    header = open(os.path.join(ROOT, "include", "twin.h")).read()
    numbers = dict(re.findall(r"(TWIN_[A-Z_]+) = (\d+),? +/\*", header))
    named = {int(numbers[name]): text for name, text in re.findall(r'case (TWIN_[A-Z_]+): return "(.*)";', header)}
    del named[0]
    holds("the answers and their words are the header's", twin.WORDS == named and len(named) == 12)
    holds("the major version is the header's", "#define TWIN_VERSION_MAJOR %d\n" % twin.MAJOR in header)
    holds("the longest read is the header's", "#define TWIN_LONGEST_READ %d " % twin.LONGEST_READ in header)
    holds("the room is the header's", "#define TWIN_ROOM %d " % len(bytes(twin.Twin(LIBRARY)._record)) in header)


def libraries():
    text = os.path.join(ROOM, "text.so")
    with open(text, "w") as file:
        file.write("no library\n")
    for place, said in ((os.path.join(ROOM, "nowhere"), "there is no libtwin"), (ROOM, "there is no libtwin"), ("", "empty"), (text, "cannot be loaded")):
        error = raised(twin.NoLibrary, twin.Twin, place)
        holds("%r as a library is told" % place, error is not None and said in str(error))
    chip = twin.Twin(LIBRARY)
    chip._record = twin._Record()
    holds("a record that was not powered up is refused", refused(255, chip.cycle) and refused(255, chip.pins) and refused(255, chip.read, 0x00, 1))


if __name__ == "__main__":
    words()
    arguments()
    copies()
    libraries()
    as_the_replay()
    print(checks, failed)
    sys.exit(failed != 0)
