"""The twin of the BMA253 and BMA255 accelerometers for Python 3.6 and later, on the shared library of bin/install-library (x86-64).

    import twin
    chip = twin.Twin("/usr/local")
    print("chip %02X" % chip.read(0x00, 1)[0])  # chip FA

A Twin is one chip, and each call is one event. What the twin refuses is a Refused, which has the number and its words, and changes
nothing. No argument is wrapped or cut: what is no whole number is a TypeError, and what an event has no room for, a byte of 256 or a clock
of -1, a ValueError; the library is not called then. The counts of a sample and the length of a read may be any whole number: it is the
twin that refuses them, with 4 and 5.

The library is the one that is named: to Twin, or in the environment by TWIN_LIBRARY; as a file, or as the PREFIX that it was installed
under. Where none is named, it is looked for beside this file, in a lib/ one or two folders above it, in the checkout that this file belongs
to, and then where the system's loader looks. What is not found, or is not of this major version, is a NoLibrary.
"""
import ctypes
import operator
import os
import platform

MAJOR = 4  # of include/twin.h; the library's symbols have it
LOW, HIGH, RELEASED = 0, 1, 2
LONGEST_READ = 192
WORDS = {
    1: "address above 0x3F",
    2: "code that the sheet reserves",
    4: "sample outside -2048..2047",
    5: "read length 0 or above 192",
    6: "read that would pass 0x3E",
    8: "kind of event that does not exist",
    11: "detector that the twin lacks",
    12: "power mode that the twin lacks",
    13: "self-test, memory, calibration or offset reset that the twin lacks",
    253: "record that does not fit the library",
    254: "no buffer, or one that overlaps the record",
    255: "record that was not powered up",
}
_WRITE, _READ, _SAMPLE, _CYCLE, _CLOCK = 1, 2, 3, 4, 5
_Record = ctypes.c_uint64 * 64  # struct twin
_NAME = "libtwin.so.%d" % MAJOR
_loaded = {}


class Refused(Exception):
    """The twin refused an event: number is its answer, and words say what that means."""

    def __init__(self, number):
        super().__init__(number)
        self.number = number
        self.words = WORDS.get(number, "not an answer")

    def __str__(self):
        return "%d, %s" % (self.number, self.words)


class NoLibrary(OSError):
    """The shared library was not found, or is not one that this module can use."""


def _named(place):
    """The library's file, of a file or of the folder that it was installed under."""
    if not place:
        raise NoLibrary("the library's name is empty")
    place = os.path.abspath(os.fspath(place))
    if os.path.isfile(place):
        return place
    for folder in (os.path.join(place, "lib"), place):
        if os.path.isfile(os.path.join(folder, _NAME)):
            return os.path.join(folder, _NAME)
    raise NoLibrary("there is no %s in %s or in its lib: bin/install-library PREFIX installs it in PREFIX/lib" % (_NAME, place))


def _looked_for():
    """The library's file near this one; or its name, for the loader."""
    here = os.path.dirname(os.path.realpath(__file__))
    for folder in (".", "../lib", "../../lib", "../../target/library"):
        file = os.path.normpath(os.path.join(here, folder, _NAME))
        if os.path.isfile(file):
            return file
    return _NAME


def _opened(file):
    try:
        # the interpreter's lock is kept: a call takes less than letting it go, and two threads are never in one record
        return ctypes.PyDLL(file)
    except OSError as error:
        if file == _NAME:
            hint = "name it, or the PREFIX that bin/install-library was given, to Twin or in TWIN_LIBRARY"
            raise NoLibrary("%s is not found: %s" % (file, hint)) from None
        raise NoLibrary("%s cannot be loaded: %s; it is for x86-64, and this machine is %s" % (file, error, platform.machine())) from None


def _load(library):
    """The library's three functions: power-up, event and pins."""
    place = library if library is not None else os.environ.get("TWIN_LIBRARY") or None
    file = _looked_for() if place is None else _named(place)
    if file not in _loaded:
        opened = _opened(file)
        try:
            power_up, event, pins = (getattr(opened, "twin_%d_%s" % (MAJOR, each)) for each in ("power_up", "event", "pins"))
        except AttributeError:
            raise NoLibrary("%s is no twin of major version %d: it does not have its functions" % (file, MAJOR)) from None
        byte, count = ctypes.c_uint8, ctypes.c_int16
        power_up.argtypes = pins.argtypes = [ctypes.c_void_p]
        event.argtypes = [ctypes.c_void_p, byte, byte, byte, count, count, count, ctypes.c_void_p, ctypes.c_size_t, ctypes.c_uint32]
        power_up.restype = event.restype = pins.restype = byte
        _loaded[file] = power_up, event, pins
    return _loaded[file]


def _whole(what, value):
    try:
        return operator.index(value)
    except TypeError:
        raise TypeError("%s is %r, which is no whole number" % (what, value)) from None


def _within(what, value, most):
    """A whole number from 0 to most. ctypes would wrap any other."""
    number = _whole(what, value)
    if not 0 <= number <= most:
        raise ValueError("%s is %r, which is outside 0..%d" % (what, value, most))
    return number


def _byte(what, value):
    return _within(what, value, 0xFF)


def _count(what, value):
    """The nearest number of 16 bits. What it moves lies outside -2048..2047 before and after."""
    return max(-0x8000, min(0x7FFF, _whole(what, value)))


class Twin:
    """One chip, at power-up."""

    def __init__(self, library=None):
        self._power_up, self._event, self._pins = _load(library)
        self._record = _Record()
        self.power_up()

    def _done(self, answer):
        if answer != 0:
            raise Refused(answer)

    def power_up(self):
        """The chip is at power-up again, whatever it held."""
        self._done(self._power_up(self._record))

    def write(self, address, byte):
        """A register write."""
        self._done(self._event(self._record, _WRITE, _byte("address", address), _byte("byte", byte), 0, 0, 0, None, 0, 0))

    def read(self, address, length):
        """A burst read of so many bytes from address on; at 0x3F, the FIFO's frames."""
        length = _whole("length", length)
        if length < 0:
            raise ValueError("length is %r, which is below 0" % length)
        length = min(length, LONGEST_READ + 1)  # which is refused as any longer one is
        buffer = (ctypes.c_uint8 * length)()
        self._done(self._event(self._record, _READ, _byte("address", address), 0, 0, 0, 0, buffer, length, 0))
        return bytes(buffer)

    def sample(self, x, y, z, temperature=0):
        """A sample as it is given, in counts of 12 bits, to which the offsets are added, and the byte of the temperature register 0x08."""
        counts = _count("x", x), _count("y", y), _count("z", z)
        self._done(self._event(self._record, _SAMPLE, 0, _byte("temperature", temperature), *counts, None, 0, 0))

    def cycle(self):
        """The start of an acquisition cycle."""
        self._done(self._event(self._record, _CYCLE, 0, 0, 0, 0, 0, None, 0, 0))

    def clock(self, microseconds):
        """Time that passes, at most 32 bits of it; no other event takes any. Two clocks in a row equal one of their sum."""
        self._done(self._event(self._record, _CLOCK, 0, 0, 0, 0, 0, None, 0, _within("microseconds", microseconds, 0xFFFFFFFF)))

    def pins(self):
        """What INT1 and INT2 show, each LOW, HIGH or RELEASED. Changes nothing."""
        both = self._pins(self._record)
        if both == 255:
            raise Refused(both)
        return both % 4, both // 4

    def int1(self):
        return self.pins()[0]

    def int2(self):
        return self.pins()[1]

    def copy(self):
        """A second chip in the same state; what happens to one does not happen to the other."""
        other = object.__new__(type(self))
        other.__dict__.update(self.__dict__)
        other._record = _Record.from_buffer_copy(self._record)
        return other

    __copy__ = copy

    def __deepcopy__(self, memo):
        return self.copy()
