"""A word over both kinds of page, with the pictures of its pins, and a request while the bus is being given back, in Python.

python3 halves.py LIBRARY, a shared library that was made of libs100_c.a.
"""
import collections
import ctypes
import struct
import sys

# As include/s100.h numbers them.
REQUEST, LOOK, ACKNOWLEDGE, BEGIN_ONE, TAKE, WORD_READ, WORD_WRITE, BEGIN_TWO, GIVE_BACK = 1, 2, 3, 4, 5, 9, 10, 13, 14
PERMANENT_MASTER = 16
EIGHT_BIT, SIXTEEN_BIT = 1, 2
SIGNALS = ["HOLD", "pHLDA", "ADSB", "SDSB", "DODSB", "CDSB", "SIXTN", "sXTRQ"]
# 003, Appendix B, the pin of bit 0 first.
DATA_PINS = {"DO": [36, 35, 88, 89, 38, 39, 40, 90], "DI": [95, 94, 41, 42, 91, 92, 93, 43]}

Answer = collections.namedtuple("Answer", "refusal phase granted lines signals status cycles datum")
ANSWER_BYTES = ">7BH"
Seen = collections.namedtuple("Seen", "phase signals lines column")

library = ctypes.CDLL(sys.argv[1])
BYTES, LENGTH, U8, U16, U32 = ctypes.POINTER(ctypes.c_uint8), ctypes.c_size_t, ctypes.c_uint8, ctypes.c_uint16, ctypes.c_uint32
library.s100_setup.argtypes = [U16, BYTES, LENGTH, BYTES, LENGTH]
library.s100_setup.restype = U8
library.s100_step.argtypes = [BYTES, LENGTH, U8, U8, U32, U16, BYTES, LENGTH, BYTES, LENGTH, BYTES, LENGTH]
library.s100_step.restype = U8
library.s100_picture.argtypes = [U8, U32, BYTES, LENGTH, BYTES, LENGTH]
library.s100_picture.restype = U8
library.s100_read_picture.argtypes = [BYTES, LENGTH, BYTES, LENGTH]
library.s100_read_picture.restype = U8


class Bus:
    """A bus with its memory and ports, in buffers that are lent to each call."""

    def __init__(self, cards, pages):
        self.state, self.memory, self.ports = (U8 * 38)(), (U8 * 0x10000)(), (U8 * 0x100)()
        if library.s100_setup(cards, (U8 * 16)(*pages), 16, self.state, 38) != 0:
            raise ValueError("setup was refused")

    def step(self, kind, speaker=0, address=0, datum=0):
        answer = (U8 * 9)()
        lent = (self.memory, len(self.memory), self.ports, len(self.ports), answer, len(answer))
        library.s100_step(self.state, len(self.state), kind, speaker, address, datum, *lent)
        return Answer._make(struct.unpack(ANSWER_BYTES, answer))


def pictures(kind, address, answer):
    """The lines of an event's picture, which go by the event and its answer alone."""
    answer, lines = (U8 * 9)(*struct.pack(ANSWER_BYTES, *answer)), (U8 * 102)()
    size = library.s100_picture(kind, address, answer, len(answer), lines, len(lines))
    return bytes(lines[:size]).decode().splitlines()


def read_picture(line):
    """The answer, 00 or why the line can't be read, and what is seen on the pins."""
    digits, seen = (U8 * len(line))(*line.encode()), (U8 * 4)()
    return library.s100_read_picture(digits, len(digits), seen, len(seen)), Seen._make(seen)


def number_on(pins, half):
    """The number that stands on these pins in one half of a line, where pin 1 is the top bit."""
    return sum((int(half, 16) >> 100 - pin & 1) << bit for bit, pin in enumerate(pins))


def true_signals(shown):
    return " ".join(name for bit, name in enumerate(SIGNALS) if shown.signals >> bit & 1) or "none"


def print_pictures(kind, address, answer):
    # Against the common belief, in a word that goes in one cycle the byte at the lower address is on DO (01, "Bytes, words, status"). In two
    # cycles each goes as a byte does: written on DO, read on DI (02, CR 1).
    lines = pictures(kind, address, answer)
    for line in lines:
        levels, driven = line[:25], line[25:]
        carried = (f"{name} {number_on(pins, levels):02X}" for name, pins in DATA_PINS.items() if number_on(pins, driven) == 0xFF)
        print(f"  levels {levels}, driven {driven}:", *carried)
    answer, seen = read_picture(lines[0])
    print(f"  the first line read back: answer {answer:02X}, phase {seen.phase}, signals {true_signals(seen)}, priority lines {seen.lines}")


def print_misread(title, line):
    answer, seen = read_picture(line)
    print(f"  {title}: answer {answer:02X}, column {seen.column}")


def write_and_read(bus, page, address):
    wrote = bus.step(WORD_WRITE, PERMANENT_MASTER, address, 0x1234)
    print(f"write of 1234 to {page} page: answer {wrote.refusal:02X}, cycles {wrote.cycles}, signals {true_signals(wrote)}")
    print_pictures(WORD_WRITE, address, wrote)
    print(f"  even address: {bus.memory[address]:02X}, odd address: {bus.memory[address + 1]:02X}")
    read = bus.step(WORD_READ, PERMANENT_MASTER, address)
    print(f"read of it: {read.datum:04X}, cycles {read.cycles}, signals {true_signals(read)}")
    print_pictures(WORD_READ, address, read)


def print_request(answer):
    print(f"card 6 requests the bus: answer {answer.refusal:02X}, phase {answer.phase}, signals {true_signals(answer)}")


def print_phase(title, answer):
    print(f"{title}: phase {answer.phase}, signals {true_signals(answer)}")


bus = Bus(1 << 2 | 1 << 6, [0, EIGHT_BIT, SIXTEEN_BIT])
write_and_read(bus, "an eight-bit", 0x1000)
write_and_read(bus, "a sixteen-bit", 0x2000)

first = pictures(WORD_WRITE, 0x1000, bus.step(WORD_WRITE, PERMANENT_MASTER, 0x1000, 0x1234))[0]
print("the first picture with mistakes")
print_misread("in small letters", first.lower())
print_misread("with a space in place of its last digit", first[:-1] + " ")
print_misread("with the space behind it", first + " ")

bus.step(REQUEST, datum=1 << 2)
bus.step(LOOK, 2)
bus.step(ACKNOWLEDGE)
bus.step(BEGIN_ONE, 2)
print_phase("card 2 has the bus", bus.step(TAKE, 2))
print_phase("transfer two", bus.step(BEGIN_TWO, 2))
print_request(bus.step(REQUEST, datum=1 << 6))  # HOLD is false already, but pHLDA isn't
print_phase("card 2 gives it back", bus.step(GIVE_BACK, 2))
print_request(bus.step(REQUEST, datum=1 << 6))
