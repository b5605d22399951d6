"""Makes crates/sail_run/data/segments.elf, a static RISC-V program of two segments.

    python3 tools/two_segments.py

The first segment has eight bytes of code at 0x80000000; the second four bytes of data at 0x80001000 and, behind them,
28 bytes of zeros that the file doesn't hold. Between their program headers stands one of the kind PT_NOTE, which is
passed over. The fields are those of the System V gABI, "ELF Header" and "Program Header"."""
import os
import struct

TOP = os.path.dirname(os.path.dirname(os.path.abspath(__file__)))
CODE, DATA = bytes.fromhex("93005000b3812000"), bytes.fromhex("78563412")
LOAD, NOTE = 1, 4
RUN, WRITE, READ = 1, 2, 4
HEADERS = 64 + 3 * 56


def header(kind, flags, offset, place, size, memory):
    return struct.pack("<IIQQQQQQ", kind, flags, offset, place, place, size, memory, 4)


image = b"\x7fELF" + bytes([2, 1, 1]) + bytes(9)
image += struct.pack("<HHIQQQIHHHHHH", 2, 243, 1, 0x80000000, 64, 0, 0, 64, 56, 3, 0, 0, 0)
image += header(LOAD, READ | RUN, HEADERS, 0x80000000, len(CODE), len(CODE))
image += header(NOTE, READ, 0, 0, 0, 0)
image += header(LOAD, READ | WRITE, HEADERS + len(CODE), 0x80001000, len(DATA), 32)
with open(os.path.join(TOP, "crates/sail_run/data/segments.elf"), "wb") as file:
    file.write(image + CODE + DATA)
