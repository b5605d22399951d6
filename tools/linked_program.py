"""Makes crates/elf_load/src/tests/linked.rt, a program that a stock RISC-V toolchain has linked, as a list of bytes.

    python3 tools/linked_program.py

It wants Debian's gcc-riscv64-unknown-elf. The second segment holds three integers and, behind them, room for four that the
file doesn't hold. What the toolchain's readelf says of the file is written as a comment; the test holds the loader to it."""
import os
import subprocess
import tempfile

TOP = os.path.dirname(os.path.dirname(os.path.abspath(__file__)))
GCC, READELF = "riscv64-unknown-elf-gcc", "riscv64-unknown-elf-readelf"
SOURCE = """
int terms[3] = {40, -1, 3};
int sums[4];
void _start(void) {
    for (int i = 0; i < 3; i++)
        sums[i + 1] = sums[i] + terms[i];
    for (;;);
}
"""
COMPILE = ["-march=rv64i", "-mabi=lp64", "-mcmodel=medany", "-Os", "-ffreestanding"]
LINK = ["-nostdlib", "-static", "-s", "-Wl,--build-id=none,-Ttext-segment=0x80000000,-z,max-page-size=16"]

with tempfile.TemporaryDirectory() as folder:
    source, program = os.path.join(folder, "sums.c"), os.path.join(folder, "sums.elf")
    with open(source, "w") as file:
        file.write(SOURCE)
    subprocess.run([GCC, *COMPILE, *LINK, "-o", program, source], check=True)
    said = subprocess.run([READELF, "-lW", program], check=True, capture_output=True, text=True).stdout
    with open(program, "rb") as file:
        image = file.read()

lines = ["//! A static program of two segments, made by `tools/linked_program.py`. `readelf -lW` says of it:", "//!", "//! ```text"]
lines += [("//! " + line).rstrip() for line in said.strip().split("Section to Segment")[0].strip().splitlines()[1:]]
lines += ["//! ```", "", f"pub const SUMS: [u8; {len(image)}] = ["]
rows = [image[at : at + 16] for at in range(0, len(image), 16)]
lines += ["    " + " ".join(f"{byte:#04x}," for byte in row) for row in rows]
lines += ["];"]
with open(os.path.join(TOP, "crates/elf_load/src/tests/linked.rt"), "w") as file:
    file.write("\n".join(lines) + "\n")
