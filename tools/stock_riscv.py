"""Builds the programs of examples/riscv with Debian's gcc, runs them under qemu-user and under the shipped models of RV32IMA and RV64IMA, and says
where what they write differs.

    python3 tools/stock_riscv.py [--keep] [PROGRAM [MODELS]]

It needs the packages gcc-riscv64-unknown-elf, binutils-riscv64-unknown-elf and qemu-user, and the program `sail-run`, which is
crates/sail_run/out/sail_run unless another is named; MODELS is the folder of the models. It is run by hand and is no part of the gate. A line is
written for each run; the status is 1 if one differs. With --keep the images are put beside their sources, NAME.32.elf and NAME.64.elf, and what
qemu writes for them as NAME.32.txt and NAME.64.txt, or as NAME.txt where both are one text.

RV64 is run as gcc makes it. For RV32 gcc makes an ELF32 file, whose bytes in memory are put into an ELF64 file at the same address."""
import os
import subprocess
import sys
import tempfile

TOP = os.path.dirname(os.path.dirname(os.path.abspath(__file__)))
SOURCES = os.path.join(TOP, "examples/riscv")
TOOL = "riscv64-unknown-elf-"
ONE_HART = ["hello.s", "instructions.S", "atomics.c", "branches.c", "division.c", "interpreter.c", "memory.c", "recursion.c", "sha256.c", "shifts.c",
            "sort.c"]
FOUR_HARTS = ["lock.s", "sums.s", "tickets.s"]
ORDERS = ["0123", "3210", "0", "3", "01", "0011223", "0123012", "00000001", "2222333301", "0312"]
ABI = {32: "ilp32", 64: "lp64"}
FILES = {
    32: ["rv32_begin", "rv32i", "rv32m", "rv32a", "rv32_end"],
    64: ["rv64_begin", "rv32i", "rv64i", "rv32m", "rv64m", "rv32a", "rv64a", "rv32_end"],
}


def call(*words):
    subprocess.run(words, check=True)


def built(folder, name, bits):
    """The file that gcc makes of a program, for qemu."""
    made = os.path.join(folder, f"{name}.{bits}")
    sources = [os.path.join(SOURCES, name)]
    if name.endswith(".c"):
        sources.insert(0, os.path.join(SOURCES, "start.s"))
    call(TOOL + "gcc", f"-march=rv{bits}ima", f"-mabi={ABI[bits]}", "-mcmodel=medany", "-O2", "-ffreestanding", "-nostdlib", "-static", "-s",
         "-Wl,--no-warn-rwx-segments", "-T", os.path.join(SOURCES, "link.ld"), *sources, "-lgcc", "-o", made)
    return made


def image(folder, made, bits):
    """The file that sail-run takes."""
    if bits == 64:
        return made
    with open(made, "rb") as file:
        entry = int.from_bytes(file.read()[24:28], "little")
    flat, source, wrapped = (os.path.join(folder, name) for name in ("flat", "flat.s", "flat.elf"))
    call(TOOL + "objcopy", "-O", "binary", made, flat)
    with open(source, "w") as file:
        file.write(f'.globl _start\n_start: .incbin "{flat}"\n')
    call(TOOL + "gcc", "-march=rv64ima", "-mabi=lp64", "-nostdlib", "-static", "-s", "-n", "-Wl,--no-warn-rwx-segments", f"-Wl,-Ttext={entry:#x}", source,
         "-o", wrapped)
    return wrapped


def by_qemu(made, bits):
    ended = subprocess.run([f"qemu-riscv{bits}", made], stdin=subprocess.DEVNULL, stdout=subprocess.PIPE, timeout=60)
    if ended.returncode != 0:
        sys.exit(f"{made} ends with status {ended.returncode} under qemu")
    return ended.stdout


def by_models(program, models, file, bits, options):
    """What is written to the console, and the report."""
    words = [program, "run", "--elf", file, *options] + [os.path.join(models, name + ".sail") for name in FILES[bits]]
    written = subprocess.run(words, stdin=subprocess.DEVNULL, stdout=subprocess.PIPE).stdout
    console, _, report = written.rpartition(b"== report\n")
    return console, report.decode()


def runs(name):
    """How a program is run: a title, the options, and whether all harts come to rest."""
    if name in ONE_HART:
        return [("one hart", ["--steps", "10000000"], True)]
    return [(f"four harts by {order}", ["--harts", "4", "--order", order, "--steps", "200000"], set(order) == set("0123")) for order in ORDERS]


def keep(name, file, bits, wanted):
    base = os.path.join(SOURCES, name.split(".")[0])
    with open(file, "rb") as source, open(f"{base}.{bits}.elf", "wb") as target:
        target.write(source.read())
    with open(f"{base}.{bits}.txt", "wb") as target:
        target.write(wanted)
    if bits == 64 and open(f"{base}.32.txt", "rb").read() == wanted:
        os.remove(f"{base}.32.txt")
        os.rename(f"{base}.64.txt", f"{base}.txt")


def main(words):
    keeps = "--keep" in words
    words = [word for word in words if word != "--keep"]
    program = os.path.abspath(words[0]) if words else os.path.join(TOP, "crates/sail_run/out/sail_run")
    models = words[1] if len(words) > 1 else os.path.join(TOP, "crates/sail_run/data")
    different = 0
    for name in ONE_HART + FOUR_HARTS:
        for bits in (32, 64):
            with tempfile.TemporaryDirectory() as folder:
                made = built(folder, name, bits)
                wanted = by_qemu(made, bits)
                file = image(folder, made, bits)
                if keeps:
                    keep(name, file, bits, wanted)
                for title, options, rests in runs(name):
                    console, report = by_models(program, models, file, bits, options)
                    stop, steps = (report.split("\n") + ["", ""])[:2]
                    same = console == wanted and (stop == "stop all-rest") == rests
                    different += not same
                    print(f"{'same' if same else 'DIFFERENT'} {name} RV{bits} {title}: {stop}, {steps}", flush=True)
    print(f"{different} different")
    return 1 if different else 0


if __name__ == "__main__":
    sys.exit(main(sys.argv[1:]))
