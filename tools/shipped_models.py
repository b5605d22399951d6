"""Makes shipped_models.rt and shipped_rv64.rt in crates/sail_rows/src, the texts of the models in crates/sail_run/data; tutorial_rows.rt there,
the models of docs/TUTORIAL.md with what is written for them; the models in examples/tutorial, of each step the last that is accepted;
example_rows.rt, the examples with the reports that lie beside them; and riscv_rows.rt and stops_rows.rt, programs for the models of RISC-V.

    python3 tools/shipped_models.py

In the tutorial a model is a block of `sail`, and the block behind it is what `check` writes, or `certs` where it says so."""
import os
import re

from run_examples import RUNS, STEPS, image

TOP = os.path.dirname(os.path.dirname(os.path.abspath(__file__)))
MODELS = {
    "shipped_models": ["rv32_begin", "rv32i", "rv32m", "rv32a", "rv32_end", "toy16"],
    "shipped_rv64": ["rv64_begin", "rv64i", "rv64m", "rv64a"],
}
WIDTH = 100
# The programs of examples/riscv that the tests run: on one hart, and on four.
ONE_HART = ["hello", "instructions", "branches", "division", "memory"]
FOUR_HARTS = ["lock", "sums", "tickets"]
SHORT = [0x00500093, 0x002081B3]
# Programs that stop soon: what they are, their words, the cause of the stop, and the events before it.
STOPS = [
    ("ebreak", [0x00100073], "exception E_Breakpoint", 0),
    ("zeros", [0x00000000], "exception E_Illegal_Instr", 0),
    ("ones", [0xFFFFFFFF], "exception E_Illegal_Instr", 0),
    ("jal x0, 2", [0x0020006F], "exception E_Fetch_Addr_Align", 0),
    ("beq x0, x0, 6", [0x00000363], "exception E_Fetch_Addr_Align", 0),
    ("bne x0, x0, 6; ebreak", [0x00001363, 0x00100073], "exception E_Breakpoint", 1),
    ("addi x5, x0, 2; jalr x0, x5", [0x00200293, 0x00028067], "exception E_Fetch_Addr_Align", 1),
    ("addi x5, x0, 2; lr.w x6, (x5)", [0x00200293, 0x1002A32F], "exception E_Load_Addr_Align", 1),
    ("addi x5, x0, 2; sc.w x6, x6, (x5)", [0x00200293, 0x1862A32F], "exception E_SAMO_Addr_Align", 1),
    ("addi x5, x0, 2; amoor.w x6, x6, (x5)", [0x00200293, 0x4062A32F], "exception E_SAMO_Addr_Align", 1),
    ("lw x0, 0(x0)", [0x00002003], "bad-address 0x0000000000000000", 0),
    ("sw x0, 0(x0)", [0x00002023], "bad-address 0x0000000000000000", 0),
    ("jal x0, -4", [0xFFDFF06F], "bad-address 0x000000007ffffffc", 1),
    ("addi x17, x0, 93; ecall", [0x05D00893, 0x00000073], "all-rest", 2),
]
IMAGES = {"C": "tutorial/countdown", "L": "stack/lines"}
BLOCKS = re.compile(r"```sail\n(.*?)```\n```(\w*)\n(.*?)```\n", re.DOTALL)


def quoted(text):
    return '"' + text.replace("\\", "\\\\").replace('"', '\\"') + '"'


def constant(name, text):
    head = f"pub const {name}: &str ="
    first = quoted(text).split("\n")[0]
    return f"{head} {quoted(text)};" if len(head) + 1 + len(first) <= WIDTH else f"{head}\n    {quoted(text)};"


def read(name):
    with open(os.path.join(TOP, name)) as file:
        return file.read()


def bytes_of(name):
    with open(os.path.join(TOP, name), "rb") as file:
        return file.read()


def digits(data):
    """Lines of 128 hexadecimal digits."""
    text = data.hex()
    return [f'    "{text[at : at + 128]}",' for at in range(0, len(text), 128)]


def write(name, lines):
    with open(os.path.join(TOP, "crates/sail_rows/src", name), "w") as file:
        file.write("\n".join(lines) + "\n")


for module, names in MODELS.items():
    texts = ["//! Models of `data`, written by `tools/shipped_models.py`."]
    for name in names:
        texts += ["", f"/// `{name}.sail`", constant(name.upper(), read(f"crates/sail_run/data/{name}.sail"))]
    write(f"{module}.rt", texts)

tutorial = read("docs/TUTORIAL.md")
rows = ""
for model, command, answer in BLOCKS.findall(tutorial):
    status = 1 if re.match(r"M\d\d ", answer) else 0
    rows += f"% {command or 'check'} M\n{model}#\n# {status} {answer}"
write("tutorial_rows.rt", [
    "//! The models of `docs/TUTORIAL.md` with what is written for them, the status first, written by `tools/shipped_models.py`.",
    "",
    "/// Words, a text, no body, and the answer.",
    constant("TUTORIAL", "\n" + rows),
])

steps = re.split(r"^## (\d+)\. ", tutorial, flags=re.MULTILINE)
for number, text in zip(steps[1::2], steps[2::2]):
    accepted = [model for model, command, answer in BLOCKS.findall(text) if not re.match(r"M\d\d ", answer)]
    if int(number) in STEPS:
        with open(os.path.join(TOP, f"examples/tutorial/step{number}.sail"), "w") as file:
            file.write(accepted[-1])

letters = {f"{path}.elf": letter for letter, path in IMAGES.items()}
rows = ""
for folder, options, model, text in RUNS:
    words = " ".join(letters.get(f"{folder}/{word}", word) for word in options)
    rows += f"% run {words} M\n{read(f'examples/{folder}/{model}')}#\n# 0 {read(f'examples/{folder}/{text}')}"
texts = [
    "//! The examples with their reports, the status first, and their images, in hexadecimal digits, written by `tools/shipped_models.py`.",
    "",
    "/// Words, a text, no body, and the answer.",
    constant("EXAMPLES", "\n" + rows),
]
for letter, path in IMAGES.items():
    name = os.path.basename(path).upper()
    texts += ["", f"/// The file `{letter}`, `examples/{path}.elf`", f"pub const {name}: &str = concat!(", *digits(bytes_of(f"examples/{path}.elf")), ");"]
write("example_rows.rt", texts)


def program_rows(names, bits):
    for name in names:
        base = f"examples/riscv/{name}"
        wanted = read(f"{base}.txt" if os.path.exists(os.path.join(TOP, f"{base}.txt")) else f"{base}.{bits}.txt")
        yield f"    // `{name}`"
        yield "    ("
        yield "        concat!("
        yield from ("        " + line for line in digits(bytes_of(f"{base}.{bits}.elf")))
        yield "        ),"
        yield f"        {quoted(wanted)},"
        yield "    ),"


texts = [
    "//! Programs for the models of RISC-V, in hexadecimal digits, with what they write, made of `examples/riscv` by `tools/shipped_models.py`.",
]
for bits in (32, 64):
    for table, names, harts in (("PROGRAMS", ONE_HART, "one hart"), ("HARTS", FOUR_HARTS, "any number of harts")):
        texts += ["", f"/// Programs for RV{bits} on {harts}, each with its console.", f"pub const {table}_{bits}: &[(&str, &str)] = &["]
        texts += [*program_rows(names, bits), "];"]
write("riscv_rows.rt", texts)

texts = ["//! Short programs for the models of RISC-V, in hexadecimal digits, with what is written for them, made by `tools/shipped_models.py`."]
short = image(b"".join(word.to_bytes(4, "little") for word in SHORT))
texts += ["", "/// addi x1, x0, 5; add x3, x1, x2; and zeros", "pub const SHORT: &str = concat!(", *digits(short), ");"]
texts += ["", "/// The same for the machine 62.", "pub const OTHER_MACHINE: &str = concat!(", *digits(short[:18] + bytes([62, 0]) + short[20:]), ");"]
for bits in (32, 64):
    registers = [0x80000008] + [5 if register in (1, 3) else 0 for register in range(1, 32)]
    values = [f"{'x' + str(at) if at else 'pc'} = 0x{value:0{bits // 4}x}" for at, value in enumerate(registers)]
    report = ["0 == report", "stop exception E_Illegal_Instr", "steps 2", "console 0", "hart 0", *values, "== end", ""]
    texts += ["", f"/// The report of `SHORT` for RV{bits}, behind the status.", constant(f"REPORT_{bits}", "\n".join(report))]
texts += ["", "/// Programs that stop soon, for both widths, each with its stop and the count of steps before it.", "pub const STOPS: &[(&str, &str)] = &["]
for title, words, cause, steps in STOPS:
    code = b"".join(word.to_bytes(4, "little") for word in words)
    texts += [f"    // {title}", "    (", "        concat!(", *("        " + line for line in digits(image(code))), "        ),"]
    texts += [f'        "== report\nstop {cause}\nsteps {steps}\n",', "    ),"]
write("stops_rows.rt", texts + ["];"])
