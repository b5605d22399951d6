"""Runs the examples and says where what is written differs from the text beside them.

    python3 tools/run_examples.py [--write] [PROGRAM]

PROGRAM is crates/sail_run/out/sail_run unless another is named. A line is written for each run; the status is 1 if one differs. With --write the
programs' files are made and the texts written instead. `tools/shipped_models.py` writes the models of `examples/tutorial`."""
import os
import struct
import subprocess
import sys

TOP = os.path.dirname(os.path.dirname(os.path.abspath(__file__)))
EXAMPLES = os.path.join(TOP, "examples")
BASE = 0x80000000
STEPS = [1, 2, 3, 5, 6, 7, 8, 9, 10]
# A folder, the options, the model, and the text.
RUNS = [("tutorial", ["--elf", "countdown.elf", "--steps", "20"], f"step{step}.sail", f"step{step}.txt") for step in STEPS]
RUNS += [("stack", ["--elf", "lines.elf"], "stack.sail", "lines.txt")]


def image(code):
    """A file of one segment, which lies at RAM's base and holds the code, for RISC-V by its header."""
    head = struct.pack("<16sHHIQQQIHHHHHH", b"\x7fELF\x02\x01\x01", 2, 243, 1, BASE, 64, 0, 0, 64, 56, 1, 0, 0, 0)
    return head + struct.pack("<IIQQQQQQ", 1, 5, 120, BASE, BASE, len(code), len(code), 4) + code


def read(*names):
    with open(os.path.join(EXAMPLES, *names), "rb") as file:
        return file.read()


def write(data, *names):
    with open(os.path.join(EXAMPLES, *names), "wb") as file:
        file.write(data)


def write_images():
    """toy16's program sets R1 to 3, adds -1, jumps back two bytes while R1 isn't 0, and rests; the stack machine's is a text."""
    write(image(bytes.fromhex("0311ff21ff410000")), "tutorial", "countdown.elf")
    write(image(read("stack", "lines")), "stack", "lines.elf")


def main(words):
    writes = "--write" in words
    words = [word for word in words if word != "--write"]
    program = os.path.abspath(words[0]) if words else os.path.join(TOP, "crates/sail_run/out/sail_run")
    if writes:
        write_images()
    different = 0
    for folder, options, model, text in RUNS:
        ended = subprocess.run([program, "run", *options, model], cwd=os.path.join(EXAMPLES, folder), stdout=subprocess.PIPE)
        if writes:
            write(ended.stdout, folder, text)
        same = ended.returncode == 0 and ended.stdout == read(folder, text)
        different += not same
        print(f"{'same' if same else 'DIFFERENT'} {folder} {model}")
    return 1 if different else 0


if __name__ == "__main__":
    sys.exit(main(sys.argv[1:]))
