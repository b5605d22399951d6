#!/usr/bin/env python3
"""wrong_bodies.py CRATE..: tries all wrong bodies of these crates, those that the gate leaves out too (must-fail/*.md).

It copies crates/, crates.txt and HANDLES into a folder that it removes again, gives each wrong body the ending .edit there, and
runs `rt ci CRATE..`, whose status it ends with. What the gate has proved of these files on this machine is not proved again."""
import os
import shutil
import subprocess
import sys
import tempfile


def main():
    top = os.path.dirname(os.path.dirname(os.path.abspath(__file__)))
    with tempfile.TemporaryDirectory() as copy:
        for name in ("crates.txt", "HANDLES"):
            shutil.copy(os.path.join(top, name), copy)
        shutil.copytree(os.path.join(top, "crates"), os.path.join(copy, "crates"), ignore=shutil.ignore_patterns("out"))
        for crate in sys.argv[1:]:
            folder = os.path.join(copy, "crates", crate, "must-fail")
            for name in os.listdir(folder):
                if name.endswith(".md"):
                    os.rename(os.path.join(folder, name), os.path.join(folder, name[: -len(".md")] + ".edit"))
        sys.exit(subprocess.run(["rt", "ci", *sys.argv[1:]], cwd=copy).returncode)


if __name__ == "__main__":
    main()
