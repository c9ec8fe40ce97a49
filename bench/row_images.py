#!/usr/bin/env python3
"""Builds the image of each text of crates/lowering_vectors with the budgets of its row, runs it on the simulator and under
qemu-riscv64 (Debian's qemu-user), and compares status, report and output with those that the row's `stdout` has, which
are those of the proved rows of crates/source_meaning_rows. A text that the compiler refuses as not compiled yet is listed
apart.

usage: python3 bench/row_images.py SBCETS [NAME..]     (SBCETS: the built program, out/sbcets_cli of crates/sbcets_cli)
"""

import ast
import os
import re
import shutil
import subprocess
import sys
import tempfile

sys.dont_write_bytecode = True
from other_emulator import TOP, readable

ROWS = os.path.join(TOP, "crates", "lowering_vectors")
BUDGETS = ["--heap", "--stack", "--calls", "--blocks", "--keys"]


def texts():
    """Of each row its name, its budgets, its turns, its input and its text."""
    with open(f"{ROWS}/stdin", encoding="utf-8") as file:
        for row in file.read().split("%%\n"):
            line, text = row.split("\n", 1)
            words = line.split(" ")
            given = words[10] if len(words) > 10 else ""
            yield words[0], [it for pair in zip(BUDGETS, words[1:6]) for it in pair], bytes.fromhex(given), text


def expected():
    """By row the status, the report and the output behind all checks."""
    found, name = {}, None
    with open(f"{ROWS}/stdout", encoding="utf-8") as file:
        for line in file:
            if line[:1] not in (" ", "\n"):
                name = line.split(":")[0]
            told = re.match(r'  after: (\d+) (sbcets: [^("]*)?(\(\w+\) )?("(?:[^"\\]|\\.)*")', line)
            if told:
                output = ast.literal_eval(f"b{told[4]}")
                found[name] = (int(told[1]), output, (told[2] or "").strip())
    return found


def ran(words, given):
    done = subprocess.run(words, input=given, capture_output=True, timeout=300)
    return done.returncode, done.stdout, done.stderr.decode().strip()


def main():
    program, names = sys.argv[1], sys.argv[2:]
    wanted, counts, refused = expected(), {}, []
    emulator = shutil.which("qemu-riscv64")
    with tempfile.TemporaryDirectory() as folder:
        source, image = f"{folder}/row.c", f"{folder}/row.img"
        for name, budgets, given, text in texts():
            if name not in wanted or names and name not in names:
                continue
            with open(source, "w", encoding="utf-8") as file:
                file.write(text)
            status, _, report = ran([program, "build", source, image, *budgets], b"")
            if status:
                refused.append(f"{name} ({report})")
                continue
            runs = [("simulator", ran([program, "run", image], given))]
            if emulator:
                with open(image, "rb") as file:
                    bytes_read = readable(file.read())
                with open(f"{folder}/other", "wb") as file:
                    file.write(bytes_read)
                os.chmod(f"{folder}/other", 0o755)
                runs.append(("qemu", ran([emulator, f"{folder}/other"], given)))
            for where, got in runs:
                same = got == wanted[name]
                counts[where, same] = counts.get((where, same), 0) + 1
                if not same:
                    print(f"{name}, {where}: {got}, not {wanted[name]}", flush=True)
    for (where, same), count in sorted(counts.items()):
        print(f"{where}: {count} {'as the rows say' if same else 'NOT as the rows say'}")
    print(f"{len(refused)} not compiled: {', '.join(refused)}")
    return any(not same for _, same in counts)


if __name__ == "__main__":
    sys.exit(main())
