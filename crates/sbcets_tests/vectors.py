#!/usr/bin/env python3
"""Makes stdin and stdout of this program by Debian's gcc and from cases.txt, and by nothing of this repository.

The programs are those of programs/, each with its inputs beside it where it reads one, those of examples/, and the texts of
rows/ that have integers alone, whose run C99 determines, and that write UTF-8. stdin has them one behind the other: the
lines of a text, then a line `%<` and its input where it has one, and a line `%%` between each two. stdout has for each what
gcc's program writes and its status (128 and the signal's number where a signal ends it).

Behind a line `%%%` come the cases of cases.txt, where the lines `%= ` are those of stdout. Then come the rows of WORKED, of
which crates/source_meaning_rows proves what they mean, and then those of FOLDERS, each a folder of programs/, by their table
programs/expected.txt. A row of it is a program's name and the line that is printed of its run. The rows with a report were
worked out by hand; `expect` writes the others by gcc, each for a file of a folder.

usage: python3 crates/sbcets_tests/vectors.py make | expect
"""

import glob
import os
import subprocess
import sys
import tempfile

HERE = os.path.dirname(os.path.realpath(__file__))
TOP = os.path.join(HERE, "..", "..")
sys.dont_write_bytecode = True
sys.path.insert(0, os.path.join(TOP, "bench"))
import row_images  # noqa: E402

# folders of programs/ whose programs are cases too: all but those with structures as arguments and results
FOLDERS = ["applications", "objects", "structures_by_value", "vulnerabilities", "wrong_accesses"]
TABLE = f"{HERE}/programs/expected.txt"
COMMAND = "%call go hi.c --heap 1048576 --stack 65536 --calls 1048576 --blocks 4096"
OPTIONS = ["-std=c99", "-O1", "-fwrapv", "-funsigned-char", "-fno-builtin", "-w", "-include", "stdio.h", "-include", "stdlib.h"]
EXAMPLES = [("hi", [b""]), ("hello", [b""]), ("status", [b""]), ("directives", [b""]), ("table", [b"12\n", b" 1", b"21", b""]),
            ("calculator", [b"12 + 3 * 4\n-7/2\n1+\n2*-3\n9223372036854775807+1\n10/0\n(1)\n", b"8/3*3 - +4"]), ("crc", [b"123456789", b""]),
            ("count", [b"one two\n three\t\n\n4", b""]), ("calendar", [b"2024 2", b"1999 12", b"1900 2", b"1582 1"])]
ROWS = """calls_up_to_the_last comma_and_void copy_input enumeration exit_in_call exit_negative fibonacci first if_counts
input_ends keys_for_objects_alone loop_counts main_reaches_its_end mixed_signs mutual_calls nested_loops
nested_switch order_operands parentheses putchar_gives return_from_loops status_modulo
switch_default_in_the_middle switch_falls_through switch_labels switch_unsigned switch_without_match""".split()

WORKED = """address_wraps array_end array_initializers array_of_arrays before_the_object block_entered_again_has_a_new_key
block_entered_again_is_clear block_object_dies break_leaves_blocks bytewise_copy casts_of_pointers dead_frame dead_frame_reused
free_twice function_designators function_pointers global_pointers initializer_tags key_not_reused linked_list member_range misaligned_pointer
nested_members past_the_end pointer_in_halves tag_stays_behind_integer union_tag calloc_overflows bad_call_type
strings_are_objects unterminated_string members_of_results structure_argument_judged
structure_argument_of_dead_block structure_moves_at_an_odd_word structure_of_zeros_counts structure_parameter_is_a_copy
structure_result_judged structure_result_missing structure_result_of_dead_object structure_value_accesses structure_values
structures_chosen""".split()


def bytes_of(file):
    with open(file, "rb") as it:
        return it.read()


def texts():
    """The file and an input of each run."""
    for source in sorted(glob.glob(f"{HERE}/programs/*.c")):
        for given in sorted(glob.glob(f"{source[:-1]}in") + glob.glob(f"{source[:-1]}*.in")) or [None]:
            yield source, bytes_of(given) if given else b""
    for name, inputs in EXAMPLES:
        for given in inputs:
            yield f"{TOP}/examples/{name}.c", given
    for name in ROWS:
        yield f"{TOP}/rows/{name}.c", b""


def ran(folder, source, given):
    """Returns what gcc's program of a source writes on an input, and its status."""
    made = f"{folder}/program"
    subprocess.run(["gcc", *OPTIONS, "-o", made, source], check=True)
    # (what was written before an abort counts)
    ran = subprocess.run(["stdbuf", "-o0", made], input=given, stdout=subprocess.PIPE, timeout=10)
    return ran.stdout, ran.returncode if ran.returncode >= 0 else 128 - ran.returncode


def cases():
    """What is given of the cases, and the lines that are to be printed."""
    given, shown = [], []
    for line in bytes_of(f"{HERE}/cases.txt").splitlines(keepends=True):
        if line.startswith(b"%= "):
            shown.append(line[3:])
        elif not line.startswith(b"%# "):
            given.append(line)
    return b"".join(given), b"".join(shown)


def table():
    """The rows of the table: the name of a program, and the line that is printed."""
    with open(TABLE, encoding="ascii") as lines:
        return dict(line.rstrip("\n").split(" ", 1) for line in lines)


def escaped(data):
    escapes = {ord("\n"): "\\n", ord("\\"): "\\\\"}
    return "".join(escapes.get(byte) or (chr(byte) if 32 <= byte < 127 else f"\\x{byte:02x}") for byte in data)


def input_of(source):
    return bytes_of(f"{source[:-1]}in") if os.path.exists(f"{source[:-1]}in") else b""


def cases_of_programs():
    """The cases of the table, and the lines that are to be printed; without those that are not compiled yet."""
    given, shown = [], []
    for name, line in table().items():
        if os.path.dirname(name) not in FOLDERS:
            continue
        source = f"{HERE}/programs/{name}.c"
        head = COMMAND + (f"\n%input {escaped(input_of(source))}" if input_of(source) else "")
        given.append(b"%%\n" + head.encode() + b"\n" + bytes_of(source))
        shown.append(line.encode() + b"\n")
    return b"".join(given), b"".join(shown)


def cases_of_rows():
    """The cases of the rows of WORKED, and the lines that are to be printed."""
    given, shown, wanted = [], [], row_images.expected()
    for name, budgets, data, text in row_images.texts():
        if name in WORKED:
            status, output, report = wanted[name]
            line = str(status) + (f" output {escaped(output)}" if output else "") + (f" errors {report}\\n" if report else "")
            head = f"%call go hi.c {' '.join(budgets)}\n"
            given.append(b"%%\n" + (head + (f"%input {escaped(data)}\n" if data else "") + text).encode())
            shown.append(f"{line}\n".encode())
    return b"".join(given), b"".join(shown)


def expect():
    """Writes the table anew: by hand stays what has a report."""
    by_hand = {name: line for name, line in table().items() if " errors " in line}
    with tempfile.TemporaryDirectory() as folder, open(TABLE, "w", encoding="ascii") as out:
        for source in sorted(glob.glob(f"{HERE}/programs/*/*.c")):
            name = os.path.relpath(source, f"{HERE}/programs")[:-2]
            if name not in by_hand:
                output, status = ran(folder, source, input_of(source))
                out.write(f"{name} {status}" + (f" output {escaped(output)}\n" if output else "\n"))
            else:
                out.write(f"{name} {by_hand[name]}\n")


def make():
    given, shown = [], []
    with tempfile.TemporaryDirectory() as folder:
        for source, data in texts():
            output, status = ran(folder, source, data)
            given.append(bytes_of(source) + (b"%<\n" + data if data else b""))
            shown.append(output + b"\n%%%% %d\n" % status)
    calls, lines = map(b"".join, zip(cases(), cases_of_rows(), cases_of_programs()))
    with open(f"{HERE}/stdin", "wb") as it:
        it.write(b"%%\n".join(given) + b"%%%\n" + calls)
    with open(f"{HERE}/stdout", "wb") as it:
        it.write(b"".join(shown) + lines)


if sys.argv[1:] == ["make"]:
    make()
elif sys.argv[1:] == ["expect"]:
    expect()
else:
    sys.exit(__doc__)
