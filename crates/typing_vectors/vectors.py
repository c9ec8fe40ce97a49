#!/usr/bin/env python3
"""Makes stdin and stdout of this program by the tables of typing_rows.py and static_rows.py, and by nothing of this repository's
code. stdin has the texts of typing_rows.py and, behind a line `%%%`, those of static_rows.py, with a line `%%` between each two.
stdout has a line for each text, and before that of the second part one for each static object.

usage: python3 crates/typing_vectors/vectors.py make
"""

import os
import sys

HERE = os.path.dirname(os.path.realpath(__file__))
sys.path.insert(0, HERE)
sys.dont_write_bytecode = True
import static_rows  # noqa: E402
import typing_rows  # noqa: E402


def make():
    typed = list(typing_rows.rows())
    statics = list(static_rows.rows(200))
    with open(f"{HERE}/stdin", "w") as it:
        it.write("%%\n".join(text for text, _ in typed))
        it.write("%%%\n" + "%%\n".join(text for text, _ in statics))
    with open(f"{HERE}/stdout", "w") as it:
        it.write("".join(line + "\n" for _, line in typed))
        it.write("".join("\n".join([*lines, "typed\n"]) for _, lines in statics))


if sys.argv[1:] == ["make"]:
    make()
else:
    sys.exit(__doc__)
