#!/usr/bin/env python3
"""Writes the worked rows of the violations of typing rules (crates/typing_rows/proofs/Violations), each from a C text and all rules that it
violates, with their lines, in the order in which they are judged: that of the tokens, but in storage_of_a_later_declarator. The trees
are made by rows/syntax.py; what is expected was worked out by hand from C99 and docs/LANGUAGE.md.

usage: python3 rows/violations.py        writes the rows
       python3 rows/violations.py gcc    says where gcc has errors on other lines than the row says
"""

import os
import re
import subprocess
import sys

from syntax import source_of, wrapped
from units import END, IMPORTS, OPAQUE, used

# (name, text, rules with their lines, whether gcc has errors on just these lines)
ROWS = [
    ("declarations", "int x=\ny;\nint z=w;" + END, [("Undeclared", 2), ("Undeclared", 3)], True),
    ("operands", "int main(void){return a+\nb;}", [("Undeclared", 1), ("Undeclared", 2)], True),
    ("operator_before_another_operand", "int main(void){int*p=0;return p*\n2+\nq;}", [("Operands", 1), ("Undeclared", 3)], True),
    ("arguments_of_what_is_undeclared", "int main(void){return f(\na,\nb);}",
     [("Undeclared", 1), ("Undeclared", 2), ("Undeclared", 3)], True),
    ("arguments", "int f(int*p,int n){return*p+n;}int main(void){return\nf(1,1)+\nf(a,\nb);}",
     [("NoConversion", 2), ("Undeclared", 3), ("Undeclared", 4)], True),
    ("statements", "int main(void){\nx;\nif(y)z;\nreturn 0;}", [("Undeclared", 2), ("Undeclared", 3), ("Undeclared", 3)], True),
    ("do_before_its_body", "struct S{int a;}s;int main(void){\ndo\ny=1;while(\ns);return 0;}",
     [("NoCondition", 2), ("Undeclared", 3)], False),
    ("body_before_its_condition", "int main(void){do\ny=1;while(\nz);return 0;}", [("Undeclared", 2), ("Undeclared", 3)], True),
    ("head_and_body_of_a_for", "int main(void){for(int i=\na;\nb;c)\nd;return 0;}",
     [("Undeclared", 2), ("Undeclared", 3), ("Undeclared", 3), ("Undeclared", 4)], True),
    ("labels", "int main(void){int x=0;switch(x){case 1:y;\ncase 1:z;}return 0;}",
     [("Undeclared", 1), ("MisplacedLabel", 2), ("Undeclared", 2)], True),
    ("labels_without_a_value", "int main(void){switch(\nx){case 0:;case 4294967296:;\ncase 0:;}return 0;}",
     [("Undeclared", 2), ("MisplacedLabel", 3)], False),
    ("members", "struct{int a;int\na;void\nb;int c[\nn],\na;}s;" + END,
     [("RepeatedMember", 2), ("Incomplete", 3), ("Undeclared", 4), ("RepeatedMember", 5)], True),
    ("enumerators", "enum{A=\nx,B,\nB,C=B};" + END, [("Undeclared", 2), ("Redeclared", 3)], True),
    ("parameters", "int f(int x,\nint x,int y[\nz]);" + END, [("Redeclared", 2), ("Undeclared", 3)], True),
    ("items", "int a[2]={\ny,1,\nz};" + END, [("Undeclared", 2), ("Undeclared", 3)], True),
    ("declarator_and_initializer", "int x;char\nx=\ny;" + END, [("Redeclared", 2), ("Undeclared", 3)], True),
    ("declarator_and_block", "int f(void){return 0;}\nint f(void){return\ny;}" + END, [("Redeclared", 2), ("Undeclared", 3)], True),
    ("not_declared_by_a_violation", "void\nx;int y=\nx;" + END, [("Incomplete", 2), ("Undeclared", 3)], False),
    ("end", "int f(void);int g(void){return\nf();}\n", [("NoMain", 3), ("UndefinedFunction", 2)], False),
    ("operands_of_a_condition", "int main(void){return a?\nb:\nc;}", [("Undeclared", 1), ("Undeclared", 2), ("Undeclared", 3)], True),
    ("cast_and_its_operand", "int main(void){return(int(*)[\ny])\nx!=0;}", [("Undeclared", 2), ("Undeclared", 3)], True),
    ("specifiers_and_declarator", "struct{void\na;}x[\ny];" + END, [("Incomplete", 2), ("Undeclared", 3)], True),
    ("value_and_labels", "struct S{int a;}s;int main(void){\nswitch(s){\ncase x:;}return 0;}", [("NoCondition", 2), ("Undeclared", 3)], True),
    ("blocks", "int f(void){return\na;}int g(void){return\nb;}" + END, [("Undeclared", 2), ("Undeclared", 3)], True),
    ("block_behind_a_faulty_parameter", "int f(int x[\ny],int v){return v+\nz;}" + END, [("Undeclared", 2), ("Undeclared", 3)], True),
    ("results", "int f(void){\nreturn;}\nint f(void){\nreturn;}void g(void){\nreturn 1;}" + END,
     [("MistakenReturn", 2), ("Redeclared", 3), ("MistakenReturn", 4), ("MistakenReturn", 5)], True),
    ("tag_and_members", "struct S{int a;};\nstruct S{int b[\ny];};" + END, [("MistakenTag", 2), ("Undeclared", 3)], True),
    ("storage_of_a_later_declarator", "int main(void){\nstatic int a=\nb,\nf(void);return 0;}",
     [("Undeclared", 3), ("MisplacedStorage", 2)], False),
    ("storage_and_size", "auto int a[\ny];" + END, [("Undeclared", 2)], False),
    ("storage_of_a_parameter", "int f(static int a[\ny]);" + END, [("Undeclared", 2)], False),
    ("storage_of_a_member", "struct{static int a[\ny];}s;" + END, [("MisplacedStorage", 1), ("Undeclared", 2)], False),
    ("initializer_out_of_place", "typedef int T={\ny};" + END, [("MisplacedStorage", 1), ("Undeclared", 2)], True),
    ("none", END, [], True),
]

SEEN = OPAQUE.replace(chr(10), " ").replace(" is_valid_program", "").replace(" room", "").replace(" typed_unit", "")
ABOUT = "-- All rules of typing that sources violate, each with its line, in the order in which they are judged.\n"


def rows():
    body = []
    for name, text, expected, _ in ROWS:
        comment = "\n".join("-- " + line for line in text.split("\n"))
        faults = " ∷ ".join([f"(rule.{rule}, {line})" for rule, line in expected] + ["[]"])
        body.append(f"{comment}\n{name} :\n{wrapped(source_of(text), 4)}\n{wrapped('≡ ' + faults, 4)}\n"
                    f"{wrapped('unfolding ' + SEEN, 0, 112).replace(chr(10), chr(10) + '    ')}\n{name} = refl\n")
    others = ("typing_rows", "room", "is_valid_program", "typed_unit")
    imports = "".join(line + "\n" for line in IMPORTS.strip().split("\n") if not any(word in line for word in others))
    imports = imports.replace(", literal_step, next_character}", ", literal_step}\nuse Rattle.c_lexer.specs.Literals.{next_character}")
    imports += "use Rattle.typing_rows.proofs.Units.Sources.{at, declaration, declarators, designation, init_declarator, spelled, word}\n"
    imports += "use Rattle.typing_rows.proofs.Violations.Sources.{source}\n"
    apart = ", ".join(name for name, _, _, same in ROWS if not same)
    about = wrapped("-- gcc 12.2.0 (-std=c99 -pedantic-errors -fsyntax-only) has errors on just these lines in the texts of all rows but of these: "
                    + apart + ".", 0, 112).replace("\n", "\n-- ") + "\n"
    return ABOUT + about + used(imports, "\n".join(body)) + "\n" + "\n".join(body)


def compare():
    for name, text, expected, same in ROWS:
        done = subprocess.run(["gcc", "-std=c99", "-pedantic-errors", "-fsyntax-only", "-funsigned-char", "-x", "c", "-"], input=text,
                              text=True, capture_output=True)
        lines = {int(line) for line in re.findall(r"<stdin>:(\d+):\d+: error:", done.stderr)}
        if (lines == {line for _, line in expected}) != same:
            print(name, expected, "gcc", sorted(lines))


if __name__ == "__main__":
    if sys.argv[1:] == ["gcc"]:
        compare()
        sys.exit()
    here = os.path.join(os.path.dirname(os.path.abspath(__file__)), "..", "crates", "typing_rows", "proofs", "Violations")
    with open(os.path.join(here, "Rows.antt"), "w", encoding="utf-8") as out:
        out.write(rows())
