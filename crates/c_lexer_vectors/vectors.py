#!/usr/bin/env python3
"""Makes stdin and stdout of this program by Debian's clang, by hand, and by nothing of this repository.

Tokens with their kinds, lines and what stands before them are those of `clang -std=c99 -Xclang -dump-tokens`. The type
and the value of an integer constant and the value of a character constant come from its `-ast-dump`, the bytes of a
string literal from its `-emit-llvm`, each with `-pedantic-errors -Werror` for `riscv64-linux-gnu`: what is refused
there, has an escape sequence that C99 does not list, or is a floating constant is a fault at the token's first byte. So
is a byte that clang calls unknown, and the start of a comment that it calls unterminated.

Behind these rows come those of `written`, whose answers are written here, as C99 gives them.

usage: python3 crates/c_lexer_vectors/vectors.py make
"""

import os
import random
import re
import subprocess
import sys
import tempfile

END = "%%\n"
CLANG = ["clang", "-std=c99", "--target=riscv64-linux-gnu"]
STRICT = CLANG + ["-pedantic-errors", "-Werror", "-Wno-unused-value"]

TEXTS = [
    "int main(void) { return 0; }\n",
    "",
    "\n",
    " ",
    "\t\v\f\r\n\n",
    "a",
    "a b\n\tc\n",
    "  int\n  x\n  ;\n",
    "auto break case char const continue default do double else enum extern float for goto if inline int long\n"
    "register restrict return short signed sizeof static struct switch typedef union unsigned void volatile while\n"
    "_Bool _Complex _Imaginary\n",
    "Int INT ints int_ _int _bool Bool sizeOf\n",
    "[ ] ( ) { } . -> ++ -- & * + - ~ ! / % << >> < > <= >= == != ^ | && || ? : ; ... = *= /= %= += -= <<= >>= &= ^= |= ,\n",
    "x # y\n",
    "[](){}.->++--&*+-~!/ %<<>> <><=>= ==!=^|&&||? :;...=*=/=%=+=-=<<=>>=&=^=|=,\n",
    "a+++++b\n", "a---b\n", "a----b\n", "x>>=y>>z>=w\n", "p->q-- >r\n", "a<<=b<<c<=d<e\n", "a&&&b\n", "a|||b\n", "x===y\n",
    "!!=a\n", "...\n", "....\n", "..\n", ".....\n", "a.b.c\n", "s.e1.e2\n", "a->b->c\n", "*p++=*q++;\n", "a/b/c\n", "a/ *b\n", "a*/b\n",
    "a%=b%c\n", "a^=b^c\n", "a-=-b\n", "~-!*&x\n", "c?a:b?d:e\n", "a,b;c\n", "(int*)p\n",
    "a//b\nc\n", "a//b", "//\n", "//", "a/**/b\n", "a/*b*/c\n", "a/***/b\n", "a/*/b*/c\n", "a/* * / // */b\n", "a /* \n\n */ b\n",
    "/* x\n y */ a\n", "a /* x */\n/* y */ b /* z\n */ c\n", "a // x /* y\nb */ c\n", "a // b \\\n c \nd\n", "a // b \\\r\n c \r\nd\r\n",
    "// \\\n\\\na\nb\n", "//\\\n", "a \\\n b\n", "a \\\n\\\n b\n", "a \\\r\n b\r\nc\r\n", "\\\n a\n", " \\\n a\n", "a \\\n\n b\n", "a \\\n /* c */ \\\n b\n",
    "a\n\\\n b\n",
    "a /* unclosed", "a /* unclosed * /", "a\nb /*/", "/*", "x /**",
    "0 1 9 10 00 07 0x0 0XfF 0xabcdefABCDEF\n", "2147483647 2147483648 4294967295 4294967296\n", "0x7fffffff 0x80000000 0xFFFFFFFF 0x100000000\n",
    "017777777777 020000000000 037777777777 040000000000\n", "9223372036854775807 0x7fffffffffffffff 0x8000000000000000 0xffffffffffffffff\n",
    "0777777777777777777777 01000000000000000000000 01777777777777777777777\n",
    "9223372036854775808u 18446744073709551615u 18446744073709551615UL 18446744073709551615llu\n",
    "9223372036854775808\n", "9223372036854775808l\n", "9223372036854775808ll\n", "18446744073709551616u\n", "18446744073709551616\n", "0x10000000000000000\n",
    "02000000000000000000000\n",
    "1u 1U 1l 1L 1ul 1uL 1Ul 1UL 1lu 1lU 1Lu 1LU 1ll 1LL 1ull 1uLL 1Ull 1ULL 1llu 1llU 1LLu 1LLU\n",
    "0u 0l 0ull 0x1u 0x1l 0x1ul 0x1ll 0x1ull 07u 07l 07ll 07llu\n",
    "2147483648u 4294967296u 0x80000000l 0x8000000000000000l 0x8000000000000000ll 0xffffffffull\n",
    "08\n", "09u\n", "018\n", "0x\n", "0X\n", "0xg\n", "1lul\n", "1lL\n", "1Ll\n", "1uu\n", "1lll\n", "1ulu\n", "1e5\n", "1E+5\n", "1.5\n", "1.\n", ".5\n", "0x1p3\n",
    "0x1.8p-1\n", "1f\n", "1.0f\n", "1i8\n", "12abc\n", "1_000\n", "0b1\n", "1..2\n", "1e+\n", "a 1e-x b\n", "1+2\n", "1-2\n", "0xe+1\n", "0xE-1\n", "1p+2\n", "7.x\n",
    "1 2\n3 4x\n",
    "'a' '0' ' ' '\"' '?' '~' '/'\n", "'\\'' '\\\"' '\\?' '\\\\' '\\a' '\\b' '\\f' '\\n' '\\r' '\\t' '\\v'\n",
    "'\\0' '\\7' '\\00' '\\12' '\\123' '\\377' '\\x0' '\\xf' '\\xFF' '\\x00000041'\n",
    "'\\400'\n", "'\\777'\n", "'\\x100'\n", "'\\xfff'\n", "''\n", "'ab'\n", "'\\1234'\n", "'\\08'\n", "'a\n", "'\n", "'\\'\n", "'\\8'\n", "'\\9'\n", "'\\e'\n",
    "'\\q'\n", "'\\x'\n", "'\\xg'\n", "x = 'a' + '\\n';\n", "'a'b'c'\n",
    "\"\" \"a\" \"abc\" \"a\\n\" \"\\\"\" \"'\" \"a b\" \"//\" \"/*\" \"*/\"\n", "\"\\0\\01\\012\\1234\" \"\\x41\\x0g\" \"\\xAz\" \"\\377\\x80\"\n",
    "\"\\a\\b\\f\\n\\r\\t\\v\\'\\\"\\?\\\\\"\n", "\"a\" \"b\"\n\"c\"\n", "\"a\"\"b\"\n", "\"\\08\"\n", "\"\\8\"\n", "\"\\e\"\n", "\"\\400\"\n", "\"\\x100\"\n", "\"\\x\"\n", "\"\\xz\"\n", "\"abc\n",
    "\"abc\\\"\n", "\"", "a \"b", "\"%d\\n\"\n", "\"é\"\n", "// é\n", "/* é */ a\n",
    "L'a' L\"a\" L\"\" L\"a\\n\" L'\\0'\n", "L 'a'\n", "L\"a\" \"b\"\n", "LL'a'\n", "Lx\"a\"\n", "l'a'\n", "u'a' U'a' u\"a\" U\"a\" u8\"a\"\n", "L\n", "L+L\n", "xL'a'\n",
    "x /* L */ L'x'\n",
    "@\n", "a @\n", "a\n\n  `b\n", "x \\ y\n",
    "for (int i = 0; i < 10; i++) { s += a[i]; }\n", "struct s { int a; struct s *next; } *p = &q;\n", "typedef unsigned long size_t;\nsize_t n = sizeof(int[3]);\n",
    "int (*f)(int, char *) = 0;\nint g(void) { return f(1, \"x\") ? -1 : ~0; }\n",
    "switch (c) {\ncase 'a': /* fall */\ncase 0x41:\n\tbreak;\ndefault:\n\treturn;\n}\n", "while (*d++ = *s++)\n\t;\n", "do { x <<= 1; } while (x && !y || z);\n",
    "static const char *const names[] = { \"one\", \"two\" };\n", "union u { int i; char c[4]; };\nenum e { A, B = 3, C };\n",
    "int printf(const char *, ...);\n", "x = a ? b : c, d; y = (a, b);\n", "if (a != b) goto end; else continue;\n", "p->x.y[2]--;\n", "a = b/*c*/+/*d*/e; // f\n",
]

PIECES = ["a", "x1", "int", "return", "_Bool", "0", "42u", "0x1F", "'c'", "'\\n'", "\"s\"", "\"a\\tb\"", "L'w'", "L\"w\"", "+", "++", "-", "->", "<<", "<<=", ">", ">=",
          "==", "=", "&", "&&", "...", "(", ")", "{", "}", "[", "]", ";", ",", "?", "!", "~", "*", "%", "^", "|", "||"]
GAPS = [" ", "  ", "\t", "\n", "\n\n", " \\\n ", "/* c */", "/* c\nd */", " // c\n", " // c \\\n d\n", "\r\n", "\f", "\v", "\n\t", " /**/ /**/ ", "\n// c\n"]


def random_texts():
    """Texts of pieces with gaps between them, the same each time."""
    r = random.Random(6)
    for _ in range(100):
        yield "".join(r.choice(PIECES) + r.choice(GAPS) for _ in range(r.randint(4, 14)))


def run(options, text, command=STRICT):
    with tempfile.NamedTemporaryFile("w", suffix=".c", newline="", delete=False) as f:
        f.write(text)
    try:
        return subprocess.run(command + options + [f.name], capture_output=True, text=True, check=False)
    finally:
        os.unlink(f.name)


KINDS = {"identifier": "identifier", "numeric_constant": "integer", "char_constant": "character", "string_literal": "string",
         "wide_char_constant": "wide", "wide_string_literal": "wide"}


def meaning(kind, spelling):
    """What a token stands for, or None where it is refused."""
    if kind in ("integer", "character"):
        r = run(["-fsyntax-only", "-Xclang", "-ast-dump"], f"void f(void) {{ ({spelling}); }}\n")
        m = re.search(r"(IntegerLiteral|CharacterLiteral) .* '([a-z ]+)' (\d+)\n", re.sub(r"\x1b\[[0-9;]*m", "", r.stdout))
        if r.returncode != 0 or m is None:
            return None
        return f" = {m[2]} {m[3]}" if kind == "integer" else f" = {m[3]}"
    if kind == "string":
        r = run(["-S", "-emit-llvm", "-o", "-"], f"const char s[] = {spelling};\n")
        if r.returncode != 0:
            return None
        m = re.search(r'@s = [^\[]*\[(\d+) x i8\] (?:c"(.*)"|zeroinitializer)', r.stdout)
        if m[2] is None:
            return " = " + "00" * (int(m[1]) - 1)
        data = re.sub(rb"\\(\\|[0-9A-F]{2})", lambda e: b"\\" if e[1] == b"\\" else bytes([int(e[1], 16)]), m[2].encode())
        return " = " + data[:-1].hex()
    if kind == "wide":
        return "" if run(["-fsyntax-only"], f"void f(void) {{ ({spelling}); }}\n").returncode == 0 else None
    return ""


def place(text, line, column):
    lines = text.encode().split(b"\n")
    return sum(len(l) + 1 for l in lines[: line - 1]) + column - 1


def lines_of(text):
    """The lines that the program is to print for a text: its tokens and its end, or its fault alone."""
    found = []
    r = run(["-fsyntax-only", "-Xclang", "-dump-tokens"], text, CLANG)
    comment = re.search(r":(\d+):(\d+): error: unterminated /\* comment", r.stderr)
    for m in re.finditer(r"^(\w+) '(.*?)'\t((?: \[\w+\])*)\tLoc=<.*?:(\d+):(\d+)>$", r.stderr, re.M | re.S):
        kind, spelling, flags, line, column = m[1], m[2], m[3], int(m[4]), int(m[5])
        if kind == "eof":
            break
        kind = KINDS.get(kind, "keyword" if kind == spelling else kind if kind == "unknown" else "punctuator")
        means = None if kind == "unknown" else meaning(kind, spelling)
        if means is None:
            return [f"fault at {place(text, line, column)} line {line}"]
        flag = "b" if "StartOfLine" in flags else "s" if "LeadingSpace" in flags else "-"
        found.append(f"{line} {flag} {kind} {spelling}{means}")
    if comment:
        line, column = int(comment[1]), int(comment[2])
        return [f"fault at {place(text, line, column)} line {line}"]
    return found + [f"end {text.count(chr(10)) + 1}"]


# Spellings of integer constants: the type and the value by C99 6.4.4.1 paragraph 5, `long` having 64 bits.
TYPED = [
    (b"0", "int", 0),
    (b"2147483647", "int", 2147483647),
    (b"2147483648", "long", 2147483648),
    (b"4294967295u", "unsigned int", 4294967295),
    (b"4294967296U", "unsigned long", 4294967296),
    (b"0x7fffffff", "int", 2147483647),
    (b"0xFFFFFFFF", "unsigned int", 4294967295),
    (b"0X100000000", "long", 4294967296),
    (b"037777777777", "unsigned int", 4294967295),
    (b"0777777777777777777777", "long", 9223372036854775807),
    (b"9223372036854775807", "long", 9223372036854775807),
    (b"9223372036854775808u", "unsigned long", 9223372036854775808),
    (b"0x8000000000000000", "unsigned long", 9223372036854775808),
    (b"18446744073709551615lu", "unsigned long", 18446744073709551615),
    (b"1l", "long", 1),
    (b"1ul", "unsigned long", 1),
    (b"1LL", "long long", 1),
    (b"0xffffffffffffffffll", "unsigned long long", 18446744073709551615),
    (b"1llU", "unsigned long long", 1),
    (b"0u", "unsigned int", 0),
    (b"00000000000000000000000001", "int", 1),
]

# What is no integer constant, or has a value that no type of its list holds.
NO_CONSTANTS = [
    b"", b"08", b"0x", b"1e5", b"1.5", b".5", b"0x1p3", b"1lul", b"1lL", b"1Ll", b"1uu", b"18446744073709551616",
    b"9223372036854775808", b"9223372036854775808ll",
]

# Spellings of character constants, and their values by C99 6.4.4.4; a byte of 128 or more is itself, since `char` is unsigned.
CHARACTERS = [
    (b"'a'", 97), (b"'\"'", 34), (b"'\\n'", 10), (b"'\\0'", 0), (b"'\\377'", 255), (b"'\\xff'", 255),
    (b"'\\x0041'", 65), (b"'\xff'", 255), (b"'\\400'", None), (b"'\\x100'", None), (b"'\\8'", None),
    (b"'\\1234'", None), (b"'ab'", None), (b"''", None), (b"'\n'", None), (b"'a", None),
]

# A string literal and its bytes (C99 6.4.5), and what is none.
LITERAL = (rb""" "a\tb\1018\x7e\\'" """.strip(), b"a\tbA8~\\'")
NO_LITERALS = [
    b"\"\\8\"", b"\"\\400\"", b"\"\\x\"", b"\"a", b"\"a\"b", b"'a'",
]

# Texts, and the byte and the line of the first place where no token stands.
FAULTS = [
    ("int main(void){return 0;}@", 25, 1),
    ("a\n\"b", 2, 2),
    ("a /* b\n", 2, 1),
    ("a\n/*/", 2, 2),
    ("a // \\\n b\n$", 10, 3),
    ("/* \n\n */ 08", 9, 3),
    ("a 1.5", 2, 1),
    ("'ab'", 0, 1),
    ("\\\n\\", 2, 2),
    ("x\\ \ny", 1, 1),
    # a wide literal with a fault inside is no token, but the `L` before its quote is
    ("L'ab'", 1, 1),
    ("L\"\\400\"", 1, 1),
]

# A text, and for each token its line, whether it is the first there, and whether white space or a comment stands before it; then
# the line of the end.
FLAGS = ("a /* \n */ b // \\\n c\nd\\\ne \\\r\n\tf\n", ["1 b- a", "2 -s b", "4 bs d", "5 -s e", "6 -s f", "end 7"])


def written():
    """The rows whose answers are written here, each with the lines that it must print."""
    for spelling, of, value in TYPED:
        yield f"%integer {spelling.hex()}", [f"integer = {of} {value}"]
    for spelling in NO_CONSTANTS:
        yield f"%integer {spelling.hex()}", ["integer"]
    for spelling, value in CHARACTERS:
        yield f"%character {spelling.hex()}", ["character" if value is None else f"character = {value}"]
    yield f"%string {LITERAL[0].hex()}", [f"string = {LITERAL[1].hex()}"]
    for spelling in NO_LITERALS:
        yield f"%string {spelling.hex()}", ["string"]
    for text, at, line in FAULTS:
        yield text, [f"fault at {at} line {line}"]
    yield f"%flags {FLAGS[0]}", FLAGS[1]


def main():
    if sys.argv[1:] != ["make"]:
        sys.exit(__doc__)
    here = os.path.dirname(os.path.abspath(__file__))
    texts = list(dict.fromkeys(TEXTS + list(random_texts())))
    others = list(written())
    rows = [(text, lines_of(text)) for text in texts] + others
    assert all("%%" not in row for row, _ in rows) and not any(re.match("%[a-z]", text) for text in texts)
    with open(os.path.join(here, "stdin"), "w", newline="") as f:
        f.write(END.join(row for row, _ in rows))
    with open(os.path.join(here, "stdout"), "w", newline="") as f:
        for _, lines in rows:
            f.write("".join(line + "\n" for line in lines) + END)
    print(len(texts), "texts,", len(others), "written")


if __name__ == "__main__":
    sys.exit(main())
