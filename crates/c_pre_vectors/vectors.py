#!/usr/bin/env python3
"""Makes stdin and stdout of this program by Debian's gcc and clang, by hand, and by nothing of this repository.

The tokens of a text are those of `gcc -E -std=c99 -pedantic-errors` and of `clang -E -std=c99`, parted by the
regular expression TOKEN. A macro's tokens stand there on the line of its use, which line markers and newlines tell. A text
in which the two differ is refused here. A fault is the first error of gcc, whose message tells its kind; of if-sections
that are left open, which gcc tells from the innermost one, it is the outermost.

Behind these rows come those of `written`, whose answers are written here.

usage: python3 crates/c_pre_vectors/vectors.py make
"""

import os
import random
import re
import subprocess
import sys
import tempfile

END = "%%\n"
OPTIONS = ["-E", "-std=c99", "-undef", "-nostdinc"]
TOKEN = re.compile(r'[A-Za-z_]\w*|\d\w*|"(?:[^"\\]|\\.)*"|\'(?:[^\'\\]|\\.)*\'|\.\.\.|<<=|>>=|->|\+\+|--|<<|>>|[<>=!]=|&&|\|\||[-+*/%&^|]=|\S')

FAULTS = [
    (r"unterminated argument list|macro \"\w+\" (requires|passed) \d+ argument", 7),
    (r"duplicate macro parameter|expected parameter name|expected '[,)]'|expected comma|may not be used as a parameter", 2),
    (r"invalid preprocessing directive|macro names must be identifiers|no macro name given|extra tokens at end of #", 2),
    (r"unterminated #", 3),
    (r"#(elif|else|endif) without #if|#(elif|else) after #else", 4),
    (r'"\w+" redefined', 5),
    (
        r"in #if|in operand of #if|#(el)?if with no expression|missing binary operator|missing expression between|missing '[()]' in expression"
        r"|not valid in preprocessor expressions|has no (left|right) operand|without following ':'|without preceding '\?'",
        8,
    ),
]

# An error of `-pedantic-errors` that is none of C99: what a sum or a product beyond intmax_t is, C99 leaves open, and here it wraps.
NO_FAULT = r"integer overflow in preprocessor expression"

TEXTS = [
    "int main(void) { return 0; }\n",
    "#define N 72\nputchar(N);\n",
    "#define A\nx A y\nA\n",
    "#define A 1\n#define B A\n#define C B + B\nC C\n",
    # C99 6.10.3.4 and 6.10.3.5
    "#define z z[0]\n#define w 0,1\nz w z\n",
    "#define TABSIZE 100\nint table[TABSIZE];\n",
    "#define OBJ (1-1)\n#define OBJ /* white */ (1-1) /* other */\nOBJ\n",
    "#define OBJ (0)\n#define OBJ (1-1)\n",
    "#define a a\na a\n", "#define a b\n#define b a\na b\n", "#define a b\n#define b c\n#define c a\na b c\n", "#define a (a)\n((a))\n",
    "#define a b b\n#define b a c\n#define c b a\na\nb\nc\n", "#define f g\n#define g f + h\n#define h f g\nf g h\n",
    "#define x y\n#define y z\n#define z x y z\nx y z\n",
    "#define a b +\n#define b c -\n#define c a b c\na a\n",
    "#define e\n#define f e e e\nf g f\n", "#define e\ne e\ne\n",
    "#define int long\n#define if while\nint x; if (x) else\n", "#define else endif\n#ifdef q\n1\n#else\n2\n#endif\nelse\n",
    "#define define undef\n#define A 1\nA define\n", "#define ifdef ifndef\n#ifdef A\n1\n#endif\nifdef\n", "#define return break\n#undef return\nreturn\n",
    "#define A 1\n#undef A\nA\n#define A 2\nA\n", "#undef A\n#undef A\nA\n", "#define A 1\n#undef A\n#define A 1 2\nA\n",
    "A\n#define A 1\nA\n", "#define A B\nA\n#define B 2\nA\n#undef B\nA\n",
    "#define A 1\n#define A 1\nA\n", "#define A 1 2\n#define A 1  2\nA\n", "#define A\n#define A\nA;\n", "#define A 1 + 2\n#define A 1 + 3\n",
    "#define A 1\n#define A\n", "#define A\n#define A 1\n", "#define A 1 2\n#define A 1\n", "x\n#define A x\n\n#define A y\nz\n", '#define S "a b"\n#define S "a  b"\n',
    "#define A 'a'\n#define A 'a'\nA\n",
    "#ifdef A\n1\n#endif\n2\n", "#ifndef A\n1\n#endif\n2\n", "#define A\n#ifdef A\n1\n#endif\n2\n", "#define A\n#ifndef A\n1\n#endif\n2\n",
    "#define A\n#undef A\n#ifdef A\n1\n#else\n2\n#endif\n", "#ifdef A\n1\n#else\n2\n#endif\n3\n", "#ifndef A\n1\n#else\n2\n#endif\n3\n",
    "#ifdef A\n#define B 1\n#else\n#define B 2\n#endif\nB\n", "#ifndef A\n#define A\n1\n#endif\n#ifndef A\n2\n#endif\n",
    "#ifdef A\n#ifdef B\n1\n#else\n2\n#endif\n3\n#else\n#ifdef B\n4\n#else\n5\n#endif\n#endif\n6\n",
    "#define A\n#ifdef A\n#ifdef B\n1\n#else\n2\n#endif\n3\n#else\n#ifdef A\n4\n#else\n5\n#endif\n#endif\n6\n",
    "#ifdef A\n#ifndef A\n1\n#endif\n#else\n2\n#endif\n", "#ifdef A\n#foo\n#define\n#undef 1\n#include x\n#define 3\n#else\n1\n#endif\n", "#ifdef A\n#ifdef\n#else\n#endif\n#endif\n1\n",
    "#ifdef A\n#if nothing at all\n#else\n1\n#endif\n2\n#endif\n3\n", "#ifndef A\n#else\n#if 1\n2\n#endif\n#endif\n3\n",
    "#ifdef A\n'a' \"b\" 3 ...\n#endif\n1\n", "#ifdef A\n#\n# \n#endif\n", "#ifdef int\n1\n#else\n2\n#endif\n", "#define int\n#ifdef int\n1\n#else\n2\n#endif\n",
    "#\nx\n # \n", "#/* c */\nx\n", "/* c */ # define A 1\nA\n", " #\tdefine\tA\t1\nA\n", "#define A/* c */1\nA\n", "x # y\n", "x #define A 1\nA\n", "# define A 1 // c\nA\n",
    "#define A 1 /* c\n d */ 2\nA\n", "#define A 1 /* c\n d */\nA\n", "#ifdef A /* c\n\n*/\n1\n#endif\n2\n", "#define A 1 // c \\\n d\nA\n",
    "#define A \\\n 1 \\\n 2\nA\n", "# \\\ndefine A 1\nA\n", "#define \\\nA \\\n\n1\nA\n", "#ifdef \\\n A\n1\n#else \\\n\n2\n#endif\n",
    "#define A (x)\n#define B A\nB A B\n", "#define A ( B )\n#define B [ A ]\nA B\n", "#define P (\n#define Q )\nP Q P P Q Q\n",
    "#define A , ; : ?\nA A\n", "#define A ... -> ++ --\nA\n", '#define S "A" \'A\'\n#define A 1\nS A "A"\n', "#define A #\nA define B 1\nB\n", "#define H #\nH H\n",
    "#define A 1\n\n\n\n\n\n\n\n\n\n\n\n\nA\n\nA A\n",
    "#else\n", "#endif\n", "x\n#endif\ny\n", "#ifdef A\n#endif\n#endif\n", "#ifdef A\n#else\n#else\n#endif\n", "#ifdef A\n#else\n#endif\n#else\n", "#ifdef A\n#ifdef B\n#else\n#else\n#endif\n#endif\n",
    "#ifdef A\n", "#ifndef A\nx\n", "x\n\n#ifdef A\n#else\ny\n", "#ifdef A\n#ifdef B\n#endif\n", "#ifndef A\n#ifndef B\n#ifdef C\n", "#ifdef A\n#endif\n#ifndef B\n#ifdef C\n#endif\n",
    "#foo\n", "x\n#foo bar\ny\n", "#1\n", "#\"a\"\n", "#+\n", "#define\n", "#define 1\n", "#define \"a\"\n", "#define +\n", "#undef\n", "#undef 1\n", "#undef A B\n", "#define A\n#undef A +\n",
    "#ifdef\n#endif\n", "#ifndef\n#endif\n", "#ifdef 1\n#endif\n", "#ifdef A B\n#endif\n", "#ifndef A +\n#endif\n", "#ifdef A\n#else B\n#endif\n", "#ifdef A\n#endif B\n", "#ifndef A\n#else 1\n#endif\n",
    "#ifdef A\n#ifdef B\n#else x\n#endif y\n#endif\n1\n", "#define A 1\n#define A 2\n#foo\n", "#foo\n#define A 1\n#define A 2\n", "#define A 1\n#ifdef A\n#foo\n", "#ifdef A\n#foo\n#endif\n#bar\n",
    "#define a1 0 0\n#define a2 a1 a1\n#define a3 a2 a2\n#define a4 a3 a3\n#define a5 a4 a4\na5\na1 a2\n",
    "#define EMPTY\n#define LIST EMPTY 1 EMPTY , EMPTY 2 EMPTY\nLIST EMPTY LIST\n",
    "#define NULL ((void*)0)\n#define p NULL\nchar *q = p; int x = p == NULL;\n",
    "#define LOOP for (i = 0; i < N; i++)\n#define N 10\nvoid f(void) { int i; LOOP g(i); }\n",
]

# Macros with parameters.
CALLS = [
    "#define SQ(x) ((x)*(x))\nint main(void){return SQ(3+1);}\n", "#define f(x) (x+f)\nint main(void){int f=2;return f(1);}\n",
    "#define SQ(x) x\nint main(void){return SQ(1,2);}\n",
    "#define max(a, b) ((a) > (b) ? (a) : (b))\nmax(max(1,2),max(3,4))\n",
    "#define f(a) a*g\n#define g(a) f(a)\nf(2)(9)\n", "#define f(a) a*g\n#define g(a) f(a)\ng(2)(9)\n", "#define f(x) x f\nf(f)(1)\n", "#define f(x) x\nf(f)(1)\n",
    "#define f() 1\nf() f( ) f () f\n", "#define f() 1\nf(1)\n", "#define e\n#define f() 1\nf(e)\n", "#define f(x) [x]\nf() f( ) f(())\n", "#define f(x,y) [x|y]\nf(,) f(1,) f(,2)\n",
    "#define f(x,y) [x|y]\nf()\n", "#define f(x,y) [x|y]\nf(1)\n", "#define f(x,y) [x|y]\nf(1,2,3)\n", "#define f(x,y) [x|y]\nf((1,2),3) f((,),(,))\n", "#define c ,\n#define f(x) [x]\nf(c) f(1 c 2)\n",
    "#define c ,\n#define f(x) g(x)\n#define g(x,y) [x|y]\nf(1 c 2)\n", "#define c ,\n#define f(x) g(x)\n#define g(x,y) [x|y]\nf(1)\n",
    "#define f(x) [x]\nf(1\n", "#define f(x) [x]\nf((1)\n", "#define f(x) [x]\nx\nf\n", "#define f(x) [x]\nf f f(1) f\n", "#define f(x) [x]\n#define g f\ng(1) g g (2)\n",
    "#define f(x) [x]\n#define g f (\ng 1) g(2))\n", "#define f(x) [x]\n#define g f (\nf(g)\n", "#define f(x) [x]\n#define g f (\ng\n", "#define f(x) [x]\n#define p )\nf(1 p\n", "#define f(x) [x]\n#define p )\nf(1 p )\n",
    "#define f(x) [x]\n#define o (\nf o 1)\n", "#define f(x) [x]\n#define o (\n#define g(x) x\ng(f o 1))\n", "#define f(x) x(1)\n#define g(x) [x]\nf(g) f(f)\n", "#define f(x) x (1)\n#define g(x) [x] f\nf(g)(g)\n",
    "#define f(x) x+x\n#define g(x) f(x)*f(x)\ng(f(1))\n", "#define f(a,b,c) c b a\nf(f(1,2,3),f(4,5,6),f(7,8,9))\n", "#define x 1\n#define f(x) x\nf(2) x f(x)\n", "#define f(int) int+int\nf(1) int\n",
    "#define while(if) if while\nwhile(1) while (2)\n", "#define f (x) y\nf(1)\n", "#define f( x , y ) x-y\nf(1,2)\n", "#define f(x)x\nf(1)\n", "#define f(x)(x)\nf(1)\n", "#define f(x)\nf(1) f(f(1)) 2\n",
    "#define f(x) 1\n#define f(x) 1\nf(2)\n", "#define f(x) 1\n#define f( x )  1\nf(2)\n", "#define f(x) x\n#define f(y) y\n", "#define f(x) 1\n#define f(y) 1\n", "#define f(x) x\n#define f(x,y) x\n", "#define f(x) x\n#define f x\n",
    "#define f x\n#define f(x) x\n", "#define f() 1\n#define f(x) 1\n", "#define f(x) x\n#undef f\n#define f(y) y+y\nf(1)\n", "#define f(x) x\n#undef f\nf(1)\n",
    "#define f(x,x) x\n", "#define f(x,y,x) x\n", "#define f(x\n", "#define f(\n", "#define f(x,) x\n", "#define f(,x) x\n", "#define f(x y) x\n", "#define f(1) x\n", "#define f(x,,y) x\n", "#define f((x)) x\n", "#define f(+) x\n",
    "#ifdef A\n#define f(x,x) #\n#else\n1\n#endif\n", "#define f(x) x\n#ifdef f\n1\n#endif\n", "#define f(x) x\n#ifdef A\nf(\n#endif\n2\n",
    "#define f(x) [x]\n#define g(x) f(x) f\ng(1)(2)\n", "#define f(x) [x] g\n#define g(x) {x} f\nf(1)(2)(3)(4)\n", "#define a a b\n#define f(x) x a\nf(a)\n", "#define a f(a)\n#define f(x) [x]\na\n", "#define a f\n#define f(x) a(x)\na(1) f(1)\n",
    "#define f(x) x\n#define a f(b)\n#define b f(a)\na b f(a) f(b)\n", "#define E(x) x\n#define f(x) E(E)(x)\nf(1)\n", "#define L (\n#define R )\n#define f(x) [x]\n#define g(x) x\ng(f L 1 R)\n",
    "#define NIL(xxx) xxx\n#define G_0(arg) NIL(G_1)(arg)\n#define G_1(arg) NIL(arg)\nG_0(42)\n",
]

# Calls over lines: of these all tokens are told, behind the word of such rows.
OVER_LINES = [
    # C99 6.10.3.5, without its examples of # and ##
    "#define x 3\n#define f(a) f(x * (a))\n#undef x\n#define x 2\n#define g f\n#define z z[0]\n#define h g(~\n#define m(a) a(w)\n#define w 0,1\n#define t(a) a\n"
    "f(y+1) + f(f(z)) % t(t(g)(0) + t)(1);\ng(x+(3,4)-w) | h 5) & m\n(f)^m(m);\n",
    "#define f(x) [x]\nf\n(\n1\n)\n2\n", "#define f(x,y) [x|y]\nf(1,\n2) f(\n\n3\n,4\n)\n", "#define f(x) [x]\nf\n\n\n1 f\n(2)\n", "#define f(x) [x]\n#define g f\ng\n(1)\n", "#define f(x) x\nf(f\n)(1)\nf\n",
    "#define f(x) [x]\nf(a /* c\n */ b) // d\n", "#define f(x) [x]\nf(1) f(\n2) # f(3\n)\n",
]

# Conditions, each of which decides between two words.
CONDITIONS = [
    "0xFFFFFFFF>-1", "0 && 1/0", "1?2:1/0", "-1<0u", "'a'", "1,2", "()", "", "1/0", "0 || 1/0", "1 || 1/0", "1 && 1%0", "0 ? 1/0 : 3", "1 ? 1/0 : 3",
    "2*3==6&&!(-1<0u)", "1 ? -1 : 0u", "(1 ? -1 : 0u) > 0", "(0 ? 0u : -1) > 0", "(1/1 ? 2 : 1/0) == 2", "(0 && 1/0) + 1u > -1", "!1u - 2 < 0", "(1u < 2) - 2 < 0",
    "(1u && 1) - 2 < 0", "(1u || 1) - 2 < 0", "(1u == 1) - 2 < 0", "~0u == -1", "~0 < 0", "~0u < 0", "-1u > 0", "+0u - 1 > 0", "0x8000000000000000 > 0",
    "0x8000000000000000 - 1 > 0", "-0x8000000000000000 > 0", "9223372036854775807 + 1 < 0", "0x7fffffffffffffff * 2 == -2", "18446744073709551615u == -1",
    "-1 >> 63", "(-1 >> 63) == -1", "(-1u >> 63) == 1", "(1 << 63) < 0", "(1u << 63) > 0", "(-1 << 1u) < 0", "(1 << 2u) - 5 < 0", "-7 / 2 == -3", "-7 % 2 == -1",
    "-7 / 2u == -3", "7 % -2 == 1", "-1 / 1u > 0", "'\\0'", "'a' == 97", "'\\x7f' - 128 < 0", "'\\''", "x", "!x", "int", "int == 0 && while == 0", "sizeof",
    "sizeof 1", "(int)1", "sizeof(int)", "defined A", "defined(A)", "defined B", "!defined(B)", "defined int", "defined ( A ) + defined A == 2", "defined A && A == 3", "A", "B",
    "A - 3", "(A)", "C == 5", "C", "D", "E", "E == 0", "S", "defined defined", "1 2", "1 +", "+", ")", "(1", "(1))", "1 ? 2", "1 : 2", "1 ? : 2", "? 1 : 2", "1 = 1", "1 += 1",
    "\"a\"", "1 \"a\"", "1[0]", "f(1)", "1(2)", "*1", "&1", "1 & & 1", "1++", "++1", "- - 1 == 1", "-+-1 == 1", "!!2 == 1", "1 . x", "1->x", "{1}", "1;", "1 ? 0 : 1 ? 2 : 3",
    "(1 ? 0 : 1) ? 2 : 3", "0 ? 1 : 0 ? 2 : 3", "1 || 0 && 0", "1 | 2 == 3", "(1 | 2) == 3", "4 ^ 5 & 6", "1 + 2 << 3 == 24", "1 << 2 + 1 == 8", "3 - 2 - 1", "8 / 4 / 2", "5 & 3 == 3",
    "1 < 2 < 3", "3 > 2 > 1", "3 > 2 == 1", "-1 == 0xffffffffffffffff", "2 & 1 || 2 ^ 3", "01 + 010 + 0x10 == 25", "10l + 10L + 1ll + 1LL == 22", "1ul + 1UL + 1lu + 1ULL == 4",
    "((((((((((1))))))))))", "0 ? x : y ? z : 4", "F(A, 2) == 6", "F(A, A) - C", "F", "F + 1", "defined F", "defined(F) && F(1, 0)", "F(F(1, 2), 3) == 6", "F(1)", "F(1, 2", "F(1, 2, 3)",
    "0 && F(1)", "F(int, 1)",
]

# What stands before each of them.
MACROS = "#define A 3\n#define C A + 2\n#define D C *\n#define E\n#define S sizeof\n#define F(x, y) ((x) * y)\n"

SECTIONS = [
    "#if 1\n1\n#elif 1\n2\n#elif 0\n3\n#else\n4\n#endif\n5\n", "#if 0\n1\n#elif 1\n2\n#elif 1\n3\n#else\n4\n#endif\n5\n",
    "#if 0\n1\n#elif 0\n2\n#elif 7\n3\n#else\n4\n#endif\n5\n", "#if 0\n1\n#elif 0\n2\n#elif 0\n3\n#else\n4\n#endif\n5\n",
    "#if 0\n1\n#elif 0\n2\n#endif\n3\n", "#if 1\n1\n#elif 1/0\n2\n#elif\n3\n#elif (\n4\n#endif\n5\n", "#if 0\n#elif 1\n1\n#elif 1/0\n#else\n2\n#endif\n",
    "#if 0\n1\n#elif 1/0\n2\n#endif\n", "#if 0\n1\n#elif\n2\n#endif\n", "#if 0\n1\n#elif 1 2\n2\n#endif\n", "#if\n#endif\n", "x\n#if 1 +\n#endif\ny\n",
    "#ifdef A\n1\n#elif 1\n2\n#endif\n", "#ifndef A\n1\n#elif 1/0\n2\n#else\n3\n#endif\n", "#ifdef A\n1\n#elif defined A\n2\n#elif !defined A\n3\n#endif\n",
    "#elif 1\n", "x\n#elif\n", "#if 1\n#else\n#elif 1\n#endif\n", "#if 0\n#else\n#elif 1\n#endif\n", "#if 0\n#elif 1\n#else\n#elif 1/0\n#endif\n", "#if 1\n#endif\n#elif 1\n",
    "#if 0\n#if 1\n#else\n#elif 1\n#endif\n#endif\n", "#if 0\n#elif 0\n#else\n#else\n#endif\n", "#if 1\n1\n", "#if 0\n#elif 1\n1\n", "#if 1\n#if 0\n#elif 1\n1\n#endif\n",
    "#if 0\n#if 1/0\n1\n#elif\n2\n#elif )\n3\n#else\n4\n#endif\n5\n#else\n6\n#endif\n7\n", "#if 1\n#if 0\n1\n#elif 1\n2\n#else\n3\n#endif\n4\n#elif 1\n5\n#endif\n6\n",
    "#if 0\n#ifdef A\n1\n#elif 1\n2\n#endif\n3\n#elif 1\n#ifdef A\n4\n#elif 1\n5\n#endif\n6\n#endif\n7\n",
    "#if 1\n#define A 1\n#elif 1\n#define A 2\n#endif\nA\n", "#if 0\n#define A 1\n#elif 1\n#define A 2\n#else\n#define A 3\n#endif\nA\n",
    "#define A 0\n#if A\n1\n#elif A + 1\n2\n#endif\n#undef A\n#if A + 1\n3\n#endif\n", "#define A B\n#define B A\n#if A\n1\n#else\n2\n#endif\n",
    "#define if else\n#if 1\n1\n#endif\nif\n", "#define defined_ 1\n#if defined_\n1\n#endif\n",
    "#if 1 /* c\n */ + 1\n1\n#endif\n", "#if 1 \\\n - 1\n1\n#else\n2\n#endif\n", "# if 1 // c\n1\n# endif\n", "#if 0 // c \\\n 1\n1\n#endif\n2\n", "#if 0\n#elif 1 // c\n1\n#endif\n",
    "#if 1\n#else x\n#endif\n", "#if 0\n#elif 1\n#endif x\n", "#if 1/0\n#else\n#else\n", "#else\n#if 1/0\n", "#if 0\n#foo\n#elif 1\n#foo\n#endif\n", "#if 1\n#if 1\n#if 1\n#if 1\n#if 1\n#if 1\n#if 1\n#if 1\n#if 1\n#if 1\n1\n" + "#endif\n" * 10,
    "#if 1\n#if 1\n#if 1\n#if 1\n#if 1\n#if 1\n#if 1\n#if 1\n#if 1\n#if 0\n1\n" + "#elif 1\n2\n#endif\n" * 10,
]

NAMES = ["a", "b", "c", "d", "e", "f"]
OTHERS = ["1", "2", "+", "-", "(", ")", "x", "y", ";", ",", "int", '"s"', "->", "<<", "'c'"]


def random_list(r, most):
    return " ".join(r.choice(NAMES if r.random() < 0.6 else OTHERS) for _ in range(r.randint(0, most)))


def random_lines(r, depth):
    for _ in range(r.randint(2, 7)):
        kind = r.random()
        name = r.choice(NAMES)
        if kind < 0.45:
            if r.random() < 0.7:
                yield f"#undef {name}"
            yield f"#define {name} {random_list(r, 5)}"
        elif kind < 0.55:
            yield f"#undef {name}"
        elif kind < 0.75 and depth < 3:
            yield r.choice(["#ifdef ", "#ifndef "]) + name
            yield from random_lines(r, depth + 1)
            if r.random() < 0.6:
                yield "#else"
                yield from random_lines(r, depth + 1)
            if r.random() < 0.97:
                yield "#endif"
        elif kind < 0.77:
            yield r.choice(["#else", "#endif", "#foo", "#define", "#undef", "#ifdef a b", "#"])
        else:
            yield random_list(r, 6)


def balanced(r, words, counts, depth):
    """Words, and calls of names with mostly as many arguments as their macros have parameters."""
    parts = []
    for _ in range(r.randint(1, 3)):
        word = r.choice(words)
        parts.append(word)
        if r.random() < (0.8 if counts.get(word) is not None else 0.1) and depth < 3:
            count = counts.get(word) if r.random() < 0.93 else r.randint(0, 2)
            inner = [balanced(r, words, counts, depth + 1) for _ in range(1 if count is None else count)]
            parts.append("(" + " , ".join(inner) + ")")
    return " ".join(parts)


def random_calls(seed=44, count=420):
    """Texts of macros with parameters, all of which their lists name, and of a line that uses them; the same for a seed."""
    r = random.Random(seed)
    for _ in range(count):
        counts = {name: r.choice([None, 0, 1, 1, 2, 2]) for name in ["f", "g", "h", "k", "u", "v"][: r.randint(2, 6)]}
        lines = []
        for name, count in counts.items():
            parameters = ["a", "b"][: count or 0]
            words = list(counts) + ["x", "1"] + parameters * 3
            if r.random() < 0.85:
                body = balanced(r, words, counts, 1)
            else:
                body = " ".join(r.choice(words + ["(", ")", ","]) for _ in range(r.randint(0, 6)))
            body = " ".join([body] + [p for p in parameters if p not in body.split()])
            lines.append(f"#define {name}{'' if count is None else '(' + ','.join(parameters) + ')'} {body}")
        lines.append(balanced(r, list(counts) + ["x", "1"], counts, 0) + " " + balanced(r, list(counts) + ["2"], counts, 0))
        yield "\n".join(lines) + "\n"


def random_texts():
    """Texts of random lines, the same each time."""
    r = random.Random(10)
    for _ in range(240):
        yield "\n".join(list(random_lines(r, 0)) + [" ".join(NAMES)]) + "\n"


CONSTANTS = [
    "0", "1", "2", "3", "7", "8", "0u", "1u", "2u", "10", "0x10", "017", "1ul", "5l", "'a'", "'\\0'", "'\\177'", "0x7fffffffffffffff", "0x8000000000000000",
    "0xffffffffffffffff", "9223372036854775807", "18446744073709551615u", "4294967295", "4294967296u",
]
BETWEEN = ["*", "/", "%", "+", "-", "<", ">", "<=", ">=", "==", "!=", "&", "^", "|", "&&", "||"]


def random_operand(r, depth):
    kind = r.random()
    if depth == 0 or kind < 0.25:
        return [r.choice(CONSTANTS)]
    if kind < 0.35:
        return [r.choice(["A", "B", "C", "while"])]
    if kind < 0.45:
        return r.choice([["defined", "A"], ["defined", "B"], ["defined", "(", "C", ")"], ["defined", "(", "int", ")"]])
    if kind < 0.65:
        return [r.choice(["+", "-", "~", "!"])] + random_operand(r, depth - 1)
    return ["("] + random_condition(r, depth - 1) + [")"]


def random_condition(r, depth):
    """The tokens of a condition. A shift goes by a constant, of less than 64, since C99 leaves other shifts open."""
    kind = r.random()
    if depth == 0 or kind < 0.2:
        return random_operand(r, depth)
    if kind < 0.3:
        return random_operand(r, depth - 1) + ["?"] + random_condition(r, depth - 1) + [":"] + random_condition(r, depth - 1)
    if kind < 0.4:
        return ["("] + random_operand(r, depth - 1) + [r.choice(["<<", ">>"]), r.choice(["0", "1", "8", "31u", "63"]), ")"]
    return random_condition(r, depth - 1) + [r.choice(BETWEEN)] + random_condition(r, depth - 1)


def broken(r, tokens):
    """The tokens with one more, one fewer or another one; none of them behind `defined`, where C99 leaves the answer open."""
    at = r.randrange(len(tokens))
    if "defined" in tokens[max(0, at - 3): at + 1]:
        return tokens
    other = r.choice(["(", ")", "?", ":", "1", "x", "=", "*", "!", '"s"', "++", "["])
    return tokens[:at] + r.choice([[], [other], [tokens[at], other]]) + tokens[at + 1:]


def deciding(condition):
    return f"{MACROS}#if {condition}\n1\n#else\n0\n#endif\n"


def random_conditions(count):
    """Conditions of random tokens, the same each time."""
    r = random.Random(44)
    for _ in range(count):
        tokens = random_condition(r, 4)
        yield deciding(" ".join(broken(r, tokens) if r.random() < 0.2 else tokens))


# How many characters are read of what a compiler prints of a text. The compilers have no limit of tokens, and say of a fault
# behind those that may be what is no fault of the text.
MOST_PRINTED = 1 << 20


def run(command, text):
    with tempfile.NamedTemporaryFile("w", suffix=".c", newline="", delete=False) as f:
        f.write(text)
    try:
        with tempfile.TemporaryFile("w+") as errors:
            with subprocess.Popen(command + OPTIONS + [f.name], stdout=subprocess.PIPE, stderr=errors, text=True) as process:
                output = process.stdout.read(MOST_PRINTED + 1)
                if len(output) > MOST_PRINTED:
                    process.kill()
                    raise ValueError("too many tokens")
            errors.seek(0)
            return subprocess.CompletedProcess(process.args, process.returncode, output, errors.read())
    finally:
        os.unlink(f.name)


def shown(output):
    """The tokens of a preprocessor's output, those of a line behind its number."""
    line, rows = 1, {}
    for row in output.split("\n"):
        marker = re.match(r'# (\d+) "(.*?)"', row)
        if marker:
            line = int(marker[1])
            continue
        tokens = TOKEN.findall(row)
        if tokens:
            rows.setdefault(line, []).extend(tokens)
        line += 1
    return "".join(f"{line}: {' '.join(tokens)}\n" for line, tokens in sorted(rows.items()))


def fault(errors):
    """The first error of gcc."""
    found = []
    for m in re.finditer(r"^[^\n]*?\.c:(\d+):(?:\d+:)? error: ([^\n]*)$", errors, re.M):
        if m[2] == "the conditional began here":
            continue
        if re.search(NO_FAULT, m[2]):
            continue
        kinds = [kind for pattern, kind in FAULTS if re.search(pattern, m[2])]
        if not kinds:
            raise ValueError(m[2])
        found.append((kinds[0] == 3, int(m[1]), kinds[0]))
    if not found:
        return None
    unclosed, line, kind = min(found)
    return f"fault {kind} line {line}\n"


def expected(text):
    gcc = run(["gcc", "-pedantic-errors"], text)
    told = fault(gcc.stderr)
    if told is not None:
        return told
    clang = run(["clang"], text)
    if clang.returncode != 0 or shown(clang.stdout) != shown(gcc.stdout):
        raise ValueError("clang differs")
    return shown(gcc.stdout)


def all_tokens(command, text):
    """The tokens of a preprocessor's output."""
    output = run(command, text)
    if output.returncode != 0:
        raise ValueError(output.stderr)
    return [token for row in output.stdout.split("\n") if not row.startswith("#") for token in TOKEN.findall(row)]


def over_lines(text):
    """All tokens of a text, and the line of its end."""
    gcc = all_tokens(["gcc", "-pedantic-errors"], text)
    if gcc != all_tokens(["clang"], text):
        raise ValueError("clang differs")
    return " ".join(gcc + ["end", str(text.count("\n") + 1)]) + "\n"


def too_many():
    """Twice as many empty macros with each line: too many tokens put in, at the macro's use."""
    lines = ["#define b1"] + [f"#define b{n} b{n - 1} b{n - 1}" for n in range(2, 41)] + ["b40"]
    return "\n".join(lines) + "\n", "fault 6 line 41\n"


# Texts and what they expand to, by C99 6.10 and by the rules that the subset adds: `#if`, `#` and `...` in a macro with
# parameters, an argument that is wrong though nothing names its parameter, other headers and other forms are faults. Behind the tokens stands the line of the end.
ALL = [
    ("#define N 72\nputchar(N);", "putchar ( 72 ) ; end 2"),
    ("#ifdef A\nreturn 2;\n#else\nreturn 3;\n#endif\n", "return 3 ; end 6"),
    ("#ifndef A\na\n#else\nb\n#endif", "a end 5"),
    ("#define A 1\n\n#define A 2\n", "fault 5 line 3"),
    ("#define A 1 +x\n# define  A  1/**/+ x\nA", "1 + x end 3"),
    ("#define A 1\n#undef A\n#define A 2\nA", "2 end 4"),
    ("#undef A\nx", "x end 2"),
    ("x\n#endif", "fault 4 line 2"),
    ("#else", "fault 4 line 1"),
    ("#ifdef A\n#else\n#else\n#endif", "fault 4 line 3"),
    ("x\n#ifdef A\n#ifdef B\n#endif\n#ifdef C\n", "fault 3 line 2"),
    ("#ifdef A\n#endif\n#foo\n#ifdef B", "fault 2 line 3"),
    ("#include <math.h>", "fault 1 line 1"),
    ('\n#include "stdio.h"', "fault 1 line 2"),
    ("#include < stdio.h>", "fault 1 line 1"),
    ("#include <stdio.h> x", "fault 1 line 1"),
    ("#include", "fault 1 line 1"),
    ("#include<stdio.h>\n#include <stdio.h>\nEOF", "( - 1 ) end 3"),
    ("#define EOF 2\n#include <stdio.h>", "fault 5 line 2"),
    ("#include <stdio.h>\n#include <stdlib.h>\n#include <string.h>\n#include <stddef.h>\nNULL", "( ( void * ) 0 ) end 5"),
    ("#include <stdlib.h>\nEXIT_SUCCESS EXIT_FAILURE EOF", "0 1 EOF end 2"),
    ("#foo", "fault 2 line 1"),
    ("#if 1\nx\n#endif", "x end 3"),
    # Commas, which C99 allows in an operand that is not evaluated; a `defined` that C99 leaves open; wide constants; levels; what C99
    # leaves open of operators.
    ("#if 0 && (1,2)\n#endif", "fault 8 line 1"),
    ("#if defined\nx\n#else\ny\n#endif", "y end 5"),
    ("#if defined 1\n#endif", "fault 8 line 1"),
    ("#if defined ()\n#endif", "fault 8 line 1"),
    ("#if defined (A\n#endif", "fault 8 line 1"),
    ("#define D defined\n#define A 1\n#if D A\n#endif", "fault 8 line 3"),
    ("#define D defined\n#if D\nx\n#endif", "end 4"),
    # A character constant is an int of a value from 0 to 255, and so no unsigned one.
    ("#if '\\377' == 255 && '\\377' - 256 < 0\nx\n#endif", "x end 3"),
    ("#define D defined A\n#if 1 || D\n#endif", "fault 8 line 2"),
    # gcc tells the line of the definition here, and refuses a `defined` in an argument.
    ("#define F(x) ((x) * 2)\n#if F(1 +)\n#endif", "fault 8 line 2"),
    ("#define F(x) ((x) * 2)\n#define A\n#if F(defined A) == 2\nx\n#endif", "x end 5"),
    ("#if L'a'\n#endif", "fault 8 line 1"),
    ("#if " + "(" * 200 + "1" + ")" * 200 + "\nx\n#endif", "x end 3"),
    ("#if " + "(" * 201 + "1" + ")" * 201 + "\nx\n#endif", "fault 8 line 1"),
    ("#if 1" + "+1" * 200 + "\nx\n#endif", "x end 3"),
    ("#if 1" + "+1" * 201 + "\nx\n#endif", "fault 8 line 1"),
    ("#if (1 << 64) == 1 && (1 << -1) < 0 && (1u << 65) == 2\nx\n#endif", "x end 3"),
    ("#if (-9223372036854775807-1) / -1 < 0 && (-9223372036854775807-1) % -1 == 0\nx\n#endif", "x end 3"),
    ("#include <limits.h>\n#if LONG_MAX == 9223372036854775807 && LONG_MIN < 0 && ULONG_MAX > 0 && CHAR_MAX == 255\nx\n#endif", "x end 4"),
    ("#ifdef A\n#if ) x\n#endif\n#endif", "end 4"),
    ("#define f(x) x", "end 1"),
    ("#define f(x) #x", "fault 2 line 1"),
    ("#define f(x) x##x", "fault 2 line 1"),
    ("#define f(...) 1", "fault 2 line 1"),
    ("#define f(x, ...) x", "fault 2 line 1"),
    ("#define f(x) (...)", "fault 2 line 1"),
    ("#define f(x) g\n#define g(x,y) 1\nf(\ng(1))", "fault 7 line 3"),
    ("#define f(x) x\nx\nf(1\n#undef f\n)", "fault 7 line 3"),
    ("#define f(x) x\nf\n#undef f\n(1)", "f ( 1 ) end 4"),
    ("#define f(x) x\nf(1,\nf(2", "fault 7 line 2"),
    ("#define f(x) x\n1\n2 f(\nf(3,4)\n)", "fault 7 line 3"),
    ("#define f (x) y\nf", "( x ) y end 2"),
    ("#define int long\nint", "long end 2"),
    ("#define 1", "fault 2 line 1"),
    ("#ifdef A b\n#endif", "fault 2 line 1"),
    ("# \nx # y", "x # y end 2"),
    ("#define a a b\na", "a b end 2"),
    ("#define a b c\n#define b a d\na b", "a d c b c d end 3"),
    ("#define A 1 /* x\n y */ + 2\nA", "1 + 2 end 3"),
    ("#define A \\\n 1\nA", "1 end 3"),
    ("#ifdef A\n#foo\n#include <x>\n#if 1\n#else x\n#endif y\n#elif z\n#endif\nw", "w end 9"),
    ("#ifdef A\n#else x\n#endif", "fault 2 line 2"),
    ("#define A\n#ifdef A\n#else\n#ifdef B\n#else\nx\n#endif\n#endif y", "fault 2 line 8"),
    # gcc prints more than 47 million tokens before its first error
    (
        "#define f(a) f (g (a h , a a) u (a f)) 1 a\n#define g(a,b) k (x u (b)) a b\n#define h() h () x 1\n"
        "#define k(a) a a g (1 , k (1 a a) a (a u) u (h h))\n#define u(a) f (u a f (x a)) a a\n"
        "1 x 2 k (h () u (f (2) u (u))) k (f (u (g) 2 2) f (h ()) g (h () h () h () , u (h f) g (u 2 2 , 2 g h) 2))",
        "fault 6 line 6",
    ),
    ("", "end 1"),
    # Values of C99 5.2.4.2.1 for an int of 4 bytes, a long and a long long of 8, and an unsigned char.
    (
        "#include <limits.h>\nCHAR_BIT SCHAR_MIN SCHAR_MAX UCHAR_MAX CHAR_MIN CHAR_MAX SHRT_MIN SHRT_MAX USHRT_MAX INT_MIN INT_MAX "
        "UINT_MAX LONG_MIN LONG_MAX ULONG_MAX LLONG_MIN LLONG_MAX ULLONG_MAX",
        "8 ( - 128 ) 127 255 0 255 ( - 32767 - 1 ) 32767 65535 ( - 2147483647 - 1 ) 2147483647 4294967295U "
        "( - 9223372036854775807L - 1 ) 9223372036854775807L 18446744073709551615UL ( - 9223372036854775807LL - 1 ) "
        "9223372036854775807LL 18446744073709551615ULL end 2",
    ),
]

# Behind definitions of a name with each number up to the first, each of which stands for the one before it twice, and a1 for these
# two words, a text, and what is told of its tokens. a20 stands for 1048576 tokens, the most to which a text may expand. With an empty
# list at the bottom, a23 puts in 2 + 4 + .. + 2^23 = 16777214 tokens. With a1 they are 16777216, the most that may be put in, and none
# of them is left.
EMPTY = "#define z\n#define s z\na23 a1 x"
DOUBLED = [
    (20, "0 0", "a20", "1048576 tokens of 1048576 bytes, last 0, end 21"),
    (20, "0 0", "a20 0", "fault 6 line 21"),
    (23, "z z", EMPTY, "1 tokens of 1 bytes, last x, end 26"),
    (23, "z z", EMPTY + " s", "fault 6 line 26"),
]


def written():
    """The rows whose answers are written here, each with the line that it must print."""
    for text, line in ALL:
        yield f"%all\n{text}", line + "\n"
    for last, words, text, line in DOUBLED:
        yield f"%doubled {last}\n{words}\n{text}", line + "\n"


def main():
    if sys.argv[1:] != ["make"]:
        sys.exit(__doc__)
    here = os.path.dirname(os.path.abspath(__file__))
    rows = []
    conditions = [deciding(condition) for condition in CONDITIONS] + SECTIONS + list(random_conditions(300))
    for text in dict.fromkeys(TEXTS + list(random_texts()) + CALLS + list(random_calls()) + conditions):
        try:
            rows.append((text, expected(text)))
        except ValueError as error:
            print("left out:", error, repr(text), file=sys.stderr)
    rows += [("%all\n\n" + text, over_lines("\n" + text)) for text in OVER_LINES]
    rows.append(too_many())
    assert not any(text.startswith("%") and not text.startswith("%all\n") for text, _ in rows)
    others = list(written())
    rows += others
    assert all("%%" not in text for text, _ in rows)
    with open(os.path.join(here, "stdin"), "w", newline="") as f:
        f.write(END.join(text for text, _ in rows))
    with open(os.path.join(here, "stdout"), "w", newline="") as f:
        f.write("".join(want + END for _, want in rows))
    print(len(rows), "texts,", sum(want.startswith("fault") for _, want in rows), "of them faults,", len(others), "written")


if __name__ == "__main__":
    sys.exit(main())
