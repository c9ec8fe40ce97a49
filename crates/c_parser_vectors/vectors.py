#!/usr/bin/env python3
"""Makes stdin and stdout of this program by Debian's gcc and clang, by hand, and by nothing of this repository.

A text is accepted where `gcc -std=c99 -pedantic-errors -fsyntax-only` accepts it and clang with the same options does so too.
It is refused where the first error of each is one of the grammar, whose messages are those of SYNTACTIC, and not one of types or
of names that are not declared. Other texts are left out, and named on the error output.

Behind these rows come those of DIFFERENCES, of which the compilers say something else, or the same for another reason than the
grammar. Their verdicts are written there, each with its reason. Last come those of `written.py`, of levels, faults and trees,
whose answers are written there.

usage: python3 crates/c_parser_vectors/vectors.py make
"""

import itertools
import os
import random
import re
import subprocess
import sys
import tempfile

from written import written

END = "%%\n"
OPTIONS = ["-std=c99", "-pedantic-errors", "-fsyntax-only"]
TOKEN = re.compile(r'[A-Za-z_]\w*|\d\w*|"(?:[^"\\]|\\.)*"|\'(?:[^\'\\]|\\.)*\'|\.\.\.|<<=|>>=|->|\+\+|--|<<|>>|[<>=!]=|&&|\|\||[-+*/%&^|]=|\S')

# What the compilers say of a text that the grammar of C99 does not give.
SYNTACTIC = [
    # Another token was expected there.
    r"^expected ", r"expected expression$", r"^(unexpected|extraneous) ", r"^invalid '.*' at end of declaration", r"^missing ',' between enumerators$",
    r"^'else' without a previous 'if'$", r"^expression cannot be followed by a postfix ", r"^label at end of compound statement",
    r"^a label can only be part of a statement and a declaration is not a statement$",
    # Words of no type, or of two, or none (6.7.2).
    r"^two or more data types in declaration specifiers$", r"^both '.*' and '.*' in declaration specifiers$", r"^duplicate '", r"^cannot combine with previous '",
    r"^'.*' is (too long for GCC|invalid)$", r"^'.*' cannot be signed or unsigned$", r"^unknown type name '", r"^type name requires a specifier or qualifier$",
    r"type defaults to 'int'", r"^type specifier missing, defaults to 'int'$", r"^data definition has no type or storage class$",
    # No tag and no braces, a type name with a name, a default of a parameter, a parameter's name that is missing (6.7.2.1, 6.7.6, 6.7.5.3, 6.9.1).
    r"^declaration of anonymous (struct|union) must be a definition$", r"^type-id cannot have a name$", r"^C does not support default arguments$",
    r"omitting (parameter names|the parameter name) in (a )?function definitions?",
    # Nothing in braces (6.7.2.1, 6.7.2.2, 6.7.8).
    r"^(struct|union) has no members$", r"^empty (struct|union) is a GNU extension$", r"^empty enum is invalid$", r"^use of empty enum$",
    r"^ISO C forbids empty initializer braces$", r"^use of GNU empty initializer extension$",
    # Forms that the compilers add to the grammar.
    r"^ISO C forbids omitting the middle term of a '\?:' expression$", r"^use of GNU \?: conditional expression extension, omitting middle operand$",
    r"^ISO C forbids braced-groups within expressions$", r"^use of GNU statement expression extension$", r"^no semicolon at end of struct or union$",
    r"^extra (semicolon in struct or union specified|';' inside a (struct|union))$",
    r"^obsolete use of designated initializer without '='$", r"^use of GNU 'missing =' extension in designator$",
    r"^ISO C forbids (forward parameter declarations|nested functions)$", r"^(extra|ISO C does not allow extra) ';' outside of a function$",
    # A file without declarations (6.9).
    r"^ISO C forbids an empty translation unit$", r"^ISO C requires a translation unit to contain at least one declaration$",
]


def lines(*texts):
    """Texts of these lines."""
    return [text + "\n" for text in texts]


def in_function(*expressions):
    """Texts with an expression statement each, in which the names below stand for something."""
    before = "struct s { int x; struct s *n; } s, *q; int a, b, c, d, *p, v[3], w[3][3], h(), g(int, int), (*k)(int);\n"
    return [before + "void f(void) { " + expression + "; }\n" for expression in expressions]


def in_block(*statements):
    """Texts with a function whose block has these statements."""
    return ["int a, b, c;\nint f(int x) { " + statement + " return 0; }\n" for statement in statements]


def after_typedef(*texts):
    """Texts behind a typedef of T."""
    return ["typedef int T;\n" + text + "\n" for text in texts]


def orders(*lists):
    """Declarations with these words of a type in each order."""
    return lines(*(" ".join(words) + " x;" for names in lists for words in dict.fromkeys(itertools.permutations(names.split()))))


# C99 6.5: each form, and neighbouring precedences.
EXPRESSIONS = in_function(
    "a", "0", "0x1F", "017", "10UL", "'c'", '"abc"', '"a" "b" "c"', "(a)", "((a))", "(a, b)", "v[0]", "0[v]", "v[a, b]", "v[a = 1]", "w[1][2]",
    '"abc"[1]', "h()", "g(a, b)", "g(a = 1, (b, c))", "g(g(a, b), a ? b : c)", "(*k)(a)", "k(a)", "(h)()", "s.x", "q->x", "q->n->x", "q->n[0].x",
    "(*q).x", "(&s)->n->n", "s.n->x++", "a++", "a--", "p++[0]", "v[0]++", "*p++", "(*p)++", "++*p", "--p[0]", "++a", "--a", "&a", "&v[1]", "&s.x",
    "*&a", "&*p", "**&p", "+a", "-a", "~a", "!a", "- -a", "- --a", "-~!+a", "!!a", "-a++", "a - -b", "a + +b", "a+++b", "a---b", "a & &b == p",
    "a && *p", "a * *p", "a - -1", "a * b / c % d", "a + b - c", "a * b + c * d", "a + b * c", "-a * b", "a * -b", "a << b >> c", "a + b << c - d",
    "a << b + c", "a < b > c", "a <= b >= c", "a << b < c >> d", "a < b << c", "a == b != c", "a < b == c > d", "a == b < c", "a & b & c",
    "a == b & c != d", "a & b == c", "a ^ b ^ c", "a & b ^ c & d", "a ^ b & c", "a | b | c", "a ^ b | c ^ d", "a | b ^ c", "a && b && c",
    "a | b && c | d", "a && b | c", "a || b || c", "a && b || c && d", "a || b && c", "a ? b : c", "a || b ? c || d : a || b", "a ? b : c ? d : a",
    "a ? b ? c : d : a", "a ? b, c : d", "a ? b = c : d", "a ? a = b, c = d : d", "(a ? b : c) ? a : b", "a = b", "a = b = c", "a = b ? c : d",
    "a = b || c", "a = (b, c)", "*p = a", "v[0] = a", "s.x = a", "q->x = a", "(a) = b", "*p++ = *p", "a *= b", "a /= b", "a %= b", "a += b", "a -= b",
    "a <<= b", "a >>= b", "a &= b", "a ^= b", "a |= b", "a += b -= c", "a = b += c", "a, b", "a, b, c", "a = b, c = d", "a ? b : c, d",
)

# C99 6.5.3.4, 6.5.4: casts, `sizeof` and expressions in parentheses.
CASTS = in_function(
    "(int)a",
    "(char)(short)a", "(int)-a", "(a)-b", "(int)*p", "(a)*b", "(int *)&a", "(a)&b", "(int)(a)", "(int)a + b", "(int)a++", "-(int)a", "!(char)a",
    "*(int *)p", "&*(int *)p", "(long)(int)~a", "(void)a", "(int)sizeof a", "sizeof a", "sizeof(a)", "sizeof (v)[0]", "sizeof -a", "sizeof a++",
    "sizeof ++a", "sizeof *p", "sizeof &a", "sizeof(int)", "sizeof(int *)", "sizeof(int) * a", "sizeof(int)-a", "sizeof(int)+a", "sizeof(int)&a",
    "sizeof(a)*b", "sizeof a * b", "sizeof sizeof a", "sizeof sizeof(int)", "-sizeof(int)", "sizeof(int) ? a : b", "sizeof (int)", "sizeof((int)a)",
    "sizeof(char)*a",
)

# C99 6.5: no expressions.
NO_EXPRESSIONS = in_function(
    "a +", "+", "/ a", "a b", "1 2", "a 1", "()", "(a", "a)", "((a)", "(a))", "a,", ", a", "a,, b", "g(, a)", "g(a,)", "g(a b)", "g(a", "v[]", "v[a",
    "v a]", "[a]", "s.", "s.(x)", "s.*p", "s..x", "q->", "q->(x)", "q->->x", ". x", "++", "a ++ b", "a ! b", "a ~ b", "a ?", "a ? b", "a ? b :",
    "a ? : b", "a ? b : : c", "a ? b : c : d", "a ? , : b", "a ?? b : c", "? a : b", "= a", "a =", "a += = b", "a == = b", "a < > b", "a && || b", "a || ",
    "a * / b", "a << < b", "a & | b", "a % % b", "a ^ ^ b", "{ a }, b", "({ a; })", "a = { 1 }", "sizeof", "sizeof()", "sizeof int", "sizeof(int)(a)",
    "sizeof(int)a", "sizeof(int)++", "sizeof(int)[0]", "sizeof(int", "(int)", "(int) / a", "(int b)a", "(int)(a", "(int)(int)", "(int()a",
    "(int, int)a", "(int;)a", "(*)a", "(int *p)a", "a int", "a = int", "if", "a else", '"a" b', 'a "b"', "'a' 'b'", "s.x.", "-", "a -", "!",
)

TYPES = ["void", "char", "short", "int", "long", "signed", "unsigned", "struct s { int y; }", "union u { int y; }", "enum e { A }"]

# C99 6.7.2: the words of each type in each order, all pairs of words, storage classes, `inline` and `const` between them.
WORDS = orders(
    "char", "signed char", "unsigned char", "short", "signed short", "short int", "signed short int", "unsigned short", "unsigned short int", "int",
    "signed", "signed int", "unsigned", "unsigned int", "long", "signed long", "long int", "signed long int", "unsigned long", "unsigned long int",
    "long long", "signed long long", "long long int", "signed long long int", "unsigned long long", "unsigned long long int",
) + lines(*(a + " " + b + " x;" for a in TYPES for b in TYPES))

TYPE_WORDS = lines(
    "int x;", "const int x;", "int const x;", "const int const x;", "long const unsigned x;", "unsigned static int x;", "int static x;",
    "static const int x;", "const static unsigned long x;", "int extern long x;", "const long extern long x;", "struct s { int y; } const x;",
    "enum e { A } static x;", "unsigned const long static int x;", "long long long x;", "long long long int x;", "short short int x;",
    "short int short x;", "unsigned char signed x;", "void unsigned long x;", "long unsigned char x;", "signed long short x;", "struct s int x;",
    "int struct s x;", "struct s { int y; } int x;", "unsigned struct s x;", "enum e { A } int x;", "struct s struct t x;", "static x;", "const x;",
    "extern const x;",
) + lines(
    "typedef int T; T const x;", "typedef int T; const T x, y;", "int typedef T; T x;", "unsigned typedef long T; T x;",
    "typedef const int T; T static x;", "int inline f(void) { return 0; }", "static inline int f(void) { return 0; }", "inline static int f(void);",
    "const int *f(void);", "void f(register int x);", "void f(int register x) { }", "void f(const char *);", "void f(char const *const x) { }",
)

NO_TYPE_WORDS = after_typedef(
    "T int x;", "T unsigned x;", "struct s { int x; } T x;", "T struct s { int x; } x;", "const T long x;",
) + lines(
    "x;", "x = 1;", "*x;", "f() { }", "const x = 1;", "static f(void);", "typedef x;", "int f(const);", "int f(int, x y);", "struct s { x y; };",
    "U x;", "U *x;",
)

# C99 6.7.5, and abstract declarators (6.7.6) as parameters, in casts and in `sizeof`.
DECLARATORS = lines(
    "int x;", "int x, y;", "int x = 1, y, z = 2;", "int *x;", "int *x, y, **z;", "int (x);", "int ((x));", "int *(*x);", "int (*x);", "int x[3];",
    "int x[2][3];", "int x[] = { 1, 2 };", "extern int x[];", "int x[1 + 2];", "int x[1 ? 2 : 3];", "int *x[3];", "int (*x)[3];", "int (*x[2])[3];",
    "int *(*x[2])[3];", "int (*x)[];", "int (x)[3];", "int (x[3]);", "int f();", "int f(void);", "int f(int);", "int f(int x);",
    "int f(int, char *);", "int f(int x, char *y);", "int f(int, char *y);", "int *f(void);", "int (*f)(void);", "int (*f)(int, int);",
    "int (*f[3])(void);", "int (**f)(void);", "int *(*f)(void);", "int (*f(void))(void);", "int (*f(int x))(int);", "int (*(*f)(void))(void);",
    "int (*f(void))[3];", "int (*(*f[2])(void))[3];", "int (*(*f(int))(int))(int);", "int (f)(void);", "int (f(void));", "int (*(f))(void);",
    "int *const x = 0;", "int *const *x;", "int **const x = 0;", "const int *const *const x = 0;", "int *const const x = 0;", "int *const f(void);",
    "int (*const f)(void) = 0;", "int *const x[3];", "int x, *y, z[3], f(void), (*g)(int);", "int f(int x[]);", "int f(int x[3]);", "int f(int [3]);",
    "int f(int []);", "int f(int [][3]);", "int f(int *);", "int f(int *const);", "int f(int *[]);", "int f(int (*)[3]);", "int f(int (*)(void));",
    "int f(int (*x)(int));", "int f(int (void));", "int f(int ());", "int f(int (x));", "int f(int (x)[3]);", "int f(int (*(*)(void))(int));",
    "int f(int ([3]));", "int f(int ((*)));", "int f(int ((x)));", "int f(int (()));", "int f(int ((int)));", "int f(int (*)(int (*)(int)));",
    "int f(int (int, int));", "int f(int x(void));", "int f(const int);", "int f(unsigned, long long);", "void f(void *);",
    "void (*f(int, void (*)(int)))(int);", "struct s; int f(struct s *);", "enum e { A }; int f(enum e);",
) + after_typedef(
    "int f(int (T));", "int f(int (T), int);", "int f(T);", "int f(T x);", "int f(T (*)(T));", "int f(int (T x));", "int f(int ((T)));",
    "int f(const T);", "int f(T *T2);", "int f(T[3]);", "int f(int (*)(T));", "int f(int (T[3]));", "int f(T ());",
) + lines(
    "int x = (int)0;", "int *x = (int *)0;", "int (*x)[3] = (int (*)[3])0;", "int (*x)(void) = (int (*)(void))0;",
    "int (*(*x)(void))(int) = (int (*(*)(void))(int))0;", "int (*(*x)[2])(int) = (int (*(*)[2])(int))0;", "int *(*x)[3] = (int *(*)[3])0;",
    "char *x = (char *const)0;", "const char *x = (const char *)0;", "int (*x)() = (int (*)())0;", "unsigned long x = sizeof(int[3]);",
    "unsigned long x = sizeof(int[2][3]);", "unsigned long x = sizeof(int *[3]);", "unsigned long x = sizeof(int (*)[3]);",
    "unsigned long x = sizeof(int (*)(void));", "unsigned long x = sizeof(int (*(*)(void))(int));", "unsigned long x = sizeof(int (*[3])(void));",
    "unsigned long x = sizeof(int ([3]));", "unsigned long x = sizeof(int (*));", "unsigned long x = sizeof(unsigned long long);",
    "unsigned long x = sizeof(struct s { int x; });", "unsigned long x = sizeof(const char *const);",
)

NO_DECLARATORS = lines(
    "int x", "int x,;", "int , x;", "int x y;", "int *;", "int (;", "int ();", "int (x;", "int x);", "int ((x);", "int [3];", "int x[;", "int x];",
    "int x[1, 2];", "int x[3;", "int x[int];", "int x[3]y;", "int const x[3] const;", "int x*;", "int (*)[3];", "int (*)(void);", "int *const;",
    "int f(;", "int f);", "int f(int;", "int f(,);", "int f(int,);", "int f(, int);", "int f(int int2 x);", "int f(int x y);", "int f(int x; int y);",
    "int f(int x = 1);", "int f(x*);", "int f(1);", "int f(int 1);", "int f(void void);", "int f(int (x);", "int f(int x));", "int f(*);",
    "int f(int *(*);", "int f((int));", "int f((x));", "int ()x;", "int (3);", "int *3;", "int 3;", 'int "x";', "int &x;",
    "int x: ;", "int x.y;", "int x->y;", "int x =;", "int x = , y;", "int x = 1 2;", "int x == 1;", "int x += 1;", "int x = int;",
    "unsigned long x = sizeof(int [3);", "unsigned long x = sizeof(int x);", "unsigned long x = sizeof(int (x)[3]);", "int x = (int (*)0;",
    "int x = (int ()0;", "int x = (int *x)0;", "int x = (*int)0;", "int x = ((int))0;", "unsigned long x = sizeof(*int);",
    "unsigned long x = sizeof((int));", "unsigned long x = sizeof(int int);", "unsigned long x = sizeof(int,);",
    "unsigned long x = sizeof(typedef int);", "int x = (typedef int)1;", "int x = (int[3)0;",
) + after_typedef(
    "int f(int x T);", "int f(T 1);", "T 3;", "T x y;", "int x[T];", "int x = T;", "int x = (T)T;", "int x = 1 + T;", "int x = T + 1;",
    "int x = sizeof T;", "int x = (T);", "int x = (T;", "int f(T;",
)

# C99 6.7.2.1, 6.7.2.2.
TAGS = lines(
    "struct s;", "union u;", "struct s { int x; };", "union u { int x; char y; };", "struct s { int x, *y, z[3]; } s;", "struct { int x; } s;",
    "union { int x; } u, *p;", "struct s { int x; int y; char z; } s, *p;", "struct s { struct s *n; };", "struct s { struct t { int x; } t; };",
    "struct s { struct { int x; } t; union { int y; } u; } s;", "struct s { int (*f)(int); int (*p)[3]; };",
    "struct s { const int x; int const *y; int *const z; };", "struct s { unsigned long int x; long unsigned y; };", "struct s { enum { A, B } x; };",
    "struct s { int (x); int *(y); };", "struct s { struct t *x; union u *y; enum e { A } z; };", "extern struct s x;", "struct s *p;",
    "struct s { int x; } f(void);", "struct s; struct s { int x; } x; struct s y;", "enum e { A };", "enum e { A, B, C };", "enum { A };",
    "enum e { A, B, };", "enum e { A = 1, B, C = 3, };", "enum e { A = 1 ? 2 : 3, B = A + 1 };", "enum e { A } x, y = A;", "enum e { A }; enum e x;",
    "enum e { A = sizeof(int) };", "enum e { A = -1 };", "struct s { int s; } s;", "struct a { int a; }; struct b { int a; }; int a;",
    "int s; struct s { int x; };", "const struct s { int x; } s = { 1 };", "static struct s { int x; } s;",
)

NO_TAGS = lines(
    "struct s { };", "struct { } x;", "union u { };", "union { } x;", "enum e { };", "enum { } x;", "struct;", "struct *p;", "struct 1;",
    "struct { int x; }", "struct s { int x };", "struct s { int x; int y };", "struct s { int x, };", "struct s { x };", "struct s { int x;",
    "struct s int x; };", "struct s { int x = 1; };", "struct s { int *; };", "struct s { int (*)(void); };", "struct s { return; };",
    "struct s { int x y; };", "struct s { { int x; } };", "struct s { int x;; };", "struct s { ; int x; };", "union u { int x; ; };", "struct (s) x;",
    "struct s [3];", "struct s s { int x; };", "struct s { int x; } { int y; };", "enum;", "enum *p;", "enum e { , };", "enum e { , A };",
    "enum e { A,, B };", "enum e { A B };", "enum e { A; };", "enum e { A = };", "enum e { A == 1 };", "enum e { 1 };", "enum e { int A };",
    "enum e { A = 1 2 };", "enum e { A", "enum e { A }; enum e B };", "enum e { A = 1, = 2 };", "enum e { *A };", "enum e { A[3] };",
    'enum e { "A" };', "struct if { int x; };", "enum int { A };", "union while *p;", "struct s { int if; };",
)

# C99 6.7.7: T is a typedef name from the end of its declarator on; a tag may have its name.
TYPEDEFS = lines(
    "typedef int T;", "typedef int T, *U; T x; U y;", "typedef int T[3]; T x;", "typedef int T(void); T f;", "typedef int (*T)(void); T f;",
    "typedef struct s { int x; } T; T x; struct s y;", "typedef struct { int x; } T, *U; T x; U y;", "typedef struct s T; struct s { T *n; };",
    "typedef enum { A, B } T; T x = A;", "typedef int T; typedef T U; typedef U *V; V x;", "typedef int T, U[sizeof(T)]; U x;",
    "typedef int (T); T x;", "typedef int *(*T(int))[3]; T f;", "typedef unsigned long int T; T x = 1;",
) + after_typedef(
    "T x;", "T *x;", "T x, *y, z[3];", "struct T { int x; };", "struct T { T x; }; struct T x;", "struct s { T x; T *y; };",
    "struct s { int x; } s = { .x = 1 }; struct T { int x; } t;", "union T { int x; } x; enum U { A };", "enum T { A }; enum T x;",
    "struct T *p; T x;", "int f(void) { return sizeof(T); }", "int f(int x) { return sizeof(T) * x; }", "int f(int *p) { return sizeof(T)*p[0]; }",
    "int f(int x) { return (T)-x; }", "int f(int x) { return (T)+x; }", "int f(int *x) { return (T)*x; }", "T *f(int x) { return (T *)&x; }",
    "int f(int x) { return (T)(x); }", "int f(int x) { return (T)(T)x; }", "int f(int x) { return (T)~x + (T)!x; }", "void f(void) { T x; }",
    "void f(void) { T *x; }", "void f(void) { T * x; x = 0; }", "void f(void) { T (x); }", "void f(void) { T (*x)[3]; }",
    "void f(void) { T x = 1, *y = &x; }", "void f(void) { const T x = 0; T const y = 0; }", "void f(void) { for (T x = 0; x < 3; x++) ; }",
    "T f(T x) { return x; }", "T (*f(T x))(T) { return 0; }", "T x = sizeof(T);", "T x[sizeof(T)];", "void f(T *p) { p[0] = (T)1; }", "int x = (T)1;",
    "int f(void) { T (f2)(T); return 0; }", "extern T x; T x = 1; static T y;",
) + lines(
    "int a; int x;\nvoid f(void) { a*x; }", "int a; int x;\nvoid f(void) { a * x; (a) * x; }", "int a(int); int x;\nvoid f(void) { a(x); }",
    "int x = sizeof x;", "int *p = (void *)&p;", "struct s { struct s *p; } x = { &x };",
)

NO_TYPEDEFS = lines(
    "typedef int T", "T x;", "T *x;", "T x; typedef int T;", "typedef T int;", "typedef int T; T x y;", "typedef T U;", "typedef (int) T;",
    "typedef int *;x",  "int f(T x);", "struct s { T x; };", "typedef int T, T2 U;", "typedef int 1;",
) + after_typedef(
    "int f(void) { return T; }", "int f(void) { return T + 1; }", "int f(void) { return 1 + T; }", "int f(void) { return -T; }",
    "int f(void) { return (T); }", "int f(int x) { return (T)x y; }", "int f(int x) { return (T)/x; }", "int f(int x) { return (T x); }",
    "int f(int x) { return sizeof(T)(x); }", "int f(int x) { return sizeof(T)x; }", "int f(int x) { return sizeof T; }",
    "int f(int x) { return sizeof(T; }", "void f(void) { T * ; }", "void f(void) { T + 1; }", "void f(void) { T = 1; }", "void f(void) { T++; }",
    "void f(void) { T.x; }", "void f(void) { T->x; }", "void f(void) { 1, T; }", "void f(int x) { x = T; }", "void f(int x) { x(T); }",
    "void f(int x) { if (T) ; }", "void f(int x) { while (T x) ; }", "void f(int x) { switch (T) { } }", "void f(int x) { if (x) T y; }",
    "void f(int x) { while (x) T y; }", "void f(int x) { for (; T y; ) ; }", "void f(int x) { do T y; while (x); }",
    "void f(int x) { switch (x) { case T: ; } }", "int x = { T };", "int x[T];", "enum e { A = T };", "enum e { A, B = 1 + T };",
    "struct s { int x; } s = { T };", "int x[3] = { [T] = 1 };", "T x = T;", "T T2 T3;",
)

# C99 6.7.8.
INITIALIZERS = lines(
    "int x = 1;", "int x = { 1 };", "int x = { 1, };", "int x[3] = { 1, 2, 3 };", "int x[3] = { 1, 2, };", "int x[2][2] = { { 1, 2 }, { 3, 4 } };",
    "int x[2][2] = { { 1, 2, }, { 3 }, };", "int x[] = { [2] = 1 };", "int x[] = { [0] = 1, 2, [4] = 5, };",
    "int x[4] = { [1 + 1] = 1, [1 ? 0 : 1] = 2 };", "int x[2][2] = { [1][0] = 1 };", "int x[2][2] = { [1] = { [0] = 1 } };",
    "struct s { int x, y; } s = { 1, 2 };", "struct s { int x, y; } s = { .y = 1, .x = 2 };", "struct s { struct { int x; } t; } s = { .t.x = 1 };",
    "struct s { struct { int x; } t[2]; } s = { .t[1].x = 1 };", "struct s { int x; } s[2] = { [1].x = 1 };",
    "struct s { int x; } s[2] = { [1] = { .x = 1 } };", "struct s { int x[2]; } s = { .x = { 1, 2 } };", "struct s { int x[2]; } s = { .x[1] = 1 };",
    "union u { int x; char y; } u = { .y = 1 };", 'char x[] = "abc";', 'char x[] = { "abc" };', 'char *x[] = { "a", "b" "c", };',
    "int x = 1 + 2 * 3;", "int x = 1 ? 2 : 3;", "int x = 1, *y = &x, z[] = { 1 };", "void f(int a) { int x = a = 1; }",
    "void f(int a) { int x = a, y = x; }", "void f(int a) { int x = (a, 1); }", "void f(int a) { int x[2] = { a = 1, a }; }",
    "struct s { int x; } s = { .x = 1, };", "int (*f)(void) = 0, x = 1;", "void f(void) { static int x = 1; const int y = 2; }",
)

NO_INITIALIZERS = lines(
    "int x = { };", "int x[3] = { };", "int x[2][2] = { { }, { 1 } };", "struct s { int x; } s = { };", "int x[3] = { , };", "int x[3] = { , 1 };",
    "int x[3] = { 1,, 2 };", "int x[3] = { 1 2 };", "int x[3] = { 1;", "int x = 1 };", "int x[3] = { 1, 2, ;", "int x[3] = { 1; 2 };",
    "int x = 1, = 2;", "int x = ;", "int x 1;", "int x[3] = { [1] };", "int x[3] = { [] = 1 };", "int x[3] = { [1 2] = 1 };",
    "int x[3] = { [1, 2] = 1 };", "int x[3] = { [1] == 1 };", "int x[3] = { 1] = 1 };", "int x[3] = { = 1 };", "int x[3] = { [1] = };",
    "int x[3] = { [0] = , 1 };", "int x[3] = { [1] += 1 };", "struct s { int x; } s = { .x };", "struct s { int x; } s = { . = 1 };",
    "struct s { int x; } s = { .[0] = 1 };", "struct s { int x; } s = { .x. = 1 };", "struct s { int x; } s = { .(x) = 1 };",
    "struct s { int x; } s = { ->x = 1 };", "struct s { int x; } s = { .x = };", "struct s { int x; } s = { .x + 1 };",
    "struct s { int x; } s = { .if = 1 };", "int x = { { 1 };", "int x = { 1 } };", "int x = { 1 } + 1;",
)

# C99 6.8.
STATEMENTS = in_block(
    ";", "{}", "{ }", "{ ; }", "{ {} }", "{ { ; } {} } ;", "; ; ;", "a;", "a = 1; b = 2;", "{ a; } { b; }", "int y; y = 1;",
    "int y = 1; int z; z = y;", "a = 1; int y = a; y = 2;", "int y; { int y; } y = 1;", "static int y; extern int a; register int z; auto int w;",
    "if (a) b;", "if (a) ;", "if (a) {}", "if (a) b; else c;", "if (a) ; else ;", "if (a) { b; } else { c; }", "if (a) if (b) c; else a;",
    "if (a) if (b) c; else a; else b;", "if (a) if (b) if (c) a; else b; else c; else ;", "if (a) if (b) if (c) a; else b;",
    "if (a) { if (b) c; } else a;", "if (a) b; else if (c) a; else b;", "if (a) b; else if (c) a; else if (b) c; else a;", "if (a, b) ;",
    "if (a = b) ;", "if (a) while (b) if (c) a; else b; else c;", "if (a) for (;;) if (b) c; else a; else b;",
    "if (a) do if (b) c; while (c); else a;", "if (a) do ; while (b); else c;", "if (a) switch (b) { } else c;", "while (a) ;", "while (a) b;",
    "while (a) { b; break; }", "while (a) while (b) continue;", "while (a--) if (b) break; else continue;", "do ; while (a);", "do a; while (b);",
    "do { a; } while (b);", "do do a; while (b); while (c);", "do if (a) b; else c; while (a);", "do while (a) b; while (c);",
    "while (a) do ; while (b);", "for (;;) ;", "for (a;;) ;", "for (;a;) ;", "for (;;a) ;", "for (a = 0; a < 3; a++) ;", "for (a, b; a, b; a, b) ;",
    "for (;;) {}", "for (;;) break;", "for (int i = 0; i < 3; i++) a += i;", "for (int i = 0, j = 1; i < j; ) ;", "for (int i;;) { i = 0; }",
    "for (int *p = &a; *p; ) ;", "for (const int i = 0; ; ) ;", "for (int i = 0; ; ) for (int i = 1; ; ) ;",
    "for (struct { int x; } i = { 0 }; i.x < 3; i.x++) ;", "for (a = 1, b = 2; ; ) if (a) b; else c;", "switch (a) { }", "switch (a) { case 1: ; }",
    "switch (a) { case 1: case 2: b; default: c; }", "switch (a) { case 1: b; break; case 2: { c; } default: ; }",
    "switch (a) { default: case 1: ; }", "switch (a) { case 1 ? 2 : 3: ; }", "switch (a) { case 1 + 3: case (3): case -4: case 'a': ; }",
    "switch (a) { case (1 ? 5 : 6): ; }", "switch (a) { case 1: switch (b) { case 1: ; } }", "switch (a, b) { case 1: break; }",
    "switch (a) { case 1: if (b) c; else a; default: while (b) ; }", "switch (a) { int y; case 1: y = 1; }", "switch (a) { a; { b; } }",
    "switch (a) { case sizeof(int): ; }", "switch (a) { case 1: { int y; y = 1; } }", "switch (a) { case 1: return 1; default: return 2; }",
    "switch (a) { case (int)1: ; }", "while (a) switch (b) { case 1: continue; default: break; }", "return 1;", "return a, b;", "return (a);",
    "return a = b;", "return -a;", "return a ? b : c;", "return sizeof(int);", "return (int)a;", "return f(1) + f(2);",
    "struct s { int x; } s; s.x = 1;", "enum { A, B } y = A; y = B;", "int g(int); g(1);", "int (*g)(int) = f; g(1);",
    "int y[3] = { 1, 2 }; y[0] = 1;", "struct s; struct s *p; p = 0;", "const int y = 1, *p = &y; p = 0;", "unsigned y = 1; long long z = y; z = 2;",
    "int f2(void), y; y = f2();",
)

NO_STATEMENTS = in_block(
    "a", "a b;", "{", "}", "{ ; } }", "{ a }", "if a b;", "if (a b;", "if a) b;", "if () b;", "if (a);else", "if (a) else b;",
    "if (a) b; else c; else a;", "if (a) ; ; else b;", "else a;", "if (a) {} ; else b;", "if (a) b else c;", "if (a) int y;", "if (int y) ;",
    "if (a;) b;", "if (a) b; else int y;", "if (a) b; c; else a;", "while a b;", "while () b;", "while (a b;", "while (a) int y;", "while (a;) ;",
    "while;", "while (a) }", "do a while (b);", "do a; while b;", "do a; while (b)", "do a; while ();", "do a; b; while (c);", "do ; until (a);",
    "do while (a);", "do { a; }", "do int y; while (a);", "do { } (a);", "for ;", "for () ;", "for (;) ;", "for (;;;) ;", "for (a) ;", "for (a;b) ;",
    "for (a;b;c;) ;", "for (a b;;) ;", "for (;;) int y;", "for (;int y;) ;", "for (;;int y) ;", "for (int i = 0) ;", "for (int i = 0, ;;) ;",
    "for (int i = 0 i < 3; ) ;", "for (;; {}) ;", "for ;;) ;", "for (;; ;", "for (int i;) ;", "for (,;;) ;", "switch (a) { case: ; }",
    "switch (a) { case 1 ; }", "switch (a) { case 1; }", "switch (a) { case 1, 2: ; }", "switch (a) { case 1: }", "switch (a) { case 1: default: }",
    "switch (a) { default ; }", "switch (a) { default 1: ; }", "switch (a) { case 1: int y; }", "switch (a) { default: int y; }", "switch { }",
    "switch () { }", "switch (a { }", "switch (a) { case int: ; }", "switch (a) { case 1:: ; }", "switch (a) { : ; }", "switch (a) }",
    "switch (a) { case 1: 2: ; }", "while (a) break", "while (a) break 1;", "while (a) continue", "while (a) continue a;", "return", "return a b;",
    "return int;", "return return;", "return { 1 };", "return (a;", "return a);", "return ,;", "int y", "int y z;", "int 1;", "int y = ;", "int y, ;",
    "int *;", "int (;", "1 = ;", "if", "while", "for", "struct s { };", "enum { };", "a; = b;", "a;; b c;", "(;", ");", "];", "[0];", "};",
    "a = b else c;",
)

# C99 6.9.
FILES = lines(
    "int main(void) { return 0; }", "void f(void) { }", "void f() { }", "int f(int x) { return x; }", "int f(int x, char *y) { return x + *y; }",
    "int *f(int *x) { return x; }", "int (f)(void) { return 0; }", "int ((f))(int x) { return x; }", "int (f(int x)) { return x; }",
    "int (*f(int x))(void) { return 0; }", "int (*f(void))[3] { return 0; }", "int (*(*f(int x))(int))(int) { return 0; }",
    "int *(f)(void) { return 0; }", "static int f(void) { return 0; } int g(void) { return f(); }", "extern int f(int x) { return x; }",
    'const char *f(void) { return "a"; }', "struct s { int x; } *f(void) { return 0; }", "struct s { int x; }; struct s f(struct s x) { return x; }",
    "unsigned long int f(void) { return 1; }", "void f(int x[], int y[3], int z(void)) { }", "void f(int (*x)(int), int (*y)[3]) { }",
    "void f(register int x) { }", "void f(const int x, int *const y) { }", "void f(int (x)) { }", "void f(int (x)(void)) { }",
    "struct s; void f(struct s *x) { }", "int x; int f(void) { return x; } int y;", "int f(void); int f(void) { return 0; }",
    "int x; extern int x; static int y;", "int f(int), g(int x), x;", "/* */ int x; // y", "\n\nint x\n;\n",
    "int\nmain\n(\nvoid\n)\n{\nreturn\n0\n;\n}", "int x;int y;int z;", "void f(void) { } void g(void) { f(); }", "int f(void) { return f(); }",
    "int a, b, f(int a, int b) ;", "inline static void f(void) { }", "void f(int x) { int y; { int z; z = x; } y = x; y = y; }",
    "enum e { A } f(enum e x) { return A; }", "#define N 3\nint x[N];", "#define BEGIN {\n#define END }\nvoid f(void) BEGIN END",
    "#define T int\nT x; void f(T y) { T * z; }",
)

NO_FILES = [""] + lines(
    "", "// x", "/* x */", ";", ";;", "int x;;", ";int x;", "void f(void) { };", "{ }", "}", "int x; }", "{ int x; }", "x", "1;", "f();", "return 0;",
    "if (1) ;", "int", "int main", "int main(", "int main(void", "int main(void)", "int main(void) {", "int main(void) { return",
    "int main(void) { return 0", "int main(void) { return 0;", "int main(void) return 0;", "int main(void) { return 0; } }",
    "int f(void), g(void) { }", "int x { }", "int x = 1 { }", "void f(void) { } { }", "void f(void) g(void) { }", "int f { }", "int f[3] { }",
    "void (*f) { }", "int (*f)(void) { return 0; }", "typedef int F(void); F f { return 0; }", "void f(void) ; { }", "void f(void) { } 1",
    "void f(void) { } ,", "(f)(void) { }", "void { }", "void () { }", "void f(void) { ] }", "int f(void) { return 0; } int", "int x = 1; = 2;",
    "int x, y; z", "int f(int x { return x; }", "int f int x) { return x; }", "int f(int x) { return x; ", "int f(int x) { { return x; }", "else",
    "int else;", "int case;", "#define N )\nint x = N;", "#define T int\nint T x;", "#define E\nint x = E;", "#define E\nE",
)

# Texts of which one token is left out, doubled, or turned with the next.
BASES = [
    "int main(void) { int i = 0; while (i < 10) { i = i + 1; } return i; }",
    "struct s { int x; struct s *n; } *p; int f(void) { return p->n->x; }",
    "int f(int a, int *b) { if (a) return *b; else return -a; }",
    "typedef unsigned long T; T x = (T)1 * sizeof(T);",
    "int (*f(int a))(int) { return 0; }",
    "int v[3] = { [1] = 2, 3 }; int w[2][2] = { { 1, 2 }, { 3 } };",
    "int f(int a) { switch (a) { case 1: return 2; default: break; } return a ? 1 : 2; }",
    "enum e { A, B = 2, C }; enum e f(enum e x) { do { x = A; } while (x); return x; }",
    "int f(int a) { int s = 0; for (int i = 0; i < a; i++) s += i * i; return (s); }",
    'static const char *const n[] = { "a", "b" }; char f(int a) { return n[a][0]; }',
]


def changed_texts():
    """Ten texts of each base, the same each time."""
    r = random.Random(4)
    for base in BASES:
        words = TOKEN.findall(base)
        for number in range(10):
            at = r.randrange(len(words) - 1)
            if number % 3 == 0:
                made = words[:at] + words[at + 1:]
            elif number % 3 == 1:
                made = words[:at + 1] + words[at:]
            else:
                made = words[:at] + [words[at + 1], words[at]] + words[at + 2:]
            yield " ".join(made) + "\n"


# What the grammar of the subset says where the compilers say something else, or the same for another reason than the grammar.
DIFFERENCES = [
    # Left out of the subset.
    ("refused", "`goto` and its labels (6.8.1, 6.8.6.1)", in_block("a: ;", "goto c; c: a;", "a: b: c;") + in_function("a : b")),
    ("refused", "compound literals (6.5.2.5)", lines(
        "unsigned long x = sizeof (int){0};", "int x = (int){ 1 };", "void f(void) { int *x = (int[]){ 1, 2 }; }",
    )),
    ("refused", "bit-fields (6.7.2.1)", lines("struct s { int x : 3; };", "struct s { int x, y : 1, : 2; };", "struct s { unsigned : 0; int x; };")),
    ("refused", "qualifiers but `const` (6.7.3)", lines(
        "volatile int x;", "int *volatile x;", "int *restrict x;", "int f(int *restrict);", "const volatile int x;",
    )),
    ("refused", "floating types, `_Bool` and complex numbers (6.2.5)", lines(
        "float x;", "double x;", "long double x;", "_Bool x;", "double _Complex x;", "float f(int);",
    )),
    ("refused", "wide literals (6.4.4.4, 6.4.5)", lines("int x = L'a';", 'int x[] = L"abc";')),
    ("refused", "`...` (6.7.5.3)", lines("int f(int, ...);", "int f(const char *x, ...) { return 0; }")),
    ("refused", "identifier lists (6.7.5.3, 6.9.1)", lines(
        "int f(a) int a; { return a; }", "int f(a, b) int a; char *b; { return a; }", "int f(x);",
    )),
    ("refused", "qualifiers, `static` and `*` in an array declarator (6.7.5.2)", lines(
        "int f(int x[static 3]);", "int f(int x[const]);", "int f(int x[const 3]);", "int f(int x[*]);",
    )),
    ("refused", "arrays of variable length, whose size may be an assignment (6.7.5.2)", lines("void f(int n) { int x[n = 3]; }")),
    ("refused", "typedefs inside blocks (6.7.7)", in_block("typedef int T; T y; y = 1;", "{ typedef int T, *U; }", "for (typedef int T; ; ) ;")),
    ("refused", "a `switch` on a statement that is no block (6.8.4.2)", in_block(
        "switch (a) case 1: ;", "switch (a) ;", "switch (a) default: b;", "switch (a) if (b) case 1: c;",
    )),
    ("refused", "keywords that the compilers add, which are names here", lines(
        "__extension__ int x;", "__attribute__((unused)) int x;", "__signed__ int x;", "int __attribute__((unused)) x;", "int *__restrict x;",
    )),
    # Typedef names: a name is never hidden, and size_t is one from the start.
    ("refused", "a parameter, variable, enumerator or member that hides a typedef name (6.2.1, 6.2.3)", after_typedef(
        "int f(int T) { return T; }", "int f(int (*T)(void));", "void f(void) { int T = 1; }", "void f(void) { int T; T = 2; }",
        "void f(void) { enum { T }; }", "void f(void) { T T; }", "struct s { int T; };", "struct T { T T; }; struct T x;",
        "struct s { int T; } s; int f(void) { return s.T; }", "void f(void) { T: ; }",
    )),
    ("refused", "a typedef name is declared once more, as which no declarator or enumerator has it (6.7, 6.7.7)", after_typedef(
        "typedef int T;", "int T;", "T T;", "unsigned T;", "typedef T T;", "int T(void);", "enum e { T };", "T T x;", "unsigned T x;", "int T x;",
        "long T x;",
    )),
    ("refused", "size_t is a typedef name from the start", lines("typedef unsigned long size_t;", "int size_t;", "int f(int size_t) { return 0; }")),
    ("accepted", "size_t is a typedef name from the start", lines(
        "size_t x;", "unsigned long x = sizeof(size_t);", "size_t f(size_t x) { return (size_t)x; }",
    )),
    ("accepted", "the name of a typedef may be a member's, here of none (6.2.3)", after_typedef(
        "struct s { int x; } s; int f(void) { return s.T; }", "struct s { int x; } *p; int f(void) { return p->T; }",
        "struct s { int x; } s = { .T = 1 };",
    )),
    ("refused", "a name that is no typedef's begins no declaration (6.7.7)", lines(
        "void f(void) { U x; }", "void f(void) { U *x = 0; }", "int f(void) { U int; }",
    )),
    # The compilers read more, and then ask for what an operator wants.
    ("refused", "the left side of an assignment is a unary expression (6.5.16)", in_function(
        "(int)a = b", "a + b = c", "a ? b : c = d", "a = b + c = d", "a || b = c", "a = b ? c : d = a", "a, b + c = d", "a * b += c", "(char)a++ = b",
        "sizeof(int) + a = b",
    )),
    ("refused", "each declaration of members has specifiers of a type and a declarator (6.7.2.1)", lines(
        "struct s { struct { int x; }; };", "struct s { int; };", "struct s { int x; struct t; };", "struct s { const; };",
        "struct s { struct t { int y; }; int x; };",
    )),
    ("refused", "`typedef` is no word of a parameter or a member (6.7.2.1, 6.7.5.3)", lines("int f(typedef int x);", "struct s { typedef int x; };")),
    # Not a matter of the grammar.
    ("accepted", "lvalues (6.5.16, 6.5.2.4, 6.5.3)", in_function(
        "1 = a", "a++ = b", "-a = b", "h() = 1", "++a = b", "sizeof a = b", '"a" = b', "&1", "a++++", "++a++", "--1", "&a++", "&-a",
    )),
    ("accepted", "types (6.5)", in_function(
        "*a", "a.x", "q.x", "s->x", "g(a)", "g(a, b, c)", "a(b)", "1[2]", "s + 1", "-s", "!s", "p * 2", "(struct s)a", "s ? a : b", "a = s", "a % p",
    )),
    ("accepted", "names that are not declared (6.5.1)", in_function("z", "z()", "z = 1", "s.z", "q->z")),
    ("accepted", "a name that is no typedef name before its declarator ends (6.2.1), and so none that is declared", lines(
        "typedef int T[sizeof(T)];", "typedef int T[sizeof T], U;", "typedef int (*T)[sizeof(T) + 1];",
    )),
    ("refused", "a name that is no typedef name before its declarator ends (6.2.1)", lines(
        "typedef int T[sizeof(T *)];", "typedef int T[(T)1];", "typedef int T, U[sizeof(V)], V[sizeof(V *)];",
    )),
    ("accepted", "a typedef with an initializer, in which its name is a typedef name (6.2.1, 6.7.8)", lines(
        "typedef int T = sizeof(T);", "typedef int T = (T)1;", "typedef int T = 1;",
    )),
    ("accepted", "a statement that stands in no loop or switch, or labels that are equal (6.8.1, 6.8.6)", in_block(
        "break;", "continue;", "case 1: ;", "default: ;", "switch (a) { default: ; default: ; }", "switch (a) { case 1: case 1: ; }",
        "switch (a) { continue; }", "switch (a) { case b: ; }",
    )),
    ("accepted", "a declaration that declares nothing (6.7)", lines(
        "int;", "const int;", "struct { int x; };", "typedef int;", "void f(void) { int; }", "void f(void) { for (int;;) ; }",
    ) + after_typedef(
        "T;",
    )),
    ("accepted", "storage classes and `inline` (6.7.1, 6.7.4)", lines(
        "static extern int x;", "auto int x;", "register int x;", "inline int x;", "typedef static int T;", "int f(static int x);",
        "void f(void) { for (static int i = 0; ; ) ; }", "register int f(void) { return 0; }", "typedef int f(void) { return 0; }",
    )),
    ("accepted", "storage classes and `inline` of members and in type names, where 6.7.2.1 and 6.7.6 have none", lines(
        "struct s { static int x; };", "struct s { inline int x; };", "unsigned long x = sizeof(static int);", "int x = (register int)1;",
    )),
    ("accepted", "incomplete types (6.2.5)", lines(
        "void x;", "int f(void x);", "int f(void, int);", "int f(int, void);", "int f(const void);", "struct s x[3];", "struct s { struct s x; };",
        "enum e x;", "enum e;",
    )),
    ("accepted", "functions that give functions or arrays, arrays of functions (6.7.5)", lines(
        "int f(void)(void);", "int f(void)[3];", "int x[3](void);", "int f(void)[3] { }", "int f(int (int)(int));",
    )),
    ("accepted", "a name that is declared twice (6.7)", lines(
        "int x; char x;", "int f(int x, int x) { return x; }", "struct s { int x; int x; };", "enum e { A, A };", "void f(int x) { int x; }",
    )),
    ("accepted", "initializers of other types (6.7.8)", lines(
        "int x = { .y = 1 };", "struct s { int x; } s = { .y = 1 };", "int x[2] = { [2] = 1 };", "int f(void) = 1;", "int x[3] = 1;",
        "int a; int x = a;",
    )),
    ("accepted", "values and arguments (6.8.6.4, 6.9.1)", lines(
        "void f(void) { return 1; }", "int f(void) { return; }", "int x[0];", "int x[-1];", "int f(int n) { static int x[n]; }",
    )),
]

TEXTS = (
    EXPRESSIONS + CASTS + NO_EXPRESSIONS + WORDS + TYPE_WORDS + NO_TYPE_WORDS + DECLARATORS + NO_DECLARATORS + TAGS + NO_TAGS
    + TYPEDEFS + NO_TYPEDEFS + INITIALIZERS + NO_INITIALIZERS + STATEMENTS + NO_STATEMENTS + FILES + NO_FILES
)


def first_error(command, text):
    """The first error of a compiler, or None where it accepts the text."""
    with tempfile.NamedTemporaryFile("w", suffix=".c", newline="", delete=False) as f:
        f.write(text)
    try:
        run = subprocess.run([command] + OPTIONS + [f.name], capture_output=True, text=True, check=False, env={**os.environ, "LC_ALL": "C"})
    finally:
        os.unlink(f.name)
    if run.returncode == 0:
        return None
    return re.search(r"error: (.*?)(?: \[-[^\]]*\])?$", run.stderr, re.M)[1]


def errors_of(text):
    return [first_error(command, text) for command in ("gcc", "clang")]


def verdict(errors):
    """What both compilers say of the grammar; None where they differ, or refuse for another reason."""
    if errors == [None, None]:
        return "accepted"
    if all(error is not None and any(re.search(pattern, error) for pattern in SYNTACTIC) for error in errors):
        return "refused"
    return None


def agreed():
    """The rows of the compilers."""
    for text in dict.fromkeys(TEXTS + list(changed_texts())):
        errors = errors_of(text)
        found = verdict(errors)
        if found:
            yield text, found
        else:
            print("left out:", repr(text), errors, file=sys.stderr)


def differences():
    """The rows of DIFFERENCES, of none of which both compilers say the same."""
    for given, reason, texts in DIFFERENCES:
        for text in texts:
            errors = errors_of(text)
            if verdict(errors) == given:
                raise ValueError(f"no difference: {text!r}, {reason}, {errors}")
            yield text, given


def main():
    if sys.argv[1:] != ["make"]:
        sys.exit(__doc__)
    here = os.path.dirname(os.path.abspath(__file__))
    same, other = list(agreed()), list(differences())
    rows = [(text, [found]) for text, found in same + other] + list(written())
    assert all("%%" not in text for text, _ in rows) and len(dict((text, 0) for text, _ in rows)) == len(rows)
    with open(os.path.join(here, "stdin"), "w", newline="") as f:
        f.write(END.join(text for text, _ in rows))
    with open(os.path.join(here, "stdout"), "w", newline="") as f:
        f.writelines(line + "\n" for _, found in rows for line in found)
    for name, part in (("agreed", same), ("differences", other)):
        print(len(part), name + ",", sum(found == "refused" for _, found in part), "of them refused")
    print(len(rows) - len(same) - len(other), "written")


if __name__ == "__main__":
    sys.exit(main())
