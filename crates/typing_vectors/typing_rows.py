#!/usr/bin/env python3
"""The texts of the first part of this program. They are those of rows/units.py and of RULES below; the rule that a text
violates first and its line, or that it violates none, were worked out by hand from C99 and docs/LANGUAGE.md. The sizes of
objects, and the values, sizes and signs of constant expressions are gcc's (12.2.0): a text with another one is refused, since
the size of an array in it is -1 then. `gcc` prints the texts of RULES that gcc does not refuse on the same line, and those of the
other tables that it does not decide so: these have a rule that gcc has not, or are judged at another token.

usage: python3 crates/typing_vectors/typing_rows.py gcc      compares with gcc
"""

import itertools
import os
import random
import re
import subprocess
import sys
import tempfile

HERE = os.path.dirname(os.path.realpath(__file__))
sys.path.insert(0, os.path.join(HERE, "..", "..", "rows"))
import units  # noqa: E402

M = "int main(void){return 0;}"
NAMES = re.findall(r"^    (\w+),$", re.search(r"pub enum Rule \{(.*?)^\}", open(os.path.join(HERE, "..", "c_faults", "src", "fault.rt")).read(),
                                            re.M | re.S)[1], re.M)


def main(body):
    return "int main(void){" + body + "return 0;}"


# by rule: texts with the line of their first violation
RULES = {
    "NoMain": [("int x;", 1), ("int x;\n", 2), ("int main(int argc){return 0;}", 1), ("char main(void){return 0;}\n\n", 3),
               ("int main(void);\n#define X int f(void){return 1;}\nX\n", 4), ("static int g;int n(void){return g;}", 1)],
    "UndefinedFunction": [("int f(void);" + main("f();"), 1), ("int f(void);int g(void);\nint h(void){return g();}\n" + main("return f();"), 2),
                          ("int f(int);int (*p)(int)=\n&f;" + M, 2), ("int f(void);\n#define CALL f()\nint main(void){\nreturn CALL;}", 4),
                          ("void f(void);int main(void){if(0)\nf();return 0;}", 2)],
    "Undeclared": [(main("x;"), 1), (main("int a;\na=\nb;"), 3), ("int a[\nn];" + M, 2), ("int f(int (*p)[\nsize]);" + M, 2),
                   ("#define X y+1\n" + main("int a=\nX;"), 3), (main("{int a;a=1;}\na=2;"), 2), ("enum{A=B};" + M, 1),
                   ("struct S{int a[\nN];};" + M, 2), (main("for(int i=0;i<2;i++);\nreturn i;"), 2), (main("sizeof(\nz);"), 2)],
    "Redeclared": [("int a;char a;" + M, 1), ("int f(void);\nchar f(void);" + M, 2), (main("int a;\nint a;"), 2),
                   ("enum{A};\nint A;" + M, 2), ("int f(int a,\nint a){return a;}" + M, 2),
                   ("int x=1;\nint x=2;" + M, 2), ("int f(int);\nint f(long);" + M, 2), ("#define D int a;\nD\n#define E long a;\nE\n" + M, 4),
                   (main("int a;{int a;\nchar a;}"), 2), ("enum{A,\nA};" + M, 2), ("int (*p)(void);\nint (*p)(int);" + M, 2),
                   ("extern int a[3];\nextern int a[4];int a[3];" + M, 2)],
    "MistakenTag": [("struct S{int a;};\nenum S{A};" + M, 2), ("union U{int a;};\nstruct U*p;" + M, 2), ("struct S{int a;};\nstruct S{int b;};" + M, 2),
                    ("enum E{A};\nenum E{B};" + M, 2), (main("struct S{int a;}s;\nunion S*p;"), 2), ("int f(struct S{int a;}*p,\nunion S*q);" + M, 2)],
    "Incomplete": [("void x;" + M, 1), ("struct S;\nstruct T{struct S s;};" + M, 2), (main("struct S s;"), 1), ("int a[3][];" + M, 1),
                   (main("int a[];"), 1), ("struct S{int a;int b[];};" + M, 1),
                   (main("struct S*p;\nsizeof(struct S);"), 2), ("#define T struct S\nT\ns;" + M, 3)],
    "MisplacedFunction": [("int f(void)(void);" + M, 1), ("int f(void)[3];" + M, 1), ("int\na[3](void);" + M, 2), ("struct S{int f(void);};" + M, 1),
                          ("typedef int F(void);\nF a[2];" + M, 2), ("typedef int F(void);struct S{int a;\nF f;};" + M, 2), ("int (*p)(void)(int);" + M, 1),
                          ("typedef int F(void);\nconst F f(void);" + M, 2)],
    "NoConstant": [("int a[0];" + M, 1), ("int a[-1];" + M, 1), ("int n=3;\nint a[\nn];" + M, 2),
                   ("int n;enum{\nA=n};" + M, 2), ("enum{A=2147483648};" + M, 1), (main("int x=1;switch(x){\ncase x:;}"), 2),
                   ("#define N (1-1)\nint a[N];" + M, 2), ("struct S{int b;int a[1-2];};" + M, 1), (main("int x=1;int a[\nx];"), 1), ("enum{A=2147483647,\nB};" + M, 2)],
    "LargeType": [("char a[4294967297];" + M, 1), ("int a[1073741825];" + M, 1), ("struct S{char a[4294967296];\nchar b;};" + M, 1),
                  ("char a[65536][65536];\nint (*p)[4294967296];" + M, 2), (main("char a[2][4294967296];"), 1)],
    "RepeatedMember": [("struct S{int a;\nchar a;};" + M, 2), ("union U{int a,a;};" + M, 1), (main("struct{int x;\nint y,\nx;}s;"), 3),
                       ("struct S{struct{int a;}b;int c;int\nb;};" + M, 2)],
    "NoMember": [("struct S{int a;}s;" + main("s.b;"), 1), (main("int a;a.x;"), 1), ("struct S{int a;}s;" + main("(&s)\n->\nb;"), 2),
                 ("struct S;struct S*p;" + main("p->a;"), 1), ("struct S{int a;}s;" + main("s->a;"), 1), ("struct S{int a;}s;" + main("(&s).a;"), 1)],
    "NoTarget": [(main("int a;*a;"), 1), (main("int a;a\n[0];"), 2), (main("void*p;\n*p;"), 2), (main("3[4];"), 1),
                 ("struct S;struct S*p;" + main("\n*p;"), 2), ("struct S*p;int n=sizeof\n*p;struct S{int a;};" + M, 2),
                 ("#define D *\n" + main("int x;\nD x;"), 3)],
    "NoAddress": [(main("&1;"), 1), (main("int a;\n&(a+1);"), 2), (main("int a;&\na++;"), 1), ("int f(void){return 0;}" + main("&f();"), 1),
                  (main("int a;&(a=1);"), 1), ("struct S{int a;}f(void){struct S s={1};return s;}" + main("&f().a;"), 1)],
    "NotAssignable": [(main("1=2;"), 1), (main("const int a=1;a\n=2;"), 2), (main("int a[2],b[2];a=b;"), 1), (main("int a;\n(a+1)++;"), 2),
                      ("struct S{const int a;}s;struct S t;" + main("s=t;"), 1), (main("const int a=0;++\na;"), 1),
                      ("int f(void){return 0;}" + main("f=0;"), 1)],
    "Operands": [(main("int*p;p*2;"), 1), ("struct S{int a;}s;" + main("s\n+1;"), 2), (main("int*p;int*q;p+q;"), 1), (main("int*p;char*q;\np-q;"), 2),
                 (main("int*p;-p;"), 1), (main("int*p;~p;"), 1), ("struct S{int a;}s;" + main("!s;"), 1), (main("int*p;int a;p==a;"), 1),
                 (main("int*p;p%2;"), 1), (main("int*p;p<<\n1;"), 1), ("struct S{int a;}s;" + main("1&&s;"), 1), ("void f(void){}" + main("f()+1;"), 1),
                 (main("int*p;char*q;p<q;"), 1), (main("int*p;\n1?p:3;"), 2), (main("void*p;p++;"), 1), (main("int*p;p*=2;"), 1)],
    "NoConversion": [(main("int*p;p\n=1;"), 2), (main("int a;int*p=&a;char*q;q=p;"), 1), (main("int a=\n\"x\";"), 2), ("int f(int*p){return 0;}" + main("f\n(3);"), 2),
                     ("int*f(void){\nreturn 1;}" + M, 2), ("struct S{int a;}s;struct T{int a;}t;" + main("s=t;"), 1), ("void f(void){}" + main("int a=f();"), 1),
                     (main("int(*p)(void);void*q;q=p;"), 1), ("struct S{int a;}s;int x;int main(void){x=s;return 0;}", 1)],
    "NoCast": [("struct S{int a;}s;" + main("(int)s;"), 1), (main("int a;(struct S{int b;})\na;"), 1), (main("int a[2];(int[2])a;"), 1),
               ("void f(void){}" + main("\n(int)f();"), 2), ("struct S{int a;}s;" + main("(struct S)s;"), 1)],
    "NoCallee": [(main("int a;a();"), 1), (main("3\n();"), 2), (main("int*p;(*p)();"), 1), ("struct S{int a;}s;" + main("s.a\n(1);"), 2), ("#define F x\n" + main("int x;F(1);"), 2)],
    "ArgumentCount": [("int f(int a){return a;}" + main("f();"), 1), ("int f(void){return 0;}" + main("f\n(1);"), 2), (main("putchar();"), 1),
                      (main("putchar(1,2);"), 1), ("int f(int a,int b){return a;}" + main("int(*p)(int,int)=f;\np(1);"), 2), (main("getchar(1);"), 1), (main("printf();"), 1)],
    "NoCondition": [("struct S{int a;}s;" + main("if(s);"), 1), ("void f(void){}" + main("\nwhile(f());"), 2), ("struct S{int a;}s;" + main("for(;s;);"), 1),
                    ("struct S{int a;}s;" + main("\ndo;while(s);"), 2), (main("int*p;switch(p){}"), 1), ("struct S{int a;}s;" + main("1;\nif(\ns){}"), 2)],
    "MistakenReturn": [("void f(void){return 1;}" + M, 1), ("int f(void){\nreturn;}" + M, 2), ("int*f(void){return;}" + M, 1), ("void f(void){if(1)\nreturn 0;}" + M, 2),
                       ("void g(void){}void f(void){return g();}" + M, 1)],
    "MisplacedLabel": [(main("break;"), 1), (main("\ncontinue;"), 2), (main("case 1:;"), 1), (main("default:;"), 1), (main("switch(1){case 1:;\ncase 1:;}"), 2),
                       (main("switch(1){default:;default:;}"), 1), (main("switch(1){case 1:\ncontinue;}"), 2), (main("if(1)\nbreak;"), 2),
                       (main("while(1){case\n2:;}"), 1)],
    "MisplacedItem": [("int a={1,2};" + M, 1), ("int a[2]={1,2,\n3};" + M, 1), ("struct S{int a;}s={.\nb=1};" + M, 1), ("int a[2]={[2]=1};" + M, 1),
                      (main("int a[1]={1,\n2};"), 1), ("int a={.x=1};" + M, 1), ("char s[2]=\"abc\";" + M, 1), ("int a[2]={[-1]=1};" + M, 1)],
    "LibraryName": [(main("putchar;"), 1), ("int (*p)(int)=\nputchar;" + M, 2), (main("\n&malloc;"), 2), (main("int a=\nfree\n+1;"), 2), (main("sizeof strlen;"), 1)],
    "MistakenFormat": [(main("char*s=\"x\";printf(s);"), 1), (main("printf\n(\"%f\",1);"), 2), (main("printf(\"%d\");"), 1), (main("printf(\"%d\",\"x\");"), 1),
                       (main("printf(\"x\",1);"), 1), (main("printf(\"%\");"), 1), (main("long a=1;printf(\"%d\",a);"), 1)],
    "MisplacedStorage": [("auto int a;" + M, 1), ("register int a;" + M, 1), ("static\ntypedef int T;" + M, 1), (main("extern int a=1;"), 1),
                         (main("static int f(void);"), 1), ("int f(static int a){return a;}" + M, 1), ("typedef int T=1;" + M, 1), ("extern int a;\n" + M, 1),
                         ("int a;\nauto int f(void){return 0;}" + M, 2), (main("for(\nstatic int i=0;;);"), 2), ("#define S static extern\nint a;\nS int b;" + M, 3),
                         ("register int f(void);" + M, 1)],
    "ArrayOfValue": [("struct S{int a[2];}f(void){struct S s={{1}};return s;}" + main("f().a;"), 1),
                     ("struct S{int a[2];}f(void){struct S s={{1}};return s;}" + main("f()\n.a[0];"), 2),
                     ("struct S{int a[2];}s;" + main("(s=s).a;"), 1),
                     ("struct S{char a[2];}s;" + main("\n(1?s:s).a;"), 2)],
}
ACCEPTED = [
    M,
    "int x;int*f(void){return&x;}" + main("*f()=3;"), "typedef struct L{struct L*next;int v;}L;L*head;" + main("head=0;while(head)head=head->next;"),
    "enum color{RED,GREEN=5,BLUE};int of(enum color c){return c;}" + main("of(BLUE);"),
    "union U{int i;char c[4];};" + main("union U u;u.i=1;u.c[0]++;"), "int(*table[2])(int);int f(int a){return a;}" + main("table[0]=f;table[1]=&f;(*table[1])(2);"),
    "struct S{int a[2];struct{char c;}n;};struct S f(struct S s){s.a[1]=2;return s;}" + main("struct S s={{1,2},{3}};s=f(s);"),
    main("char*s=\"a\" \"b\";printf(\"%s %d %x %c %ld %u %%\",s,1,2u,'c',3L,4u);"), "int a[]={1,2,3};int n=sizeof a/sizeof*a;" + M,
    main("int a[2][3]={{1},{2,3}};int(*p)[3]=a;p[1][2]=4;"), "const char*const p=\"x\";" + main("p[0]==120;"),
    main("int i;for(i=0;i<3;i++){switch(i){case 0:continue;case 1:break;default:{int j=i;j++;}}}"), "static int f(int);static int f(int a){return a?f(a-1):0;}" + main("f(3);"),
    "extern int x;int x=3;extern int x;" + M, "int a[3]={[2]=1,[0]=2};char s[]={\"abc\"};" + M, main("void*p=0;int*q=p;q==0;p==q;"),
    main("unsigned char c=300;long l=c<<3;unsigned u=-1;u>>=c&3;l=~l;"), "void*m;" + main("m=malloc(3);free(m);memcpy(m,m,2);"),
    "int f(int a[3],int g(int)){return g(a[0]);}int h(int x){return x;}" + main("int a[3]={1};f(a,h);"), "struct S;struct S*p;struct S{int a;};" + main("p->a=1;"),
    main("int x=1;{extern int y;y=x;}") + "int y;", "typedef int F(int);F f;int f(int a){return a;}" + main("F*p=f;p(1);"),
]
# keywords of specifiers and the type that they name (6.7.2 paragraph 2)
SPECIFIERS = [("signed", "int"), ("unsigned", "unsigned int"), ("int signed", "int"), ("int unsigned", "unsigned int"), ("short signed int", "short"),
              ("int short", "short"), ("unsigned short int", "unsigned short"), ("short unsigned", "unsigned short"), ("signed long", "long"),
              ("long int", "long"), ("int long unsigned", "unsigned long"), ("long signed long", "long long"), ("long unsigned int long", "unsigned long long"),
              ("char signed", "signed char"), ("char unsigned", "unsigned char")]
DIFFERENT = ["char", "signed char", "unsigned char", "short", "unsigned short", "int", "unsigned", "long", "unsigned long", "long long", "unsigned long long"]
PROTOTYPES = ["void*malloc(size_t)", "void*calloc(size_t,size_t)", "void free(void*)", "void*realloc(void*,size_t)", "void*memcpy(void*,const void*,size_t)",
              "void*memmove(void*,const void*,size_t)", "void*memset(void*,int,size_t)", "int memcmp(const void*,const void*,size_t)",
              "size_t strlen(const char*)", "int strcmp(const char*,const char*)", "char*strcpy(char*,const char*)",
              "char*strncpy(char*,const char*,size_t)", "char*strcat(char*,const char*)", "char*strchr(const char*,int)", "int putchar(int)",
              "int getchar(void)", "int puts(const char*)", "void exit(int)", "void abort(void)"]
# names, tags and scopes: texts that violate no rule
SCOPES = ["int x;int x;int x=1;" + M, "extern int x[];int x[3];" + M, "int x[];" + M, "struct S x;struct S{int a;};" + M,
          "int x(void);extern int x(void);int x(void){return 1;}" + M, "int x[]={1};" + M, "int x;" + main("char x;{extern int x;x=1;}"),
          main("extern int x;extern int x;") + "int x;", main("{auto int x;x=1;}{static char x;x=2;}"), "struct S*p;struct S{int a;};" + M,
          "union U{int a;};" + main("union U u;u.a=1;"), "struct S{int a;};" + main("struct S;struct S*p;p=0;"),
          "struct S{int a;};" + main("union S{int b;}u;u.b=1;"), "struct S{int a;};struct S;" + M, "enum E{A};" + main("enum E{B};B==A;"),
          "struct S{int a;};" + main("union S;union S*p;p=0;"), "extern char(*p)[];extern char(*p)[2];char(*p)[2];" + M,
          "int f(int a){{int a=2;a++;}return a;}" + main("f(f(1));"), "int f(int f){return f;}" + M,
          "enum{A=2,B=A*3,C};int a[C];" + main("int A=1;A=a[B];")]
# rules of which gcc refuses no text, or not all
GCC_ACCEPTS = {"NoMain", "UndefinedFunction", "LibraryName", "MistakenFormat", "LargeType"}


def scopes():
    yield from SCOPES
    for words, name in SPECIFIERS:
        yield f"extern {name} x;extern {words} x;{name} x;{M}"
    yield "".join(p + ";" for p in PROTOTYPES) + M


def wrong_scopes():
    """Texts in which the second line declares a name again with another type."""
    for a, b in zip(DIFFERENT, DIFFERENT[1:] + DIFFERENT[:1]):
        yield f"extern {a} x;\nextern {b} x;{a} x;{M}"
    for prototype in PROTOTYPES:
        yield f"\nlong {re.search(r'[a-z]+(?=[(])', prototype)[0]}(void);{M}"


# objects of many types, whose sizes gcc tells
DECLARATIONS = ["char a[3]", "short a[2][3]", "int*a[5]", "int(*a)[5]", "long a", "char(*a[2])(int)", "struct{char a;int b;}a", "struct{char a;long b;char c;}a",
                "struct{short a;char b;short c;}a", "union{char a[5];int b;}a", "union{long a;char b[9];}a", "struct{char a;struct{int b;char c;}d;char e;}a",
                "struct{char a[3];short b;}a[4]", "struct{int*p;char c;}a", "enum{A,B}a", "struct{enum{C}e;char c;}a", "unsigned char a[2][2][2]",
                "struct{union{char a;long b;}u;char c;}a", "struct{char a;union{short b;char c[3];}d;}a", "long long*a", "const struct{int a;}a={1}",
                "struct{char a[7];}a[3]", "struct{struct{struct{char a;}b;short c;}d;int e;}a", "char a[]=\"12345\"", "int a[]={1,2,[7]=3}",
                "struct{int a[2];char b;}a[]={1,2,3,4,5}", "short a[]={[3]=1}", "char*a[]={\"x\",\"yz\"}"]
LITERALS = ["0", "1", "7", "255", "256", "32767", "65535", "2147483647", "2147483648", "4294967295", "0xffu", "1u", "4294967295u", "3L", "9223372036854775807",
            "0x8000000000000000", "18446744073709551615u", "017", "'a'", "'\\n'", "'\\377'", "sizeof(int)", "2ul", "12345678901"]
TYPES = ["char", "signed char", "unsigned char", "short", "unsigned short", "int", "unsigned", "long", "unsigned long", "long long"]


def expressions():
    """Constant expressions, each of which gcc takes without a word."""
    draw = random.Random(1)

    def made(depth):
        kind = draw.randrange(8) if depth else 0
        if kind == 0:
            return draw.choice(LITERALS)
        if kind == 1:
            return draw.choice("-~!+") + "(" + made(depth - 1) + ")"
        if kind == 2:
            return f"({draw.choice(TYPES)})({made(depth - 1)})"
        if kind == 3:
            return f"({made(depth - 1)}?{made(depth - 1)}:{made(depth - 1)})"
        if kind == 4:
            return f"({made(depth - 1)}{draw.choice(['<<', '>>'])}{draw.randrange(32)})"
        operator = draw.choice(["+", "-", "*", "/", "%", "&", "|", "^", "==", "!=", "<", ">", "<=", ">=", "&&", "||"])
        return f"({made(depth - 1)}{operator}{made(depth - 1)})"

    while True:
        yield made(3)


def told(lines):
    """Returns what a C program of gcc's prints."""
    with tempfile.TemporaryDirectory() as folder:
        with open(f"{folder}/a.c", "w") as out:
            out.write("#include <stdio.h>\n#include <stddef.h>\n" + lines)
        subprocess.run(["gcc", "-std=c99", "-funsigned-char", "-w", "-o", f"{folder}/a", f"{folder}/a.c"], check=True)
        return subprocess.run([f"{folder}/a"], stdout=subprocess.PIPE, text=True, check=True).stdout.split()


def sizes():
    """A text for each object whose size is another one where it is not gcc's."""
    for declared in DECLARATIONS:
        size, = told(declared + ";\n" + 'int main(void){printf("%zu",sizeof a);return 0;}')
        yield f"{declared};char b[sizeof a=={size}?1:-1];{M}"


def constants(count):
    """Texts of 50 constant expressions each, with the value, the size and the sign that gcc tells."""
    kept = []
    for text in expressions():
        if len(kept) == count:
            break
        if text not in kept and text not in LITERALS and not refused(f"char a[({text})||1];", ["-Werror"]):
            kept.append(text)
    for at in range(0, count, 50):
        some = kept[at:at + 50]
        numbers = told("int main(void){" + "".join(f'printf("%lu %zu %d\\n",(unsigned long)({e}),sizeof({e}),({e})*0-1<0);' for e in some) + "return 0;}")
        yield "".join(f"char a{i}[(unsigned long)({e})=={numbers[3 * i]}u&&sizeof({e})=={numbers[3 * i + 1]}&&(({e})*0-1<0)=={numbers[3 * i + 2]}?1:-1];\n"
                      for i, e in enumerate(some)) + M


def line_of(expected):
    kind = expected.split()
    if kind[0] == "accepted":
        return "typed"
    if kind[0] == "refused":
        return f"rule {NAMES.index(kind[1].split('.')[1])} line {kind[2]}"
    if kind[0] == "inconstant":
        return f"not constant line {kind[1]}"
    return f"{kind[1].split('.')[1].lower()} {kind[2]}"


def rows():
    for _, table in units.ROWS.values():
        for _, (text, expected), _ in table:
            yield text, line_of(expected)
    for rule, texts in RULES.items():
        for text, line in texts:
            yield text, f"rule {NAMES.index(rule)} line {line}"
    for text in itertools.chain(ACCEPTED, scopes(), sizes(), constants(300)):
        yield text, "typed"
    for text in wrong_scopes():
        yield text, "rule 3 line 2"


def refused(text, words=()):
    done = subprocess.run(["gcc", "-std=c99", "-pedantic-errors", "-fsyntax-only", "-funsigned-char", *words, "-x", "c", "-"], input=text,
                          text=True, capture_output=True)
    return done.stderr.strip().split("\n")[0] if done.returncode else None


def compare():
    head = "#include <stdio.h>\n#include <stdlib.h>\n#include <string.h>\n"
    for rule, texts in RULES.items():
        for text, line in texts:
            why = refused(head + text)
            at = re.search(r"<stdin>:(\d+):", why or "")
            if not why and rule not in GCC_ACCEPTS or at and int(at[1]) - 3 != line:
                print(rule, repr(text), line, why)
    for text in itertools.chain(ACCEPTED, scopes()):
        why = refused(head + text)
        if why:
            print("accepted", repr(text), why)
    for text in wrong_scopes():
        if not refused(head + text):
            print("Redeclared", repr(text))


if __name__ == "__main__":
    if sys.argv[1:] == ["gcc"]:
        compare()
    else:
        sys.exit(__doc__)
