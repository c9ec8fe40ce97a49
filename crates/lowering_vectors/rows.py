#!/usr/bin/env python3
"""Makes `stdin` and `stdout`: programs that are lowered and run, and what must be told of each.

The texts are those of rows/. What a run puts out, how it ends, its turns, its accesses and the work of its meaning come from what
crates/source_meaning_rows/proofs states of the text, which is proved there by computation on the definitions; a row is each pair of
budgets and input of which the ending, or that the run goes on, is stated. How many checks a text has is counted in the typed tree
that rows/trees.py makes of it: a spatial and a temporal one for each object that is read, assigned or updated through `*`, `[]` or
`->`, outside of `sizeof`, whether it is reached or not. HAND has further rows, all of them worked out by hand, and so have TABLES,
COUNTED and UNCOUNTED, of which the keys and the counted loops of each function are told too.

usage: python3 crates/lowering_vectors/rows.py make
"""

import glob
import os
import re
import sys

HERE = os.path.dirname(os.path.realpath(__file__))
TOP = os.path.join(HERE, "..", "..")
sys.dont_write_bytecode = True
sys.path.insert(0, os.path.join(TOP, "rows"))
import trees  # noqa: E402

DEFAULT = {"heap": 4194304, "stack": 1048576, "calls": 4194304, "blocks": 16384, "keys": 2 ** 62}

# rows of rows/ whose wrong access a routine of the library finds
BY_ROUTINE = {"free_of_dead_inside", "free_twice", "print_dead", "unterminated_string"}

# name, text, checks, status and report, what finds a wrong access, output
WORK = "struct n{int v;struct n*q;};\n"
HAND = [
    ("pair", "int f(int*p){return *p+*p;}\nint main(void){int x=4;return f(&x);}\n", 4, "8", "", b""),
    ("after_free", "int g(int*p){int a=*p;free(p);return a+*p;}int main(void){return g(malloc(4));}\n", 4,
     "121 sbcets: temporal violation at line 1", "access", b""),
    ("table_of_functions",
     WORK + "int g0(int a){return a*13+1;}\nint h0(int a){return a-13;}\n"
     "int f0(int a){int(*t[2])(int);int i;t[0]=g0;t[1]=h0;for(i=0;i<13;i++)a=t[i%2](a);return a;}\n"
     'int main(void){int s=0;s=f0(s);printf("%d\\n",s);return 0;}\n', 6, "0", "", b"-62748503\n"),
    ("copied_strings",
     WORK + "int f0(int a){char b[64];char c[64];int i;for(i=0;i<5;i++)b[i]=97+(a+i&15);strcpy(c,b);strcat(c,b);"
     "return strlen(c)+strcmp(b,c);}\n" 'int main(void){int s=1;s=f0(s);printf("%d\\n",s);return 0;}\n', 2, "0", "", b"9\n"),
    ("in_a_loop", "int f(int*p,int n){int s=*p;while(n>0){s=s+*p;n=n-1;}return s;}\nint main(void){int x=3;return f(&x,2);}\n",
     4, "9", "", b""),
    ("two_sizes", "int f(int*p){return *p+*(char*)p;}int main(void){int x=5;return f(&x);}\n", 4, "10", "", b""),
    ("two_sizes_turned", "int f(int*p){return *(char*)p+*p;}int main(void){int x=5;return f(&x);}\n", 4, "10", "", b""),
    ("index_assigned_between", "int a[4];int main(void){int i=0;a[i]=(i=9);return a[i];}\n", 4,
     "120 sbcets: spatial violation at line 1", "access", b""),
    ("behind_a_block", "int main(void){int*p;int s;{int x=5;p=&x;s=*p;}return s+*p;}\n", 4,
     "121 sbcets: temporal violation at line 1", "access", b""),
    ("last_element", "int a[4];int main(void){a[3]=1;a[4]=2;return 0;}\n", 4,
     "120 sbcets: spatial violation at line 1", "access", b""),
    ("counted_loop", "int a[4];int main(void){int i;for(i=0;i<4;i++){a[i]=65+i;putchar(a[i]);}return 0;}\n", 4, "0", "", b"ABCD"),
    ("counted_loop_too_long", "int a[4];int main(void){int i;for(i=0;i<5;i++){a[i]=65+i;putchar(a[i]);}return 0;}\n", 4,
     "120 sbcets: spatial violation at line 1", "access", b"ABCD"),
]

# the same, and of each function the keys of its accesses and its counted loops

TABLES = [
    ("keys_of_constants",
     "enum{TWO=2};\n"
     "int f(int*p){return p[1&&1]+p[0||2]+p[0&&1/0]+p[1||1/0];}\n"
     "int g(int*p){return p[1?1:1/0]+p[0?1/0:2]+p[TWO]+p[sizeof(int)-3]+p[(char)257]+(p+2)[-1]+*(p-(-1))+1[p];}\n"
     "int h(int*p,int n){return p[1?1:(0,2)]+p[1&&n]+p[0*n];}\n"
     "int main(void){int a[3];a[0]=1;a[1]=2;a[2]=4;return f(a)+g(a)+h(a,1);}\n", 36, "32", "", b"",
     [("v0+4 v0+4 v0+0 v0+4", ""), ("v0+4 v0+8 v0+8 v0+4 v0+4 v0+4 v0+4 v0+4", ""), ("- - -", ""), ("a0+0 a0+4 a0+8", "")]),
    ("same_key_by_and", "int f(int*p){return p[1&&1]+p[1&&1];}int main(void){int a[2];a[1]=4;return f(a);}\n", 6, "8", "", b"",
     [("v0+4 v0+4", ""), ("a0+4", "")]),
    ("keys_of_literals",
     'char c[4]="abc";\n'
     "int f(const char*p){return p[1]-97;}\n"
     'int main(void){char s[]="abc";return "abc"[1]-98+*"x"-120+("ab"+1)[0]-98+(&"y"[0])[0]-121+*(char*)&"z"-122+f("ab")+s[1]-98'
     "+c[1]-98+(c)[2]-99;}\n", 18, "1", "", b"", [("v0+1", ""), ("- - - - - a0+1 s0+1 s0+2", "")]),
    ("keys_of_members",
     "struct t{int a;int b[2];};struct t g[3];\n"
     "int f(struct t*p,int i){return p->b[1]+p[i].a+(p+i)->b[0]+p[i].b[i]+p[i+0].a;}\n"
     "int main(void){g[1].b[1]=3;return f(g,1);}\n", 12, "3", "", b"",
     [("v0[4:8]+8 v0[0+12*v1:4]+0+12*v1 v0[4+12*v1:8]+4+12*v1 - -", ""), ("s0[16:8]+20", "")]),
    ("keys_behind_right_sides",
     "int f(int*p,int*q,int i){p[0]=(p=q,1);p[i]=sizeof(i=1);p[i]=0&&(i=1);p[1]+=(q=p,2);return p[i];}\n"
     "int main(void){int a[2];int b[2];return f(a,b,0)+a[0]*10;}\n", 12, "10", "", b"",
     [("- v0+0+4*v2 - v0+4 v0+0+4*v2", ""), ("a0+0", "")]),
]

# loops of one function each, which add to n: what stands before the loop, the loop, and what it counts

COUNTED = [
    ("int v;", "for(v=0;v<4;v++)n++;", "v0 0..4"),
    ("int v;", "for(v=0;v<4;++v)n++;", "v0 0..4"),
    ("int v;", "for(v=0;v<4;v=v+1)n++;", "v0 0..4"),
    ("int v;", "for(v=0;v<4;v=v+0x1)n++;", "v0 0..4"),
    ("int v;", "for(v=0;v<4;v=v+'\\1')n++;", "v0 0..4"),
    ("int v;", "for(v=0;v<FOUR;v=v+ONE)n++;", "v0 0..4"),
    ("", "for(int v=1&&0;v<(4);v++)n++;", "v0 0..4"),
    ("int v;", "for(v=(-2);v<(1?2:1/0);v++)n++;", "v0 -2..2"),
    ("int v;", "for(v=(int)0L;v<4;v++)n++;", "v0 0..4"),
    # what `sizeof` takes is not in the tree
    ("int v;", "for(v=0;v<4;v++)n+=sizeof(v=1);", "v0 0..4"),
    ("int v;", "for(v=4;v<0;v++)n++;", "v0 4..0"),
    # of two loops each has its own variable, and an inner one is in the body of the outer one
    ("int v,w;", "for(v=0;v<2;v++)for(w=0;w<2;w++)n++;", "v0 0..2 v1 0..2"),
]

UNCOUNTED = [
    # the first part
    ("int v;", "for((v)=0;v<4;v++)n++;", ""),
    ("int v;", "for((v=0);v<4;v++)n++;", ""),
    ("int v;", "for(v=0L;v<4;v++)n++;", ""),
    ("int v;", "for(v=(char)0;v<4;v++)n++;", ""),
    ("int v;", "for(v=(0,0);v<4;v++)n++;", ""),
    ("int v,z;", "for(v=0,z=1;v<4;v++)n+=z;", ""),
    ("", "for(int v=0,z=1;v<4;v++)n+=z;", ""),
    ("int v=0;", "for(;v<4;v++)n++;", ""),
    ("int v=0,z;", "for(z=0;v<4;v++)n++;", ""),
    # the condition
    ("int v;", "for(v=0;v<(char)4;v++)n++;", ""),
    ("int v;", "for(v=0;v<4L;v++)n++;", ""),
    ("int v;", "for(v=0;v<4u;v++)n++;", ""),
    ("int v;", "for(v=0;(v)<4;v++)n++;", ""),
    ("int v;", "for(v=0;(v<4);v++)n++;", ""),
    ("int v;", "for(v=0;4>v;v++)n++;", ""),
    ("int v;", "for(v=0;v<=3;v++)n++;", ""),
    ("int v,z=4;", "for(v=0;v<z;v++)n++;", ""),
    # the step
    ("int v;", "for(v=0;v<4;v=v+(2-1))n++;", ""),
    ("int v;", "for(v=0;v<4;v=v+(1))n++;", ""),
    ("int v;", "for(v=0;v<4;v=v+1L)n++;", ""),
    ("int v;", "for(v=0;v<4;v=1+v)n++;", ""),
    ("int v;", "for(v=0;v<4;v+=1)n++;", ""),
    ("int v;", "for(v=0;v<4;(v)++)n++;", ""),
    ("int v;", "for(v=0;v<4;++(v))n++;", ""),
    ("int v;", "for(v=0;v<4;(v++))n++;", ""),
    ("int v;", "for(v=0;v<4;v=(v)+1)n++;", ""),
    ("int v;", "for(v=0;v<4;(v)=v+1)n++;", ""),
    ("int v;", "for(v=0;v<4;v=(v+1))n++;", ""),
    # the variable
    ("char v;", "for(v=0;v<4;v++)n++;", ""),
    ("unsigned v;", "for(v=0;v<4;v++)n++;", ""),
    ("static int v;", "for(v=0;v<4;v++)n++;", ""),
    ("int v;int*p=&v;p=p;", "for(v=0;v<4;v++)n++;", ""),
    # the body, also where it is never evaluated
    ("int v;", "for(v=0;v<4;v++)n+=1-(0&&(v=1));", ""),
    ("int v;", "for(v=0;v<4;v++)n+=0?v++:1;", ""),
    ("int v;", "for(v=0;v<4;v++){n++;if(0)v=1;}", ""),
    ("int v;", "for(v=0;v<4;v++){n++;v=v;}", ""),
]


def loops_row(name, loops, status):
    """A row of loops, of a function each, which are called in their order: it ends with n."""
    functions = [f"void f{k}(void){{{before}{loop}}}\n" for k, (before, loop, _) in enumerate(loops)]
    calls = "".join(f"f{k}();" for k in range(len(loops)))
    text = "enum{ONE=1,FOUR=4};int n;\n" + "".join(functions) + f"int main(void){{{calls}return n;}}\n"
    return name, text, 0, status, "", b"", [("", counts) for _, _, counts in loops] + [("", "")]


# statements of the worked rows

def bytes_of(term):
    """The bytes of `[]`, of `(codes ".." ++ codes "..")`, or of a list in parentheses."""
    term = term.strip()
    if term == "[]":
        return b""
    texts = re.findall(r'codes\s+"((?:[^"\\]|\\.)*)"', term)
    if texts:
        return b"".join(unquoted(text) for text in texts)
    term = term[1:-1] if term.startswith("(") else term
    return bytes(number(x) % 256 for x in term.split("∷")[:-1])


def unquoted(text):
    return text.replace("\\n", "\n").replace('\\"', '"').replace("\\\\", "\\").encode()


def number(text):
    return eval(text.strip().replace("^", "**"), {})


def budgets_of(term):
    found = dict(DEFAULT)
    for name, value in re.findall(r"(\w+) = ([0-9^ ]+)", term):
        found[name] = number(value)
    return found


def accesses_of(term):
    return [f"{'r' if kind == 'reads' else 'w'}{int(address, 16):x}+{size}"
            for kind, address, size in re.findall(r"(reads|writes)\s+(0x[0-9a-f]+)\s+(\d+)", term)]


TERM = r"(\[\]|\((?:[^()\"]|\"(?:[^\"\\]|\\.)*\")*\))"
MEANING = r"meaning\s+program\s+(default_sizes|\(record\s+default_sizes\s+\{[^}]*\}\))\s+(\[\]|\((?:[^()]|\([^()]*\))*\))\s+(\d+)\)"
SEEN = re.compile(r"seen \(" + MEANING + r"\s*≡\s*(exited|stopped|running)\s+" + TERM + r"(?:\s+" + TERM + r")?(?:\s+(\d+))?")
COUNTS = re.compile(r"counts \(" + MEANING + r"\s*≡\s*record\s*\{\s*turns = (\d+);\s*work = (\d+);\s*accesses =([^;}]*)")
FIELD = re.compile(r"(length )?\(" + MEANING + r"\.(shown\.output|shown\.ending|shown\.errors|shown\.accesses|work|turns)\s*≡\s*(.*?)\n(?:unfolding|\w+ = refl)", re.S)


class Stated:
    """What is stated of a text with budgets and an input."""

    def __init__(self):
        self.turns_given, self.ending, self.output, self.report = 0, None, None, b""
        self.turns = self.work = self.accesses = None


def stated_in(text):
    """By budgets, input and, where the run goes on, turns, in the order of the statements."""
    found = {}

    def at(budgets, given, turns, is_running=False):
        key = (tuple(sorted(budgets_of(budgets).items())), bytes_of(given), int(turns) if is_running else None)
        stated = found.setdefault(key, Stated())
        stated.turns_given = max(stated.turns_given, int(turns))
        return stated

    for budgets, given, turns, form, first, second, status in SEEN.findall(text):
        stated = at(budgets, given, turns, form == "running")
        stated.output = bytes_of(first)
        if form == "running":
            stated.ending = "running"
        else:
            stated.ending = int(status)
            stated.report = bytes_of(second) if second else b""
    for budgets, given, turns, begun, work, accesses in COUNTS.findall(text):
        stated = at(budgets, given, turns)
        stated.turns, stated.work, stated.accesses = int(begun), int(work), accesses_of(accesses)
    for length, budgets, given, turns, field, value in FIELD.findall(text):
        put_field(at(budgets, given, turns), length, field.split(".")[-1], value)
    return found


def put_field(stated, length, field, value):
    if length:
        return
    if field == "output":
        stated.output = bytes_of(value)
    elif field == "ending":
        status = re.search(r"Status (\d+)", value)
        if status:
            stated.ending = int(status.group(1))
    elif field == "errors":
        stated.report = bytes_of(value)
    elif field == "accesses":
        stated.accesses = accesses_of(value)
    elif field == "work":
        stated.work = number(value)
    elif field == "turns":
        stated.turns = number(value)


# checks

def is_judged(place):
    if place.form in ("deref", "index", "index_of", "arrow"):
        return True
    inner = [a for a in place.arguments if isinstance(a, trees.Typed)]
    return place.form in ("member", "parenthesized_lvalue") and is_judged(inner[-1])


def accessed(node):
    """How many objects are accessed through pointers in a tree."""
    count = sum(accessed(child) for child in node.children())
    if node.form in ("read", "assign", "compound", "step"):
        place = next(a for a in node.arguments if isinstance(a, trees.Typed))
        if place.kind[0] in ("integer", "pointer", "Structure") and is_judged(place):
            count += 1
    return count


def checks_of(text):
    typer = trees.Typer(trees.Parser(text).file())
    return 2 * sum(accessed(content) for _, contents in typer.functions for content in contents)


# rows

def shown(output):
    return '"' + "".join(chr(b) if 32 <= b < 127 else f"\\x{b:02x}" for b in output) + '"'


def line(when, ending, finder, output, stated):
    words = f"  {when}: {ending}{f' ({finder})' if finder else ''} {shown(output)}"
    if stated.work is not None and stated.turns is not None:
        words += f" {stated.turns} turns, within"
    if stated.accesses is not None:
        words += " " + " ".join([f"{len(stated.accesses)} accesses"] + stated.accesses)
    return words


def table(number, keys, loops):
    return f"  function {number}: keys{keys and ' ' + keys}; loops{loops and ' ' + loops}"


def row(name, text, checks, budgets, given, turns, ending, finder, output, stated, tables=None):
    work = stated.work if stated.work is not None and stated.turns is not None else "-"
    accesses = "accesses" if stated.accesses is not None else "-"
    numbers = " ".join(str(budgets[n]) for n in ("heap", "stack", "calls", "blocks", "keys"))
    head = f"{name} {numbers} {turns} {work} {accesses} {'-' if tables is None else 'tables'} {given.hex()}\n"
    after = "check" if finder == "access" else finder
    told = [f"{name}: {checks} checks, {checks // 2} and {checks // 2}"]
    told += [table(number, *of) for number, of in enumerate(tables or [])]
    told += [line("before", ending, finder, output, stated), line("after", ending, after, output, stated)]
    return head + text, "\n".join(told) + "\n"


def ending_of(stated):
    if stated.ending == "running":
        return "running"
    return f"{stated.ending} {stated.report.decode()}".strip()


def rows_of_proofs():
    for path in sorted(glob.glob(f"{TOP}/crates/source_meaning_rows/proofs/*/*.antt")):
        with open(path) as f:
            proof = f.read()
        name = re.sub(r"(?<!^)(?=[A-Z])", "_", os.path.basename(path)[:-5]).lower()
        source = f"{TOP}/rows/{name}.c"
        if not os.path.exists(source):
            continue
        with open(source) as f:
            text = f.read()
        rows = [(key, s) for key, s in stated_in(proof).items() if s.ending is not None and s.output is not None]
        for place, ((budgets, given, _), stated) in enumerate(rows):
            label = name if len(rows) == 1 else f"{name}_{place + 1}"
            is_wrong = b"spatial" in stated.report or b"temporal" in stated.report
            finder = "" if not is_wrong else "routine" if name in BY_ROUTINE else "access"
            yield row(label, text, checks_of(text), dict(budgets), given, stated.turns_given, ending_of(stated), finder, stated.output, stated)


def all_rows():
    yield from rows_of_proofs()
    for name, text, checks, ending, finder, output in HAND:
        yield row(name, text, checks, DEFAULT, b"", 1000, ending, finder, output, Stated())
    loops = [loops_row("counted_loops", COUNTED, "56"), loops_row("loops_that_are_not_counted", UNCOUNTED, "144")]
    for name, text, checks, ending, finder, output, tables in TABLES + loops:
        yield row(name, text, checks, DEFAULT, b"", 1000, ending, finder, output, Stated(), tables)


def main():
    if sys.argv[1:] != ["make"]:
        sys.exit(__doc__)
    rows = list(all_rows())
    with open(f"{HERE}/stdin", "w") as out:
        out.write("%%\n".join(given for given, _ in rows))
    with open(f"{HERE}/stdout", "w") as out:
        out.write("".join(told for _, told in rows) + "never done: Reserved Skip\n")


if __name__ == "__main__":
    main()
