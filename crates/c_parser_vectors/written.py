"""Rows on levels, faults and trees, with their answers by hand."""

# A text with repeated parts: what stands before them, the part before the middle, the middle, the part behind it, what stands
# behind them, and the greatest number of times that leaves at most 200 levels, by the definition of levels
# (c_syntax/specs/Levels.antt).
#
# The expression of a statement is measured by itself: a constant or a name has no level, each operator and pair of parentheses
# adds one, and so does each of the operators from left to right.
NESTED_EXPRESSIONS = [
    ("int main(void){return ", "(", "0", ")", ";}", 200),
    ("int main(void){if(", "(", "0", ")", ");}", 200),
    ("int main(void){for(;;", "(", "0", ")", ");}", 200),
    ("int main(void){switch(0){case ", "(", "0", ")", ":;}}", 200),
    ("int main(void){return ", "- ", "0", "", ";}", 200),
    ("int main(void){return ", "(int)", "0", "", ";}", 200),
    ("int main(void){return ", "sizeof ", "0", "", ";}", 200),
    ("int main(void){return ", "", "0", "+0", ";}", 200),
    ("int main(void){return ", "", "0", ",0", ";}", 200),
    ("int main(void){return ", "a=", "0", "", ";}", 200),
    ("int main(void){return ", "0?0:", "0", "", ";}", 200),
    ("int main(void){return ", "0?", "0", ":0", ";}", 200),
    ("int main(void){return ", "", "a", "[0]", ";}", 200),
    ("int main(void){return ", "a[", "0", "]", ";}", 200),
    ("int main(void){return ", "f(0,", "0", ")", ";}", 200),
    ("int main(void){return ", "", "a", "->x", ";}", 200),
    ("int main(void){return ", "", "a", "++", ";}", 200),
    # One level is that of the `sizeof`.
    ("int main(void){return sizeof(int", "*", "", "", ");}", 199),
]

# In a declarator each pointer, array, function and pair of parentheses adds one level to what it holds, be it the rest of the
# declarator, a size or parameters; the name has none.
NESTED_DECLARATORS = [
    ("int ", "*", "x", "", ";", 200),
    ("int ", "(", "x", ")", ";", 200),
    ("int x", "", "", "[1]", ";", 200),
    ("int f", "", "", "()", ";", 200),
    # One level is that of the array, or of the outermost function.
    ("int x[", "(", "0", ")", "];", 199),
    ("int f(", "int(", "void", ")", ");", 199),
    ("int f(int ", "*", "x", "", "){}", 199),
]

# Each pair of braces around members or enumerators adds one level; around initializers too.
NESTED_LISTS = [
    ("", "struct{", "int x;", "}x;", "", 200),
    ("", "union{", "int x;", "}x;", "", 200),
    ("int x=", "{", "0", "}", ";", 200),
    # One level is that of the braces.
    ("struct{int ", "*", "x", "", ";}y;", 199),
    ("enum{A=", "(", "0", ")", "};", 199),
    ("int x={", "(", "0", ")", "};", 199),
    ("int x[]={[", "(", "0", ")", "]=0};", 199),
]

# An empty block and a statement without a statement inside have no level. A statement adds one to that inside it, and standing in
# a block adds one.
NESTED_STATEMENTS = [
    # Each of the blocks stands in another one; the innermost is empty.
    ("int main(void){", "{", "", "}", "}", 200),
    # One level is that of the outermost of these statements in its block.
    ("int main(void){", "if(0)", ";", "", "}", 199),
    ("int main(void){", "if(0);else ", ";", "", "}", 199),
    ("int main(void){", "while(0)", ";", "", "}", 199),
    ("int main(void){", "do ", ";", "while(0);", "}", 199),
    ("int main(void){", "for(;;)", ";", "", "}", 199),
    # Three are those of the outermost label in its block, of the switch, and of the switch in its block.
    ("int main(void){switch(0){", "case 0:", ";", "", "}}", 197),
    # Each adds two, one for itself and one in its block.
    ("int main(void){", "switch(0){", "", "}", "}", 100),
    ("int main(void){", "if(0){", "", "}", "}", 100),
]

# Items of a list add no levels, whatever their number.
LISTED = [
    ("int main(void){return f(0", ",0", "", "", ");}", 300),
    ("int main(void){", ";", "", "", "}", 300),
    ("int main(void){", "int x;", "", "", "}", 300),
    ("int main(void){switch(0){", "case 0:;", "", "", "}}", 300),
    ('int main(void){return "a"', '"a"', "", "", ";}", 300),
    ("int x", ",x", "", "", ";", 300),
    ("int f(int", ",int", "", "", ");", 300),
    ("", "const ", "int x;", "", "", 300),
    ("int*", "const ", "x;", "", "", 300),
    ("struct{", "int x;", "", "", "}y;", 300),
    ("enum{A", ",A", "", "", "};", 300),
    ("int x={0", ",0", "", "", "};", 300),
    ("int x={", "[0]", "=0", "", "};", 300),
    ("int x;", "int x;", "", "", "", 300),
]

# The place and the line of a fault: those of the first token with which the tokens so far begin no file, counted from 0 by hand,
# and where a file ends too early those of the end, which stands on the line behind all newlines. A file has at least one function
# definition or declaration (C99 6.9), so the fault of an empty one is its end.
FAULTS = [
    ("", 0, 1),
    ("\n\n", 0, 3),
    ("/* x\n */ // y\n", 0, 3),
    ("int main(void){\n return 0\n}\n", 8, 3),
    ("int main(void){\n", 6, 2),
    ("int main(void){", 6, 1),
    ("int main(void)\n{\n}\n}\n", 7, 4),
    ("T*x;\n", 0, 1),
    ("int y;\nT*x;\n", 3, 2),
    ("int x;\n\n;\n", 3, 3),
    ("int\nx\ny;\n", 2, 3),
    ("int x = (1\n + 2;\n", 7, 2),
    ("struct s {\n};\n", 3, 2),
    ("typedef\nint T;\nint T;\n", 5, 3),
    ("void f(void) {\n ;\n else ;\n}\n", 7, 3),
    # A macro's token has the line of its use.
    ("#define N )\nint x =\n N;\n", 3, 3),
]

# Words of C99 that the subset leaves out, each first told in a text whose grammar fails before it, or behind another of them: the
# text, the word and its line.
UNSUPPORTED = [
    ("float x;", "float", 1),
    ("int y;\n)\ndouble x;", "double", 3),
    ("_Bool b;", "_Bool", 1),
    ("double\n_Complex z;", "double", 1),
    ("int\n_Complex z;", "_Complex", 2),
    ("_Imaginary i;", "_Imaginary", 1),
    ("volatile int x;", "volatile", 1),
    ("int *\nrestrict p;", "restrict", 2),
    ("void f(void) { goto x; }", "goto", 1),
    ("int f(int,\n...);", "...", 2),
    ("int x = L'a';", "L", 1),
]

# What the first of these statements is, where T is a typedef name.
#
# Operators that bind less tightly hold those that bind more tightly; those of one precedence go from left to right, but
# assignments from right to left (C99 6.5.3 to 6.5.17).
OPERATORS = [
    ("a = b, c;", "binary ,"),
    ("a, b = c;", "binary ,"),
    ("a ? b : c, d;", "binary ,"),
    ("a = b += c;", "assignment ="),
    ("a += b = c;", "assignment +="),
    ("a = b ? c : d;", "assignment ="),
    ("a || b ? c : d;", "conditional"),
    ("a ? b = c : d;", "conditional"),
    ("a && b || c;", "binary ||"),
    ("a || b && c;", "binary ||"),
    ("a | b && c;", "binary &&"),
    ("a && b | c;", "binary &&"),
    ("a ^ b | c;", "binary |"),
    ("a | b ^ c;", "binary |"),
    ("a & b ^ c;", "binary ^"),
    ("a ^ b & c;", "binary ^"),
    ("a == b & c;", "binary &"),
    ("a & b == c;", "binary &"),
    ("a < b == c;", "binary =="),
    ("a != b < c;", "binary !="),
    ("a << b < c;", "binary <"),
    ("a >= b >> c;", "binary >="),
    ("a + b << c;", "binary <<"),
    ("a >> b - c;", "binary >>"),
    ("a * b + c;", "binary +"),
    ("a - b * c;", "binary -"),
    ("a - b + c;", "binary +"),
    ("a + b - c;", "binary -"),
    ("a / b * c % d;", "binary %"),
    ("(int)a * b;", "binary *"),
    ("-a / b;", "binary /"),
    ("!a == b;", "binary =="),
    ("a+++b;", "binary +"),
    ("(int)a++;", "cast"),
    ("-(int)a;", "unary -"),
    ("*p++;", "unary *"),
    ("&a.x[0];", "unary &"),
    ("++a->x;", "unary ++"),
    ("a->x++;", "postfix ++"),
    ("a(b)[0];", "subscript"),
    ("a[0](b);", "call"),
    ("a[0].x;", "member"),
]

# Parentheses around a type name begin a cast or belong to `sizeof`; around an expression they do not (C99 6.5.3.4, 6.5.4).
TYPES_BEGIN_CASTS = [
    ("(T)-a;", "cast"),
    ("(a)-b;", "binary -"),
    ("(T)+a;", "cast"),
    ("(a)+b;", "binary +"),
    ("(T)*p;", "cast"),
    ("(a)*b;", "binary *"),
    ("(T)&a;", "cast"),
    ("(a)&b;", "binary &"),
    ("(T)(a);", "cast"),
    ("(g)(a);", "call"),
    ("sizeof(T);", "sizeof type"),
    ("sizeof(a);", "sizeof expression"),
    ("sizeof(a)[0];", "sizeof expression"),
    ("sizeof(T)*p;", "binary *"),
    ("sizeof(T)-1;", "binary -"),
    ("sizeof a*b;", "binary *"),
]

# What begins with a typedef name is a declaration (C99 6.7.7, 6.8.2); an `else` belongs to the nearest `if` that may have it
# (6.8.4.1).
ITEMS = [
    ("T x;", "declaration"),
    ("T*x;", "declaration"),
    ("T(x);", "declaration"),
    ("T(*x)(T);", "declaration"),
    ("a*x;", "binary *"),
    ("a(x);", "call"),
    ("a(*x)(b);", "call"),
    ("if (a) if (b) ; else ;", "if"),
    ("if (a) if (b) ; else ; else ;", "if with else"),
    ("if (a) { if (b) ; } else ;", "if with else"),
    ("if (a) if (b) if (c) ; else ; else ;", "if"),
    ("if (a) if (b) if (c) ; else ; else ; else ;", "if with else"),
    ("if (a) while (b) if (c) ; else ;", "if"),
    ("if (a) for (;;) if (b) ; else ; else ;", "if with else"),
    ("if (a) do if (b) ; while (c); else ;", "if with else"),
    ("if (a) ; else if (b) ;", "if with else"),
]

# The tree that the program makes by hand, of `int x, y;`: each token of the text once, with its number and line. The grammar has
# such a declaration (C99 6.7).
TREE = ["0 line 1 int", "1 line 1 x", "2 line 1 ,", "3 line 1 y", "4 line 1 ;", "well formed"]


def opened(text):
    """How many more brackets the text opens than it closes."""
    return sum(text.count(mark) for mark in "([{") - sum(text.count(mark) for mark in ")]}")


def nested_rows():
    """Texts of 200 levels, and of one too many, of which is said whether over 200 brackets are open where it begins."""
    nests = NESTED_EXPRESSIONS + NESTED_DECLARATORS + NESTED_LISTS + NESTED_STATEMENTS
    for *parts, times in nests + LISTED:
        yield "\n".join([f"%times {times}"] + parts) + "\n", ["accepted"]
    for before, opening, *parts, times in nests:
        is_nested = opened(before) + (times + 1) * opened(opening) > 200
        yield "\n".join([f"%times {times + 1}", before, opening] + parts) + "\n", ["nested" if is_nested else "refused"]


def written():
    """The rows whose answers are written here, each with the lines that it must print."""
    yield from nested_rows()
    for text, at, line in FAULTS:
        yield f"%fault\n{text}", [f"token {at} line {line}"]
    for text, word, line in UNSUPPORTED:
        yield f"%fault\n{text}", [f"{word} line {line}"]
    for text, item in OPERATORS + TYPES_BEGIN_CASTS + ITEMS:
        yield f"%item\n{text}\n", [item]
    yield "%tree\n", TREE
