#!/usr/bin/env python3
"""Writes the worked rows of the typing of files (`crates/typing_rows`), each from a C text and what is expected of it: the
typed program (whether it is valid, its static objects, its functions), or the first violated rule and its line, or what there is
too much of. The trees are made by rows/syntax.py; what is expected was worked out by hand from C99 and docs/LANGUAGE.md.

usage: python3 rows/units.py        writes the rows
       python3 rows/units.py gcc    says where gcc does not accept or refuse a text as the row does
"""

import os
import re
import subprocess
import sys

from syntax import source_of, wrapped

END = "int main(void){return 0;}"
MAIN = "(function {} {} [] [] (number 0 ∷ []) ∷ [])"


def ok(statics, functions, valid=True):
    """An accepted source: its static objects and functions."""
    return f"accepted {'true' if valid else 'false'} {listed(statics)} {listed(functions)}"


def listed(terms):
    return "(" + " ∷ ".join(terms + ["[]"]) + ")" if terms else "[]"


def obj(size, parts=(), function=None):
    """A static object: its bytes, its parts by offset, and the function in whose block it stands."""
    shown = listed([f"({at}, {p if isinstance(p, str) else word(p)})" for at, p in parts])
    return f"({size}, ({'None' if function is None else f'Some {function}'}, {shown}))"


def word(n):
    return f"number {n}"


def data(text):
    return "bytes " + listed([str(b) for b in text])


def fun(line, type_number, parameters=(), variables=(), contents=()):
    """A function: the line of its name, the number of its type, and, each with its bytes and whether it is an object, its
    parameters and variables; then what its block evaluates and initializes."""
    shown = [listed([f"({size}, {'true' if is_object else 'false'})" for size, is_object in vs]) for vs in (parameters, variables)]
    return f"function {line} {type_number} {shown[0]} {shown[1]} {listed([c if isinstance(c, str) else word(c) for c in contents])}"


def no(rule, line):
    return f"refused rule.{rule} {line}"


def static(text, *objects):
    """Static objects before a `main` that gives 0."""
    return text + END, ok(list(objects), [fun(1 + text.count(chr(10)), 0, contents=[0])])


def fault(text, rule, line):
    return text, no(rule, line)


# (name, text and expectation, whether gcc decides as the row does; None where it has no such rule or limit)
ROWS = {
    "Initializers": ("Initializers: elided braces, designators, overriding, literals, counts (C99 6.7.8).", [
        ("elided", static("int a[2][2]={1,2,3};", obj(16, [(0, 1), (4, 2), (8, 3)])), True),
        ("elided_within", static("struct{int a[2];char b;}s[2]={1,2,3,{{4},5}};",
                                 obj(24, [(0, 1), (4, 2), (8, 3), (12, 4), (20, 5)])), True),
        ("designated_twice", static("int a[3]={[2]=7,[0]=1,2,[2]=3};", obj(12, [(0, 1), (4, 2), (8, 3)])), True),
        ("another_member", static("union{int i;char c[2];}u={.i=0x01020304,.c[0]=5};", obj(4, [(0, 5)])), True),
        ("list_overrides", static("struct{int a[4];int b;}s={1,2,3,4,5,.a={9}};", obj(20, [(16, 5), (0, 9)])), True),
        ("first_overrides", static("struct{int a[4];int b;}s={1,2,3,4,5,.a[0]=9};",
                                   obj(20, [(4, 2), (8, 3), (12, 4), (16, 5), (0, 9)])), True),
        ("member_behind", static("struct{char c;struct{short h;int i;}n;int k;}s={.n.i=2,3};", obj(16, [(8, 2), (12, 3)])), True),
        ("literals", static('char s[]="abc";char t[3]="abc";char u[2]={"a"};char*p="x";',
                            obj(4, [(0, data(b"abc\0"))]), obj(3, [(0, data(b"abc"))]), obj(2, [(0, data(b"a\0"))]),
                            obj(8, [(0, "other")]), obj(2, [(0, data(b"x\0"))])), True),
        ("counted", static("int a[]={[3]=1,2};", obj(20, [(12, 1), (16, 2)])), True),
        ("function_designators", ("void f(void){}void(*p)(void)=*f,(*q)(void)=&*(**f),(*r)(void)=(*&f);int main(void){p=q;return 0;}",
                                  ok([obj(8, [(0, "other")]), obj(8, [(0, "other")]), obj(8, [(0, "other")])],
                                     [fun(1, 0), fun(1, 1, contents=["other", 0])])), True),
        ("converted", static("unsigned char c=257;long l=-1;", obj(1, [(0, 1)]), obj(8, [(0, 2**64 - 1)])), True),
        ("braces_of_a_scalar", static("int x={{1}};", obj(4, [(0, 1)])), True),
        ("automatic", ("int main(void){int x={3};int a[]={1,2};int y=x;return a[0]+y;}",
                       ok([], [fun(1, 0, [], [(4, False), (8, True), (4, False)], [3, 1, 2, "other", "other"])])), True),
        ("whole_structure", ("struct P{int a,b;};struct Q{struct P p;int c;};int main(void){struct P p={1,2};struct Q q={p,3};"
                             "return q.c;}",
                             ok([], [fun(1, 0, [], [(8, True), (12, True)], [1, 2, "other", 3, "other"])])), True),
    ]),
    "InitializerFaults": ("Initializers that violate a rule (C99 6.7.8).", [
        ("too_many", fault("int a[1]={\n1,2};", "MisplacedItem", 1), True),
        ("too_many_and_undeclared", fault("int a[1]={1,2,\ny};", "Undeclared", 2), True),
        ("too_many_and_designator", fault("int a[1]={1,2,\n[5]=3};", "MisplacedItem", 2), True),
        ("designator_of_a_scalar", fault("int a[2]={1,{\n[5]=2}};", "MisplacedItem", 2), True),
        ("designator_past_the_end", fault("int a[2]={\n[2]=1};", "MisplacedItem", 2), True),
        ("no_such_member", fault("struct{int a;}s={\n.b=1};", "MisplacedItem", 2), True),
        ("no_constant_index", fault("int n;int a[2]={\n[n]=1};", "MisplacedItem", 2), True),
        ("literal_too_long", fault('char a[2]=\n"abc";', "MisplacedItem", 2), True),
        ("literal_in_two_braces", fault('char a[3]={{\n"ab"}};', "NoConversion", 2), True),
        ("literal_in_parentheses", fault('char a[]=\n("ab");', "NoConversion", 2), True),
        ("array_without_braces", fault("int a[2]=\n1;", "NoConversion", 2), True),
        ("no_conversion", fault("int*p;struct{int a;int b;}s={1,\np};", "NoConversion", 2), True),
        ("function_of_an_object", ("void f(void){}void(*p)(void)=f;\nvoid(*q)(void)=\n*p;" + END, "inconstant 3"), True),
        ("own_size", fault("int a[]={\nsizeof a};", "Incomplete", 2), True),
        ("too_large", fault("int a[]={\n[4294967295]=1};", "LargeType", 1), None),
        ("size_of_another_block", fault("void f(void){extern int a[3];}\nint a[]={1,2};" + END, "Redeclared", 2), None),
    ]),
    "Declarations": ("Declarations: linkage, tentative definitions, storage classes, tags, functions (C99 6.7, 6.9).", [
        ("size_of_the_visible", static("extern int a[3];int a[]={1,2};", obj(12, [(0, 1), (4, 2)])), True),
        ("tentative", ("int x;int x=3;int x;int main(void){return x;}",
                       ok([obj(4, [(0, 3)])], [fun(1, 0, contents=["other"])])), True),
        ("one_element", static("int a[];", obj(4)), True),
        ("completed_later", static("struct S s;struct S{int a;int b;};", obj(8)), True),
        ("typedefs", static("typedef int T;typedef T U[2];T x=2;U a={1};", obj(4, [(0, 2)]), obj(8, [(0, 1)])), True),
        ("prototype", ("int f(int);int f(int x){return x;}int main(void){return f(1);}",
                       ok([], [fun(1, 0, [(4, False)], [], ["other"]), fun(1, 1, contents=["other"])])), True),
        ("of_one_type", ("int f(void){static int n=5;return n++;}\nint main(void){return f();}",
                         ok([obj(4, [(0, 5)], 0)], [fun(1, 0, contents=["other"]), fun(2, 0, contents=["other"])])), True),
        ("extern_in_a_block", ("int f(void){extern int x;return x;}int x=2;int main(void){return f();}",
                               ok([obj(4, [(0, 2)])], [fun(1, 0, contents=["other"]), fun(1, 0, contents=["other"])])), True),
        ("in_order", ('char*p(void){static int k;return "ab";}int z;int main(void){return*p();}',
                      ok([obj(4, [], 0), obj(3, [(0, data(b"ab\0"))], 0), obj(4)],
                         [fun(1, 0, contents=["other"]), fun(1, 1, contents=["other"])])), True),
        ("address_taken", ("int f(int a,int b){return*&b;}int main(void){int x=1;int*p=&x;return*p;}",
                           ok([], [fun(1, 0, [(4, False), (4, True)], [], ["other"]),
                                   fun(1, 1, [], [(4, True), (8, False)], [1, "other", "other"])])), True),
        ("address_not_evaluated", ("int main(void){int x=1;return sizeof&x;}",
                                   ok([], [fun(1, 0, [], [(4, False)], [1, 8])])), True),
        ("inner_block", ("int main(void){int x=1;{int x=2;x=3;}return x;}",
                         ok([], [fun(1, 0, [], [(4, False), (4, False)], [1, 2, "other", "other"])])), True),
        ("through_a_pointer", ("int g(int a){return a;}int main(void){int(*p)(int)=g;return p(2);}",
                               ok([], [fun(1, 0, [(4, False)], [], ["other"]), fun(1, 1, [], [(8, False)], ["other", "other"])])),
         True),
        ("tag_of_a_parameter", ("int f(struct T{int a;}*p){struct T t;t.a=1;return t.a;}" + END,
                                ok([], [fun(1, 0, [(8, False)], [(4, True)], ["other", "other"]), fun(1, 1, contents=[0])])), True),
        ("enumerators", ("int main(void){enum{A,B=5,C};return C;}", ok([], [fun(1, 0, contents=[6])])), True),
        ("named_before_its_size", ("int a[];int f(void){return*a;}int a[3];" + END,
                                   ok([obj(12)], [fun(1, 0, contents=["other"]), fun(1, 0, contents=[0])])), True),
        ("named_before_its_members", ("struct S s;struct S*f(void){return&s;}struct S{int a;};" + END,
                                      ok([obj(4)], [fun(1, 0, contents=["other"]), fun(1, 1, contents=[0])])), True),
        ("named_in_its_initializer", ("int main(void){int a[]={(int)(long)a};return a[0];}",
                                      ok([], [fun(1, 0, [], [(4, True)], ["other", "other"])])), True),
        ("of_the_library", ("int main(void){putchar(65);return 0;}", ok([], [fun(1, 0, contents=["other", 0])])), None),
        ("library_declared", ("int putchar(int);int main(void){return putchar(65);}", ok([], [fun(1, 0, contents=["other"])])), True),
    ]),
    "DeclarationFaults": ("Declarations that violate a rule (C99 6.7, 6.9).", [
        ("static_of_unknown_size", fault("static int a[];" + END, "Incomplete", 1), True),
        ("not_yet_complete", fault("struct S s;int n=\nsizeof s;struct S{int a;};" + END, "Incomplete", 2), True),
        ("never_complete", fault("struct S s;" + END, "Incomplete", 1), True),
        ("read_before_its_members", fault("struct S s;int f(void){\ns;return 0;}struct S{int a;};" + END, "Incomplete", 2), True),
        ("written_before_its_members", fault("extern struct S s;int n=(s\n=*(struct S{int a;}*)0,1);struct S s;" + END, "Incomplete", 2), True),
        ("of_void", fault("int main(void){void\nx;return 0;}", "Incomplete", 2), True),
        ("other_type", fault("int x;\nchar x;" + END, "Redeclared", 2), True),
        ("other_qualifier", fault("const int x;\nint x;" + END, "Redeclared", 2), True),
        ("defined_twice", fault("int f(void){return 0;}\nint f(void){return 0;}" + END, "Redeclared", 2), True),
        ("library_defined", fault("int\nputchar(int c){return c;}" + END, "Redeclared", 2), None),
        ("parameters_of_one_name", fault("int f(int x,\nint x){return x;}" + END, "Redeclared", 2), True),
        ("local_and_extern", fault("int x;int main(void){int x;\nextern int x;return 0;}", "Redeclared", 2), True),
        ("parameter_and_local", fault("int f(int x){\nint x;return x;}" + END, "Redeclared", 2), True),
        ("types_of_an_entity", fault("void f(void){extern char x;}\nint x;" + END, "Redeclared", 2), True),
        ("tag_of_another_kind", fault("struct S{int a;};\nunion S*p;" + END, "MistakenTag", 2), True),
        ("result_is_an_array", fault("int f(void)[2];" + END, "MisplacedFunction", 1), True),
        ("result_is_incomplete", fault("struct S;\nstruct S f(void){}" + END, "Incomplete", 2), True),
        ("parameter_is_incomplete", fault("struct S;int f(struct S s){return 0;}" + END, "Incomplete", 1), True),
        ("no_size", fault("int n;int a[\nn];" + END, "NoConstant", 1), True),
        ("large_array", fault("char a[4294967297];" + END, "LargeType", 1), None),
        ("auto_in_a_file", fault("auto\nint x;" + END, "MisplacedStorage", 1), True),
        ("two_storages", fault("static extern\nint x;" + END, "MisplacedStorage", 1), True),
        ("extern_undefined", fault("extern int\nx;" + END, "MisplacedStorage", 2), None),
        ("extern_with_initializer", fault("int x;int main(void){extern int x=\n1;return 0;}", "MisplacedStorage", 2), True),
        ("typedef_with_initializer", fault("typedef int T=\n1;" + END, "MisplacedStorage", 2), True),
        ("static_function_in_a_block", fault("int main(void){\nstatic\nint g(void);return 0;}", "MisplacedStorage", 2), True),
        ("typedef_of_a_definition", fault("typedef\nint f(void){return 0;}" + END, "MisplacedStorage", 1), True),
        ("static_in_a_for", fault("int main(void){for(\nstatic int i=0;;);}", "MisplacedStorage", 2), True),
        ("function_in_a_for", fault("int main(void){for(\nint f(void);;);}", "MisplacedStorage", 2), True),
    ]),
    "Statements": ("Statements: conditions, loops, switches, jumps (C99 6.8).", [
        ("loops", ("int main(void){int n=0;for(int i=0;i<3;i++){if(i==1)continue;n+=i;}while(n)n--;do n++;while(n<2);return n;}",
                   ok([], [fun(1, 0, [], [(4, False), (4, False)],
                               [0, 0, "other", "other", "other", "other", "other", "other", "other", "other", "other"])])), True),
        ("labels", ("int main(void){int x=2;switch(x){case 1:case 2:x=5;break;default:{int y=7;x=y;}}return x;}",
                    ok([], [fun(1, 0, [], [(4, False), (4, False)], [2, "other", "other", 7, "other", "other"])])), True),
        ("jumps_of_a_switch", ("int main(void){int x=2;while(x){switch(x){case 1:continue;case 3:break;}x--;}return x;}",
                               ok([], [fun(1, 0, [], [(4, False)], [2, "other", "other", "other", "other"])])), True),
        ("results", ("void f(void){return;}char g(void){return 300;}int main(void){f();return g();}",
                     ok([], [fun(1, 0), fun(1, 1, contents=[44]), fun(1, 2, contents=["other", "other"])])), True),
        ("tags_of_a_branch", fault("int main(void){if(sizeof(enum{A})){}return\nA;}", "Undeclared", 2), True),
        ("tags_of_a_body", fault("int main(void){do{int x;}while(\nx);return 0;}", "Undeclared", 2), True),
        ("condition_of_a_structure", fault("struct S{int a;}s;int main(void){\nif(\ns)return 1;return 0;}", "NoCondition", 2), True),
        ("void_condition", fault("void f(void){}int main(void){\nwhile(\nf());return 0;}", "NoCondition", 2), True),
        ("do_before_its_body", fault("struct S{int a;}s;int main(void){\ndo\ny=1;while(\ns);return 0;}", "NoCondition", 2), True),
        ("body_before_the_condition", fault("int main(void){do\ny=1;while(\nz);return 0;}", "Undeclared", 2), True),
        ("body_alone", fault("int main(void){int x=1;do\ny=1;while(\nx);return 0;}", "Undeclared", 2), True),
        ("condition_alone", fault("int main(void){do{}\nwhile(z);return 0;}", "Undeclared", 2), True),
        ("do_before_a_break", fault("struct S{int a;}s;int main(void){\ndo{break;\ncase 1:;}while(\ns);return 0;}", "NoCondition", 2),
         True),
        ("nested_do", fault("struct S{int a;}s;int main(void){\ndo\ndo y=1;while(s);while(1);return 0;}", "NoCondition", 3), True),
        ("for_before_its_body", fault("struct S{int a;}s;int main(void){\nfor(;\ns;)\ny=1;return 0;}", "NoCondition", 2), True),
        ("step_before_for", fault("struct S{int a;}s;int main(void){for(;s;\ny);return 0;}", "Undeclared", 2), True),
        ("declaration_before_for", fault("struct S{int a;}s;int main(void){for(int i=\ny;s;);return 0;}", "Undeclared", 2), True),
        ("for_is_a_scope", fault("int main(void){for(int i=0;i<1;i++);return\ni;}", "Undeclared", 2), True),
        ("body_of_for_is_a_scope", ("int main(void){for(int i=0;i<1;i++){int i=2;i++;}return 0;}",
                                    ok([], [fun(1, 0, [], [(4, False), (4, False)], [0, "other", "other", 2, "other", 0])])), True),
        ("switch_of_a_pointer", fault("int main(void){int*p=0;\nswitch(p){}return 0;}", "NoCondition", 2), True),
        ("equal_labels", fault("int main(void){int x=0;switch(x){case 1:;\ncase 2-1:;}return 0;}", "MisplacedLabel", 2), True),
        ("equal_once_converted", fault("int main(void){int x=0;switch(x){case 0:;\ncase 4294967296:;}return 0;}", "MisplacedLabel", 2),
         True),
        ("different_in_long", ("int main(void){long x=0;switch(x){case 0:;case 4294967296:;}return 0;}",
                               ok([], [fun(1, 0, [], [(8, False)], [0, "other", 0])])), True),
        ("two_defaults", fault("int main(void){int x=0;switch(x){default:;\ndefault:;}return 0;}", "MisplacedLabel", 2), True),
        ("label_in_an_inner_block", fault("int main(void){int x=0;switch(x){{\ncase 1:;}}return 0;}", "MisplacedLabel", 2), None),
        ("label_in_a_branch", fault("int main(void){int x=0;switch(x){case 1:if(x)\ncase 2:;}return 0;}", "MisplacedLabel", 2), None),
        ("label_outside", fault("int main(void){\ncase 1:;return 0;}", "MisplacedLabel", 2), True),
        ("label_no_constant", fault("int main(void){int x=0;switch(x){\ncase\nx:;}return 0;}", "NoConstant", 2), True),
        ("label_of_two_rules", fault("int main(void){int x=0;\ncase x:;return 0;}", "NoConstant", 2), True),
        ("label_undeclared", fault("int main(void){case\ny:;return 0;}", "Undeclared", 2), True),
        ("break_outside", fault("int main(void){\nbreak;}", "MisplacedLabel", 2), True),
        ("continue_in_a_switch", fault("int main(void){switch(1){case 1:\ncontinue;}return 0;}", "MisplacedLabel", 2), True),
        ("value_of_void", fault("void f(void){\nreturn\n1;}" + END, "MistakenReturn", 2), True),
        ("no_value", fault("int f(void){\nreturn;}" + END, "MistakenReturn", 2), True),
        ("no_result", fault("int*f(void){\nreturn\n1;}" + END, "NoConversion", 2), True),
    ]),
    "Orders": ("The order of the rules: pairs of violations, the end of the file, and limits.", [
        ("first_of_two", fault("int x=\ny;\nint z=w;" + END, "Undeclared", 2), True),
        ("name_before_initializer", fault("int x;char\nx=\ny;" + END, "Redeclared", 2), True),
        ("size_before_name", fault("int x;char\nx[\ny];" + END, "Undeclared", 3), True),
        ("specifiers_before_name", fault("int x;\nauto\nchar x;" + END, "MisplacedStorage", 2), True),
        ("lowest_at_a_name", fault("int x;\nvoid x;" + END, "Redeclared", 2), True),
        ("array_of_functions", fault("struct S;\nstruct S\nx[2](void);" + END, "MisplacedFunction", 3), True),
        ("body_before_the_next", fault("int f(void){return\ny;}\nint f(void){return 0;}" + END, "Undeclared", 2), True),
        ("declarator_before_body", fault("int f(void){return 0;}\nchar f(void){return\ny;}" + END, "Redeclared", 2), True),
        ("initializer_before_the_next", fault("int a[1]={1,\n2},b[\ny];", "MisplacedItem", 1), True),
        ("no_main", fault("int f(void){return 0;}\n", "NoMain", 2), None),
        ("main_of_another_type", fault("void main(void){}\n", "NoMain", 2), True),
        ("main_only_declared", fault("int main(void);\n", "NoMain", 2), None),
        ("main_before_uses", fault("int f(void);int g(void){return f();}\n", "NoMain", 2), None),
        ("first_use", fault("int f(void);int g(void);int main(void){return\ng()+\nf();}", "UndefinedFunction", 2), None),
        ("use_in_an_initializer", fault("int f(void);int(*p)(void)=\nf;" + END, "UndefinedFunction", 2), None),
        ("not_evaluated", ("int f(void);int main(void){return sizeof f();}", ok([], [fun(1, 0, contents=[4])])), True),
        ("globals", ("char a[4194305];" + END, "large limited.Globals 4198400"), None),
        ("globals_that_fit", static("char a[4194304];", obj(4194304)), True),
        ("rounded", ("char a[4194289];char b;" + END, "large limited.Globals 4198400"), None),
        ("not_constant_first", ("char a[4194305];int f(void){return 1;}int x=f();" + END,
                                "inconstant 1"), None),
        ("parameters", ("int f(" + ",".join(["int"] * 128) + ");" + END, "large limited.Parameters 128"), None),
        ("parameters_before_globals", ("char a[4194305];int f(" + ",".join(["int"] * 129) + ");" + END, "large limited.Parameters 129"),
         None),
    ]),
}

IMPORTS = """use Rattle.std.proofs.Common.{◌≡◌, true, false, [], ◌∷◌, Some, None, refl}
use Rattle.std.specs.Prelude.{codes}
use Rattle.c_lexer.specs.declared.keyword.Keyword.TheVariants as keyword
use Rattle.c_lexer.specs.declared.punctuator.Punctuator.TheVariants as sign
use Rattle.c_syntax.specs.Statements as s
use Rattle.c_syntax.specs.Tree as t
use Rattle.c_faults.specs.declared.fault.Rule.TheVariants as rule
use Rattle.c_unit_typing.specs.declared.limits.Limited.TheVariants as limited
use Rattle.obj_memory.specs.Integers.{balanced_type, common_type, fit, is_signed, mixed_type, promoted, rank, size_of}
use Rattle.obj_memory.specs.Integers.{unsigned_of}
use Rattle.obj_memory.specs.Operators.{binary_value, shift_amount, unary_value}
use Rattle.c_lexer.specs.Constants.{constant_in, constant_of, greatest_of, suffix_of, typed, types_of}
use Rattle.c_lexer.specs.Literals.{bytes_of_literal, character_value, characters_of, escaped, literal_step, next_character}
use Rattle.c_tree.specs.Extents.{extent_of}
use Rattle.c_tree.specs.Layout.{array_size, member_offsets, structure_of, union_of}
use Rattle.c_tree.specs.Room.{room}
use Rattle.c_tree.specs.ValidProgram.{is_valid_program}
use Rattle.c_const.specs.Initializers.{first_not_constant}
use Rattle.c_const.specs.Integers.{constant_word}
use Rattle.c_rules.specs.Binary.{binary}
use Rattle.c_rules.specs.Conversions.{assigned, cast}
use Rattle.c_rules.specs.Rows.{row_of}
use Rattle.c_rules.specs.Unary.{comma, combined, unary}
use Rattle.c_place_rules.specs.Places.{dereferenced, indexed, size_of as size_of_words}
use Rattle.c_assignment_rules.specs.Assignments.{assignment, compound, stepped}
use Rattle.c_condition_rules.specs.Conditions.{condition, conditional, switch_value}
use Rattle.c_call_rules.specs.Calls.{called, called_through}
use Rattle.c_tree.specs.Routines.{routine_words}
use Rattle.c_scope.specs.Composite.{composite}
use Rattle.c_scope.specs.Declaring.{judged}
use Rattle.c_scope.specs.Start.{start}
use Rattle.c_current_object.specs.CurrentObject.{reached, reached_by, reached_in}
use Rattle.c_current_object.specs.Subobjects.{element_number, member_number, number_behind, part}
use Rattle.c_initializer_rules.specs.Initializing.{closed, opened, with_literal, with_value}
use Rattle.c_initializer_rules.specs.Placed.{without}
use Rattle.c_unit_typing.specs.Typed.{typed_unit}
use Rattle.typing_rows.proofs.Units.Sources.{accepted, at, bytes, declaration, declarators, designation, function, init_declarator}
use Rattle.typing_rows.proofs.Units.Sources.{inconstant, large, number, other, refused, source, spelled, word}
"""
OPAQUE = """balanced_type common_type fit is_signed mixed_type promoted rank size_of unsigned_of binary_value shift_amount unary_value
constant_in constant_of greatest_of suffix_of typed types_of bytes_of_literal character_value characters_of escaped literal_step
next_character extent_of array_size member_offsets structure_of union_of room is_valid_program constant_word binary assigned cast
row_of comma combined unary dereferenced indexed size_of_words assignment compound stepped condition conditional switch_value called
called_through routine_words composite judged start reached reached_by reached_in element_number member_number number_behind part closed opened
with_literal with_value without first_not_constant typed_unit"""


def used(imports, body):
    """The imports of which the body uses a name."""
    words, out = set(re.findall(r"\w+|[≡∷]", body)), []
    for line in imports.strip().split("\n"):
        if "{" not in line:
            out.append(line if line.split(" as ")[1] in words else None)
            continue
        path, names = line[:-1].split("{")
        kept = [n for n in names.split(", ") if n.split(" as ")[-1].strip("◌[]") in words or n == "[]"]
        out.append(f"{path}{{{', '.join(kept)}}}" if kept else None)
    return "\n".join(line for line in out if line) + "\n"


def rows_of(subject):
    about, rows = ROWS[subject]
    out = [f"-- {about}"]
    compared = [name for name, _, gcc in rows if gcc]
    others = ", ".join(n for n, _, g in rows if not g)
    told = ("accepts or refuses the texts of all rows but of these as they do, which have a rule or limit that gcc has not: " + others
            if others else "accepts the texts of all rows, as they do")
    out.append(wrapped(f"-- gcc 12.2.0 (-std=c99 -pedantic-errors -fsyntax-only) {told}.", 0).replace("\n", "\n-- "))
    body = []
    for name, (text, expected), _ in rows:
        shown = text if len(text) < 400 else text[:100] + " .. " + text[-60:]
        comment = "\n-- ".join(wrapped(line, 0, 114) for line in shown.split("\n"))
        comment = "\n".join(line if line.startswith("--") else "-- " + line for line in ("-- " + comment).split("\n"))
        body.append(f"{comment}\n{name} :\n{wrapped(source_of(text), 4)}\n{wrapped('≡ ' + expected, 4)}\n"
                    f"{wrapped('unfolding ' + OPAQUE.replace(chr(10), ' '), 0).replace(chr(10), chr(10) + '    ')}\n{name} = refl\n")
    return "\n".join(out) + "\n" + used(IMPORTS, "\n".join(body)) + "\n" + "\n".join(body)


def compare():
    for subject, (_, rows) in ROWS.items():
        for name, (text, expected), same in rows:
            done = subprocess.run(["gcc", "-std=c99", "-pedantic-errors", "-fsyntax-only", "-funsigned-char", "-x", "c", "-"], input=text,
                                  text=True, capture_output=True)
            agrees = (done.returncode == 0) == (not expected.startswith(("refused", "inconstant", "large")))
            if agrees != bool(same):
                print(subject, name, "gcc", "accepts" if done.returncode == 0 else done.stderr.strip().split("\n")[0])


if __name__ == "__main__":
    if sys.argv[1:] == ["gcc"]:
        compare()
    else:
        here = os.path.join(os.path.dirname(os.path.abspath(__file__)), "..", "crates", "typing_rows", "proofs", "Units")
        for subject in ROWS:
            with open(os.path.join(here, subject + ".antt"), "w", encoding="utf-8") as out:
                out.write(rows_of(subject))
