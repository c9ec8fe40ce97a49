#!/usr/bin/env python3
"""Prints the syntax tree of a C text (C99 6.5 to 6.9), as the worked rows of crates/typing_rows have it: the terms of
crates/c_syntax/specs, with the line of each token, by the short words of crates/typing_rows/proofs/Units/Sources.antt. The parser takes the
grammar of docs/LANGUAGE.md and judges nothing.

usage: python3 rows/syntax.py FILE.c
"""

import sys

from trees import LEVELS, ASSIGNMENTS, tokens_of

SIGNS = {
    "&": "Ampersand", "*": "Star", "++": "Increment", "--": "Decrement", "+": "Plus", "-": "Minus", "~": "Tilde", "!": "Exclamation",
    ",": "Comma", "&&": "And", "||": "Or", "/": "Slash", "%": "Percent", "<<": "ShiftLeft", ">>": "ShiftRight", "<": "Less",
    ">": "Greater", "<=": "LessOrEqual", ">=": "GreaterOrEqual", "==": "Equal", "!=": "NotEqual", "^": "Caret", "|": "Bar",
    "=": "Assign", "*=": "MultiplyAssign", "/=": "DivideAssign", "%=": "RemainderAssign", "+=": "AddAssign", "-=": "SubtractAssign",
    "<<=": "ShiftLeftAssign", ">>=": "ShiftRightAssign", "&=": "AndAssign", "^=": "XorAssign", "|=": "OrAssign", ".": "Dot", "->": "Arrow"}
STORAGE = {"typedef", "extern", "static", "auto", "register", "inline", "const"}
TYPES = {"void", "char", "short", "int", "long", "signed", "unsigned"}
UNARY = {"&", "*", "+", "-", "~", "!", "++", "--"}


def text(bytes_of):
    return '(codes "' + bytes_of.replace("\\", "\\\\").replace('"', '\\"') + '")'


class Parser:
    """Reads a text; each method gives the term of what it read."""

    def __init__(self, source):
        self.tokens, self.place, self.types = tokens_of(source), 0, {"size_t"}

    @property
    def word(self):
        return self.tokens[self.place].text

    @property
    def kind(self):
        return self.tokens[self.place].kind

    def take(self, word=None):
        token = self.tokens[self.place]
        assert word is None or token.text == word, f"line {token.line}: {token.text} and not {word}"
        self.place += 1
        return token

    def at(self, word=None):
        return f"(at {self.take(word).line})"

    def spelled(self):
        token = self.take()
        return f"(spelled {text(token.text)} {token.line})"

    # expressions (6.5)

    def primary(self):
        if self.word == "(":
            return f"(t.parenthesized {self.at()} {self.expression()} {self.at(')')})"
        form = {"number": "t.integer", "char": "t.character", "string": "t.strings", "name": "t.identifier"}[self.kind]
        first = self.spelled()
        if form == "t.strings":
            more = []
            while self.kind == "string":
                more.append(self.spelled())
            return f"({form} {first} {listed(more)})"
        return f"({form} {first})"

    def postfix(self):
        e = self.primary()
        while self.word in ("[", "(", ".", "->", "++", "--"):
            w = self.word
            if w == "[":
                e = f"(t.subscript {e} {self.at()} {self.expression()} {self.at(']')})"
            elif w == "(":
                e = f"(t.call {e} {self.at()} {self.arguments()} {self.at(')')})"
            elif w in (".", "->"):
                e = f"(t.member {e} sign.{SIGNS[w]} {self.at()} {self.spelled()})"
            else:
                e = f"(t.postfix {e} sign.{SIGNS[w]} {self.at()})"
        return e

    def arguments(self):
        if self.word == ")":
            return "t.no_arguments"
        first, more = self.assignment(), "t.end_of_arguments"
        rest = []
        while self.word == ",":
            rest.append((self.at(), self.assignment()))
        for comma, e in reversed(rest):
            more = f"(t.more_arguments {comma} {e} {more})"
        return f"(t.arguments {first} {more})"

    def begins_type(self, k=0):
        token = self.tokens[self.place + k]
        return token.text in STORAGE | TYPES | {"struct", "union", "enum"} or token.text in self.types

    def type_name(self):
        return f"(t.typed {self.specifiers()} {self.declarator()})"

    def unary(self):
        w = self.word
        if w == "sizeof":
            at = self.at()
            if self.word == "(" and self.begins_type(1):
                return f"(t.sizeof_type {at} {self.at()} {self.type_name()} {self.at(')')})"
            return f"(t.sizeof_expression {at} {self.unary()})"
        if w in UNARY:
            return f"(t.unary sign.{SIGNS[w]} {self.at()} {self.unary()})"
        if w == "(" and self.begins_type(1):
            return f"(t.cast {self.at()} {self.type_name()} {self.at(')')} {self.unary()})"
        return self.postfix()

    def binary(self, level):
        if level == len(LEVELS):
            return self.unary()
        e = self.binary(level + 1)
        while self.word in LEVELS[level]:
            e = f"(t.binary {e} sign.{SIGNS[self.word]} {self.at()} {self.binary(level + 1)})"
        return e

    def conditional(self):
        c = self.binary(0)
        if self.word != "?":
            return c
        return f"(t.conditional {c} {self.at()} {self.expression()} {self.at(':')} {self.conditional()})"

    def assignment(self):
        e = self.conditional()
        if self.word in ASSIGNMENTS:
            return f"(t.assignment {e} sign.{SIGNS[self.word]} {self.at()} {self.assignment()})"
        return e

    def expression(self):
        e = self.assignment()
        while self.word == ",":
            e = f"(t.binary {e} sign.Comma {self.at()} {self.assignment()})"
        return e

    # declarations (6.7)

    def specifiers(self):
        found, has_type = [], False
        self.is_typedef = False
        while self.begins_type() and not (has_type and self.word in self.types):
            found.append(self.specifier())
            has_type = has_type or not found[-1].startswith("(word ") or found[-1].split()[1].removeprefix("keyword.").lower() in TYPES
        typedef = any("keyword.Typedef" in f for f in found if f.startswith("(word "))
        self.is_typedef = typedef
        term = "t.no_specifiers"
        for f in reversed(found):
            term = f"(t.specifiers {f} {term})"
        return term

    def specifier(self):
        w = self.word
        if w in STORAGE | TYPES:
            return f"(word keyword.{w.capitalize()} {self.take().line})"
        if w in self.types:
            return f"(t.typedef_name {self.spelled()})"
        if w == "enum":
            return self.enumeration()
        line = self.at()
        tag = self.spelled() if self.kind == "name" else None
        if self.word != "{":
            return f"(t.structure keyword.{w.capitalize()} {line} {tag})"
        left, members = self.at(), []
        while self.word != "}":
            members.append(self.member())
        term = "t.no_members"
        for m in reversed(members):
            term = f"(t.members {m} {term})"
        return f"(t.structure_body keyword.{w.capitalize()} {line} {optional(tag)} {left} {term} {self.at()})"

    def member(self):
        specs, first, rest, more = self.specifiers(), self.declarator(), [], "t.end_of_declarators"
        while self.word == ",":
            rest.append((self.at(), self.declarator()))
        for comma, d in reversed(rest):
            more = f"(t.more_declarators {comma} {d} {more})"
        return f"(t.member_declaration {specs} {first} {more} {self.at(';')})"

    def enumerator(self):
        x = self.spelled()
        return f"(t.valued {x} {self.at()} {self.conditional()})" if self.word == "=" else f"(t.plain {x})"

    def enumeration(self):
        at = self.at()
        tag = self.spelled() if self.kind == "name" else None
        if self.word != "{":
            return f"(t.enumeration {at} {tag})"
        left, first, rest, last, more = self.at(), self.enumerator(), [], None, "t.end_of_enumerators"
        while self.word == ",":
            comma = self.at()
            if self.word == "}":
                last = comma
            else:
                rest.append((comma, self.enumerator()))
        for comma, e in reversed(rest):
            more = f"(t.more_enumerators {comma} {e} {more})"
        return f"(t.enumeration_body {at} {optional(tag)} {left} {first} {more} {optional(last)} {self.at('}')})"

    def declarator(self):
        if self.word == "*":
            at, words = self.at(), []
            while self.word == "const":
                words.append(self.at())
            return f"(t.pointer {at} {listed(words)} {self.declarator()})"
        if self.word == "(" and not self.begins_type(1) and self.tokens[self.place + 1].text != ")":
            d = f"(t.grouped {self.at()} {self.declarator()} {self.at(')')})"
        elif self.kind == "name" and self.word not in STORAGE:
            self.declared = self.word
            d = f"(t.named {self.spelled()})"
        else:
            d = "t.unnamed"
        while self.word in ("[", "("):
            if self.word == "[":
                left = self.at()
                d = f"(t.open_array {d} {left} {self.at()})" if self.word == "]" else \
                    f"(t.array {d} {left} {self.conditional()} {self.at(']')})"
            else:
                declared = getattr(self, "declared", None)
                d = f"(t.function {d} {self.at()} {self.parameters()} {self.at(')')})"
                self.declared = declared
        return d

    def parameters(self):
        if self.word == ")":
            return "t.no_parameters"
        if self.word == "void" and self.tokens[self.place + 1].text == ")":
            return f"(t.void_parameters {self.at()})"
        first, rest, more = self.type_name(), [], "t.end_of_parameters"
        while self.word == ",":
            rest.append((self.at(), self.type_name()))
        for comma, x in reversed(rest):
            more = f"(t.more_parameters {comma} {x} {more})"
        return f"(t.parameters {first} {more})"

    def initializer(self):
        if self.word != "{":
            return f"(t.value {self.assignment()})"
        left, first, rest, last, more = self.at(), self.item(), [], None, "t.end_of_items"
        while self.word == ",":
            comma = self.at()
            if self.word == "}":
                last = comma
            else:
                rest.append((comma, self.item()))
        for comma, x in reversed(rest):
            more = f"(t.more_items {comma} {x} {more})"
        return f"(t.braced {left} {first} {more} {optional(last)} {self.at('}')})"

    def item(self):
        designators = []
        while self.word in ("[", "."):
            designators.append(f"(t.element {self.at()} {self.conditional()} {self.at(']')})" if self.word == "[" else
                               f"(t.member_named {self.at()} {self.spelled()})")
        if not designators:
            return f"(t.item None {self.initializer()})"
        equals = self.at("=")
        return f"(t.item (Some (designation {listed(designators)} {equals})) {self.initializer()})"

    def init_declarator(self):
        d, x = self.declarator(), "None"
        if self.is_typedef_here:
            self.types.add(self.declared)
        if self.word == "=":
            x = f"(Some ({self.at()}, {self.initializer()}))"
        return f"(init_declarator {d} {x})"

    def declaration(self, specs=None, first=None):
        specs = specs or self.specifiers()
        self.is_typedef_here = self.is_typedef
        if self.word == ";" and first is None:
            return f"(declaration {specs} None {self.at()})"
        first, rest = first or self.init_declarator(), []
        while self.word == ",":
            rest.append(f"({self.at()}, {self.init_declarator()})")
        return f"(declaration {specs} (Some (declarators {first} {listed(rest)})) {self.at(';')})"

    # statements (6.8)

    def block(self):
        left, items, term = self.at("{"), [], "s.no_items"
        while self.word != "}":
            items.append(f"(s.local {self.declaration()})" if self.begins_type() else f"(s.inner {self.statement()})")
        for x in reversed(items):
            term = f"(s.items {x} {term})"
        return f"(s.block {left} {term} {self.at()})"

    def optional_expression(self, end):
        return "None" if self.word == end else f"(Some {self.expression()})"

    def statement(self):
        w = self.word
        if w == "{":
            return f"(s.compound {self.block()})"
        if w == "if":
            head = f"{self.at()} {self.at('(')} {self.expression()} {self.at(')')} {self.statement()}"
            return f"(s.if_else {head} {self.at()} {self.statement()})" if self.word == "else" else f"(s.if_then {head})"
        if w == "switch":
            return f"(s.switch {self.at()} {self.at('(')} {self.expression()} {self.at(')')} {self.block()})"
        if w == "while":
            return f"(s.while_do {self.at()} {self.at('(')} {self.expression()} {self.at(')')} {self.statement()})"
        if w == "do":
            return f"(s.do_while {self.at()} {self.statement()} {self.at('while')} {self.at('(')} {self.expression()} {self.at(')')} " \
                   f"{self.at(';')})"
        if w == "for":
            at, left = self.at(), self.at("(")
            first = f"(s.declares {self.declaration()})" if self.begins_type() else \
                f"(s.evaluates {self.optional_expression(';')} {self.at(';')})"
            return f"(s.for {at} {left} {first} {self.optional_expression(';')} {self.at(';')} {self.optional_expression(')')} " \
                   f"{self.at(')')} {self.statement()})"
        if w == "case":
            return f"(s.case {self.at()} {self.conditional()} {self.at(':')} {self.statement()})"
        if w == "default":
            return f"(s.default {self.at()} {self.at(':')} {self.statement()})"
        if w in ("break", "continue"):
            return f"(s.{w} {self.at()} {self.at(';')})"
        if w == "return":
            return f"(s.return {self.at()} {self.optional_expression(';')} {self.at(';')})"
        return f"(s.expression {self.optional_expression(';')} {self.at(';')})"

    def external(self):
        specs = self.specifiers()
        self.is_typedef_here = self.is_typedef
        if self.word == ";":
            return f"(s.declaration {self.declaration(specs)})"
        place = self.place
        d = self.declarator()
        if self.word == "{":
            return f"(s.definition {specs} {d} {self.block()})"
        self.place = place
        return f"(s.declaration {self.declaration(specs, self.init_declarator())})"

    def unit(self):
        found = []
        while self.kind != "end":
            found.append(self.external())
        return found, self.tokens[-1].line


def listed(terms):
    return "(" + " ∷ ".join(terms + ["[]"]) + ")" if terms else "[]"


def optional(term):
    return "None" if term is None else f"(Some {term})"


def wrapped(term, indent, width=118):
    """The term in lines that are no longer than this, broken at spaces outside of quotes."""
    lines, line, quoted, word = [], " " * indent, False, ""
    for c in term + " ":
        if c == '"' and not word.endswith("\\"):
            quoted = not quoted
        if c != " " or quoted:
            word += c
            continue
        if len(line) + 1 + len(word) > width:
            lines.append(line)
            line = " " * indent
        line += word if line.strip() == "" else " " + word
        word = ""
    return "\n".join(lines + [line])


def source_of(text_of):
    """The term of a text: its declarations and definitions, and the line on which it ends."""
    externals, end = Parser(text_of).unit()
    return f"(source {listed(externals)} {end})"


if __name__ == "__main__":
    print(wrapped(source_of(open(sys.argv[1], encoding="utf-8").read()), 4))
