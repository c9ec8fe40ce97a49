#!/usr/bin/env python3
"""Prints the typed tree that C99 gives a text, as a worked row of crates/source_meaning_rows has it.

The tree has (6.5 to 6.9, LP64 of the psABI, plain char unsigned) each node with its kind and line, the reads, decays and conversions
that typing puts in, blocks with their variables, initializers as parts by offset, static objects and literals in the order of their
tokens, function types by number, and the bytes that a call of each function takes. Only what the rows use is typed, and a text
outside it is refused. Whether a tree is a valid program the row itself asks. A row is this tree, the text and its reason above it, and
claims on what its run shows and counts, worked out by hand.

usage: python3 rows/trees.py FILE.c
"""

import os
import re
import sys

TOKEN = re.compile(
    r'(?P<space>\s+|//[^\n]*|/\*.*?\*/)|(?P<name>[A-Za-z_]\w*)|(?P<number>\d\w*)|(?P<char>\'(?:[^\'\\]|\\.)+\')'
    r'|(?P<string>"(?:[^"\\]|\\.)*")|(?P<mark><<=|>>=|->|\+\+|--|<<|>>|[<>=!]=|&&|\|\||[-+*/%&^|]=|\S)', re.S)
ESCAPES = {"n": 10, "t": 9, "r": 13, "0": 0, "\\": 92, "'": 39, '"': 34, "a": 7, "b": 8, "f": 12, "v": 11, "?": 63}

INTS = {  # size, signed, rank
    "Char": (1, False, 1), "SignedChar": (1, True, 1), "UnsignedChar": (1, False, 1), "Short": (2, True, 2),
    "UnsignedShort": (2, False, 2), "Int": (4, True, 3), "UnsignedInt": (4, False, 3), "Long": (8, True, 4),
    "UnsignedLong": (8, False, 4), "LongLong": (8, True, 5), "UnsignedLongLong": (8, False, 5)}
UNSIGNED = {"Int": "UnsignedInt", "Long": "UnsignedLong", "LongLong": "UnsignedLongLong"}
BINARY = {"+": "Add", "-": "Subtract", "*": "Multiply", "/": "Divide", "%": "Remainder", "<<": "ShiftLeft", ">>": "ShiftRight",
          "&": "BitAnd", "^": "BitXor", "|": "BitOr", "<": "Less", ">": "Greater", "<=": "LessOrEqual", ">=": "GreaterOrEqual",
          "==": "Equal", "!=": "NotEqual"}
LEVELS = [["||"], ["&&"], ["|"], ["^"], ["&"], ["==", "!="], ["<", ">", "<=", ">="], ["<<", ">>"], ["+", "-"], ["*", "/", "%"]]
ASSIGNMENTS = ["=", "*=", "/=", "%=", "+=", "-=", "<<=", ">>=", "&=", "^=", "|="]
TYPE_WORDS = {"void", "char", "short", "int", "long", "signed", "unsigned", "struct", "union", "enum", "const"}
STORAGE = {"typedef", "extern", "static", "auto", "register", "inline"}

VOID = ("void",)


def integer(name):
    return ("integer", name)


INT, ULONG = integer("Int"), integer("UnsignedLong")
CHAR = integer("Char")


def pointer(to):
    return ("pointer", to)


VOID_POINTER, CHAR_POINTER = pointer(VOID), pointer(CHAR)
LIBRARY = {  # parameters, result (7.19 to 7.21)
    "malloc": ([ULONG], VOID_POINTER), "calloc": ([ULONG, ULONG], VOID_POINTER), "free": ([VOID_POINTER], VOID),
    "realloc": ([VOID_POINTER, ULONG], VOID_POINTER), "memcpy": ([VOID_POINTER, VOID_POINTER, ULONG], VOID_POINTER),
    "memmove": ([VOID_POINTER, VOID_POINTER, ULONG], VOID_POINTER), "memset": ([VOID_POINTER, INT, ULONG], VOID_POINTER),
    "memcmp": ([VOID_POINTER, VOID_POINTER, ULONG], INT), "strlen": ([CHAR_POINTER], ULONG),
    "strcmp": ([CHAR_POINTER, CHAR_POINTER], INT), "strcpy": ([CHAR_POINTER, CHAR_POINTER], CHAR_POINTER),
    "strncpy": ([CHAR_POINTER, CHAR_POINTER, ULONG], CHAR_POINTER), "strcat": ([CHAR_POINTER, CHAR_POINTER], CHAR_POINTER),
    "strchr": ([CHAR_POINTER, INT], CHAR_POINTER), "putchar": ([INT], INT), "getchar": ([], INT), "puts": ([CHAR_POINTER], INT),
    "exit": ([INT], VOID), "abort": ([], VOID), "printf": (None, INT)}


class Refused(Exception):
    """The text is outside of what is typed here."""


class Token:
    def __init__(self, kind, text, line, at):
        self.kind, self.text, self.line, self.at = kind, text, line, at


def tokens_of(text):
    found, line, place = [], 1, 0
    while place < len(text):
        match = TOKEN.match(text, place)
        if match.lastgroup != "space":
            found.append(Token(match.lastgroup, match.group(), line, len(found)))
        line += match.group().count("\n")
        place = match.end()
    return found + [Token("end", "", line, len(found))]


def bytes_of(literal):
    """The bytes between the quotes (6.4.4.4, 6.4.5)."""
    body, out, k = literal[1:-1], [], 0
    while k < len(body):
        if body[k] != "\\":
            out += body[k].encode()
            k += 1
            continue
        octal = re.match(r"[0-7]{1,3}", body[k + 1:])
        hexadecimal = re.match(r"x([0-9a-fA-F]+)", body[k + 1:])
        if octal:
            out.append(int(octal.group(), 8))
            k += 1 + octal.end()
        elif hexadecimal:
            out.append(int(hexadecimal.group(1), 16))
            k += 1 + hexadecimal.end()
        else:
            out.append(ESCAPES[body[k + 1]])
            k += 2
    return out


def constant_of(text):
    """The type and value of an integer constant (6.4.4.1)."""
    digits = re.match(r"0[xX][0-9a-fA-F]+|\d+", text).group()
    suffix = text[len(digits):].lower()
    value = int(digits, 16) if digits[:2].lower() == "0x" else int(digits, 8) if digits[0] == "0" and digits != "0" else int(digits)
    length = {"": 0, "l": 1, "ll": 2}[suffix.replace("u", "")]
    for name in ["Int", "UnsignedInt", "Long", "UnsignedLong", "LongLong", "UnsignedLongLong"]:
        size, signed, rank = INTS[name]
        fits = value < 1 << (8 * size - signed)
        if rank - 3 >= length and fits and (signed if "u" not in suffix else not signed) or \
                rank - 3 >= length and fits and not signed and "u" not in suffix and digits[0] == "0" and digits != "0":
            return integer(name), value
    raise Refused(f"constant {text}")


class Structure:
    """A structure or union: its members by name, type and offset (6.7.2.1, psABI)."""

    def __init__(self, number, is_union):
        self.number, self.is_union, self.members, self.size, self.alignment = number, is_union, None, 0, 1

    def complete(self, members):
        self.members, at = [], 0
        for name, kind in members:
            align = alignment(kind)
            at = 0 if self.is_union else -(-at // align) * align
            self.members.append((name, kind, at))
            self.alignment = max(self.alignment, align)
            at += size(kind)
            self.size = max(self.size, at)
        self.size = -(-self.size // self.alignment) * self.alignment


def size(t):
    if t[0] == "integer":
        return INTS[t[1]][0]
    if t[0] == "pointer":
        return 8
    if t[0] == "array" and t[1] is not None:
        return t[1] * size(t[2])
    if t[0] == "structure" and t[1].members is not None:
        return t[1].size
    raise Refused(f"size of {t}")


def alignment(t):
    return alignment(t[2]) if t[0] == "array" else t[1].alignment if t[0] == "structure" else size(t)


class Variable:
    """A parameter or automatic variable of a function."""

    def __init__(self, name, kind, number):
        self.name, self.type, self.number = name, kind, number
        self.is_object = kind[0] in ("array", "structure")


class Static:
    """A static object or string literal; `at` is the place of its token."""

    def __init__(self, name, kind, at, function, data=None):
        self.name, self.type, self.at, self.function, self.data, self.parts, self.number = name, kind, at, function, data, [], None


class Function:
    def __init__(self, name, kind):
        self.name, self.type, self.number, self.line, self.parameters, self.variables, self.body = name, kind, None, 0, [], [], None


class Node:
    """A node of the syntax tree: a form, its token and what else it has."""

    def __init__(self, form, token, *parts):
        self.form, self.token, self.line, self.parts = form, token, token.line, parts


class Parser:
    """Reads a text: declarations are obeyed at once, expressions and statements become trees."""

    def __init__(self, text):
        self.tokens, self.place = tokens_of(text), 0
        self.scopes, self.tags = [{}], [{}]
        self.structures, self.statics, self.functions, self.enumerations = [], [], [], 0
        self.function = None

    # tokens

    @property
    def next(self):
        return self.tokens[self.place]

    def take(self, text=None):
        token = self.next
        if text is not None and token.text != text:
            raise Refused(f"{text} expected at {token.text} on line {token.line}")
        self.place += 1
        return token

    def has(self, *texts):
        if self.next.text in texts and self.next.kind in ("mark", "name"):
            return self.take()
        return None

    def find(self, name):
        for scope in reversed(self.scopes):
            if name in scope:
                return scope[name]
        return None

    def begins_type(self, token=None):
        token = token or self.next
        return token.kind == "name" and (token.text in TYPE_WORDS | STORAGE or isinstance(self.find(token.text), tuple)
                                         and self.find(token.text)[0] == "typedef" or token.text == "size_t")

    # types (6.7.2 to 6.7.6)

    def specifiers(self):
        words, storage, found = [], set(), None
        while self.begins_type():
            word = self.next.text
            if word in STORAGE:
                storage.add(self.take().text)
            elif word in ("struct", "union"):
                found = self.structure()
            elif word == "enum":
                found = self.enumeration()
            elif word == "const":
                self.take()
            elif word in TYPE_WORDS:
                words.append(self.take().text)
            elif words or found:
                break
            else:
                found = ULONG if word == "size_t" and not self.find(word) else self.find(word)[1]
                self.take()
        return storage, found or self.by_words(words)

    def by_words(self, words):
        words = sorted(words)
        if words == ["void"]:
            return VOID
        signed, unsigned = "signed" in words, "unsigned" in words
        rest = [w for w in words if w not in ("signed", "unsigned", "int")]
        if rest == ["char"]:
            return integer("UnsignedChar" if unsigned else "SignedChar" if signed else "Char")
        name = {(): "Int", ("short",): "Short", ("long",): "Long", ("long", "long"): "LongLong"}[tuple(rest)]
        return integer("Unsigned" + name if unsigned else name)

    def structure(self):
        is_union = self.take().text == "union"
        tag = self.take().text if self.next.kind == "name" else None
        found = None
        for tags in reversed(self.tags if self.next.text != "{" else self.tags[-1:]):
            if tag in tags:
                found = tags[tag]
                break
        if found is None:
            found = ("structure", Structure(len(self.structures), is_union))
            self.structures.append(found[1])
            if tag:
                self.tags[-1][tag] = found
        if self.has("{"):
            members = []
            while not self.has("}"):
                _, base = self.specifiers()
                while True:
                    name, kind, _, _ = self.declarator(base)
                    members.append((name, kind))
                    if not self.has(","):
                        break
                self.take(";")
            found[1].complete(members)
        return found

    def enumeration(self):
        self.take()
        if self.next.kind == "name":
            self.take()
        if self.has("{"):
            value = 0
            while not self.has("}"):
                name = self.take().text
                if self.has("="):
                    value = self.value(self.conditional())
                self.scopes[-1][name] = ("enumerator", value)
                value += 1
                self.has(",")
        return INT

    def declarator(self, base):
        """A declarator, abstract or not: the name, the type, the token of the name and the parameters."""
        if self.has("*"):
            while self.has("const"):
                pass
            return self.declarator(pointer(base))
        if self.next.text == "(" and not self.begins_type(self.tokens[self.place + 1]) and self.tokens[self.place + 1].text != ")":
            self.take()
            inner = self.place
            depth = 1
            while depth:
                depth += {"(": 1, ")": -1}.get(self.take().text, 0)
            kind, parameters = self.suffixes(base)
            behind = self.place
            self.place = inner
            name, kind, token, inner_parameters = self.declarator(kind)
            self.take(")")
            self.place = behind
            return name, kind, token, parameters if inner_parameters is None else inner_parameters
        token = self.take() if self.next.kind == "name" else None
        kind, parameters = self.suffixes(base)
        return token.text if token else None, kind, token, parameters

    def suffixes(self, base):
        if self.has("["):
            count = None if self.next.text == "]" else self.value(self.conditional())
            self.take("]")
            return ("array", count, self.suffixes(base)[0]), None
        if self.has("("):
            parameters = []
            if self.next.text == "void" and self.tokens[self.place + 1].text == ")":
                self.take()
            while not self.has(")"):
                _, kind = self.specifiers()
                name, kind, _, _ = self.declarator(kind)
                parameters.append((name, adjusted(kind)))
                self.has(",")
            return ("function", tuple(k for _, k in parameters), self.suffixes(base)[0]), parameters
        return base, None

    def type_name(self):
        _, base = self.specifiers()
        return self.declarator(base)[1]

    # declarations (6.7, 6.9)

    def file(self):
        while self.next.kind != "end":
            self.external()
        return self

    def external(self):
        storage, base = self.specifiers()
        if self.has(";"):
            return
        while True:
            name, kind, token, parameters = self.declarator(base)
            if "typedef" in storage:
                self.scopes[-1][name] = ("typedef", kind)
            elif kind[0] == "function":
                function = self.find(name)
                if not isinstance(function, Function):
                    function = self.scopes[-1][name] = Function(name, kind)
                if self.next.text == "{":
                    self.definition(function, token, parameters)
                    return
            else:
                self.static(name, kind, token)
            if not self.has(","):
                break
        self.take(";")

    def definition(self, function, token, parameters):
        function.number, function.line = len(self.functions), token.line
        self.functions.append(function)
        self.function = function
        self.scopes.append({})
        self.tags.append({})
        for name, kind in parameters:
            function.parameters.append(Variable(name, kind, len(function.parameters)))
            self.scopes[-1][name] = function.parameters[-1]
        self.take("{")
        function.body = self.items()
        self.scopes.pop()
        self.tags.pop()
        self.function = None

    def static(self, name, kind, token):
        found = self.scopes[-1].get(name)
        if not isinstance(found, Static):
            found = self.scopes[-1][name] = Static(name, kind, token.at, self.function)
            self.statics.append(found)
        if self.has("="):
            found.type, found.parts = self.initializer(kind)

    def local(self):
        """A declaration in a block: the automatic variables, each with its initializer."""
        token = self.next
        storage, base = self.specifiers()
        declared = []
        while self.next.text != ";":
            name, kind, where, _ = self.declarator(base)
            if "static" in storage:
                self.static(name, kind, where)
            elif kind[0] == "function":
                self.scopes[0].setdefault(name, Function(name, kind))
            else:
                variable = Variable(name, kind, len(self.function.parameters) + len(self.function.variables))
                self.function.variables.append(variable)
                self.scopes[-1][name] = variable
                parts = None
                if self.has("="):
                    variable.type, parts = self.initializer(kind)
                declared.append((variable, parts))
            self.has(",")
        self.take(";")
        return Node("declaration", token, declared)

    # initializers (6.7.8)

    def initializer(self, kind):
        """The complete type, and the parts: offset, type, and an expression or the bytes of a literal."""
        parts = []
        if self.next.text == "{":
            count = self.braced(kind, 0, parts)
        else:
            count = self.single(kind, 0, parts)
        if kind[0] == "array" and kind[1] is None:
            kind = ("array", count, kind[2])
        return kind, parts

    def single(self, kind, offset, parts):
        """What stands without braces. Returns how many elements an array has by it."""
        literal = self.next
        if is_characters(kind) and literal.kind == "string" and self.tokens[self.place + 1].text in (",", "}", ";"):
            self.take()
            data = bytes_of(literal.text) + [0]
            put_part(parts, offset, None, data if kind[1] is None else data[:kind[1]])
            return len(data)
        put_part(parts, offset, kind, self.assignment())
        return None

    def braced(self, kind, offset, parts):
        self.take("{")
        if kind[0] not in ("array", "structure"):
            self.single(kind, offset, parts)
            self.has(",")
            self.take("}")
            return None
        if is_characters(kind) and self.next.kind == "string":
            count = self.single(kind, offset, parts)
            self.has(",")
            self.take("}")
            return count
        drop_parts(parts, offset, offset + (size(kind) if kind[0] == "structure" or kind[1] is not None else 1 << 40))
        count = self.listed(kind, offset, parts)
        self.take("}")
        return count

    def listed(self, kind, offset, parts):
        """The items between braces, with their designators."""
        place, most = 0, 0
        while self.next.text != "}":
            if self.next.text in (".", "["):
                path, where, at = self.designated(kind, offset)
                self.take("=")
                self.item(where, at, parts)
                place = path + 1
            else:
                where, at = self.part_of(kind, offset, place)
                self.item(where, at, parts)
                place += 1
            most = max(most, place)
            self.has(",")
        return most

    def designated(self, kind, offset):
        first = None
        while self.next.text in (".", "["):
            if self.has("."):
                name = self.take().text
                place = [m[0] for m in kind[1].members].index(name)
            else:
                self.take("[")
                place = self.value(self.conditional())
                self.take("]")
            kind, offset = self.part_of(kind, offset, place)
            first = place if first is None else first
        return first, kind, offset

    def part_of(self, kind, offset, place):
        if kind[0] == "array":
            return kind[2], offset + place * size(kind[2])
        _, member, at = kind[1].members[place]
        return member, offset + at

    def item(self, kind, offset, parts):
        if self.next.text == "{":
            self.braced(kind, offset, parts)
        elif kind[0] in ("array", "structure") and not (is_characters(kind) and self.next.kind == "string"):
            self.elided(kind, offset, parts)
        else:
            self.single(kind, offset, parts)

    def elided(self, kind, offset, parts):
        """A structure by value, or the parts of an array or structure without braces (6.7.8 paragraph 20)."""
        if kind[0] == "structure":
            before = self.place
            value = self.assignment()
            if type_of(value) == kind:
                put_part(parts, offset, kind, value)
                return
            self.place = before
        count = kind[1] if kind[0] == "array" else 1 if kind[1].is_union else len(kind[1].members)
        for place in range(count):
            if self.next.text in ("}", ".", "["):
                return
            where, at = self.part_of(kind, offset, place)
            self.item(where, at, parts)
            if place + 1 < count and self.next.text == ",":
                if self.tokens[self.place + 1].text in ("}", ".", "["):
                    return
                self.take()

    # statements (6.8)

    def items(self):
        found = []
        while not self.has("}"):
            found.append(self.local() if self.begins_type() else self.statement())
        return found

    def block(self):
        token = self.take("{")
        self.scopes.append({})
        self.tags.append({})
        found = self.items()
        self.scopes.pop()
        self.tags.pop()
        return Node("block", token, found)

    def condition(self):
        self.take("(")
        found = self.expression()
        self.take(")")
        return found

    def statement(self):
        token = self.next
        if token.text == "{":
            return self.block()
        if self.has(";"):
            return Node("empty", token)
        if self.has("if"):
            condition, first = self.condition(), self.statement()
            return Node("if", token, condition, first, self.statement() if self.has("else") else None)
        if self.has("while"):
            return Node("while", token, self.condition(), self.statement())
        if self.has("do"):
            body = self.statement()
            self.take("while")
            found = Node("do", token, body, self.condition())
            self.take(";")
            return found
        if self.has("for"):
            return self.for_statement(token)
        if self.has("switch"):
            return self.switch(token)
        if self.has("break", "continue"):
            self.take(";")
            return Node(token.text, token)
        if self.has("return"):
            value = None if self.next.text == ";" else self.expression()
            self.take(";")
            return Node("return", token, value)
        value = self.expression()
        self.take(";")
        return Node("expression", token, value)

    def for_statement(self, token):
        self.take("(")
        self.scopes.append({})
        first = None
        if self.begins_type():
            first = self.local()
        elif not self.has(";"):
            first = self.expression()
            self.take(";")
        condition = None if self.next.text == ";" else self.expression()
        self.take(";")
        step = None if self.next.text == ")" else self.expression()
        self.take(")")
        body = self.statement()
        self.scopes.pop()
        return Node("for", token, first, condition, step, body)

    def switch(self, token):
        value = self.condition()
        brace = self.take("{")
        self.scopes.append({})
        found = []
        while not self.has("}"):
            labels = []
            while self.next.text in ("case", "default"):
                labels.append(self.conditional() if self.take().text == "case" else None)
                self.take(":")
            found.append((labels, self.local() if self.begins_type() else self.statement()))
        self.scopes.pop()
        return Node("switch", token, value, brace.line, found)

    # expressions (6.5)

    def expression(self):
        found = self.assignment()
        while self.next.text == ",":
            token = self.take()
            found = Node("comma", token, found, self.assignment())
        return found

    def assignment(self):
        left = self.conditional()
        if self.next.text in ASSIGNMENTS:
            token = self.take()
            return Node("assign", token, left, self.assignment())
        return left

    def conditional(self):
        found = self.binary(0)
        if self.next.text == "?":
            token = self.take()
            first = self.expression()
            self.take(":")
            return Node("conditional", token, found, first, self.conditional())
        return found

    def binary(self, level):
        if level == len(LEVELS):
            return self.unary()
        found = self.binary(level + 1)
        while self.next.text in LEVELS[level] and self.next.kind == "mark":
            token = self.take()
            found = Node("binary", token, found, self.binary(level + 1))
        return found

    def unary(self):
        token = self.next
        if token.kind == "mark" and token.text in ("+", "-", "~", "!", "*", "&", "++", "--"):
            self.take()
            found = Node("unary", token, self.unary())
            if token.text == "&":
                take_address(found.parts[0])
            return found
        if token.text == "sizeof":
            self.take()
            if self.next.text == "(" and self.begins_type(self.tokens[self.place + 1]):
                self.take()
                found = Node("sizeof", token, self.type_name())
                self.take(")")
                return found
            return Node("sizeof", token, type_of(self.unary(), decay=False))
        if token.text == "(" and self.begins_type(self.tokens[self.place + 1]):
            self.take()
            kind = self.type_name()
            self.take(")")
            return Node("cast", token, kind, self.unary())
        return self.postfix()

    def postfix(self):
        found = self.primary()
        while True:
            token = self.next
            if self.has("["):
                found = Node("index", token, found, self.expression())
                self.take("]")
            elif self.has("("):
                arguments = []
                while not self.has(")"):
                    arguments.append(self.assignment())
                    self.has(",")
                found = Node("call", token, found, arguments)
            elif self.has(".", "->"):
                found = Node("member", token, found, self.take().text)
            elif self.has("++", "--"):
                found = Node("postfix", token, found)
            else:
                return found

    def primary(self):
        token = self.take()
        if token.text == "(":
            found = Node("parenthesized", token, self.expression())
            self.take(")")
            return found
        if token.kind == "number":
            return Node("constant", token, *constant_of(token.text))
        if token.kind == "char":
            return Node("constant", token, INT, bytes_of(token.text)[0])
        if token.kind == "string":
            data = bytes_of(token.text)
            while self.next.kind == "string":
                data += bytes_of(self.take().text)
            return Node("literal", token, Static(None, ("array", len(data) + 1, CHAR), token.at, self.function, data + [0]), self.statics)
        if token.kind == "name":
            meaning = self.find(token.text)
            if isinstance(meaning, tuple) and meaning[0] == "enumerator":
                return Node("constant", token, INT, meaning[1])
            if meaning is None and token.text in LIBRARY:
                return Node("library", token, token.text)
            if meaning is not None:
                return Node("name", token, meaning)
        raise Refused(f"{token.text} on line {token.line}")

    def value(self, node):
        """The value of an integer constant expression (6.6)."""
        if node.form == "constant":
            return node.parts[1]
        if node.form == "sizeof":
            return size(node.parts[0])
        if node.form == "parenthesized":
            return self.value(node.parts[0])
        if node.form == "unary" and node.token.text == "-":
            return -self.value(node.parts[0])
        if node.form == "binary" and node.token.text in "+-*":
            left, right = map(self.value, node.parts)
            return {"+": left + right, "-": left - right, "*": left * right}[node.token.text]
        raise Refused(f"a constant on line {node.line}")


def adjusted(t):
    """The type of a parameter (6.7.5.3 paragraphs 7 and 8)."""
    return pointer(t[2]) if t[0] == "array" else pointer(t) if t[0] == "function" else t


def is_characters(t):
    return t[0] == "array" and t[2][0] == "integer" and INTS[t[2][1]][0] == 1


def drop_parts(parts, start, end):
    """Parts that a later one overrides are not evaluated (6.7.8 paragraph 19)."""
    parts[:] = [p for p in parts if not (start <= p[0] and p[0] + part_size(p) <= end)]


def part_size(part):
    return len(part[2]) if part[1] is None else size(part[1])


def put_part(parts, offset, kind, content):
    drop_parts(parts, offset, offset + part_size((offset, kind, content)))
    parts.append((offset, kind, content))


def take_address(node):
    """The operand of `&` is an object (6.5.3.2)."""
    while node.form == "parenthesized" or node.form == "member" and node.token.text == ".":
        node = node.parts[0]
    if node.form == "name" and isinstance(node.parts[0], Variable):
        node.parts[0].is_object = True


# types of expressions

def promoted(t):
    return INT if t[0] == "integer" and INTS[t[1]][2] < 3 else t


def usual(s, t):
    """The usual arithmetic conversions (6.3.1.8)."""
    s, t = promoted(s), promoted(t)
    (size_s, signed_s, rank_s), (size_t, signed_t, rank_t) = INTS[s[1]], INTS[t[1]]
    if s == t:
        return s
    if signed_s == signed_t:
        return s if rank_s > rank_t else t
    unsigned, signed, u, v = (s, t, (rank_s, size_s), (rank_t, size_t)) if signed_t else (t, s, (rank_t, size_t), (rank_s, size_s))
    if u[0] >= v[0]:
        return unsigned
    if v[1] > u[1]:
        return signed
    return integer(UNSIGNED[signed[1]])


def decayed(t):
    return pointer(t[2]) if t[0] == "array" else pointer(t) if t[0] == "function" else t


def type_of(node, decay=True):
    t = raw_type(node)
    return decayed(t) if decay else t


def is_null(node):
    while node.form == "parenthesized":
        node = node.parts[0]
    return node.form == "constant" and node.parts[1] == 0


def raw_type(node):
    form, parts, mark = node.form, node.parts, node.token.text
    if form in ("constant", "cast"):
        return parts[0]
    if form == "sizeof":
        return ULONG
    if form == "name":
        return parts[0].type
    if form == "literal":
        return parts[0].type
    if form == "parenthesized":
        return raw_type(parts[0])
    if form == "call":
        return result_type(parts[0])
    if form == "index":
        left, right = type_of(parts[0]), type_of(parts[1])
        return left[1] if left[0] == "pointer" else right[1]
    if form == "member":
        whole = type_of(parts[0])
        whole = whole[1] if mark == "->" else whole
        return next(m for m in whole[1].members if m[0] == parts[1])[1]
    if form == "postfix":
        return type_of(parts[0])
    if form == "comma":
        return type_of(parts[1])
    if form == "assign":
        return type_of(parts[0])
    if form == "conditional":
        first, second = type_of(parts[1]), type_of(parts[2])
        if first[0] == second[0] == "integer":
            return usual(first, second)
        return second if is_null(parts[1]) and second[0] == "pointer" else first
    if form == "unary":
        operand = type_of(parts[0])
        if mark == "*":
            return operand[1]
        if mark == "&":
            return pointer(raw_type(parts[0]))
        return {"!": INT, "++": operand, "--": operand}.get(mark) or promoted(operand)
    left, right = type_of(parts[0]), type_of(parts[1])
    if mark in ("&&", "||", "==", "!=", "<", ">", "<=", ">="):
        return INT
    if mark in ("<<", ">>"):
        return promoted(left)
    if left[0] == "pointer" and right[0] == "pointer":
        return integer("Long")
    return left if left[0] == "pointer" else right if right[0] == "pointer" else usual(left, right)


def result_type(called):
    if called.form == "library":
        return LIBRARY[called.parts[0]][1]
    t = type_of(called)
    return t[1][2]


# typed trees

class Typed:
    """A typed expression or lvalue: its kind, line, form in Samples, arguments, and the parts that come in turn."""

    def __init__(self, kind, line, form, *arguments):
        self.kind, self.line, self.form, self.arguments = kind, line, form, arguments

    def children(self):
        for a in self.arguments:
            if isinstance(a, Typed):
                yield a
            elif isinstance(a, list):
                yield from (x for x in a if isinstance(x, Typed))

    def height(self):
        """As many values as are needed at once."""
        heights = [c.height() for c in self.children()]
        if self.form in ("set_plain", "set_plain_in", "change_plain", "change_plain_in"):
            heights = [1] + heights
        elif self.form == "printf":
            heights = [1] + heights
        elif self.form not in ("binary", "compare", "offset", "difference", "assign", "compound", "call", "call_through", "library",
                               "index", "index_of"):
            return max([1] + heights)
        most, kept = 1, 0
        for h in heights:
            most, kept = max(most, kept + h), kept + 1
        return max(most, kept and 1)

    def passed(self):
        """The bytes of structures in calls."""
        own = 0
        if self.form in ("call", "call_through"):
            own = structure_bytes(self.kind) + sum(structure_bytes(a.kind) for a in self.arguments[-1])
        return own + sum(c.passed() for c in self.children())

    def text(self):
        return " ".join([self.form] + [argument(a) for a in self.arguments])


class Number:
    """The number of something that is known once all is read."""

    def __init__(self, of, form=None):
        self.of, self.form = of, form


def argument(a):
    if isinstance(a, Typed):
        return f"({a.text()})"
    if isinstance(a, list):
        return "[]" if not a else "(" + " ∷ ".join([x.text() if isinstance(x, Typed) else str(x) for x in a] + ["[]"]) + ")"
    if isinstance(a, Number):
        return f"({a.form} {a.of.number})" if a.form else str(a.of.number)
    if isinstance(a, tuple):
        return kind_text(a)
    return str(a)


def kind(t):
    """What a value or object of a type is."""
    if t[0] == "array":
        return ("Array", size(t))
    if t[0] == "structure":
        return ("Structure", size(t))
    if t[0] in ("pointer", "function"):
        return ("pointer",)
    return t


def kind_text(k):
    if k[0] == "integer":
        return "int" if k[1] == "Int" else f"(integer_kind {k[1]})"
    return {"void": "Void", "pointer": "pointer"}.get(k[0]) or f"({k[0]} {k[1]})"


def structure_bytes(k):
    return -(-k[1] // 16) * 16 if k[0] == "Structure" else 0


def word(t, value):
    """A value of a type as its number modulo 2^64."""
    bits, signed, _ = INTS[t[1]]
    value %= 1 << (8 * bits)
    if signed and value >> (8 * bits - 1):
        value -= 1 << (8 * bits)
    return value % (1 << 64)


class Typer:
    """The typed program of what was read."""

    def __init__(self, parser):
        self.parser, self.types = parser, []
        for function in parser.functions:
            self.type_number(function.type)
        self.functions = [self.function(f) for f in parser.functions]
        self.parts = {id(s): self.parts_of(s.parts) for s in parser.statics if s.data is None}
        parser.statics.sort(key=lambda s: s.at)
        for number, static in enumerate(parser.statics):
            static.number = number

    def type_number(self, t):
        if t not in self.types:
            self.types.append(t)
        return self.types.index(t)

    # expressions

    def converted(self, node, t):
        """A value as one of a type (6.5.16.1, 6.5.2.2)."""
        return convert(self.value(node), kind(t))

    def is_lvalue(self, node):
        if node.form == "parenthesized":
            return self.is_lvalue(node.parts[0])
        if node.form == "name":
            return isinstance(node.parts[0], Static) or isinstance(node.parts[0], Variable) and node.parts[0].is_object
        if node.form == "member":
            return True
        return node.form in ("index", "literal") or node.form == "unary" and node.token.text == "*" and raw_type(node)[0] != "function"

    def is_plain(self, node):
        while node.form == "parenthesized":
            node = node.parts[0]
        return node.form == "name" and isinstance(node.parts[0], Variable) and not node.parts[0].is_object

    def plain_name(self, node):
        count = 0
        while node.form == "parenthesized":
            node, count = node.parts[0], count + 1
        return node.parts[0].number, count

    def lvalue(self, node):
        form, parts, k = node.form, node.parts, kind(raw_type(node))
        if form == "parenthesized":
            inner = self.lvalue(parts[0])
            return Typed(inner.kind, inner.line, "parenthesized_lvalue", inner)
        if form == "name" and isinstance(parts[0], Variable):
            return Typed(k, node.line, "lvalue", node.line, k, f"(automatic {parts[0].number})")
        if form in ("name", "literal"):
            if form == "literal" and parts[0] not in parts[1]:
                parts[1].append(parts[0])
            return Typed(k, node.line, "lvalue", node.line, k, Number(parts[0], "static"))
        if form == "unary":
            return Typed(k, node.line, "deref", node.line, k, self.value(parts[0]))
        if form == "index":
            word_form = "index" if type_of(parts[0])[0] == "pointer" else "index_of"
            return Typed(k, node.line, word_form, node.line, k, self.value(parts[0]), self.value(parts[1]))
        whole = type_of(parts[0])
        whole = whole[1] if node.token.text == "->" else whole
        offset = next(m for m in whole[1].members if m[0] == parts[1])[2]
        if node.token.text == "->":
            return Typed(k, node.line, "arrow", node.line, k, offset, self.value(parts[0]))
        if self.is_lvalue(parts[0]):
            return Typed(k, node.line, "member", node.line, k, offset, self.lvalue(parts[0]))
        return Typed(k, node.line, "member_of_value", node.line, k, offset, self.value(parts[0]))

    def value(self, node):
        t = raw_type(node)
        if self.is_lvalue(node):
            place = self.lvalue(node)
            if t[0] == "array":
                return Typed(("pointer",), place.line, "decay", place)
            return Typed(place.kind, place.line, "read", place)
        return getattr(self, "value_" + node.form)(node, kind(decayed(t)))

    def value_constant(self, node, k):
        t, number = node.parts
        if t == INT:
            return Typed(k, node.line, "number", node.line, word(t, number))
        return Typed(k, node.line, "constant", t[1], node.line, word(t, number))

    def value_sizeof(self, node, k):
        return Typed(k, node.line, "constant", "UnsignedLong", node.line, size(node.parts[0]))

    def value_name(self, node, k):
        meaning = node.parts[0]
        if isinstance(meaning, Function):
            return Typed(k, node.line, "function", node.line, Number(meaning))
        return Typed(k, node.line, "plain", node.line, k, meaning.number)

    def value_parenthesized(self, node, k):
        inner = self.value(node.parts[0])
        return Typed(inner.kind, inner.line, "parenthesized", inner)

    def value_cast(self, node, k):
        return Typed(k, node.line, "cast", node.line, k, self.value(node.parts[1]))

    def value_comma(self, node, k):
        return Typed(k, node.line, "comma", node.line, *map(self.value, node.parts))

    def value_conditional(self, node, k):
        condition, first, second = node.parts
        return Typed(k, node.line, "conditional", node.line, self.value(condition), convert(self.value(first), k), convert(self.value(second), k))

    def value_assign(self, node, k):
        left, right = node.parts
        t, mark = type_of(left), node.token.text
        if mark == "=":
            value = self.converted(right, t)
            if not self.is_plain(left):
                return Typed(k, node.line, "assign", node.line, self.lvalue(left), value)
            return self.plain_update("set_plain", node.line, k, [], left, [value])
        operator = mark[:-1]
        update = self.update(operator, t, type_of(right))
        value = self.value(right)
        if t[0] == "integer":
            value = convert(value, kind(promoted(type_of(right)) if operator in ("<<", ">>") else usual(t, type_of(right))))
        if not self.is_plain(left):
            return Typed(k, node.line, "compound", node.line, update, self.lvalue(left), value)
        return self.plain_update("change_plain", node.line, k, [k, update], left, [value])

    def update(self, operator, left, right):
        if left[0] == "pointer":
            return f"({'Forward' if operator == '+' else 'Back'} {size(left[1])})"
        t = promoted(left) if operator in ("<<", ">>") else usual(left, right)
        return f"(Arithmetic {BINARY[operator]} {t[1]})"

    def plain_update(self, form, line, k, before, name, behind):
        number, parentheses = self.plain_name(name)
        if parentheses:
            return Typed(k, line, form + "_in", line, *before, f"(record {{ variable = {number}; parentheses = {parentheses} }})", *behind)
        return Typed(k, line, form, line, *before, number, *behind)

    def step(self, node, k, fixity):
        update = self.update(node.token.text[0], type_of(node.parts[0]), INT)
        if self.is_plain(node.parts[0]):
            return self.plain_update("step_plain", node.line, k, [k, update, fixity], node.parts[0], [])
        return Typed(k, node.line, "step", node.line, update, fixity, self.lvalue(node.parts[0]))

    def value_postfix(self, node, k):
        return self.step(node, k, "Postfix")

    def value_unary(self, node, k):
        mark, operand = node.token.text, node.parts[0]
        if mark in ("++", "--"):
            return self.step(node, k, "Prefix")
        if mark == "*":
            return Typed(k, node.line, "designator", node.line, self.value(operand))
        if mark == "&":
            if raw_type(operand)[0] == "function":
                return Typed(k, node.line, "function_address_of", node.line, self.value(operand))
            return Typed(k, node.line, "address", node.line, self.lvalue(operand))
        if mark == "!":
            return Typed(k, node.line, "logical_not", node.line, self.value(operand))
        operator = {"+": "Plus", "-": "Negate", "~": "Complement"}[mark]
        return Typed(k, node.line, "unary", node.line, operator, self.converted(operand, promoted(type_of(operand))))

    def value_binary(self, node, k):
        (left, right), mark = node.parts, node.token.text
        s, t = type_of(left), type_of(right)
        if mark in ("&&", "||"):
            return Typed(k, node.line, {"&&": "logical_and", "||": "logical_or"}[mark], node.line, self.value(left), self.value(right))
        if mark in ("==", "!=", "<", ">", "<=", ">="):
            common = usual(s, t) if s[0] == t[0] == "integer" else VOID_POINTER
            return Typed(k, node.line, "compare", node.line, BINARY[mark], self.converted(left, common), self.converted(right, common))
        if s[0] == "pointer" and t[0] == "pointer":
            return Typed(k, node.line, "difference", node.line, size(s[1]), self.value(left), self.value(right))
        if s[0] == "pointer":
            form = "PointerPlusIndex" if mark == "+" else "PointerMinusIndex"
            return Typed(k, node.line, "offset", node.line, form, size(s[1]), self.value(left), self.value(right))
        if t[0] == "pointer":
            return Typed(k, node.line, "offset", node.line, "IndexPlusPointer", size(t[1]), self.value(left), self.value(right))
        common = (promoted(s), promoted(t)) if mark in ("<<", ">>") else (usual(s, t),) * 2
        return Typed(k, node.line, "binary", node.line, BINARY[mark], self.converted(left, common[0]), self.converted(right, common[1]))

    def value_call(self, node, k):
        called, arguments = node.parts
        if called.form == "library":
            return self.library(node, k, called.parts[0], arguments)
        t = type_of(called)[1]
        values = [self.converted(a, p) for a, p in zip(arguments, t[1])]
        if called.form == "name" and isinstance(called.parts[0], Function):
            return Typed(k, node.line, "call", node.line, k, Number(called.parts[0]), values)
        return Typed(k, node.line, "call_through", node.line, k, self.type_number(t), self.value(called), values)

    def library(self, node, k, name, arguments):
        parameters, _ = LIBRARY[name]
        if name == "printf":
            data = arguments[0].parts[0].data
            values = [self.converted(a, promoted(type_of(a))) for a in arguments[1:]]
            return Typed(k, node.line, "printf", node.line, bytes_text(data[:-1]), values)
        return Typed(k, node.line, "library", node.line, k, name.capitalize(), [self.converted(a, p) for a, p in zip(arguments, parameters)])

    # initializers, statements, functions

    def parts_of(self, parts):
        return [(offset, Typed(kind(t), 0, "content", self.converted(content, t)) if t is not None else content) for offset, t, content in parts]

    def function(self, function):
        self.contents, self.result = [], function.type[2]
        return [self.statement(s) for s in function.body], self.contents

    def noted(self, value):
        self.contents.append(value)
        return value

    def declared(self, node):
        found = []
        for variable, parts in node.parts[0]:
            if parts is None:
                text = "None"
            elif variable.is_object:
                typed = self.parts_of(parts)
                self.contents += [c.arguments[0] for _, c in typed if isinstance(c, Typed)]
                text = ("object", typed)
            else:
                text = ("plain", self.noted(self.converted(parts[0][2], variable.type)))
            found.append((variable.number, text))
        return found

    def statement(self, node):
        form, parts = node.form, node.parts
        if form == "declaration":
            return ("declaration", self.declared(node))
        if form == "block":
            return ("block", node.line, [self.statement(s) for s in parts[0]])
        if form in ("empty", "break", "continue"):
            return (form,)
        if form == "expression":
            return ("expression_statement", self.noted(self.value(parts[0])))
        if form == "return":
            return ("return", None if parts[0] is None else self.noted(self.converted(parts[0], self.result)))
        if form == "if":
            return ("if", self.noted(self.value(parts[0])), self.statement(parts[1]), parts[2] and self.statement(parts[2]))
        if form == "while":
            return ("while", self.noted(self.value(parts[0])), self.statement(parts[1]))
        if form == "do":
            body = self.statement(parts[0])
            return ("do", body, self.noted(self.value(parts[1])))
        if form == "for":
            return self.typed_for(node)
        value = self.noted(self.converted(parts[0], promoted(type_of(parts[0]))))
        t = promoted(type_of(parts[0]))
        items = [([None if l is None else word(t, self.parser.value(l)) for l in labels], self.statement(s)) for labels, s in parts[2]]
        return ("switch", value, parts[1], items)

    def typed_for(self, node):
        first, condition, step, body = node.parts
        head = None if first is None else ("declaration", self.declared(first)) if first.form == "declaration" else self.noted(self.value(first))
        condition, step = (p and self.noted(self.value(p)) for p in (condition, step))
        return ("for", node.line, head, condition, step, self.statement(body))

    def room(self, function, contents):
        inside = [c.arguments[0] for s in self.parser.statics if s.data is None and s.function is function
                  for _, c in self.parts[id(s)] if isinstance(c, Typed)]
        literals = any(s.data is None and s.function is function and any(not isinstance(c, Typed) for _, c in self.parts[id(s)])
                       for s in self.parser.statics)
        height = max([0] + [c.height() for c in contents + inside] + [1] * (literals or self.has_literal(function)))
        parameters, variables = len(function.parameters), len(function.variables)
        passed = structure_bytes(kind(function.type[2])) + sum(c.passed() for c in contents)
        return 96 + 40 * (parameters + variables + height) + 32 * (1 + parameters) + 5 * passed

    def has_literal(self, function):
        """Whether a literal fills an array in the function."""
        def inside(nodes):
            for n in nodes:
                if not isinstance(n, Node):
                    continue
                if n.form == "declaration" and any(p[1] is None for _, parts in n.parts[0] for p in parts or []):
                    return True
                flat = [x for p in n.parts for x in (p if isinstance(p, list) else [p])]
                if inside([x[1] if isinstance(x, tuple) and len(x) == 2 else x for x in flat]):
                    return True
            return False
        return inside(function.body)


def convert(value, k):
    """An implicit conversion, where the kinds differ (6.3)."""
    return value if value.kind == k or k[0] == "void" else Typed(k, value.line, "convert", k, value)


# the text of a tree

def bytes_text(data):
    if data and all(32 <= b < 127 and b not in (34, 92) or b == 10 for b in data):
        return '(codes "' + "".join("\\n" if b == 10 else chr(b) for b in data) + '")'
    return "(" + " ∷ ".join([str(b) for b in data] + ["[]"]) + ")" if data else "[]"


def listed(texts, depth):
    """A list, an item a line."""
    if not texts:
        return "[]"
    gap = "\n" + "  " * depth
    return "(" + (gap + "∷ ").join(texts) + gap + "∷ [])"


def part_texts(parts):
    return "(" + " ∷ ".join([f"part {at} " + (argument(c) if isinstance(c, Typed) else f"(literal_content {literal_text(c)})") for at, c in parts] + ["[]"]) + ")" \
        if parts else "[]"


def literal_text(data):
    if data and data[-1] == 0 and all(32 <= b < 127 and b not in (34, 92) for b in data[:-1]):
        return f'(codes "{"".join(map(chr, data[:-1]))}" ++ 0 ∷ [])' if len(data) > 1 else "(0 ∷ [])"
    return bytes_text(data)


def declared_text(declared):
    def one(number, text):
        if text == "None":
            return f"without_value {number}"
        if text[0] == "plain":
            return f"with_value {number} ({text[1].text()})"
        return f"with_parts {number} {part_texts(text[1])}"
    return "(" + " ∷ ".join([one(*d) for d in declared] + ["[]"]) + ")" if declared else "[]"


def optional(value):
    return "None" if value is None else f"(Some ({value.text()}))"


def statement_text(s, depth):
    form = s[0]
    if form == "declaration":
        return f"declaration {declared_text(s[1])}"
    if form == "block":
        return f"block_of {s[1]} {listed([statement_text(i, depth + 1) for i in s[2]], depth + 1)}"
    if form == "expression_statement":
        return f"expression_statement ({s[1].text()})"
    if form == "return":
        return f"return {optional(s[1])}"
    if form == "if":
        if s[3] is None:
            return f"if_then ({s[1].text()}) ({statement_text(s[2], depth)})"
        return f"if_else ({s[1].text()}) ({statement_text(s[2], depth)}) ({statement_text(s[3], depth)})"
    if form == "while":
        return f"while_do ({s[1].text()}) ({statement_text(s[2], depth)})"
    if form == "do":
        return f"do_while ({statement_text(s[1], depth)}) ({s[2].text()})"
    if form == "for":
        head = "nothing" if s[2] is None else f"(first_declaration {declared_text(s[2][1])})" if isinstance(s[2], tuple) \
            else f"(first_expression ({s[2].text()}))"
        return f"for {s[1]} {head} {optional(s[3])} {optional(s[4])} ({statement_text(s[5], depth)})"
    if form == "switch":
        items = []
        for labels, statement in s[3]:
            names = "(" + " ∷ ".join(["Default" if l is None else f"Case {l}" for l in labels] + ["[]"]) + ")" if labels else "[]"
            items.append(f"item {names} ({statement_text(statement, depth + 1)})")
        return f"switch_of ({s[1].text()}) {s[2]} {listed(items, depth + 1)}"
    return form


def type_words(t):
    if t[0] == "void":
        return ["VoidWord"]
    if t[0] == "integer":
        return [f"IntegerWord {t[1]}"]
    if t[0] == "pointer":
        return ["PointerWord"] + type_words(t[1])
    if t[0] == "array":
        return [f"ArrayWord {t[1]} {size(t)}"] + type_words(t[2])
    if t[0] == "structure":
        return [f"StructureWord {t[1].number}"]
    return [w for p in t[1] for w in ["Takes"] + type_words(p)] + ["Gives"] + type_words(t[2])


def variables_text(variables):
    return "(" + " ∷ ".join([f"{'object' if v.is_object else 'plain'}_variable {argument(kind(v.type))}" for v in variables] + ["[]"]) + ")" \
        if variables else "[]"


def program_text(name, text):
    typer = Typer(Parser(text).file())
    parser = typer.parser
    functions = []
    for f, (body, contents) in zip(parser.functions, typer.functions):
        functions.append((f"function_{f.name}", f"defined {f.line} {typer.type_number(f.type)} {variables_text(f.parameters)} "
                          f"{variables_text(f.variables)} {typer.room(f, contents)}\n    "
                          + listed([statement_text(s, 2) for s in body], 2)))
    statics = []
    for s in parser.statics:
        if s.data is not None:
            statics.append(f"string_literal {kind_text(kind(s.type))} (part 0 (literal_content {literal_text(s.data)}) ∷ [])")
        elif s.function:
            statics.append(f"static_within {s.function.number} {kind_text(kind(s.type))} {part_texts(typer.parts[id(s)])}")
        else:
            statics.append(f"static_object {kind_text(kind(s.type))} {part_texts(typer.parts[id(s)])}")
    types = ["function_type (" + " ∷ ".join(type_words(t) + ["[]"]) + ") "
             + "(" + " ∷ ".join([kind_text(kind(p)) for p in t[1]] + ["[]"]) + ") " + kind_text(kind(t[2])) for t in typer.types]
    structures = [f"Some (record {{ size = {s.size}; alignment = {s.alignment} }})" if s.members is not None else "None" for s in parser.structures]
    main = next(f.number for f in parser.functions if f.name == "main")
    head = ["program_with", listed(structures, 2)] if structures else ["program_of"]
    return functions, "\n    ".join(head + [listed(statics, 2), listed(types, 2), "(" + " ∷ ".join([n for n, _ in functions] + ["[]"]) + ")", str(main)])


SAMPLES = "Rattle.source_meaning_rows.proofs.Samples"
IMPORTS = [  # module, and the names that a tree may use
    ("Rattle.std.proofs.Common", {"◌∷◌": "∷", "[]": "[]", "Some": "Some", "None": "None", "◌++◌": "++"}),
    ("Rattle.std.specs.Prelude", {"codes": "codes"}),
    ("Rattle.obj_memory.specs.declared.int_type.IntType.TheVariants", {n: n for n in INTS}),
    ("Rattle.obj_memory.specs.declared.operator.BinaryOperator.TheVariants", {n: n for n in BINARY.values()}),
    ("Rattle.obj_memory.specs.declared.operator.UnaryOperator.TheVariants", {n: n for n in ("Plus", "Negate", "Complement")}),
    ("Rattle.c_tree.specs.declared.c_type.TypeWord.TheVariants",
     {"Takes": "Takes", "Gives": "Gives", "Void as VoidWord": "VoidWord", "Integer as IntegerWord": "IntegerWord",
      "Pointer as PointerWord": "PointerWord", "Array as ArrayWord": "ArrayWord", "Structure as StructureWord": "StructureWord"}),
    ("Rattle.c_tree.specs.declared.expression.Kind.TheVariants", {n: n for n in ("Void", "Structure", "Array")}),
    ("Rattle.c_tree.specs.declared.expression.OffsetForm.TheVariants",
     {n: n for n in ("PointerPlusIndex", "IndexPlusPointer", "PointerMinusIndex")}),
    ("Rattle.c_tree.specs.declared.expression.Update.TheVariants", {n: n for n in ("Arithmetic", "Forward", "Back")}),
    ("Rattle.c_tree.specs.declared.expression.Fixity.TheVariants", {n: n for n in ("Prefix", "Postfix")}),
    ("Rattle.c_tree.specs.declared.expression.Routine.TheVariants", {n.capitalize(): n.capitalize() for n in LIBRARY if n != "printf"}),
    ("Rattle.c_tree.specs.declared.statement.CaseLabel.TheVariants", {n: n for n in ("Case", "Default")}),
    ("Rattle.c_tree.specs.Statements",
     {n: n for n in ("expression_statement", "empty", "declaration", "if_then", "if_else", "while_do", "do_while", "nothing",
                     "first_expression", "first_declaration", "for", "break", "continue", "return", "literal_content")}),
    ("Rattle.c_tree.specs.Tree", {n: n for n in ("automatic", "static")}),
    ("Rattle.c_tree.specs.Programs", {"Function": "Function", "Program": "Program"}),
    (SAMPLES, {n: n for n in (
        "int pointer integer_kind number constant plain function decay address parenthesized designator function_address_of cast convert "
        "unary logical_not binary compare offset difference logical_and logical_or comma conditional assign set_plain set_plain_in "
        "compound change_plain change_plain_in step step_plain step_plain_in call call_through library printf read lvalue deref "
        "index index_of member arrow member_of_value parenthesized_lvalue content part with_value with_parts without_value item block_of "
        "switch_of plain_variable object_variable static_object static_within string_literal function_type defined program_of "
        "program_with").split()}),
]


def file_of(name, text):
    functions, program = program_text(name, text)
    blocks = [f"{n} : Function\n{n} = {body}" for n, body in functions]
    blocks.append(f"program : Program\nprogram = {program}")
    body = wrapped("\n\n".join(blocks))
    used = set(re.findall(r"[A-Za-z_]\w*|\+\+|∷|\[\]", re.sub(r'"[^"]*"', "", body)))
    uses = [f"use {module}.{{{', '.join(n for n, w in names.items() if w in used)}}}" for module, names in IMPORTS if used & set(names.values())]
    head = f"-- The typed tree of rows/{name}.c, by rows/trees.py."
    return "\n".join([head] + uses) + "\n\n" + body + "\n"


def wrapped(text):
    """Lines of at most 118 characters, cut at spaces outside of strings."""
    out = []
    for line in text.split("\n"):
        indent = " " * (len(line) - len(line.lstrip()) + 4)
        while len(line) > 118:
            spaces = [m.start() for m in re.finditer(r' (?=(?:[^"]*"[^"]*")*[^"]*$)', line[:118] + line[118:]) if len(indent) < m.start() <= 118]
            if not spaces:
                break
            out.append(line[:spaces[-1]])
            line = indent + line[spaces[-1] + 1:]
        out.append(line)
    return "\n".join(out)


def main():
    if len(sys.argv) != 2 or sys.argv[1].startswith("-"):
        sys.exit(__doc__)
    with open(sys.argv[1]) as f:
        print(file_of(os.path.basename(sys.argv[1])[:-2], f.read()))


if __name__ == "__main__":
    main()
