#!/usr/bin/env python3
"""A second simulator of sources, written from the description of the language and its files alone, apart from the code of this repository.

usage: simulator.py print F
       simulator.py reference F [--seed N] [--stream N] [--gap G] [--ticks N] [--table FILE] [--from-zero] [--trace]
       simulator.py run F ..      (the same text; --workers, --budget, --window and --groups are read and have no effect)
       simulator.py check F TRACE

It answers as the program does, but for two things: it has no `drive`, and faults of a source that only the check finds (10 to 17) are told as
`not judged: ..`, status 99, without their number and place. It also reads hidden outputs, `--head`, more than 64 components and trace files of
version 2."""
import heapq
import os
import re
import sys

sys.setrecursionlimit(20000)

H = 1 << 63
M64 = (1 << 64) - 1


class Refused(Exception):
    """`refused N at P`, status 1."""

    def __init__(self, number, place=None):
        super().__init__(number, place)
        self.number, self.place = number, place


class Fault(Exception):
    """`fault N`, status 3."""


class Loud(Exception):
    """What this simulator doesn't judge or can't handle."""


class BadWords(Exception):
    """A refused command line, status 2."""


# ---------------------------------------------------------------- tokens

KEYWORDS = frozenset(
    "type enumeration of automaton signature input output internal const states transitions pre eff tasks components "
    "if then elseif else fi for do od empty fill head tail len append true false and or not mod Bool Int Seq Array "
    "idle hidden".split())
SIGNS2 = (":=", "..", "/=", "<=", ">=")
SIGNS1 = ":,;()[]{}=<>+-*"
LETTERS = frozenset("abcdefghijklmnopqrstuvwxyzABCDEFGHIJKLMNOPQRSTUVWXYZ")
DIGITS = frozenset("0123456789")
WORD = LETTERS | DIGITS | {"_"}


def tokens_of(data):
    """A list of (kind, text or value, byte place); the kinds are name, number, word (keyword) and sign."""
    for at, byte in enumerate(data):
        if byte >= 128:
            raise Refused(2, at)
    text = data.decode("ascii")
    out, at, size = [], 0, len(text)
    while at < size:
        c = text[at]
        if c in " \t\r\n":
            at += 1
        elif c == "%":
            end = text.find("\n", at)
            at = size if end < 0 else end + 1
        elif c in LETTERS:
            end = at
            while end < size and text[end] in WORD:
                end += 1
            word = text[at:end]
            out.append(("word" if word in KEYWORDS else "name", word, at))
            at = end
        elif c in DIGITS:
            end = at
            while end < size and text[end] in DIGITS:
                end += 1
            digits = text[at:end].lstrip("0") or "0"
            if len(digits) > 19 or int(digits) > H - 1 or (end < size and text[end] in WORD):
                raise Refused(3, at)
            out.append(("number", int(digits), at))
            at = end
        elif text[at:at + 2] in SIGNS2:
            out.append(("sign", text[at:at + 2], at))
            at += 2
        elif c in SIGNS1:
            out.append(("sign", c, at))
            at += 1
        else:
            raise Refused(3, at)
    return out


# ---------------------------------------------------------------- grammar
#
# Types:  ("Bool",) ("Int",) ("range", lo, hi) ("named", name) ("Seq", type, number) ("Array", type, type)
# Terms:  ("or", [..]) ("and", [..]) ("not", t) ("rel", op, l, r) ("sum", first, [(op, t)..])
#         ("prod", first, [("*", t) | ("mod", k)..]) ("neg", t) ("index", t, t) ("num", v) ("bool", b) ("name", n)
#         ("paren", t) ("head", t) ("tail", t) ("len", t) ("append", t, t)
# Inits:  ("empty",) ("fill", init) ("term", t)
# Stmts:  ("assign", name, index or None, init) ("if", [(cond, stmts)..], else or None) ("for", name, type, stmts)

class Parser:
    def __init__(self, data):
        self.tokens = tokens_of(data)
        self.at, self.depth, self.size = 0, 0, len(data)

    def peek(self, *texts):
        """Whether the next token is one of these words or signs."""
        if self.at >= len(self.tokens):
            return False
        kind, text, _ = self.tokens[self.at]
        return kind in ("word", "sign") and text in texts

    def peek_kind(self, kind):
        return self.at < len(self.tokens) and self.tokens[self.at][0] == kind

    def wrong(self):
        raise Refused(4, self.tokens[self.at][2] if self.at < len(self.tokens) else self.size)

    def took(self):
        token = self.tokens[self.at]
        if self.depth >= 65:
            raise Refused(6)
        self.at += 1
        return token[1]

    def take(self, *texts):
        if not self.peek(*texts):
            self.wrong()
        return self.took()

    def name(self):
        if not self.peek_kind("name"):
            self.wrong()
        return self.took()

    def number(self):
        if not self.peek_kind("number"):
            self.wrong()
        return self.took()

    def open(self, text):
        self.take(text)
        self.depth += 1

    def close(self, text):
        self.depth -= 1
        self.take(text)

    def list_of(self, item, sign):
        out = [item()]
        while self.peek(sign):
            self.took()
            out.append(item())
        return out

    def in_parens(self, item):
        """["(" item {"," item} ")"]"""
        if not self.peek("("):
            return []
        self.open("(")
        out = self.list_of(item, ",")
        self.close(")")
        return out

    def source(self):
        types = []
        while self.peek("type"):
            self.took()
            name = self.name()
            self.take("=")
            if self.peek("enumeration"):
                self.took()
                self.take("of")
                types.append((name, ("enumeration", self.list_of(self.name, ","))))
            else:
                types.append((name, self.type()))
        automata = []
        while True:
            self.take("automaton")
            name = self.name()
            if automata and self.peek("components"):
                break
            automata.append(self.basic(name))
        self.took()
        comps = self.list_of(self.comp, ";")
        hidden = []
        if self.peek("hidden"):
            self.took()
            hidden = self.list_of(self.name, ",")
        if self.at < len(self.tokens):
            self.wrong()
        return {"types": types, "automata": automata, "name": name, "components": comps, "hidden": hidden}

    def type(self):
        if self.peek("Bool", "Int"):
            return (self.took(),)
        if self.peek("Seq"):
            self.took()
            self.open("[")
            inner = self.type()
            self.take(",")
            bound = self.number()
            self.close("]")
            return ("Seq", inner, bound)
        if self.peek("Array"):
            self.took()
            self.open("[")
            index = self.type()
            self.take(",")
            inner = self.type()
            self.close("]")
            return ("Array", index, inner)
        if self.peek_kind("name"):
            return ("named", self.took())
        if self.peek("-") or self.peek_kind("number"):
            low = self.signed()
            self.take("..")
            return ("range", low, self.signed())
        self.wrong()

    def signed(self):
        if self.peek("-"):
            self.took()
            return -self.number()
        return self.number()

    def basic(self, name):
        formals = self.in_parens(self.typed)
        self.take("signature")
        entries = [self.entry()]
        while self.peek("input", "output", "internal"):
            entries.append(self.entry())
        states = []
        if self.peek("states"):
            self.took()
            states = self.list_of(self.var, ",")
        self.take("transitions")
        trans = [self.trans()]
        while self.peek("input", "output", "internal"):
            trans.append(self.trans())
        tasks = []
        if self.peek("tasks"):
            self.took()
            tasks = [self.task()]
            while self.peek("{"):
                tasks.append(self.task())
        return {"name": name, "formals": formals, "entries": entries, "states": states, "trans": trans, "tasks": tasks}

    def typed(self):
        name = self.name()
        self.take(":")
        return (name, self.type())

    def entry(self):
        kind = self.take("input", "output", "internal")
        name = self.name()
        return (kind, name, self.in_parens(self.param))

    def param(self):
        if self.peek("const"):
            self.took()
            return ("const", self.name())
        name = self.name()
        self.take(":")
        return ("typed", name, self.type())

    def var(self):
        name = self.name()
        self.take(":")
        type_ = self.type()
        self.take(":=")
        return (name, type_, self.init())

    def trans(self):
        kind, name, params = self.entry()
        pre = eff = None
        if self.peek("pre"):
            self.took()
            pre = self.term()
        if self.peek("eff"):
            self.took()
            eff = self.stmts()
        return (kind, name, params, pre, eff)

    def task(self):
        # Braces aren't counted by the rule on depth.
        self.take("{")
        names = self.list_of(self.name, ",")
        self.take("}")
        return names

    def comp(self):
        name = self.name()
        self.take(":")
        automaton = self.name()
        return (name, automaton, self.in_parens(self.term))

    def stmts(self):
        return self.list_of(self.stmt, ";")

    def stmt(self):
        if self.peek("if"):
            self.open("if")
            cond = self.term()
            self.take("then")
            branches = [(cond, self.stmts())]
            while self.peek("elseif"):
                self.took()
                cond = self.term()
                self.take("then")
                branches.append((cond, self.stmts()))
            other = None
            if self.peek("else"):
                self.took()
                other = self.stmts()
            self.close("fi")
            return ("if", branches, other)
        if self.peek("for"):
            self.open("for")
            name = self.name()
            self.take(":")
            type_ = self.type()
            self.take("do")
            body = self.stmts()
            self.close("od")
            return ("for", name, type_, body)
        name = self.name()
        index = None
        if self.peek("["):
            self.open("[")
            index = self.term()
            self.close("]")
        self.take(":=")
        return ("assign", name, index, self.init())

    def init(self):
        if self.peek("empty"):
            self.took()
            return ("empty",)
        if self.peek("fill"):
            self.took()
            self.open("(")
            inner = self.init()
            self.close(")")
            return ("fill", inner)
        return ("term", self.term())

    def term(self):
        parts = self.list_of(self.conj, "or")
        return parts[0] if len(parts) == 1 else ("or", parts)

    def conj(self):
        parts = self.list_of(self.neg, "and")
        return parts[0] if len(parts) == 1 else ("and", parts)

    def neg(self):
        if self.peek("not"):
            self.took()
            self.depth += 1
            inner = self.neg()
            self.depth -= 1
            return ("not", inner)
        return self.rel()

    def rel(self):
        left = self.sum()
        if self.peek("=", "/=", "<", "<=", ">", ">="):
            op = self.took()
            return ("rel", op, left, self.sum())
        return left

    def sum(self):
        first, rest = self.prod(), []
        while self.peek("+", "-"):
            op = self.took()
            rest.append((op, self.prod()))
        return ("sum", first, rest) if rest else first

    def prod(self):
        first, rest = self.unary(), []
        while self.peek("*", "mod"):
            op = self.took()
            rest.append((op, self.unary() if op == "*" else self.number()))
        return ("prod", first, rest) if rest else first

    def unary(self):
        if self.peek("-"):
            self.took()
            self.depth += 1
            inner = self.unary()
            self.depth -= 1
            return ("neg", inner)
        return self.post()

    def post(self):
        term = self.prim()
        while self.peek("["):
            self.open("[")
            index = self.term()
            self.close("]")
            term = ("index", term, index)
        return term

    def prim(self):
        if self.peek_kind("number"):
            return ("num", self.took())
        if self.peek_kind("name"):
            return ("name", self.took())
        if self.peek("true", "false"):
            return ("bool", self.took() == "true")
        if self.peek("("):
            self.open("(")
            inner = self.term()
            self.close(")")
            return ("paren", inner)
        if self.peek("head", "tail", "len"):
            op = self.took()
            self.open("(")
            inner = self.term()
            self.close(")")
            return (op, inner)
        if self.peek("append"):
            self.took()
            self.open("(")
            left = self.term()
            self.take(",")
            right = self.term()
            self.close(")")
            return ("append", left, right)
        self.wrong()


def read(data):
    if len(data) > 65536:
        raise Refused(5)
    parser = Parser(data)
    return parser.source(), parser.tokens


LINE_BEFORE = frozenset(
    "type automaton signature input output internal states transitions pre eff tasks components hidden".split())


def layout(tokens):
    """The text of `print`."""
    out, before = [], None
    for kind, text, _ in tokens:
        shown = str(text)
        if before is not None:
            last_kind, last = before
            if kind == "word" and text in LINE_BEFORE:
                out.append("\n")
            elif kind == "sign" and text in (",", ";", ")", "]", ":", "[", ".."):
                pass
            elif last_kind == "sign" and last in ("(", "[", ".."):
                pass
            elif kind == "sign" and text == "(" and (
                    last_kind == "name" or (last_kind == "word" and last in ("fill", "head", "tail", "len", "append"))):
                pass
            else:
                out.append(" ")
        out.append(shown)
        before = (kind, text)
    out.append("\n")
    return "".join(out)


# ---------------------------------------------------------------- meaning of types, terms and effects
#
# A type here is ("Bool",) ("Int",) ("range", lo, hi) ("enum", name) ("Seq", type, n) ("Array", type, type).
# Values: whole numbers, True and False; a member is its number; sequences and arrays are tuples.

BOOL, INT = ("Bool",), ("Int",)


def wrap(x):
    """x taken modulo 2^64 into the signed numbers of 64 bits."""
    return x if -H <= x < H else ((x + H) & M64) - H


def nearest(x, low, high):
    return low if x < low else high if x > high else x


def head(q, default):
    return q[0] if q else default


def append(q, x, bound):
    return q + (x,) if len(q) < bound else q


class Types:
    """The names of the whole source."""

    def __init__(self, source):
        self.types, self.members, self.enums = {}, {}, {}
        names = set()

        def declare(name):
            if name in names:
                raise Loud(f"11: {name} stands twice")
            names.add(name)

        for name, body in source["types"]:
            if body[0] == "enumeration":
                declare(name)
                self.enums[name] = body[1]
                for number, member in enumerate(body[1]):
                    declare(member)
                    self.members[member] = (name, number)
                self.types[name] = ("enum", name)
            else:
                self.types[name] = self.resolve(body)
                declare(name)
        for automaton in source["automata"]:
            declare(automaton["name"])
        declare(source["name"])
        self.names = names

    def resolve(self, body):
        tag = body[0]
        if tag in ("Bool", "Int"):
            return (tag,)
        if tag == "range":
            if body[1] > body[2]:
                raise Loud("12: a range's first number is the greater")
            return body
        if tag == "named":
            if body[1] not in self.types:
                raise Loud(f"10: no type {body[1]}")
            return self.types[body[1]]
        if tag == "Seq":
            if not 1 <= body[2] <= 65535:
                raise Loud("17: bound of a Seq")
            out = ("Seq", self.resolve(body[1]), body[2])
        else:
            index = self.resolve(body[1])
            self.members_of(index)
            out = ("Array", index, self.resolve(body[2]))
        if self.weight(out) > 65536:
            raise Loud("17: weight of a type")
        return out

    def weight(self, type_):
        if type_[0] == "Seq":
            return type_[2] * self.weight(type_[1])
        if type_[0] == "Array":
            return self.count(type_[1]) * self.weight(type_[2])
        return 1

    def count(self, type_):
        """The number of members of a type that can be listed."""
        if type_ == BOOL:
            return 2
        if type_[0] == "range":
            return type_[2] - type_[1] + 1
        if type_[0] == "enum":
            return len(self.enums[type_[1]])
        raise Loud(f"12: {type_} can't be listed")

    def members_of(self, type_):
        """Python text of the members in type order."""
        if self.count(type_) > 256:
            raise Loud("17: over 256 members where listed")
        if type_ == BOOL:
            return "(False, True)"
        if type_[0] == "range":
            return f"range({type_[1]}, {type_[2] + 1})"
        return f"range({self.count(type_)})"

    def default(self, type_):
        tag = type_[0]
        if tag == "Bool":
            return False
        if tag in ("Int", "enum"):
            return 0
        if tag == "range":
            return type_[1]
        if tag == "Seq":
            return ()
        return (self.default(type_[2]),) * self.count(type_[1])

    def show(self, type_, value):
        if type_ == BOOL:
            return "true" if value else "false"
        if type_[0] == "enum":
            return self.enums[type_[1]][value]
        return str(value)


def scalar(type_):
    return type_[0] in ("Bool", "Int", "range", "enum")


def of_term(type_):
    """A term over a range is a whole number."""
    return INT if type_[0] == "range" else type_


RELS = {"=": "==", "/=": "!=", "<": "<", "<=": "<=", ">": ">", ">=": ">="}


class Writer:
    """Python text of the terms and statements of one automaton; `scope` is name -> (text, type)."""

    def __init__(self, types, constants):
        self.types, self.constants = types, constants

    def constant(self, value):
        """A name for a value in the text's globals."""
        name = f"K{len(self.constants)}"
        self.constants[name] = value
        return name

    def term(self, t, scope):
        tag = t[0]
        if tag == "num":
            return str(t[1]), INT
        if tag == "bool":
            return str(t[1]), BOOL
        if tag == "name":
            if t[1] in scope:
                text, type_ = scope[t[1]]
                return text, of_term(type_)
            if t[1] in self.types.members:
                enum, number = self.types.members[t[1]]
                return str(number), ("enum", enum)
            raise Loud(f"10: no {t[1]} here")
        if tag == "paren":
            text, type_ = self.term(t[1], scope)
            return f"({text})", type_
        if tag in ("or", "and"):
            return f" {tag} ".join(self.typed(part, BOOL, scope) for part in t[1]), BOOL
        if tag == "not":
            return "not " + self.typed(t[1], BOOL, scope), BOOL
        if tag == "rel":
            left, left_type = self.term(t[2], scope)
            right, right_type = self.term(t[3], scope)
            if left_type != right_type or (t[1] not in ("=", "/=") and left_type != INT):
                raise Loud("12: operands of a comparison")
            return f"{left} {RELS[t[1]]} {right}", BOOL
        if tag == "sum":
            # Sums of numbers and wrapping commute modulo 2^64, so it is wrapped once at the end.
            return "wrap(" + self.typed(t[1], INT, scope) + "".join(
                f" {op} {self.typed(part, INT, scope)}" for op, part in t[2]) + ")", INT
        if tag == "prod":
            text, plain = self.typed(t[1], INT, scope), True
            for op, part in t[2]:
                if op == "*":
                    text, plain = f"{text} * {self.typed(part, INT, scope)}", False
                else:
                    if part == 0:
                        raise Loud("12: mod 0")
                    # Python's remainder by a positive number is the member of 0 to k - 1.
                    text, plain = (text if plain else f"wrap({text})") + f" % {part}", True
            return (f"({text})" if plain else f"wrap({text})"), INT
        if tag == "neg":
            return f"wrap(-{self.typed(t[1], INT, scope)})", INT
        if tag == "index":
            text, type_ = self.term(t[1], scope)
            if type_[0] != "Array":
                raise Loud("12: an index on what is no array")
            return f"{text}[{self.index(t[2], type_[1], scope)}]", of_term(type_[2])
        if tag in ("head", "tail", "len", "append"):
            text, type_ = self.term(t[1], scope)
            if type_[0] != "Seq":
                raise Loud(f"12: {tag} of no sequence")
            if tag == "head":
                return f"head({text}, {self.constant(self.types.default(type_[1]))})", of_term(type_[1])
            if tag == "tail":
                return f"({text})[1:]", type_
            if tag == "len":
                return f"len({text})", INT
            return f"append({text}, {self.place(t[2], type_[1], scope)}, {type_[2]})", type_
        raise Loud(f"term {tag}")

    def typed(self, t, type_, scope):
        text, found = self.term(t, scope)
        if found != type_:
            raise Loud(f"12: {found} where {type_} is needed")
        return text

    def place(self, t, type_, scope):
        """The text of a term that is put in a place of the type."""
        text = self.typed(t, of_term(type_), scope)
        if type_[0] == "range":
            return f"nearest({text}, {type_[1]}, {type_[2]})"
        return text

    def index(self, t, type_, scope):
        """The text of the place from 0 in an array with this index type."""
        text = self.place(t, type_, scope)
        if type_[0] == "range":
            return f"{text} - {type_[1]}" if type_[1] >= 0 else f"{text} + {-type_[1]}"
        return text

    def init(self, init, type_, scope):
        if init[0] == "empty":
            if type_[0] != "Seq":
                raise Loud("12: empty needs a sequence")
            return "()"
        if init[0] == "fill":
            if type_[0] != "Array":
                raise Loud("12: fill needs an array")
            return f"({self.init(init[1], type_[2], scope)},) * {self.types.count(type_[1])}"
        return self.place(init[1], type_, scope)

    def stmts(self, stmts, scope, variables, indent, out, fors):
        pad = "    " * indent
        for stmt in stmts:
            if stmt[0] == "assign":
                _, name, index, init = stmt
                if name not in variables:
                    raise Loud(f"10: {name} is no state variable")
                number, type_ = variables[name]
                if index is None:
                    out.append(f"{pad}s[{number}] = {self.init(init, type_, scope)}")
                else:
                    if type_[0] != "Array":
                        raise Loud("12: an index on what is no array")
                    out.append(f"{pad}x = {self.index(index, type_[1], scope)}")
                    out.append(f"{pad}y = {self.init(init, type_[2], scope)}")
                    out.append(f"{pad}z = s[{number}]")
                    out.append(f"{pad}s[{number}] = z[:x] + (y,) + z[x + 1:]")
            elif stmt[0] == "if":
                word = "if"
                for cond, body in stmt[1]:
                    out.append(f"{pad}{word} {self.typed(cond, BOOL, scope)}:")
                    self.stmts(body, scope, variables, indent + 1, out, fors)
                    word = "elif"
                if stmt[2] is not None:
                    out.append(f"{pad}else:")
                    self.stmts(stmt[2], scope, variables, indent + 1, out, fors)
            else:
                _, name, body_type, body = stmt
                type_ = self.types.resolve(body_type)
                if fors == 3:
                    raise Loud("17: a fourth for")
                if name in scope or name in self.types.names:
                    raise Loud(f"11: {name} stands twice")
                out.append(f"{pad}for l_{name} in {self.types.members_of(type_)}:")
                self.stmts(body, {**scope, name: (f"l_{name}", type_)}, variables, indent + 1, out, fors + 1)


# ---------------------------------------------------------------- automata

class Entry:
    """An entry of a signature with its transition."""

    def __init__(self, kind, name, params, types, formals):
        self.kind, self.name, self.params = kind, name, params
        self.shape = []                     # the types of all parameters
        self.consts = []                    # (place, formal)
        self.free = []                      # (place, name, type)
        for place, param in enumerate(params):
            if param[0] == "const":
                if param[1] not in formals:
                    raise Loud(f"10: no formal {param[1]}")
                self.shape.append(formals[param[1]])
                self.consts.append((place, param[1]))
            else:
                type_ = types.resolve(param[2])
                if not scalar(type_):
                    raise Loud("12: a parameter that is no scalar")
                if any(param[1] == other for _, other, _ in self.free) or param[1] in formals or param[1] in types.names:
                    raise Loud(f"11: {param[1]} stands twice")
                self.shape.append(type_)
                self.free.append((place, param[1], type_))
        self.shape = tuple(self.shape)
        if len(params) > 16:
            raise Loud("17: over 16 parameters")
        if kind != "input":
            tuples = 1
            for _, _, type_ in self.free:
                if types.count(type_) > 256:
                    raise Loud("17: over 256 members where listed")
                tuples *= types.count(type_)
            if tuples > 4096:
                raise Loud("17: over 4,096 tuples")


class Automaton:
    """One automaton as a Python function from its formals to its functions."""

    def __init__(self, tree, types):
        self.name, self.types = tree["name"], types
        self.formals = {}
        for name, type_ in tree["formals"]:
            if name in self.formals or name in types.names:
                raise Loud(f"11: {name} stands twice")
            self.formals[name] = types.resolve(type_)
            if not scalar(self.formals[name]):
                raise Loud("12: a formal that is no scalar")
        if len(self.formals) > 16:
            raise Loud("17: over 16 formals")
        self.entries = [Entry(kind, name, params, types, self.formals) for kind, name, params in tree["entries"]]
        self.local = {}
        inputs = set()
        for number, entry in enumerate(self.entries):
            if entry.kind == "input":
                if entry.name in inputs:
                    raise Loud(f"11: {entry.name} stands twice")
                inputs.add(entry.name)
            else:
                if entry.name in self.local:
                    raise Loud(f"11: {entry.name} stands twice")
                self.local[entry.name] = number
        self.tasks = []
        left = set(self.local)
        for names in tree["tasks"]:
            for name in names:
                if name not in left:
                    raise Loud(f"16: {name} in a task")
                left.remove(name)
            self.tasks.append([self.local[name] for name in names])
        if left:
            raise Loud(f"16: {sorted(left)} in no task")

        found = {}
        for trans in tree["trans"]:
            kind, name, params, pre, eff = trans
            if (kind, name) in found:
                raise Loud(f"14: {kind} {name}")
            found[kind, name] = trans
            if kind == "input" and pre is not None:
                raise Loud("15: pre of an input")
        self.constants = {"wrap": wrap, "nearest": nearest, "head": head, "append": append, "len": len, "range": range}
        writer = Writer(types, self.constants)
        scope = {name: (f"f_{name}", type_) for name, type_ in self.formals.items()}
        out = [f"def make({', '.join(f'f_{name}' for name in self.formals)}):"]

        variables, starts, weight = {}, [], 0
        for number, (name, type_, init) in enumerate(tree["states"]):
            if name in variables or name in self.formals or name in types.names:
                raise Loud(f"11: {name} stands twice")
            variables[name] = (number, types.resolve(type_))
            weight += types.weight(variables[name][1])
            starts.append(writer.init(init, variables[name][1], scope))
        if weight > 65536:
            raise Loud("17: weight of the state")
        self.variables = variables
        out.append(f"    def start(): return [{', '.join(starts)}]")
        inner = dict(scope)
        for name, (number, type_) in variables.items():
            inner[name] = (f"s[{number}]", type_)

        for number, entry in enumerate(self.entries):
            trans = found.pop((entry.kind, entry.name), None)
            if trans is None:
                raise Loud(f"13: {entry.kind} {entry.name}")
            if trans[2] != entry.params:
                raise Loud(f"12: parameters of {entry.kind} {entry.name}")
            around = dict(inner)
            for _, name, type_ in entry.free:
                if name in inner:
                    raise Loud(f"11: {name} stands twice")
                around[name] = (f"p_{name}", type_)
            unpack = [f"        p_{name} = A[{place}]" for place, name, _ in entry.free]
            pre = "True" if trans[3] is None else writer.typed(trans[3], BOOL, around)
            if entry.kind != "input":
                # pre(s, A): the precondition; list(s, put): all enabled actions in order.
                out.append(f"    def pre_{number}(s, A):")
                out.extend(unpack)
                out.append(f"        return {pre}")
                out.append(f"    def list_{number}(s, put):")
                indent = 2
                for _, name, type_ in entry.free:
                    out.append("    " * indent + f"for p_{name} in {types.members_of(type_)}:")
                    indent += 1
                args = [None] * len(entry.params)
                for place, name in entry.consts:
                    args[place] = f"f_{name}"
                for place, name, _ in entry.free:
                    args[place] = f"p_{name}"
                made = f"({number}, ({''.join(arg + ', ' for arg in args)}))"
                out.append("    " * indent + f"if {pre}:")
                out.append("    " * indent + f"    put({made})")
            else:
                out.append(f"    pre_{number} = list_{number} = None")
            out.append(f"    def eff_{number}(s, A):")
            out.extend(unpack)
            if trans[4] is None:
                out.append("        pass")
            else:
                writer.stmts(trans[4], around, variables, 2, out, 0)
        if found:
            raise Loud(f"10: a transition without an entry: {sorted(found)}")
        every = range(len(self.entries))
        out.append("    return start, [" + ", ".join(f"(pre_{k}, list_{k}, eff_{k})" for k in every) + "]")
        self.text = "\n".join(out) + "\n"
        try:
            exec(compile(self.text, f"<automaton {self.name}>", "exec"), self.constants)
        except (SyntaxError, RecursionError, MemoryError) as error:
            raise Loud(f"Python can't compile automaton {self.name}: {error}") from None
        self.make = self.constants["make"]


# ---------------------------------------------------------------- composition

class Component:
    def __init__(self, number, automaton, values):
        self.number, self.automaton, self.values = number, automaton, values
        self.start, self.functions = automaton.make(*values.values())
        self.tasks = [[self.functions[k][1] for k in task] for task in automaton.tasks]
        # For each entry: the sets of values of its parameters, as (sort, least, greatest).
        self.sets = [tuple(self.set_of(entry, place, type_) for place, type_ in enumerate(entry.shape))
                     for entry in automaton.entries]
        self.by_name = {}
        for k, entry in enumerate(automaton.entries):
            self.by_name.setdefault(entry.name, []).append(k)

    def set_of(self, entry, place, type_):
        sort = "enum " + type_[1] if type_[0] == "enum" else "Bool" if type_ == BOOL else "number"
        for at, formal in entry.consts:
            if at == place:
                return (sort, int(self.values[formal]), int(self.values[formal]))
        if type_[0] == "range":
            return (sort, type_[1], type_[2])
        if type_ == INT:
            return (sort, -H, H - 1)
        return (sort, 0, self.automaton.types.count(type_) - 1)

    def entry_of(self, name, args):
        """The number of the entry that has the action, or None."""
        found = None
        for k in self.by_name.get(name, ()):
            if len(args) == len(self.sets[k]) and all(low <= int(arg) <= high
                                                      for arg, (_, low, high) in zip(args, self.sets[k])):
                if found is not None:
                    raise Loud("an action stands twice in one signature")
                found = k
        return found


def meet(one, other):
    return len(one) == len(other) and all(
        a[0] == b[0] and a[1] <= b[2] and b[1] <= a[2] for a, b in zip(one, other))


class Plan:
    def __init__(self, source, limit):
        self.types = types = Types(source)
        automata = {tree["name"]: Automaton(tree, types) for tree in source["automata"]}
        names, built = set(), []
        for name, automaton, terms in source["components"]:
            if name in names:
                raise Loud(f"11: {name} stands twice")
            names.add(name)
            values = [(Writer(types, dict(GLOBALS)), term) for term in terms]
            if automaton in automata:
                formals = automata[automaton].formals
                if len(formals) != len(values):
                    raise Loud("12: the number of arguments")
                args = {}
                for (formal, type_), (writer, term) in zip(formals.items(), values):
                    text = writer.place(term, type_, {})
                    try:
                        args[formal] = eval(text, writer.constants)
                    except (SyntaxError, RecursionError, MemoryError) as error:
                        raise Loud(f"Python can't compile an argument: {error}") from None
                built.append((automata[automaton], args))
            else:
                for writer, term in values:
                    writer.term(term, {})
                built.append(None)
        if len(set(source["hidden"])) != len(source["hidden"]):
            raise Loud("11: a name stands twice in hidden")
        self.faults(built, source["hidden"], limit)
        self.hidden = set(source["hidden"])
        self.shapes = {}
        for component in self.components:
            for entry in component.automaton.entries:
                self.shapes[entry.name] = entry.shape

    def faults(self, built, hidden, limit):
        for j, item in enumerate(built):
            if item is None:
                raise Refused(20, j)
        self.components = [Component(j, automaton, args) for j, (automaton, args) in enumerate(built)]
        least = {}

        def fault(number, j):
            least[number] = min(least.get(number, j), j)

        by_name = {}
        for j, component in enumerate(self.components):
            for k, entry in enumerate(component.automaton.entries):
                by_name.setdefault(entry.name, []).append((j, entry.kind, component.sets[k], entry.shape))
        for entries in by_name.values():
            for at, (j, kind, sets, shape) in enumerate(entries):
                if shape != entries[0][3]:
                    fault(24, j)
                for i, other_kind, other_sets, _ in entries[:at]:
                    if kind == "input" and other_kind == "input":
                        continue
                    if not meet(sets, other_sets):
                        continue
                    if i == j:
                        fault(21, j)
                    elif "internal" in (kind, other_kind):
                        fault(22, j)
                    elif kind == other_kind:
                        fault(23, j)
        if len(self.components) > limit:
            least[25] = limit
        for at, name in enumerate(hidden):
            if not any(kind == "output" for _, kind, _, _ in by_name.get(name, ())):
                least.setdefault(36, at)
        if least:
            raise Refused(min(least), least[min(least)])

    def show(self, name, args):
        if not args:
            return name
        return name + "(" + ",".join(self.types.show(t, a) for t, a in zip(self.shapes[name], args)) + ")"

    def parts(self, name, args):
        """(who controls it or None, its entry, the functions of each component that has it)."""
        control, own, changes = None, None, []
        for component in self.components:
            k = component.entry_of(name, args)
            if k is None:
                continue
            changes.append((component.number, component.functions[k][2]))
            if component.automaton.entries[k].kind != "input":
                if control is not None:
                    raise Loud("two components control one action")
                control, own = component.number, k
        return control, own, changes


GLOBALS = {"wrap": wrap, "nearest": nearest, "head": head, "append": append, "len": len}


# ---------------------------------------------------------------- turns

def words(state, stream):
    """The words of Lcg64Xsh32::new(state, stream)."""
    increment = ((stream << 1) | 1) & M64
    state = ((state + increment) * 6364136223846793005 + increment) & M64
    while True:
        rot = state >> 59
        xsh = (((state >> 18) ^ state) >> 27) & 0xFFFFFFFF
        yield ((xsh >> rot) | (xsh << (32 - rot))) & 0xFFFFFFFF
        state = (state * 6364136223846793005 + increment) & M64


def seed_turns(plan, seed, stream, gap, from_zero):
    least = 0 if from_zero else 1

    def turns(i):
        tasks = len(plan.components[i].tasks) or 1
        draw = words(seed, (stream + i) & M64).__next__
        while True:
            g = least + draw() % gap
            t = draw() % tasks
            yield g, t, draw()

    return [turns(i) for i in range(len(plan.components))]


NUMBER = re.compile(r"(?:0|[1-9][0-9]*)\Z")


def number(word, most):
    """A number of the files, or None."""
    if not NUMBER.match(word) or len(word) > 20:
        return None
    value = int(word)
    return value if value <= most else None


def lines_of(data):
    text = data.decode("latin-1")
    if text == "":
        return []
    if text.endswith("\n"):
        text = text[:-1]
    return text.split("\n")


def table_turns(plan, data):
    rows = []
    for at, line in enumerate(lines_of(data), 1):
        parts = line.split(" ")
        values = [number(word, M64 if k == 0 else 4294967295) for k, word in enumerate(parts)]
        if len(values) != 4 or None in values:
            raise Refused(29, at)
        rows.append(values)
    out = [[] for _ in plan.components]
    for at, (component, gap, task, choice) in enumerate(rows, 1):
        if not 0 <= gap <= 65535:
            raise Refused(27, at)
        if component >= len(out):
            raise Refused(30, at)
        if task >= max(1, len(plan.components[component].tasks)):
            raise Refused(28, at)
        out[component].append((gap, task, choice))
    return [iter(turns) for turns in out]


# ---------------------------------------------------------------- the simulation and its text

def reference(plan, turns, horizon, trace):
    """The lines of the turns in key order."""
    states = [component.start() for component in plan.components]
    tasks = [component.tasks for component in plan.components]
    known = [{} for _ in plan.components]
    out, heap = [], []

    def push(i, tick, n):
        turn = next(turns[i], None)
        if turn is None:
            return
        tick += turn[0]
        if tick <= horizon and n < 4294967296:
            heapq.heappush(heap, (tick, i, n, turn[1], turn[2]))

    for i in range(len(states)):
        push(i, 0, 0)
    while heap:
        tick, i, n, task, choice = heapq.heappop(heap)
        enabled = []
        if tasks[i]:
            for listing in tasks[i][task]:
                listing(states[i], enabled.append)
        if enabled:
            action = enabled[choice % len(enabled)]
            found = known[i].get(action)
            if found is None:
                entry = plan.components[i].automaton.entries[action[0]]
                control, own, changes = plan.parts(entry.name, action[1])
                if control != i or own != action[0]:
                    raise Loud("the enabled action isn't its component's")
                external = entry.kind == "output" and entry.name not in plan.hidden
                found = known[i][action] = (
                    plan.show(entry.name, action[1]), external, [(states[j], eff) for j, eff in changes])
            for state, eff in found[2]:
                eff(state, action[1])
            if found[1] or not trace:
                out.append(f"{tick} {i} {n} {found[0]}\n")
        elif not trace:
            out.append(f"{tick} {i} {n} idle\n")
        push(i, tick, n + 1)
    return out, states


# ---------------------------------------------------------------- checker

NAME = re.compile(r"[A-Za-z][A-Za-z0-9_]*\Z")
ACTION = re.compile(r"([A-Za-z][A-Za-z0-9_]*)(?:\(([^()]*)\))?\Z")
ARGUMENT = re.compile(r"(?:0|-?[1-9][0-9]*)\Z")


def read_action(plan, word):
    """(name, args) or the number of the refusal."""
    found = ACTION.match(word)
    if not found or found.group(1) in KEYWORDS:
        return 50
    name, inner = found.groups()
    args = []
    for text in [] if inner is None else inner.split(","):
        if ARGUMENT.match(text):
            if len(text) > 20 or not -H <= int(text) < H:
                return 50
            args.append((INT, int(text)))
        elif text in ("true", "false"):
            args.append((BOOL, text == "true"))
        elif text in plan.types.members:
            enum, value = plan.types.members[text]
            args.append((("enum", enum), value))
        else:
            return 50
    shape = plan.shapes.get(name)
    if shape is None or len(shape) != len(args) or any(of_term(t) != a[0] for t, a in zip(shape, args)):
        return 51
    return name, tuple(value for _, value in args)


def read_trace(plan, data):
    lines, out = lines_of(data), []
    version2, last = lines[:1] == ["trace 2"], None
    for at, line in enumerate(lines, 1):
        if version2 and at == 1:
            continue
        parts = line.split(" ")
        if len(parts) == 4:
            key = tuple(number(word, M64) for word in parts[:3])
            if None in key:
                raise Refused(50, at)
            if version2 and key[1] >= len(plan.components):
                raise Refused(50, at)
            action = None if parts[3] == "idle" else read_action(plan, parts[3])
        elif len(parts) == 1 and not version2:
            key, action = None, read_action(plan, parts[0])
        else:
            raise Refused(50, at)
        if isinstance(action, int):
            raise Refused(action, at)
        if version2:
            if last is not None and key <= last:
                raise Refused(52, at)
            last = key
        if action is not None:
            out.append(action)
    return out


def check(plan, actions):
    states = [component.start() for component in plan.components]
    known = {}
    for at, (name, args) in enumerate(actions):
        if (name, args) not in known:
            known[name, args] = plan.parts(name, args)
        control, own, changes = known[name, args]
        if not changes:
            return f"not an action at {at}\n", 4
        if control is not None and not plan.components[control].functions[own][0](states[control], args):
            return f"not enabled at {at}\n", 4
        for j, eff in changes:
            eff(states[j], args)
    return "schedule\n", 0


# ---------------------------------------------------------------- program

OPTIONS = {
    "--seed": (0, M64), "--stream": (0, M64), "--gap": (1, 65535), "--ticks": (0, 4294967296),
    "--workers": (1, 64), "--budget": (1, 65535), "--window": (1, 65535), "--groups": (1, 64), "--table": None}
FLAGS = {"--from-zero", "--trace", "--head"}
FEW = {"--workers", "--budget", "--window", "--groups"}


def parse_words(words_):
    if not words_:
        raise BadWords
    sub, rest = words_[0], list(words_[1:])
    if sub not in ("print", "reference", "run", "check"):
        raise BadWords
    options, files, k, plain = {}, [], 0, False
    while k < len(rest):
        word = rest[k]
        k += 1
        if plain or not word.startswith("-") or word == "-":
            files.append(word)
            continue
        if word == "--":
            plain = True
            continue
        if sub in ("print", "check"):
            raise BadWords
        if word in FLAGS:
            if word in options:
                raise BadWords
            options[word] = True
            continue
        name, equals, value = word.partition("=")
        if name not in OPTIONS or name in options or (name in FEW and sub != "run"):
            raise BadWords
        if not equals:
            if k >= len(rest):
                raise BadWords
            value = rest[k]
            k += 1
        if OPTIONS[name] is None:
            options[name] = value
        else:
            low, high = OPTIONS[name]
            if not re.match(r"\+?[0-9]+\Z", value) or not low <= int(value) <= high:
                raise BadWords
            options[name] = int(value)
    if len(files) != (2 if sub == "check" else 1):
        raise BadWords
    return sub, files, options


def read_file(folder, name, most):
    try:
        with open(os.path.join(folder, name), "rb") as file:
            return file.read(most)
    except (OSError, ValueError):
        raise Fault(63) from None


def serve(words_, folder="."):
    """(status, standard output, standard error); a status 99 is this simulator's own."""
    try:
        sub, files, options = parse_words(words_)
    except BadWords:
        return 2, "", "wrong words, or such that this simulator doesn't read\n"
    try:
        source, tokens = read(read_file(folder, files[0], 65537))
        if sub == "print":
            return 0, layout(tokens), ""
        plan = Plan(source, 1024)

        def small(name):
            data = read_file(folder, name, 16777217)
            if len(data) > 16777216:
                raise Fault(64)
            return data

        if sub == "check":
            text, status = check(plan, read_trace(plan, small(files[1])))
            return status, text, ""
        if "--table" in options:
            turns = table_turns(plan, small(options["--table"]))
        else:
            turns = seed_turns(plan, options.get("--seed", 1), options.get("--stream", 0), options.get("--gap", 8),
                               "--from-zero" in options)
        out, _ = reference(plan, turns, options.get("--ticks", 1000), "--trace" in options)
        return 0, ("trace 2\n" if "--head" in options else "") + "".join(out), ""
    except Refused as refused:
        where = "" if refused.place is None else f" at {refused.place}"
        return 1, "", f"refused {refused.number}{where}\n"
    except Fault as fault:
        return 3, "", f"fault {fault.args[0]}\n"
    except Loud as loud:
        return 99, "", f"not judged: {loud}\n"


if __name__ == "__main__":
    status_, out_, err_ = serve(sys.argv[1:])
    sys.stdout.buffer.write(out_.encode("latin-1"))
    sys.stdout.flush()
    sys.stderr.write(err_)
    sys.exit(status_)
