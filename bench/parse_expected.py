#!/usr/bin/env python3
"""Writes the expected lines of the crate source_cases, by a second parser that is written apart from the first, over the
second lexer.

    bench/parse_expected.py crates/source_cases/data/accepted.txt crates/source_cases/data/refused.txt > crates/source_cases/stdout

A tree is printed as its nodes in the order of their first tokens, outer before inner, each with what it says itself and
the number of the nodes right inside it.
"""
import sys

import lex_expected

NUMBERS = set("""signed char;unsigned char;short;short int;unsigned short;unsigned short int;int;unsigned;unsigned int;long;
long int;long long;long long int;unsigned long;unsigned long int;unsigned long long;unsigned long long int;Py_ssize_t;size_t;
bint;void""".replace("\n", "").split(";"))
NUMBER_WORDS = {word for spelling in NUMBERS for word in spelling.split()}
AUGMENTED = {"<<=", ">>=", "//=", "+=", "-=", "*=", "/=", "%=", "&=", "|=", "^="}
LEVELS = [("|", ["|"]), ("^", ["^"]), ("&", ["&"]), ("shift", ["<<", ">>"]), ("sum", ["+", "-"]),
          ("term", ["*", "/", "//", "%"])]
PREFIXES = ("-", "+", "~", "<", "not")
BRACKETS = ("(", "[", "{")


class Broken(Exception):
    pass


class Node:
    def __init__(self, own, *inside):
        self.own, self.inside = own, [x for x in inside if x is not None]

    def shown(self):
        found, left = [], [self]
        while left:
            node = left.pop()
            found.append(f"{node.own}/{len(node.inside)}")
            left += reversed(node.inside)
        return " | ".join(found)


def listed(names):
    return ", ".join(names)


class Parser:
    def __init__(self, tokens):
        self.tokens, self.place, self.open = tokens, 0, 0

    # tokens

    def kind(self, ahead=0):
        if self.place + ahead >= len(self.tokens):
            return "end"
        return self.tokens[self.place + ahead][2].split(" ")[0]

    def text(self, ahead=0):
        return self.tokens[self.place + ahead][2].partition(" ")[2]

    def sees(self, *spellings):
        return self.kind() in ("word", "sign") and self.text() in spellings

    def broken(self, rule=1):
        raise Broken(rule, self.tokens[self.place][0])

    def take(self):
        self.place += 1
        return self.text(-1)

    def takes(self, *spellings):
        return self.take() if self.sees(*spellings) else None

    def want(self, *spellings):
        if not self.sees(*spellings):
            self.broken()
        return self.take()

    def want_kind(self, kind):
        if self.kind() != kind:
            self.broken()
        return self.take()

    def opened(self):
        if self.open >= 100:
            self.broken(2)
        self.open += 1
        return self.take()

    def closed(self, spelling):
        self.want(spelling)
        self.open -= 1

    # expressions

    def begins(self):
        return self.kind() in ("name", "int", "string") or self.sees("None", "True", "False", *BRACKETS, *PREFIXES)

    def expr(self):
        value = self.either()
        if not self.takes("if"):
            return value
        test = self.either()
        if not self.sees("else"):
            self.broken()
        self.opened()
        other = self.expr()
        self.open -= 1
        return Node("if else", value, test, other)

    def either(self):
        return self.joined("or", self.all_)

    def all_(self):
        return self.joined("and", self.negation)

    def joined(self, word, part):
        found = [part()]
        while self.takes(word):
            found.append(part())
        return found[0] if len(found) == 1 else Node(word, *found)

    def negation(self):
        if not self.sees("not"):
            return self.compare()
        self.opened()
        operand = self.negation()
        self.open -= 1
        return Node("not", operand)

    def compare(self):
        left = self.level(0)
        if self.sees("<", "<=", "==", "!=", ">", ">=", "in"):
            sign = self.take()
        elif self.takes("is"):
            sign = "is not" if self.takes("not") else "is"
        elif self.takes("not"):
            sign = "not " + self.want("in")
        else:
            return left
        return Node("cmp " + sign, left, self.level(0))

    def level(self, number):
        if number == len(LEVELS):
            return self.unary()
        name, signs = LEVELS[number]
        found, between = [self.level(number + 1)], []
        while self.sees(*signs):
            between.append(self.take())
            found.append(self.level(number + 1))
        if not between:
            return found[0]
        return Node(" ".join([name] + (between if len(signs) > 1 else [])), *found)

    def unary(self):
        if self.sees("-", "+", "~"):
            sign = self.opened()
            operand = self.unary()
            self.open -= 1
            return Node("unary " + sign, operand)
        if not self.sees("<"):
            return self.postfix()
        self.opened()
        to = self.type_()
        mark = self.takes("?") or ""
        self.want(">")
        operand = self.unary()
        self.open -= 1
        return Node(f"<{to}{mark}>", operand)

    def number_type(self):
        spelled = ""
        while self.kind() == "name":
            longer = (spelled + " " + self.text()).strip()
            if not any((known + " ").startswith(longer + " ") for known in NUMBERS):
                break
            spelled = longer
            self.take()
        if spelled not in NUMBERS:
            self.broken()
        return spelled

    def type_(self):
        const = "const " if self.takes("const") else ""
        if self.kind() == "name" and self.text() in NUMBER_WORDS:
            to = self.number_type()
        else:
            to = self.want_kind("name")
            if self.takes("."):
                to += "." + self.want_kind("name")
        if not self.sees("["):
            return const + to
        self.opened()
        found = [self.dim()]
        while self.takes(","):
            if len(found) == 3 and self.sees(":"):
                self.broken(4)
            found.append(self.dim())
        self.closed("]")
        return f"{const}{to}[{listed(found)}]"

    def dim(self):
        self.want(":")
        return "::" + self.want_kind("int") if self.takes(":") else ":"

    def row(self, part, begins, most=None):
        """The items with commas between and perhaps behind them, and whether a comma stands behind."""
        found = []
        while begins():
            if most is not None and len(found) == most:
                self.broken(2 if self.sees(*BRACKETS, *PREFIXES) and self.open >= 100 else 3)
            found.append(part())
            if not self.takes(","):
                return found, False
        return found, bool(found)

    def pair(self):
        key = self.expr()
        self.want(":")
        return [key, self.expr()]

    def begins_index(self):
        return self.begins() or self.sees(":")

    def index(self):
        low = None if self.sees(":") else self.expr()
        if not self.takes(":"):
            return Node("one", low)
        high = self.expr() if self.begins() else None
        return Node("slice" + (" low" if low else "") + (" high" if high else ""), low, high)

    def atom(self):
        if self.kind() == "name":
            return Node("name " + self.take())
        if self.sees("None", "True", "False"):
            return Node(self.take())
        if self.kind() == "int":
            return Node("int " + self.take())
        if self.kind() == "string":
            text = ""
            while self.kind() == "string":
                text += self.take()
            return Node(f"'{text}'")
        if not self.sees(*BRACKETS):
            self.broken()
        bracket = self.opened()
        if bracket == "{":
            found, _ = self.row(self.pair, self.begins)
            self.closed("}")
            return Node("dict", *[x for pair in found for x in pair])
        found, comma = self.row(self.expr, self.begins)
        self.closed(")" if bracket == "(" else "]")
        if bracket == "(" and len(found) == 1 and not comma:
            return found[0]
        return Node("tuple" if bracket == "(" else "list", *found)

    def postfix(self):
        first, parts = self.atom(), []
        while self.sees(".", "(", "["):
            if self.takes("."):
                parts.append(Node("." + self.want_kind("name")))
                continue
            if self.opened() == "(":
                parts.append(Node("call", *self.row(self.expr, self.begins, 32)[0]))
                self.closed(")")
                continue
            if not self.begins_index():
                self.broken()
            parts.append(Node("item", *self.row(self.index, self.begins_index)[0]))
            self.closed("]")
        return Node("postfix", first, *parts) if parts else first

    def exprs(self):
        if not self.begins():
            self.broken()
        found, comma = self.row(self.expr, self.begins)
        return found[0] if len(found) == 1 and not comma else Node("tuple", *found)

    # names

    def typed_name(self):
        """[type] NAME: the type with a blank behind it, or nothing, and the name."""
        number = self.kind() == "name" and self.text() in NUMBER_WORDS
        before = ""
        if number and self.text() == "char":
            self.broken()
        typed = self.kind() == "name" and (self.kind(1) == "name" or (self.kind(1) == "sign" and self.text(1) in (".", "[")))
        if self.sees("const") or number or typed:
            before = self.type_() + " "
        return before, self.declared_name()

    def declared_name(self):
        if self.kind() == "name" and self.text() in NUMBER_WORDS:
            self.broken()
        return self.want_kind("name")

    def more_names(self):
        found = []
        while self.takes(","):
            found.append(self.want_kind("name"))
        return found

    def item(self):
        name = self.want_kind("name")
        return name + (" as " + self.want_kind("name") if self.takes("as") else "")

    def items(self):
        found = [self.item()]
        while self.takes(","):
            found.append(self.item())
        return listed(found)

    def value(self):
        return self.expr() if self.takes("=") else None

    def declared(self, name):
        found = [Node("declared " + name, self.value())]
        while self.takes(","):
            name = self.want_kind("name")
            found.append(Node("declared " + name, self.value()))
        return found

    # statements

    def simple(self):
        for word in ("pass", "break", "continue"):
            if self.takes(word):
                return Node(word)
        if self.takes("return"):
            return Node("return", self.exprs() if self.begins() else None)
        if self.takes("raise"):
            return Node("raise", self.expr() if self.begins() else None)
        if self.takes("del"):
            found = [self.expr()]
            while self.takes(","):
                found.append(self.expr())
            return Node("del", *found)
        if self.takes("global"):
            return Node("global " + listed([self.want_kind("name")] + self.more_names()))
        if self.takes("import"):
            return Node("import " + self.items())
        if self.takes("from"):
            outer = self.want_kind("name")
            self.want("import")
            return Node(f"from {outer} import {self.items()}")
        if self.takes("cdef"):
            kind, name = self.typed_name()
            return Node(("cdef " + kind).strip(), *self.declared(name))
        return self.assignment()

    def assignment(self):
        found = [self.exprs()]
        if self.sees(*AUGMENTED):
            sign = self.take()
            return Node("augmented " + sign, found[0], self.expr())
        while self.takes("="):
            found.append(self.exprs())
        return Node("expression" if len(found) == 1 else "assign", *found)

    def line(self, first=None):
        found = [first or self.simple()]
        while self.takes(";"):
            if self.kind() == "newline":
                break
            found.append(self.simple())
        self.want_kind("newline")
        return Node("line", *found)

    def begins_stmt(self):
        return self.begins() or self.sees("if", "while", "for", "try", "with", "pass", "break", "continue", "return", "raise",
                                          "del", "global", "import", "from", "cdef")

    def suite(self):
        self.want(":")
        if self.kind() != "newline":
            return Node("inline", self.line())
        self.take()
        if self.kind() != "indent":
            self.broken()
        if self.open >= 100:
            at = self.place
            self.place += 1
            rule = 2 if self.begins_stmt() else 1
            self.place = at
            self.broken(rule)
        self.open += 1
        self.take()
        found = [self.stmt()]
        while self.kind() != "dedent":
            found.append(self.stmt())
        self.take()
        self.open -= 1
        return Node("block", *found)

    def else_(self):
        return self.suite() if self.takes("else") else None

    def stmt(self):
        if self.takes("if"):
            return self.if_()
        if self.takes("while"):
            test, body, other = self.expr(), self.suite(), self.else_()
            return Node("while" + (" else" if other else ""), test, body, other)
        if self.takes("for"):
            target = self.postfix()
            self.want("in")
            over, body, other = self.expr(), self.suite(), self.else_()
            return Node("for" + (" else" if other else ""), target, over, body, other)
        if self.takes("try"):
            return self.try_()
        if self.takes("with"):
            word = self.want("nogil", "gil")
            return Node("with " + word, self.suite())
        return Node("simples", self.line())

    def if_(self):
        arms = [Node("arm", self.expr(), self.suite())]
        while self.takes("elif"):
            arms.append(Node("arm", self.expr(), self.suite()))
        other = self.else_()
        return Node("if" + (" else" if other else ""), *arms, other)

    def handler(self):
        kind = self.expr() if self.begins() else None
        name = " as " + self.want_kind("name") if kind and self.takes("as") else ""
        return Node("except" + (" type" if kind else "") + name, kind, self.suite())

    def try_(self):
        body, handlers, other = self.suite(), [], None
        while self.takes("except"):
            handlers.append(self.handler())
        if handlers:
            other = self.else_()
        elif not self.sees("finally"):
            self.broken()
        last = self.suite() if self.takes("finally") else None
        own = f"try {len(handlers)}" + (" else" if other else "") + (" finally" if last else "")
        return Node(own, body, *handlers, other, last)

    # declarations

    def param(self):
        kind, name = self.typed_name()
        never = ""
        if self.takes("not"):
            self.want("None")
            never = " not None"
        return Node(f"param {kind}{name}{never}", self.value())

    def begins_type(self):
        return self.kind() == "name" and self.text() != "char" or self.sees("const")

    def params(self):
        if not self.sees("("):
            self.broken()
        self.opened()
        found, _ = self.row(self.param, self.begins_type, 32)
        self.closed(")")
        return found

    def clause(self):
        if self.takes("noexcept"):
            return " noexcept"
        self.want("except")
        if self.takes("*"):
            return " except *"
        mark = self.takes("?") or ""
        minus = self.takes("-") or ""
        return f" except{mark} {minus}{self.want_kind('int')}"

    def header(self):
        params = self.params()
        if self.takes("nogil"):
            clause, nogil = self.clause() if self.sees("except", "noexcept") else "", " nogil"
        else:
            clause = self.clause() if self.sees("except", "noexcept") else ""
            nogil = " nogil" if self.takes("nogil") else ""
        return Node("header" + clause + nogil, *params)

    def heading(self, word, typed):
        return Node(f"{word} {typed[0]}{typed[1]}", self.header())

    def function(self, word, typed):
        return Node("function", self.heading(word, typed), self.suite())

    def def_(self):
        name = self.want_kind("name")
        return Node("def " + name, *self.params(), self.suite())

    def cimport(self):
        own = "cimport " + self.item()
        self.want_kind("newline")
        return Node(own)

    def from_cimport(self, outer):
        self.want("cimport")
        own = f"from {outer} cimport {self.items()}"
        self.want_kind("newline")
        return Node(own)

    def class_(self, member):
        own = "class " + self.want_kind("name")
        if self.takes("("):
            base = self.want_kind("name")
            if self.takes("."):
                base += "." + self.want_kind("name")
            self.want(")")
            own += f"({base})"
        self.want(":")
        if self.takes("pass"):
            self.want_kind("newline")
            return Node(own, Node("pass"))
        self.want_kind("newline")
        self.want_kind("indent")
        found = [member()]
        while self.kind() != "dedent":
            found.append(member())
        self.take()
        return Node(own, *found)

    def open_fields(self):
        access, kind = self.take(), self.type_first()
        names = [self.declared_name()] + self.more_names()
        self.want_kind("newline")
        return Node(f"{access} {kind} {listed(names)}")

    def type_first(self):
        if self.kind() == "name" and self.text() == "char":
            self.broken()
        return self.type_()

    def fields(self, typed):
        own = f"fields {typed[0]}{listed([typed[1]] + self.more_names())}"
        self.want_kind("newline")
        return Node(own)

    def member(self):
        if self.takes("pass"):
            self.want_kind("newline")
            return Node("pass")
        if self.kind() == "string":
            own = f"'{self.take()}'"
            self.want_kind("newline")
            return Node(own)
        if self.takes("def"):
            return Node("member", self.def_())
        if self.takes("cpdef"):
            return Node("member", self.function("cpdef", self.typed_name()))
        self.want("cdef")
        if self.sees("public", "readonly"):
            return self.open_fields()
        typed = self.typed_name()
        if self.sees("("):
            return Node("member", self.function("cdef", typed))
        return self.fields(typed)

    def pxd_member(self):
        if self.takes("pass"):
            self.want_kind("newline")
            return Node("pass")
        if self.takes("cpdef"):
            found = Node("member", self.heading("cpdef", self.typed_name()))
            self.want_kind("newline")
            return found
        self.want("cdef")
        if self.sees("public", "readonly"):
            return self.open_fields()
        typed = self.typed_name()
        if not self.sees("("):
            return self.fields(typed)
        found = Node("member", self.heading("cdef", typed))
        self.want_kind("newline")
        return found

    def variables(self, typed):
        found = self.declared(typed[1])
        self.want_kind("newline")
        return Node("top", Node(("variables " + typed[0]).strip(), *found))

    def top(self):
        if self.takes("cimport"):
            return self.cimport()
        if self.takes("def"):
            return Node("top", self.def_())
        if self.takes("cpdef"):
            return Node("top", self.function("cpdef", self.typed_name()))
        if self.takes("cdef"):
            if self.takes("class"):
                return Node("top", self.class_(self.member))
            typed = self.typed_name()
            return Node("top", self.function("cdef", typed)) if self.sees("(") else self.variables(typed)
        if not self.takes("from"):
            return Node("top", self.stmt())
        outer = self.want_kind("name")
        if not self.sees("import"):
            return self.from_cimport(outer)
        self.take()
        return Node("top", Node("simples", self.line(Node(f"from {outer} import {self.items()}"))))

    def pxd_item(self):
        if self.takes("cimport"):
            return self.cimport()
        if self.takes("from"):
            return self.from_cimport(self.want_kind("name"))
        if self.takes("pass"):
            self.want_kind("newline")
            return Node("pass")
        word = self.want("cdef", "cpdef")
        if word == "cdef" and self.takes("class"):
            return Node("item", self.class_(self.pxd_member))
        found = Node("item", self.heading(word, self.typed_name()))
        self.want_kind("newline")
        return found

    def file(self, ending):
        found = []
        while self.kind() != "end":
            found.append(self.pxd_item() if ending == "pxd" else self.top())
        return Node(ending, *found)


def answer(ending, text):
    try:
        tokens = lex_expected.lexed(text)
    except lex_expected.Broken as broken:
        return "refused L%d file 7 byte %d" % broken.args
    try:
        return Parser(tokens).file(ending).shown()
    except Broken as broken:
        return "refused P%d file 7 byte %d" % broken.args


def main():
    sys.setrecursionlimit(100000)
    for path in sys.argv[1:]:
        for line in open(path, encoding="utf-8").read().split("\n"):
            if line and not line.startswith("#"):
                name, ending, text = line.split("|", 2)
                print(f"{name}: {answer(ending, lex_expected.unescaped(text))}")


if __name__ == "__main__":
    main()
