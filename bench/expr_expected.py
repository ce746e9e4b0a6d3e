#!/usr/bin/env python3
"""Writes the expected lines of the crate expr_cases, by a second parser that is written apart from the first.

    bench/expr_expected.py crates/expr_cases/data/cases.txt > crates/expr_cases/stdout
"""
import re
import sys

WORDS = set("""False None True and as assert async await break cdef cimport class const continue cpdef ctypedef def del
elif else except finally for from gil global if import in include is lambda noexcept nogil nonlocal not or pass public
raise readonly return try while with yield""".split())
SIGNS = "<<= >>= //= == != <= >= << >> // += -= *= /= %= &= |= ^= + - * / % | ^ & ~ < > = ( ) [ ] { } , : ; . ?".split()
TOKEN = re.compile(r"\s*(?:(?P<str>'[^']*'|\"[^\"]*\")|(?P<int>0x[0-9a-f]+|[0-9]+)|(?P<name>[A-Za-z_]\w*)|(?P<sign>%s))"
                   % "|".join(re.escape(s) for s in sorted(SIGNS, key=len, reverse=True)))
NUMBERS = {"signed char": "SignedChar", "unsigned char": "UnsignedChar", "short": "Short", "short int": "ShortInt",
           "unsigned short": "UnsignedShort", "unsigned short int": "UnsignedShortInt", "int": "Int",
           "unsigned": "Unsigned", "unsigned int": "UnsignedInt", "long": "Long", "long int": "LongInt",
           "long long": "LongLong", "long long int": "LongLongInt", "unsigned long": "UnsignedLong",
           "unsigned long int": "UnsignedLongInt", "unsigned long long": "UnsignedLongLong",
           "unsigned long long int": "UnsignedLongLongInt", "Py_ssize_t": "PySsizeT", "size_t": "SizeT",
           "bint": "Bint", "void": "Void"}
NUMBER_WORDS = {word for spelling in NUMBERS for word in spelling.split()}
LEVELS = [["|"], ["^"], ["&"], ["<<", ">>"], ["+", "-"], ["*", "/", "//", "%"]]


class Broken(Exception):
    def __init__(self, rule, token):
        super().__init__(rule, token)
        self.rule, self.at = rule, token[2]


def tokens_of(text):
    found, at = [], 0
    while at < len(text):
        match = TOKEN.match(text, at)
        kind = match.lastgroup
        spelled = match.group(kind)
        if kind == "name":
            kind = "word" if spelled in WORDS else "name"
        found.append((kind, spelled, match.start(match.lastgroup)))
        at = match.end()
    if found:
        found.append(("newline", "", len(text)))
    return found + [("end", "", len(text))]


class Parser:
    def __init__(self, text, depth):
        self.tokens, self.place, self.open = tokens_of(text), 0, depth

    @property
    def token(self):
        return self.tokens[self.place]

    def is_(self, *spellings):
        return self.token[0] in ("word", "sign") and self.token[1] in spellings

    def kind(self, kind):
        return self.token[0] == kind

    def take(self):
        self.place += 1
        return self.tokens[self.place - 1][1]

    def want(self, spelling):
        if not self.is_(spelling):
            raise Broken(1, self.token)
        return self.take()

    def opened(self):
        if self.open >= 100:
            raise Broken(2, self.token)
        self.open += 1
        return self.take()

    def ident(self):
        if not self.kind("name"):
            raise Broken(1, self.token)
        return self.take()

    def begins(self):
        return self.kind("name") or self.kind("int") or self.kind("str") or self.is_(
            "None", "True", "False", "(", "[", "{", "-", "+", "~", "<", "not")

    def expr(self):
        value = self.joined("or", lambda: self.joined("and", self.negation))
        if not self.is_("if"):
            return value
        self.take()
        test = self.joined("or", lambda: self.joined("and", self.negation))
        if not self.is_("else"):
            raise Broken(1, self.token)
        self.opened()
        other = self.expr()
        self.open -= 1
        return f"[{value} if {test} else {other}]"

    def joined(self, word, part):
        all_ = [part()]
        while self.is_(word):
            self.take()
            all_.append(part())
        return all_[0] if len(all_) == 1 else "[" + f" {word} ".join(all_) + "]"

    def negation(self):
        if not self.is_("not"):
            return self.compare()
        self.opened()
        operand = self.negation()
        self.open -= 1
        return f"[not {operand}]"

    def compare(self):
        left = self.level(0)
        if self.is_("<", "<=", "==", "!=", ">", ">=", "in"):
            sign = self.take()
        elif self.is_("is"):
            sign = self.take()
            if self.is_("not"):
                sign += " " + self.take()
        elif self.is_("not"):
            sign = self.take() + " " + self.want("in")
        else:
            return left
        return f"[{left} {sign} {self.level(0)}]"

    def level(self, number):
        if number == len(LEVELS):
            return self.unary()
        first, more = self.level(number + 1), ""
        while self.is_(*LEVELS[number]):
            sign = self.take()
            more += f" {sign} {self.level(number + 1)}"
        return f"[{first}{more}]" if more else first

    def unary(self):
        if self.is_("-", "+", "~"):
            sign = self.opened()
            operand = self.unary()
            self.open -= 1
            return f"[{sign} {operand}]"
        if not self.is_("<"):
            return self.postfix()
        self.opened()
        to = self.type()
        if self.is_("?"):
            to += self.take()
        self.want(">")
        operand = self.unary()
        self.open -= 1
        return f"[<{to}> {operand}]"

    def type(self):
        to = self.take() + " " if self.is_("const") else ""
        if self.kind("name") and self.token[1] in NUMBER_WORDS:
            spelled = ""
            while self.kind("name") and any((s + " ").startswith((spelled + " " + self.token[1]).strip() + " ")
                                            for s in NUMBERS):
                spelled = (spelled + " " + self.take()).strip()
            if spelled not in NUMBERS:
                raise Broken(1, self.token)
            to += NUMBERS[spelled]
        else:
            to += self.ident()
            if self.is_("."):
                to += self.take() + self.ident()
        if not self.is_("["):
            return to
        self.opened()
        to += " " + self.dim()
        count = 1
        while self.is_(","):
            self.take()
            if count == 3 and self.is_(":"):
                raise Broken(4, self.token)
            to += " " + self.dim()
            count += 1
        self.want("]")
        self.open -= 1
        return to

    def dim(self):
        self.want(":")
        if not self.is_(":"):
            return ":"
        self.take()
        if not self.kind("int"):
            raise Broken(1, self.token)
        return "::" + self.take()

    def row(self, part, begins, most=None):
        """The items with commas between and perhaps behind them, and whether a comma stands behind."""
        found = []
        while begins():
            if most is not None and len(found) == most:
                opens = self.is_("(", "[", "{", "-", "+", "~", "<", "not")
                raise Broken(2 if opens and self.open >= 100 else 3, self.token)
            found.append(part())
            if not self.is_(","):
                return found, False
            self.take()
        return found, bool(found)

    def pair(self):
        key = self.expr()
        self.want(":")
        return f"{key}: {self.expr()};"

    def index(self):
        low = self.expr() if not self.is_(":") else ""
        if not self.is_(":"):
            return low + ";"
        self.take()
        return f"{low}:{self.expr() if self.begins() else ''};"

    def atom(self):
        if self.kind("name") or self.is_("None", "True", "False"):
            return self.take()
        if self.kind("int"):
            return str(int(self.take(), 0))
        if self.kind("str"):
            text = ""
            while self.kind("str"):
                text += self.take()[1:-1]
            return f"'{text}'"
        if not self.is_("(", "[", "{"):
            raise Broken(1, self.token)
        bracket = self.opened()
        found, comma = self.row(self.pair if bracket == "{" else self.expr, self.begins)
        self.want({"(": ")", "[": "]", "{": "}"}[bracket])
        self.open -= 1
        if bracket == "{":
            return "dict(" + "".join(found) + ")"
        if bracket == "(" and len(found) == 1 and not comma:
            return found[0]
        return ("tuple(" if bracket == "(" else "list(") + ", ".join(found) + ")"

    def postfix(self):
        first, more = self.atom(), ""
        while self.is_(".", "(", "["):
            if self.is_("."):
                self.take()
                more += " ." + self.ident()
                continue
            bracket = self.opened()
            if bracket == "(":
                more += " (" + ", ".join(self.row(self.expr, self.begins, 32)[0]) + ")"
                self.want(")")
            else:
                if not (self.begins() or self.is_(":")):
                    raise Broken(1, self.token)
                more += " [" + "".join(self.row(self.index, lambda: self.begins() or self.is_(":"))[0]) + "]"
                self.want("]")
            self.open -= 1
        return f"[{first}{more}]" if more else first


for name in sys.argv[1:]:
    for line in open(name, encoding="utf-8").read().split("\n"):
        if not line or line.startswith("#"):
            continue
        head, text = line.split("|", 1)
        form, depth = head.split(" ")
        print("==", line)
        parser = Parser(text, int(depth))
        try:
            tree = parser.expr() if form == "expression" else parser.postfix()
            print(f"{parser.place}: {tree}")
        except Broken as broken:
            print(f"refused P{broken.rule} file 7 byte {broken.at}")
