#!/usr/bin/env python3
"""Writes the expected lines of the crate source_cases for sets of files, by a second resolver that is written apart from the
first, over the second parser.

    bench/name_expected.py crates/source_cases/data/sets.txt

A line is a name and then pairs, `|` before each part: a file's name and its text, or `resolve` and a scope's number with a
name. Modules are numbered by their first files. Names of a module's scope are printed in the order of their bytes, locals in
that of their numbers.
"""
import sys

import lex_expected
from parse_expected import Broken, Parser


class Reader(Parser):
    """The second parser, which notes what is said of names: lists of (what, name, offset)."""

    def __init__(self, tokens):
        super().__init__(tokens)
        self.said = []            # of the module, or of the function that is read
        self.tops = []            # (what, name, offset, more)
        self.functions = []       # (parameters, said) in text order, methods included
        self.name_at = 0

    def at(self):
        return self.tokens[self.place][0]

    def name(self):
        self.name_at = self.at()
        return self.want_kind("name"), self.name_at

    def say(self, what, name, offset):
        self.said.append((what, name, offset))

    # types

    def number_type(self):
        spelled = super().number_type()
        self.number = True
        return spelled

    def type_(self):
        self.number = False
        start = self.place + (1 if self.sees("const") else 0)
        offset = self.tokens[start][0] if start < len(self.tokens) else 0
        spelled = super().type_()
        if not self.number:
            self.say("type", spelled.removeprefix("const ").split("[")[0], offset)
        return spelled

    def declared_name(self):
        self.name_at = self.at()
        return super().declared_name()

    # names in statements

    def named(self, node, start):
        """The name that an expression is, if it is one, and where it stands."""
        if not node.own.startswith("name ") or node.inside:
            return None
        while self.tokens[start][2].split(" ")[0] != "name":
            start += 1
        return node.own[5:], self.tokens[start][0]

    def read_targets(self, what, part):
        start = self.place
        found = self.named(part(), start)
        return [(what, *found)] if found else []

    def declared(self, name):
        self.say("declare", name, self.name_at)
        self.value()
        while self.takes(","):
            self.say("declare", *self.name())
            self.value()
        return []

    def bound_item(self, what):
        found = self.name()
        if self.takes("as"):
            found = self.name()
        self.say(what, *found)

    def bound_items(self):
        self.bound_item("target")
        while self.takes(","):
            self.bound_item("target")

    def simple(self):
        if self.takes("del"):
            found = self.read_targets("bound", self.expr)
            while self.takes(","):
                found += self.read_targets("bound", self.expr)
            self.said += found
        elif self.takes("global"):
            self.say("global", *self.name())
            while self.takes(","):
                self.say("global", *self.name())
        elif self.takes("import"):
            self.bound_items()
        elif self.takes("from"):
            self.want_kind("name")
            self.want("import")
            self.bound_items()
        else:
            return super().simple()

    def assignment(self):
        found = self.read_targets("target", self.exprs)
        if self.kind() == "sign" and self.text() in ("<<=", ">>=", "//=", "+=", "-=", "*=", "/=", "%=", "&=", "|=", "^="):
            self.take()
            self.said += found
            self.expr()
            return
        while self.takes("="):
            self.said += found
            found = self.read_targets("target", self.exprs)

    def stmt(self):
        if not self.sees("for"):
            return super().stmt()
        self.take()
        self.said += self.read_targets("target", self.postfix)
        self.want("in")
        self.expr()
        self.suite()
        self.else_()

    def handler(self):
        kind = self.begins()
        if kind:
            self.expr()
        if kind and self.takes("as"):
            self.say("bound", *self.name())
        self.suite()

    def line(self, first=None):
        if first is None:
            self.simple()
        while self.takes(";"):
            if self.kind() == "newline":
                break
            self.simple()
        self.want_kind("newline")

    def if_(self):
        self.expr()
        self.suite()
        while self.takes("elif"):
            self.expr()
            self.suite()
        self.else_()

    # functions

    def param(self):
        self.typed_name()
        self.parameters.append((self.name_at_of_last, self.last))
        if self.takes("not"):
            self.want("None")
        self.value()

    def typed_name(self):
        found = super().typed_name()
        self.last, self.name_at_of_last = found[1], self.name_at
        return found

    def params(self):
        self.parameters = []
        super().params()
        return []

    def body(self, parameters):
        outer, self.said = self.said, []
        self.suite()
        self.functions.append(([(name, at) for at, name in parameters], self.said))
        self.said = outer

    def function(self, word, typed):
        found = (typed[1], self.name_at_of_last)
        self.header()
        self.body(self.parameters)
        return ("function", *found)

    def heading(self, word, typed):
        found = (typed[1], self.name_at_of_last)
        self.header()
        self.headings.append([(name, at) for at, name in self.parameters])
        return ("function", *found)

    def def_(self):
        found = self.name()
        self.params()
        self.body(self.parameters)
        return ("def", *found)

    # what stands at the top

    def cimport(self):
        at = self.at()
        outer = self.want_kind("name")
        found = self.name() if self.takes("as") else (outer, at)
        self.want_kind("newline")
        self.tops.append(("cimport", *found, (outer, None, 0)))

    def from_cimport(self, outer):
        self.want("cimport")
        while True:
            name, at = self.name()
            found = self.name() if self.takes("as") else (name, at)
            self.tops.append(("cimport", *found, (outer, name, at)))
            if not self.takes(","):
                break
        self.want_kind("newline")

    def class_(self, member):
        found = self.name()
        if self.takes("("):
            self.want_kind("name")
            if self.takes("."):
                self.want_kind("name")
            self.want(")")
        self.want(":")
        self.members = []
        if self.takes("pass"):
            self.want_kind("newline")
        else:
            self.want_kind("newline")
            self.want_kind("indent")
            member()
            while self.kind() != "dedent":
                member()
            self.take()
        return ("class", *found, self.members)

    def field_names(self, first):
        self.members.append(("field", *first))
        while self.takes(","):
            self.members.append(("field", *self.name()))
        self.want_kind("newline")

    def open_fields(self):
        self.take()
        self.type_first()
        at = self.at()
        self.field_names((self.declared_name(), at))

    def fields(self, typed):
        self.field_names((typed[1], self.name_at_of_last))

    def method(self, found):
        self.members.append(("method", *found[1:]))

    def member(self):
        if self.takes("pass"):
            self.want_kind("newline")
        elif self.kind() == "string":
            self.take()
            self.want_kind("newline")
        elif self.takes("def"):
            self.method(self.def_())
        elif self.takes("cpdef"):
            self.method(self.function("cpdef", self.typed_name()))
        else:
            self.want("cdef")
            if self.sees("public", "readonly"):
                return self.open_fields()
            typed = self.typed_name()
            if not self.sees("("):
                return self.fields(typed)
            self.method(self.function("cdef", typed))

    def pxd_member(self):
        if self.takes("pass"):
            return self.want_kind("newline")
        if self.takes("cpdef"):
            self.method(self.heading("cpdef", self.typed_name()))
            return self.want_kind("newline")
        self.want("cdef")
        if self.sees("public", "readonly"):
            return self.open_fields()
        typed = self.typed_name()
        if not self.sees("("):
            return self.fields(typed)
        self.method(self.heading("cdef", typed))
        self.want_kind("newline")

    def variables_of_statement(self, before):
        self.tops += [("variable", name, at) for what, name, at in self.said[before:] if what == "declare"]

    def top(self):
        before, count = len(self.said), len(self.functions)
        if self.takes("cimport"):
            self.cimport()
        elif self.takes("def"):
            self.tops.append(self.def_())
        elif self.takes("cpdef"):
            self.tops.append((*self.function("cpdef", self.typed_name()), count))
        elif self.takes("cdef"):
            if self.takes("class"):
                self.tops.append(self.class_(self.member))
                return
            typed = self.typed_name()
            if self.sees("("):
                self.tops.append((*self.function("cdef", typed), count))
            else:
                self.declared(typed[1])
                self.want_kind("newline")
                self.variables_of_statement(before)
        elif self.takes("from"):
            outer = self.want_kind("name")
            if not self.sees("import"):
                return self.from_cimport(outer)
            self.take()
            self.bound_items()
            self.line(first=True)
            self.variables_of_statement(before)
        else:
            self.stmt()
            self.variables_of_statement(before)

    def pxd_item(self):
        if self.takes("cimport"):
            self.cimport()
        elif self.takes("from"):
            self.from_cimport(self.want_kind("name"))
        elif self.takes("pass"):
            self.want_kind("newline")
        else:
            word = self.want("cdef", "cpdef")
            if word == "cdef" and self.takes("class"):
                self.tops.append(self.class_(self.pxd_member))
                return
            self.tops.append(self.heading(word, self.typed_name()))
            self.want_kind("newline")

    def read(self, ending):
        self.headings = []
        while self.kind() != "end":
            self.pxd_item() if ending == "pxd" else self.top()
        return self


EMPTY = Reader([])
EMPTY.headings = []


class Module:
    def __init__(self, name, number):
        self.name, self.number = name, number
        self.pyx = self.pxd = None            # numbers of files
        self.given = self.declared = EMPTY     # what was read of them

    def of_kind(self, *kinds):
        return [top for top in self.given.tops if top[0] in kinds]

    def c_name(self, name):
        """The kind of a C name of the module."""
        for place, top in enumerate(self.of_kind("variable")):
            if top[1] == name:
                return f"C variable {place}"
        for top in self.of_kind("function"):
            if top[1] == name:
                return f"C function {self.number}.{top[3]}"
        for place, top in enumerate(self.of_kind("class")):
            if top[1] == name:
                return f"class {self.number}.{place}"
        return None

    def shares(self, name):
        """What a cimport of the name gives, if the module's `.pxd` declares it."""
        if any(top[0] in ("class", "function") and top[1] == name for top in self.declared.tops):
            return self.c_name(name) or "global"
        return None


class Set:
    def __init__(self, files):
        self.modules, self.named = [], {}
        for number, (name, text) in enumerate(files):
            stem, ending = name.split(".")
            if stem not in self.named:
                self.named[stem] = Module(stem, len(self.modules))
                self.modules.append(self.named[stem])
            read = Reader(lex_expected.lexed(text)).read(ending)
            if ending == "pyx":
                self.named[stem].pyx, self.named[stem].given = number, read
            else:
                self.named[stem].pxd, self.named[stem].declared = number, read
        self.found = []

    def shared(self, outer, name):
        return self.named[outer].shares(name) if outer in self.named else None

    def cimported(self, module, name):
        for top in module.declared.tops + module.given.tops:
            if top[0] == "cimport" and top[1] == name:
                outer, inner, _ = top[3]
                if inner is None:
                    return f"module {self.named[outer].number}" if outer in self.named else "global"
                return self.shared(outer, inner) or "global"
        return None

    def in_module(self, module, name):
        return module.c_name(name) or self.cimported(module, name) or "global"

    def scope_names(self, module):
        names = {top[1] for top in module.given.tops} | {top[1] for top in module.declared.tops if top[0] == "cimport"}
        return sorted(names, key=lambda name: name.encode())

    @staticmethod
    def locals_of(function):
        parameters, said = function
        globals_ = {name for what, name, _ in said if what == "global"}
        found = [name for name, _ in parameters] + [name for what, name, _ in said if what in ("target", "bound", "declare")]
        return list(dict.fromkeys(name for name in found if name not in globals_))

    # the rules

    def breaks(self, rule, file, offset):
        self.found.append((file, offset, rule))

    def once(self, file, names, before=()):
        seen = set(before)
        for name, at in names:
            if name in seen:
                self.breaks(1, file, at)
            seen.add(name)

    def is_type(self, module, spelled, locals_=()):
        if spelled == "object":
            return True
        outer, _, inner = spelled.partition(".")
        if outer in locals_:
            return False
        kind = self.in_module(module, outer)
        if not inner:
            return kind.startswith("class")
        if not kind.startswith("module"):
            return False
        return (self.modules[int(kind.split()[1])].shares(inner) or "").startswith("class")

    def judge_said(self, module, file, said, locals_=()):
        for what, name, at in said:
            if what == "type" and not self.is_type(module, name, locals_):
                self.breaks(2, file, at)
            if what == "target" and name not in locals_ and self.in_module(module, name).split()[0] in ("C", "class", "module"):
                if not self.in_module(module, name).startswith("C variable"):
                    self.breaks(3, file, at)

    def judge_cimports(self, file, tops):
        for top in tops:
            if top[0] == "cimport" and top[3][1] is not None and self.shared(top[3][0], top[3][1]) is None:
                self.breaks(5, file, top[3][2])

    def judge_classes(self, module):
        declared = {}
        for top in module.declared.tops:
            if top[0] == "class":
                self.once(module.pxd, [member[1:] for member in top[3]])
                declared.setdefault(top[1], top[3])
        for top in module.of_kind("class"):
            self.once(module.pyx, [member[1:] for member in top[3]])
            before = {name: what for what, name, _ in reversed(declared.get(top[1], []))}
            for what, name, at in top[3]:
                if name in before and (what, before[name]) != ("method", "method"):
                    self.breaks(1, module.pyx, at)

    def judge_function(self, module, function):
        parameters, said = function
        declared = parameters + [(name, at) for what, name, at in said if what == "declare"]
        self.once(module.pyx, declared)
        self.judge_said(module, module.pyx, said, self.locals_of(function))
        for what, name, at in said:
            if what == "global" and name in {name for name, _ in declared}:
                self.breaks(4, module.pyx, at)

    def judge(self, module):
        tops = module.declared.tops
        self.once(module.pxd, [top[1:3] for top in tops])
        for parameters in module.declared.headings:
            self.once(module.pxd, parameters)
        self.judge_said(module, module.pxd, module.declared.said)
        self.judge_cimports(module.pxd, tops)
        self.once(module.pyx, [top[1:3] for top in module.given.tops], {top[1] for top in tops if top[0] == "cimport"})
        for top in module.of_kind("cimport"):
            if any(other[0] != "cimport" and other[1] == top[1] for other in tops):
                self.breaks(1, module.pyx, top[2])
        self.judge_classes(module)
        self.judge_said(module, module.pyx, module.given.said)
        self.judge_cimports(module.pyx, module.given.tops)
        for function in module.given.functions:
            self.judge_function(module, function)

    def resolved(self, scope, name):
        if scope < len(self.modules):
            return self.in_module(self.modules[scope], name)
        scope -= len(self.modules)
        for module in self.modules:
            if scope < len(module.given.functions):
                locals_ = self.locals_of(module.given.functions[scope])
                return f"local {locals_.index(name)}" if name in locals_ else self.in_module(module, name)
            scope -= len(module.given.functions)
        return "global"

    def answer(self):
        for module in self.modules:
            self.judge(module)
        if self.found:
            file, offset, rule = min(self.found)
            return [f"refused N{rule} file {file} byte {offset}"]
        shown = []
        for module in self.modules:
            names = [f"{name}: {self.in_module(module, name)}" for name in self.scope_names(module)]
            shown.append(f"module {module.number} {{{', '.join(names)}}}")
        for module in self.modules:
            for function in module.given.functions:
                names = [f"{name}: local {place}" for place, name in enumerate(self.locals_of(function))]
                shown.append(f"function {module.number} {{{', '.join(names)}}}")
        return shown


def answer(parts):
    pairs = list(zip(parts[::2], parts[1::2]))
    files = [(name, lex_expected.unescaped(text)) for name, text in pairs if name != "resolve"]
    asked = [text.split(" ") for name, text in pairs if name == "resolve"]
    found = Set(files)
    shown = found.answer()
    if not found.found:
        shown += [f"{scope} {name} is {found.resolved(int(scope), name)}" for scope, name in asked]
    return "; ".join(shown)


def main():
    for path in sys.argv[1:]:
        for line in open(path, encoding="utf-8").read().split("\n"):
            if line and not line.startswith("#"):
                name, *parts = line.split("|")
                try:
                    print(f"{name}: {answer(parts)}")
                except Broken as broken:
                    print(f"{name}: broken P%d byte %d" % broken.args)


if __name__ == "__main__":
    main()
