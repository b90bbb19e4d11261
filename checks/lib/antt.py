"""Reads definitions of the prover's language, as far as tables need it, and evaluates them.

A module is a file of crates/*/specs. Its definitions are clauses (`name pattern .. = expression`) with constructors,
`if`, records, fields, lists, lambdas and numbers; `module _ (x : T) .. where` has definitions with these parameters.
Types are skipped. A definition is parsed when it is first used, so a file may have definitions that this can't read.
Arguments are evaluated when they are needed, once.
"""

import os
import re

TOP = os.path.realpath(os.path.join(os.path.dirname(os.path.realpath(__file__)), "..", ".."))
# Blanks and comments; a number; a name, perhaps with fields; a field of what precedes; a sign
TOKEN = re.compile(
    r"\s+|--.*|(0x[0-9a-fA-F_]+|[0-9][0-9_]*)|([A-Za-z_][\w']*(?:\.[A-Za-z_][\w']*)*)|(\.\w+)|(\[\]|==|&&|\|\||\+\+|.)"
)
# How tightly an operator binds; ∷ and ++ group to the right
BINDS = {"∷": 1, "++": 1, "||": 2, "&&": 3, "==": 4, "+": 5, "-": 5, "*": 6, "/": 6, "%": 6, "^": 7}
KEYWORDS = {"use", "abbrev", "pub", "data", "record", "module", "mod"}


class Unknown(Exception):
    """What isn't in this part of the language, or isn't defined."""


class Later:
    """An argument that nobody has needed yet."""

    __slots__ = ("make", "value")

    def __init__(self, make):
        self.make = make

    def get(self):
        if self.make:
            self.value, self.make = force(self.make()), None
        return self.value


def force(it):
    while isinstance(it, Later):
        it = it.get()
    return it


class Record:
    """Fields by name."""

    __slots__ = ("fields",)

    def __init__(self, **fields):
        self.fields = fields

    def __getitem__(self, name):
        return force(self.fields[name])

    def __eq__(self, other):
        return isinstance(other, Record) and self.fields == other.fields

    def __hash__(self):
        return hash(tuple(self.fields.items()))

    def __repr__(self):
        return "{" + ", ".join(f"{name} {said(it)}" for name, it in self.fields.items()) + "}"


def plain(it):
    """The same value without anything left to evaluate."""
    it = force(it)
    if isinstance(it, tuple):
        return it[:1] + tuple(plain(x) for x in it[1:])
    if isinstance(it, Record):
        return Record(**{name: plain(x) for name, x in it.fields.items()})
    return it


def said(it):
    """A plain value as text: words in hexadecimal."""
    if isinstance(it, tuple):
        return f"({' '.join([it[0], *map(said, it[1:])])})" if len(it) > 1 else it[0]
    return hex(it) if isinstance(it, int) and it > 9 else str(it)


def is_constructor(name):
    """Their names begin with a capital letter, except those of the truth values."""
    last = name.rpartition(".")[2]
    return last[0].isupper() or last in ("true", "false")


def constructor(name, *given):
    last = name.rpartition(".")[2]
    return {"true": True, "false": False}[last] if last in ("true", "false") else (last, *given)


def apply(it, given):
    """A constructor, a definition or a function with these arguments."""
    it = force(it)
    if isinstance(it, tuple):
        return it + tuple(given)
    for k, x in enumerate(given):
        if isinstance(it, Function):
            return it.applied(given[k:])
        it = force(it(x))
    return it


class Function:
    """A definition, with the arguments that it has so far."""

    def __init__(self, module, name, have=()):
        self.module, self.name, self.have = module, name, have

    def applied(self, given):
        """Of these arguments: the value, or the definition with more arguments."""
        have = self.have + tuple(given)
        arity, clauses = self.module.clauses(self.name)
        if len(have) < arity:
            return Function(self.module, self.name, have)
        for patterns, body in clauses:
            bound = {}
            if all(match(p, x, bound) for p, x in zip(patterns, have)):
                return apply(body(bound), have[arity:]) if have[arity:] else force(body(bound))
        raise Unknown(f"{self.name}: no clause for {[plain(x) for x in have]}")

    def __call__(self, *given):
        return self.applied(given)


def match(pattern, it, bound):
    """Whether a value fits; then its parts are bound to the pattern's names."""
    if isinstance(pattern, str):
        bound[pattern] = it
        return True
    it, (name, *parts) = force(it), pattern
    if name in ("true", "false"):
        return it is (name == "true")
    if name == "[]":
        return it == ("[]",)
    if isinstance(name, int):
        return it == name
    return it[0] == name and all(match(p, x, bound) for p, x in zip(parts, it[1:]))


def of_values(operation):
    return lambda x, y: operation(force(x), force(y))


# What Rattle's Prelude has, as far as it is used. Numbers have no sign: a difference is at least 0
PRELUDE = {
    "nat_le": lambda x: lambda y: force(x) <= force(y),
    "nat_lt": lambda x: lambda y: force(x) < force(y),
    "not": lambda x: not force(x),
    "slice_index": lambda l: lambda k: items(l)[force(k)],
    "length": lambda l: len(items(l)),
}
OPERATORS = {
    "==": of_values(lambda x, y: x == y),
    "+": of_values(lambda x, y: x + y),
    "-": of_values(lambda x, y: max(x - y, 0)),
    "*": of_values(lambda x, y: x * y),
    "/": of_values(lambda x, y: x // y if y else 0),
    "%": of_values(lambda x, y: x % y if y else x),
    "^": of_values(lambda x, y: x**y),
    "&&": lambda x, y: force(x) and force(y),
    "||": lambda x, y: force(x) or force(y),
    "∷": lambda x, y: ("∷", x, y),
    "++": lambda x, y: joined(force(x), y),
}


def joined(l, m):
    return ("∷", l[1], Later(lambda: joined(force(l[2]), m))) if l[0] == "∷" else force(m)


def items(l):
    """A list's items."""
    found, l = [], force(l)
    while l[0] == "∷":
        found.append(force(l[1]))
        l = force(l[2])
    return found


def a_list(found):
    return ("∷", found[0], a_list(found[1:])) if found else ("[]",)


class Parser:
    """Reads a clause. An expression becomes a function that takes what its names are bound to."""

    def __init__(self, module, text):
        self.module, self.at, self.tokens = module, 0, []
        for it in TOKEN.finditer(text):
            number, name, field, sign = it.groups()
            if number or name or field or sign:
                kind = "number" if number else "name" if name else "field" if field else "sign"
                self.tokens.append((kind, it.group()))

    def peek(self):
        return self.tokens[self.at] if self.at < len(self.tokens) else ("end", "")

    def next(self, expected=None):
        kind, text = self.peek()
        if expected and text != expected:
            raise Unknown(f"{self.module.path}: {expected!r} expected, not {text!r}")
        self.at += 1
        return kind, text

    # ---- patterns

    def pattern(self):
        """One pattern without arguments, or one in brackets."""
        kind, text = self.next()
        if text == "(":
            found = self.whole_pattern()
            self.next(")")
            return found
        if text == "[]":
            return ("[]",)
        if kind == "number":
            return (int(text.replace("_", ""), 0),)
        if kind != "name":
            raise Unknown(f"{self.module.path}: no pattern begins with {text!r}")
        return (text.rpartition(".")[2],) if is_constructor(text) else text

    def whole_pattern(self):
        """One pattern, perhaps with arguments or of a list."""
        kind, text = self.peek()
        found = self.pattern()
        if kind == "name" and is_constructor(text):
            while self.peek()[1] not in (")", "∷"):
                found += (self.pattern(),)
        if self.peek()[1] == "∷":
            self.next()
            return ("∷", found, self.whole_pattern())
        return found

    # ---- expressions

    def expression(self, least=0):
        kind, text = self.peek()
        if text == "if":
            return self.choice()
        if text == "λ":
            self.next()
            return self.function()
        left = self.application()
        while self.peek()[1] in BINDS and BINDS[self.peek()[1]] >= least:
            sign = self.next()[1]
            right = self.expression(BINDS[sign] + (sign not in ("∷", "++")))
            left = self.operation(OPERATORS[sign], left, right)
        return left

    @staticmethod
    def operation(do, left, right):
        return lambda bound: do(Later(lambda: left(bound)), Later(lambda: right(bound)))

    def choice(self):
        self.next("if")
        condition = self.expression()
        self.next("then")
        one = self.expression()
        self.next("else")
        other = self.expression()
        return lambda bound: one(bound) if force(condition(bound)) else other(bound)

    def function(self):
        name = self.next()[1]
        self.next(".")
        body = self.expression()
        return lambda bound: lambda it: body({**bound, name: it})

    def application(self):
        first, given = self.atom(), []
        while self.peek()[1] in ("(", "[]", "record") or self.peek()[0] in ("number", "name"):
            if self.peek()[1] in ("then", "else", "where"):
                break
            given.append(self.atom())
        if not given:
            return first
        return lambda bound: apply(first(bound), [Later(lambda it=it: it(bound)) for it in given])

    def atom(self):
        kind, text = self.next()
        if kind == "number":
            value = int(text.replace("_", ""), 0)
            found = lambda bound: value
        elif text == "(":
            found = self.expression()
            self.next(")")
        elif text == "[]":
            found = lambda bound: ("[]",)
        elif text == "record":
            found = self.record()
        elif kind == "name":
            found = self.name(text)
        else:
            raise Unknown(f"{self.module.path}: no expression begins with {text!r}")
        while self.peek()[0] == "field":
            found = self.field(found, self.next()[1][1:])
        return found

    @staticmethod
    def field(of, name):
        return lambda bound: force(of(bound))[name]

    def record(self):
        base, fields = None, {}
        if self.peek()[1] != "{":
            base = self.atom()
        self.next("{")
        while self.peek()[1] != "}":
            name = self.next()[1]
            self.next("=")
            fields[name] = self.expression()
            if self.peek()[1] == ";":
                self.next()
        self.next("}")

        def make(bound):
            found = dict(force(base(bound)).fields) if base else {}
            found.update({name: Later(lambda it=it: it(bound)) for name, it in fields.items()})
            return Record(**found)

        return make

    def name(self, text):
        if is_constructor(text):
            return lambda bound: constructor(text)
        first, *fields = text.split(".")
        module = self.module

        def find(bound):
            if first not in bound:
                return module.value(text, bound)
            found = bound[first]
            for name in fields:
                found = force(found)[name]
            return force(found)

        return find


class Module:
    """A file of definitions, and the names that it uses of others."""

    top = TOP  # where crates/ is
    known = {}  # those that were read, by path
    by_hand = {}  # what is defined by hand instead, by crate, module and name

    def __init__(self, path):
        # Clauses by name, as text and parsed; the parameters of each name's module; where a name is that this one uses
        self.path, self.texts, self.read, self.given, self.uses = path, {}, {}, {}, {}
        parameters, item = [], []
        with open(path, encoding="utf-8") as it:
            lines = [line.rstrip() for line in it]
        for line in [*lines, "end"]:
            inside = parameters and line.startswith("  ") and not line.startswith("   ")
            if line.lstrip().startswith("--") or not line:
                continue
            if not line.startswith(" ") or inside:
                self.add(item, parameters)
                item = []
                parameters = parameters if inside else []
            if line.startswith("module _"):
                parameters = re.findall(r"\((\w+) :", line)
                continue
            item.append(line.strip())
        self.add(item, parameters)

    @classmethod
    def load(cls, crate, name):
        path = f"{cls.top}/crates/{crate}/specs/{name}.antt"
        if path not in cls.known:
            cls.known[path] = cls(path)
        return cls.known[path]

    def add(self, item, parameters):
        if not item:
            return
        text = "\n".join(item)
        first = text.split()[0]
        if first == "use":
            self.add_use(text)
        elif first not in KEYWORDS and " = " in " ".join(item) + " ":
            self.texts.setdefault(first, []).append(text)
            self.given[first] = parameters

    def add_use(self, text):
        it = re.match(r"use Rattle\.(\w+)\.specs\.([\w.']+?)(?:\.\{(.*)\}| as (\w+))?$", " ".join(text.split()))
        if not it or it[1] == "std" or it[2].startswith("declared"):
            return
        for name in (it[3] or "").split(","):
            self.uses[name.strip()] = (it[1], it[2])
        if it[4]:
            self.uses[it[4] + "."] = (it[1], it[2])

    def clauses(self, name):
        """How many arguments the definition takes, with its module's parameters; and its clauses."""
        if name not in self.read:
            found = []
            for text in self.texts[name]:
                parser = Parser(self, text)
                parser.next(name)
                patterns = list(self.given[name])
                while parser.peek()[1] != "=":
                    patterns.append(parser.pattern())
                parser.next("=")
                found.append((patterns, parser.expression()))
                if parser.peek()[0] != "end":
                    raise Unknown(f"{self.path}: {name}: {parser.peek()[1]!r} is left over")
            self.read[name] = (len(found[0][0]), found)
        return self.read[name]

    def value(self, text, bound=None):
        """What a name means here, within these bindings."""
        alias, _, name = text.rpartition(".")
        if alias:
            return self.load(*self.uses[alias + "."]).value(name)
        if name in self.texts:
            given = tuple(bound[it] for it in self.given[name]) if bound and self.given[name] else ()
            it = Function(self, name)
            return it.applied(given) if given or self.clauses(name)[0] == 0 else it
        if name in PRELUDE:
            return PRELUDE[name]
        if name in self.uses and (*self.uses[name], name) in self.by_hand:
            return self.by_hand[(*self.uses[name], name)]
        if name in self.uses:
            return self.load(*self.uses[name]).value(name)
        raise Unknown(f"{self.path}: {text} isn't defined")
