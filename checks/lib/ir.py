"""Reads LLVM IR that has no vectors and no floats, and runs its functions on symbolic values, path by path (by z3).

A value is an int where it is known, and else a z3 bit vector. What the text says of a value beyond what it is, such as
`nuw` or `range`, is left out: nothing is taken for granted by it. What is undefined may be anything."""
import functools
import re
import sys

import z3

sys.setrecursionlimit(1000000)

NAME = r'(?:"[^"]*"|[\w.$-]+)'
VALUE = rf"(-?\d+|true|false|poison|undef|null|[%@]{NAME})"
LABEL = rf"(%{NAME})"
SAID = re.compile(
    r'(?<![\w.%@"])(?:noundef|nonnull|nneg|nuw|nsw|disjoint|exact|samesign|inbounds|tail|musttail|fastcc|zeroext|signext'
    r"|noalias|nocapture|readonly|writeonly|readnone|writable|dead_on_unwind|dead_on_return|returned|immarg"
    r"|range\([^)]*\)|align \d+|dereferenceable\(\d+\)|captures\([^)]*\)|sret\([^)]*\)|byval\([^)]*\)"
    r"|initializes\(\((?:[^()]|\([^)]*\))*\)\)) "
)
FORMS = [
    (kind, re.compile(form))
    for kind, form in [
        ("branch", rf"br i1 {VALUE}, label {LABEL}, label {LABEL}"),
        ("jump", rf"br label {LABEL}"),
        ("switch", rf"switch i(\d+) {VALUE}, label {LABEL} \[(.*)\]"),
        ("phi", r"phi (ptr|i\d+) (.*)"),
        ("alloca", r"alloca (.*)"),
        ("place", rf"getelementptr i(\d+), ptr {VALUE}, i64 {VALUE}"),
        ("load", rf"load i(\d+), ptr {VALUE}"),
        ("store", rf"store i(\d+) {VALUE}, ptr {VALUE}"),
        ("compare", rf"icmp (\w+) i(\d+) {VALUE}, {VALUE}"),
        ("select", rf"select i1 {VALUE}, (ptr|i\d+) {VALUE}, (?:ptr|i\d+) {VALUE}"),
        ("binary", rf"(add|sub|mul|and|or|xor|shl|lshr|ashr) i(\d+) {VALUE}, {VALUE}"),
        ("convert", rf"(zext|sext|trunc) i(\d+) {VALUE} to i(\d+)"),
        ("insert", rf"insertvalue \{{.*?\}} {VALUE}, i(\d+) {VALUE}, (\d+)"),
        ("extract", rf"extractvalue \{{.*?\}} {VALUE}, (\d+)"),
        ("call", rf"call [^@]*@({NAME})\((.*)\)"),
        ("give", rf"ret (void|i\d+|\{{.*\}}) ?{VALUE}?"),
        ("unreachable", r"unreachable"),
    ]
]
BINARY = {
    "add": lambda x, y: x + y,
    "sub": lambda x, y: x - y,
    "mul": lambda x, y: x * y,
    "and": lambda x, y: x & y,
    "or": lambda x, y: x | y,
    "xor": lambda x, y: x ^ y,
    "shl": lambda x, y: x << y,
    "lshr": z3.LShR,
    "ashr": lambda x, y: x >> y,
}
COMPARED = {
    "eq": lambda x, y: x == y,
    "ne": lambda x, y: x != y,
    "ult": z3.ULT,
    "ule": z3.ULE,
    "ugt": z3.UGT,
    "uge": z3.UGE,
    "slt": lambda x, y: x < y,
    "sle": lambda x, y: x <= y,
    "sgt": lambda x, y: x > y,
    "sge": lambda x, y: x >= y,
}


class Wrong(Exception):
    """A path that ends where none may, or touches what isn't its own."""


# ---- The text.


class Function:
    def __init__(self, name, parameters):
        self.name, self.parameters = name, parameters
        self.blocks, self.entry = {}, None


class Module:
    def __init__(self, path):
        with open(path) as file:
            lines = iter(file.read().split("\n"))
        self.functions, self.tables, self.types = {}, {}, {}
        for line in lines:
            if line.startswith("define"):
                self.read_function(line, lines)
            elif it := re.match(rf"@({NAME}) = .*constant \[(\d+) x i(\d+)\] (.*?)(?:, align.*)?$", line):
                self.tables[f"@{it[1]}"] = table(int(it[2]), int(it[3]), it[4])
            elif it := re.match(rf"(%{NAME}) = type (.*)", line):
                self.types[it[1]] = it[2]

    def read_function(self, head, lines):
        name = re.search(rf"@({NAME})\(", head)
        given = head[name.end() :]
        while re.search(r"\([^()]*\)", given):  # what is said of parameters, in parentheses, and those behind them
            given = re.sub(r"\([^()]*\)", "", given)
        function = Function(name[1], re.findall(rf"%{NAME}", given[: given.index(")")]))
        self.functions[name[1]] = function
        block = None
        for line in lines:
            if line == "}":
                return
            if it := re.match(rf"({NAME}):", line):
                block = function.blocks.setdefault(f"%{it[1]}", [])
                function.entry = function.entry or f"%{it[1]}"
            elif line.strip():
                if block is None:  # its name is the number behind the parameters'
                    function.entry = f"%{len(function.parameters)}"
                    block = function.blocks.setdefault(function.entry, [])
                while line.lstrip().startswith("switch") and not line.endswith("]"):
                    line += " " + next(lines).strip()
                block.append(instruction(line.strip()))

    @functools.lru_cache(None)
    def size(self, type_):
        """The bytes of a type, and its alignment."""
        type_ = self.types.get(type_, type_).strip()
        if it := re.fullmatch(r"i(\d+)", type_):
            return (int(it[1]) + 7) // 8, (int(it[1]) + 7) // 8
        if type_ == "ptr":
            return 8, 8
        if it := re.fullmatch(r"\[(\d+) x (.*)\]", type_):
            size, align = self.size(it[2])
            return int(it[1]) * size, align
        at, most = 0, 1
        for part in re.fullmatch(r"\{(.*)\}", type_)[1].split(","):
            size, align = self.size(part.strip())
            at, most = -(-at // align) * align + size, max(most, align)
        return -(-at // most) * most, most


def table(count, width, body):
    """The bytes of a constant."""
    if body.startswith("zeroinitializer"):
        values = [0] * count
    elif body.startswith('c"'):
        parts = re.findall(r"\\[0-9A-F]{2}|.", re.match(r'c"(.*)"', body)[1])
        values = [int(it[1:], 16) if len(it) == 3 else ord(it) for it in parts]
    else:
        values = [int(it) for it in re.findall(rf"i{width} (-?\d+)", body)]
    assert len(values) == count, body
    return [byte for it in values for byte in (it & (1 << width) - 1).to_bytes(width // 8, "little")]


def instruction(line):
    """What it is, where its value goes, and its parts."""
    line = re.sub(r"(, align \d+)?(, ![\w.]+ ![\w.]+)*$", "", re.sub(r" #\d+$", "", line))
    while SAID.search(line):
        line = SAID.sub("", line)
    to = re.match(rf"(%{NAME}) = ", line)
    line = line[to.end() :] if to else line
    for kind, form in FORMS:
        if it := form.fullmatch(line):
            return kind, to and to[1], it.groups()
    sys.exit(f"this can't be read: {line}")


# ---- Running it.


def vector(value, width):
    return z3.BitVecVal(value, width) if isinstance(value, int) else value


def known(value):
    """An int where it has but one value by its form."""
    if isinstance(value, int):
        return value
    value = z3.simplify(value)
    return value.as_long() if z3.is_bv_value(value) else value


def width_of(type_):
    return 64 if type_ == "ptr" else int(type_[1:])


class Pointer:
    def __init__(self, to, at):
        self.to, self.at = to, at


class Frame:
    def __init__(self, function, values, to):
        self.function, self.values, self.to = function, values, to
        self.block, self.next, self.before = function.entry, 0, None

    def copy(self):
        it = Frame(self.function, dict(self.values), self.to)
        it.block, it.next, it.before = self.block, self.next, self.before
        return it

    def go(self, block):
        self.before, self.block, self.next = self.block, block, 0


class State:
    """Of one path: its frames, and the bytes of each object."""

    def __init__(self, frames, objects):
        self.frames, self.objects = frames, objects

    def copy(self):
        return State([it.copy() for it in self.frames], {name: list(it) for name, it in self.objects.items()})


class Path:
    """The condition of the path that is run, of whichever module, and a model in which it holds, where one is known."""

    def __init__(self):
        self.solver, self.model, self.questions, self.made = z3.SolverFor("QF_BV"), None, 0, 0

    def anything(self, width):
        self.made += 1
        return z3.BitVec(f"anything{self.made}", width)

    def model_of(self, condition):
        """A model in which it holds too (True: any), or None."""
        condition = z3.simplify(condition)
        if z3.is_true(condition):
            return self.model or True
        if z3.is_false(condition):
            return None
        if self.model is not None and z3.is_true(self.model.eval(condition, model_completion=True)):
            return self.model
        self.questions += 1
        self.solver.push()
        self.solver.add(condition)
        answer = self.solver.check()
        model = self.solver.model() if answer == z3.sat else None
        self.solver.pop()
        if answer == z3.unknown:
            raise Wrong("z3 doesn't know")
        return model

    def under(self, condition, model, what):
        """Does something under a condition more."""
        saved = self.model
        self.solver.push()
        self.solver.add(condition)
        self.model = None if model is True else model
        what()
        self.solver.pop()
        self.model = saved


class Runner:
    """Runs a function of a module: `done` is called at the end of each path that is possible, with its state and what
    the function gave."""

    def __init__(self, module, path, done):
        self.module, self.path, self.done = module, path, done

    def call(self, name, arguments, objects):
        function = self.module.functions[name]
        self.run(State([Frame(function, dict(zip(function.parameters, arguments)), None)], objects))

    def run(self, state):
        while True:
            frame = state.frames[-1]
            kind, to, parts = frame.function.blocks[frame.block][frame.next]
            frame.next += 1
            if getattr(self, f"do_{kind}")(state, frame, to, *parts):
                return

    def value(self, frame, text, width):
        if text in ("poison", "undef"):
            return self.path.anything(width)
        if text[0] == "%":
            return frame.values[text]
        if text[0] == "@":
            return Pointer(text, 0)
        return {"true": 1, "false": 0}.get(text) if text.isalpha() else int(text) & ((1 << width) - 1)

    def fork(self, state, ways):
        """Goes each way that is possible. ways: conditions and blocks."""
        possible = [(condition, block, self.path.model_of(condition)) for condition, block in ways]
        possible = [way for way in possible if way[2] is not None]
        for i, (condition, block, model) in enumerate(possible):
            way = state if i == len(possible) - 1 else state.copy()
            way.frames[-1].go(block)
            self.path.under(condition, model, lambda: self.run(way))
        return True

    def do_branch(self, state, frame, _, condition, yes, no):
        it = self.value(frame, condition, 1)
        if not isinstance(it, int):
            return self.fork(state, [(it == 1, yes), (it == 0, no)])
        frame.go(yes if it else no)

    def do_jump(self, state, frame, _, block):
        frame.go(block)

    def do_switch(self, state, frame, _, width, value, otherwise, cases):
        width = int(width)
        it = self.value(frame, value, width)
        cases = [(int(n) & (1 << width) - 1, block) for n, block in re.findall(rf"i\d+ (-?\d+), label {LABEL}", cases)]
        if isinstance(it, int):
            frame.go(dict(cases).get(it, otherwise))
            return False
        by = {}
        for n, block in cases:
            by.setdefault(block, []).append(it == n)
        ways = [(z3.Or(conditions), block) for block, conditions in by.items()]
        return self.fork(state, [*ways, (z3.And([it != n for n, _ in cases]), otherwise)])

    def do_phi(self, state, frame, _, *__):
        """All that stand together at once."""
        block, values = frame.function.blocks[frame.block], {}
        frame.next -= 1
        while block[frame.next][0] == "phi":
            _, to, (type_, ways) = block[frame.next]
            way = dict((block, value) for value, block in re.findall(rf"\[ {VALUE}, {LABEL} \]", ways))
            values[to] = self.value(frame, way[frame.before], width_of(type_))
            frame.next += 1
        frame.values.update(values)

    def do_alloca(self, state, frame, to, type_):
        key = object()
        state.objects[key] = [None] * self.module.size(type_)[0]
        frame.values[to] = Pointer(key, 0)

    def do_place(self, state, frame, to, width, base, count):
        base, count, size = self.value(frame, base, 64), self.value(frame, count, 64), int(width) // 8
        if isinstance(count, int):
            count -= (count >> 63) << 64
        at = base.at + count * size if isinstance(base.at, int) and isinstance(count, int) else None
        frame.values[to] = Pointer(base.to, known(vector(base.at, 64) + count * size) if at is None else at)

    def do_load(self, state, frame, to, width, pointer):
        width, pointer = int(width), self.value(frame, pointer, 64)
        it = self.load(state, pointer, (width + 7) // 8)
        frame.values[to] = it if width % 8 == 0 else known(z3.Extract(width - 1, 0, vector(it, width + 7 & ~7)))

    def load(self, state, pointer, count):
        bytes_ = self.bytes_of(state, pointer)
        if not isinstance(pointer.at, int):  # of a table, as far as it goes
            if pointer.to not in self.module.tables:
                raise Wrong("a load from somewhere")
            it = self.path.anything(8 * count)
            for at in range(0, len(bytes_) - count + 1):
                value = int.from_bytes(bytes(bytes_[at : at + count]), "little")
                it = z3.If(pointer.at == at, z3.BitVecVal(value, 8 * count), it)
            return known(it)
        self.check(pointer, count, bytes_)
        part = range(pointer.at, pointer.at + count)
        for at in part:
            if bytes_[at] is None:
                bytes_[at] = self.path.anything(8)
        if all(isinstance(bytes_[at], int) for at in part):
            return int.from_bytes(bytes(bytes_[at] for at in part), "little")
        whole = [vector(bytes_[at], 8) for at in reversed(part)]
        return known(z3.Concat(*whole) if count > 1 else whole[0])

    def bytes_of(self, state, pointer):
        return state.objects[pointer.to] if pointer.to in state.objects else self.module.tables[pointer.to]

    @staticmethod
    def check(pointer, count, bytes_):
        if not isinstance(pointer.at, int) or not 0 <= pointer.at <= len(bytes_) - count:
            raise Wrong("an access outside")

    def do_store(self, state, frame, _, width, value, pointer):
        width, pointer = int(width), self.value(frame, pointer, 64)
        value, count = self.value(frame, value, width), (width + 7) // 8
        if width % 8 and not isinstance(value, int):
            value = z3.ZeroExt(8 * count - width, value)
        bytes_ = state.objects[pointer.to]
        self.check(pointer, count, bytes_)
        for i in range(count):
            byte = value >> 8 * i & 255 if isinstance(value, int) else known(z3.Extract(8 * i + 7, 8 * i, value))
            bytes_[pointer.at + i] = byte

    def do_compare(self, state, frame, to, how, width, x, y):
        x, y = (vector(self.value(frame, it, int(width)), int(width)) for it in (x, y))
        frame.values[to] = known(z3.If(COMPARED[how](x, y), z3.BitVecVal(1, 1), z3.BitVecVal(0, 1)))

    def do_select(self, state, frame, to, condition, type_, x, y):
        condition, width = self.value(frame, condition, 1), width_of(type_)
        x, y = self.value(frame, x, width), self.value(frame, y, width)
        if isinstance(condition, int):
            frame.values[to] = x if condition else y
        else:
            frame.values[to] = known(z3.If(condition == 1, vector(x, width), vector(y, width)))

    def do_binary(self, state, frame, to, how, width, x, y):
        x, y = (vector(self.value(frame, it, int(width)), int(width)) for it in (x, y))
        frame.values[to] = known(BINARY[how](x, y))

    def do_convert(self, state, frame, to, how, width, value, wanted):
        width, wanted = int(width), int(wanted)
        it = vector(self.value(frame, value, width), width)
        if how == "trunc":
            frame.values[to] = known(z3.Extract(wanted - 1, 0, it))
        else:
            frame.values[to] = known((z3.ZeroExt if how == "zext" else z3.SignExt)(wanted - width, it))

    def do_insert(self, state, frame, to, whole, width, value, at):
        parts = dict(frame.values[whole]) if whole[0] == "%" else {}
        frame.values[to] = {**parts, int(at): self.value(frame, value, int(width))}

    def do_extract(self, state, frame, to, whole, at):
        frame.values[to] = frame.values[whole][int(at)]

    def do_give(self, state, frame, _, type_, value):
        given = None
        if value:
            given = frame.values[value] if type_[0] == "{" else self.value(frame, value, width_of(type_))
        state.frames.pop()
        if not state.frames:
            self.done(state, given)
            return True
        if frame.to:
            state.frames[-1].values[frame.to] = given

    def do_unreachable(self, state, frame, _):
        raise Wrong(f"{frame.function.name} comes where nothing can")

    def do_call(self, state, frame, to, name, arguments):
        if name.startswith(("llvm.lifetime", "llvm.experimental.noalias.scope")):
            return
        if name == "llvm.trap":
            raise Wrong(f"{frame.function.name} traps")
        given = [(type_, it) for type_, it in re.findall(rf"(?:^|, )(ptr|i\d+) {VALUE}", arguments)]
        values = [self.value(frame, it, width_of(type_)) for type_, it in given]
        if name.startswith("llvm.memset"):
            self.fill(state, *values[:3])
        elif name.startswith("llvm.memcpy"):
            self.copy(state, *values[:3])
        elif it := re.match(r"llvm\.u(min|max)\.i(\d+)", name):
            x, y = (vector(value, int(it[2])) for value in values)
            frame.values[to] = known(z3.If(z3.ULT(x, y) if it[1] == "min" else z3.UGT(x, y), x, y))
        else:
            function = self.module.functions[name]
            assert len(values) == len(function.parameters), name
            state.frames.append(Frame(function, dict(zip(function.parameters, values)), to))

    def fill(self, state, pointer, byte, count):
        self.check(pointer, count, state.objects[pointer.to])
        state.objects[pointer.to][pointer.at : pointer.at + count] = [byte] * count

    def copy(self, state, pointer, source, count):
        of = self.bytes_of(state, source)
        self.check(source, count, of)
        self.check(pointer, count, state.objects[pointer.to])
        state.objects[pointer.to][pointer.at : pointer.at + count] = of[source.at : source.at + count]
