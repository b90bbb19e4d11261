#!/usr/bin/env python3
"""Whether the library's C makes the accesses of the table of crates/slots, whatever they find.

usage: table.py ASKED.so TOP [CALL..]    the library with tests/steps/asked.c; where crates/ is; all calls, or these

made.py has the table. The C runs access by access. At each access, every result that a guard can tell apart is given:
the word that it finds, how a sleep ends, how many a wake wakes, what a clock says. The C's access has to be that of the
row, with its operands, and made as the row's manner says: by a load, a plain store, a locked instruction or a call to
Linux. Then both go on by the result, to the next row or to the call's reply. Each state is visited once; `State.key`
says which states count as the same. Loops that end by a count are gone around until they end. Ends with 1 and the
results that lead to the first access that differs.
"""

import bisect
import collections
import ctypes
import errno
import re
import sys

sys.dont_write_bytecode = True
from antt import Module, Record, said
from made import DIED, FLAG, LOW, ON_LIST, OTHER, OWNER, RESTS, SELF, THIRD, TURN, WAITERS, Table

# ---- what accesses find: of each guard of the C and of the table, words on both sides of it

FLAGS = [died | waiters | above for died in (0, DIED) for waiters in (0, WAITERS) for above in (0, FLAG)]
# Nobody's, the thread's own and others', with a turn, and with one so much later that the mutex is hot. None is the
# thread's own and unusable, as no mutex is.
CELLS = [o | f | n * TURN for o in (0, SELF, OTHER) for f in FLAGS for n in (40, 50) if o != SELF or not f & FLAG]
CELLS += [THIRD | f | 40 * TURN for f in FLAGS]
COUNTERS = [count | slept for count in (1000, 1001, LOW) for slept in (0, FLAG)]
# Times in ns: the first one; the time after which all is late. And how long a look at the clock comes after the last
# one: late; if an heir is due; if waiting awake doesn't pay any more; at the same time
BEGIN, LONG_TIME = 10**12, 2 * 10**9
INTERVALS = [LONG_TIME, 120000, 40000, 0]
DUE, COMES = 1, 2


def ticks(ns):
    return ns >> 10


def micros(ns):
    return ns // 1000 % FLAG


def slots(now):
    """Words of the slot, which never has WAITERS. Above AWAKE is a time: now, or long ago."""
    times, flags = (ticks(now), ticks(now - LONG_TIME)), [it for it in FLAGS if not it & WAITERS]
    return [o | f | time * TURN for o in (0, SELF, OTHER, THIRD) for f in flags for time in times]


def hints(now):
    times = (micros(now), micros(now - LONG_TIME))
    return [flags | time * FLAG for flags in (0, DUE, COMES, DUE | COMES) for time in times]


def is_recent(at, word, now):
    return word // TURN == ticks(now) if at == "slot" else word // FLAG == micros(now)


def abstract(it):
    """A word without its turn, and without the name of another owner; or a value with such words."""
    if isinstance(it, tuple):
        return it[:1] + tuple(abstract(x) for x in it[1:])
    if isinstance(it, Record):
        return tuple(abstract(x) for x in it.fields.values())
    if isinstance(it, bool) or not isinstance(it, int):
        return it
    owner = it & OWNER
    return owner if owner in (0, SELF) else OTHER, it // DIED % 8


# ---- the library

# The kinds and words of asked.c, in its order
LOAD, STORE, COMPARE_EXCHANGE, EXCHANGE, ADD, SUB, OR, AND, SLEEP, WAKE, MOVE, CLOCK, DEADLINE, RETURNS = range(14)
KINDS = "load store compare_exchange exchange fetch_add fetch_sub fetch_or fetch_and sleep wake move clock deadline"
WORDS = "head.first head.offset pending cell hint slot cell.previous cell.next slot.previous slot.next counter distance"
WORDS = f"{WORDS} one.next one.previous two.next two.previous".split()
LIST = [name for name in WORDS if "." in name]
CALLS = ["lock", "trylock", "unlock", "consistent", "reinit", "wait", "signal", "broadcast"]
MOST_ASKED, ALL_WOKEN = 16000, 2**31 - 1
MANNERS = {"Loads": {LOAD}, "Stores": {STORE}, "Along": {LOAD, STORE}, "Asks": {SLEEP, WAKE, MOVE}}
MANNERS["Locks"] = {COMPARE_EXCHANGE, EXCHANGE, ADD, SUB, OR, AND}
ERRORS = {name: number for name, number in vars(errno).items() if name.startswith("E")}
ERRORS |= {"OK": 0, "XSTATE": errno.EINVAL}


class Asked(ctypes.Structure):
    _fields_ = [(name, ctypes.c_uint64) for name in ("kind", "word", "expected", "value", "chain")]


class Asking(ctypes.Structure):
    _fields_ = [(name, ctypes.c_uint64) for name in ("call", "deadline", "was_heir", "owes", "spares")]


class Access:
    """The access for which the library has no result yet; or its reply."""

    def __init__(self, library, asked):
        self.kind, self.expected, self.value, self.chain = asked.kind, asked.expected, asked.value, asked.chain
        self.at, self.named = library.names.get(asked.word, ""), library.names.get(asked.value)
        self.reply = ctypes.c_int(asked.value & LOW).value

    def __str__(self):
        value = self.named or hex(self.value)
        if self.kind == RETURNS:
            return f"returns {errno.errorcode.get(self.reply, self.reply)}"
        if self.kind in (LOAD, CLOCK, DEADLINE):
            value = ""
        elif self.kind == SLEEP:
            value = f"{self.expected & LOW:#x}, {'with' if self.value else 'without'} a deadline"
        elif self.kind in (COMPARE_EXCHANGE, MOVE):
            value = f"{self.expected & LOW if self.kind == MOVE else self.expected:#x}, {value}"
        return " ".join(it for it in (KINDS.split()[self.kind], self.at, value) if it)

    def with_result(self, result):
        return str(self) if self.kind in (STORE, EXCHANGE, MOVE) else f"{self} = {result:#x}"


class Library:
    """The library's own source. The results of its accesses are given."""

    def __init__(self, path):
        self.c = ctypes.CDLL(path)
        self.c.word_at.restype = self.c.distance_of_mutex.restype = ctypes.c_uint64
        self.asked = (Asked * MOST_ASKED).in_dll(self.c, "asked")
        self.addresses = {name: self.c.word_at(i) for i, name in enumerate(WORDS)}
        self.names = {address: name for name, address in self.addresses.items()}
        self.distance = self.c.distance_of_mutex()

    def drive(self, asking, path, cycle=0):
        """Makes a call with these results. Returns the number of the access for which there is none: with `cycle`, the
        last results are given again for as long as the accesses stay the same."""
        return self.c.drive(ctypes.byref(asking), (ctypes.c_uint64 * len(path))(*path), len(path), cycle)

    def next(self, asking, path):
        return Access(self, self.asked[self.drive(asking, path)])


# ---- what the table leaves out of the C. All of it is here

# Accesses that are no row's, and why the C may make them. They are loads, or store what no promise depends on
LEFT_OUT = {
    "who has waited long, that a woken thread comes, since when: `Choice` stands for what the C finds there": (
        lambda a, state: a.at == "hint"
    ),
    "with which mutex threads wait: with another one the call returns EINVAL, and the table has no such call": (
        lambda a, state: a.at == "distance" and a.kind in (LOAD, STORE)
    ),
    "`Choice` stands for what clocks say; `demanded` has the place at which that decides": (
        lambda a, state: a.kind in (CLOCK, DEADLINE)
    ),
    "take_off_list checks that both neighbours lead back: if not, another process has written over the links": (
        lambda a, state: a.kind == LOAD and a.at in LIST and is_unlinking(state)
    ),
}


def left_out(a, state):
    return next((reason for reason, holds in LEFT_OUT.items() if holds(a, state)), None)


def next_call(call, reply):
    """The calls that reinit makes of a mutex that isn't unusable: each is a call of its own in the table."""
    following = {None: "TryLooks", "ENOTRECOVERABLE": "AnewLooks", "EOWNERDEAD": "MendLooks", "OK": "GiveLooks"}
    return (following[reply], 0) if call == "reinit" and reply in following else None


# ---- where both are

# A row that the call may be at; the machine's stage, along the list; what the clock has to say of the deadline before
# the next access, or None; the reply, at Rests; and whether the call is overdue
At = collections.namedtuple("At", "row stage demand reply overdue", defaults=(None, None, None, False))
# What an access gives: to the C, and to the table; how many it wakes; and whether a deadline has ended a sleep
Outcome = collections.namedtuple("Outcome", "result found woken is_late", defaults=(0, 0, False))


class State(collections.namedtuple("State", "rows pending is_late now since slept last")):
    """All rows that the call may be at; the pending entry; what the clock said of the deadline since the last access of
    a row; the time, and when the thread became an heir; how the last sleep ended, or that the slot was tried since; and
    what the C may remember."""

    def key(self, a):
        """States with the same key count as one. Their rows and operands may differ in turns, times and in which other
        thread is the owner, and the C in counts of loops, and in times that are between the same two of INTERVALS."""
        ends = [(it.demand, it.reply, it.overdue) for it in self.rows]
        rows = frozenset(zip(((abstract(it.row), it.stage) for it in self.rows), ends))
        place = a.chain, a.kind, a.at, abstract(a.expected), a.named or abstract(a.value)
        elapsed = bisect.bisect(sorted(INTERVALS), self.now - self.since) if is_heir(self.rows) else 0
        return rows, place, self.pending, self.is_late, elapsed, self.slept, self.last

    def remembered(self, a, result, is_of_row):
        """What was found last: in the cell; whether there was an heir; and since the last access of a row, in the
        hints, and when the heir said that it is awake. Nothing that was found before a sleep is used after it."""
        if a.kind == SLEEP:
            return ()
        last = {name: it for name, it in self.last if not is_of_row or name in ("cell", "heir", "announced")}
        if a.kind in (LOAD, COMPARE_EXCHANGE) and a.at == "cell":
            last["cell"] = abstract(result)
        elif a.kind in (LOAD, COMPARE_EXCHANGE) and a.at == "slot":
            last["heir"] = bool(result & OWNER and result & FLAG and not result & DIED)
            last["slot"] = is_recent("slot", result, self.now)
        elif a.kind == LOAD and a.at == "hint":
            last["hint"] = result & (DUE | COMES), is_recent("hint", result, self.now)
        elif a.kind == STORE and a.at == "hint":
            last["heir"], last["announced"] = False, True
        return tuple(sorted(last.items()))


class Node:
    """A state that the call has come to: by which results, and from which node."""

    __slots__ = ("above", "path", "state", "access", "key")

    def __init__(self, above, path, state):
        self.above, self.path, self.state, self.access, self.key = above, path, state, None, None


class Differs(Exception):
    pass


def is_unlinking(state):
    return any(it.row[0] in ON_LIST and not ON_LIST[it.row[0]][0] for it in state.rows)


def is_heir(rows):
    return any(it.row[0].startswith("Heir") for it in rows)


def is_timed(row):
    return row[4] if row[0] == "WaitSleeps" else row[1]["timed"]


def demanded(at, following, found):
    """What the clock has to say before the next access: after its last look, an heir times out just if it has to; and
    if another thread was faster, an heir gives up just if its deadline has passed."""
    if at.row[0] in ("LastLooks", "LastMarks") and at.row[1]["timed"] and following[0] == "Frees":
        return {("Fails", ("ETIMEDOUT",)): True, ("Sleeps",): False}.get(following[2])
    if at.row[0] == "HeirTakes" and at.row[1]["timed"] and not found & FLAG:
        return {"GivesUp": True, "HeirPends": False}.get(following[0])
    return None


class Comparison:
    """Of one call. `met` has the states that were visited, by their keys."""

    def __init__(self, library, table, call, asking, met):
        self.library, self.table, self.call, self.asking, self.met = library, table, call, asking, met
        self.rows, self.gone_around, self.tried, self.to_visit = set(), set(), 0, collections.deque()

    # ---- what an access may give

    def outcomes(self, a, state):
        if a.kind == CLOCK:
            return [Outcome(state.now + more) for more in INTERVALS]
        if a.kind == DEADLINE:
            return [Outcome(0), Outcome(1)]
        if a.kind == SLEEP:
            ends = [Outcome(end, a.expected) for end in (0, errno.EINTR, errno.EINVAL)]
            ends.append(Outcome(errno.EAGAIN, a.expected ^ 1))
            return ends + [Outcome(errno.ETIMEDOUT, a.expected, is_late=True)] * bool(a.value)
        if a.kind == WAKE:
            return [Outcome(n, woken=n) for n in (0, 1, 3) if n <= a.value]
        if a.kind in (LOAD, COMPARE_EXCHANGE):
            return self.links(a, state) if a.at in LIST else self.words(a, state)
        if a.at == "cell" and a.kind in (ADD, SUB, OR, AND):
            return [Outcome(word, word) for word in self.own(state)]
        return [Outcome(SELF, SELF)]

    def words(self, a, state):
        found = {"cell": CELLS, "slot": slots(state.now), "hint": hints(state.now), "counter": COUNTERS}
        words = found.get(a.at, [self.library.distance])
        if a.kind == COMPARE_EXCHANGE and a.expected not in words:
            words = [*words, a.expected]
        return [Outcome(word, word) for word in words]

    @staticmethod
    def own(state):
        """What the thread's own cell may be: marked or not, as the call has seen (Each.antt: IsGiven, OwnsMarked)."""
        names = {(it.row[0], *it.row[2:3]) for it in state.rows}
        is_marked = bool(names & {("Mends",), ("Gives", ("OfUnlock", True))})
        return [it for it in CELLS if it & OWNER == SELF and not it & FLAG and bool(it & DIED) == is_marked]

    def links(self, a, state):
        """An entry is first or last of its list, or between two others, which lead back to it."""
        is_of_slot = any(it.row[0] in ON_LIST and ON_LIST[it.row[0]][1] == "slot" for it in state.rows)
        mine = "slot" if is_of_slot else "cell"
        names = [f"{mine}.next"]
        if a.at.startswith(mine) or (a.at == "head.first" and not is_unlinking(state)):
            names = ["head.first", "two.next" if a.at.endswith("previous") else "one.next"]
        return [Outcome(self.library.addresses[name], self.table.places[name]) for name in names]

    # ---- whether the C's access is the row's

    def is_same(self, a, access, row, found):
        kind, at, *operands = access
        if self.table.names.get(at) != a.at or a.kind not in MANNERS[self.table.made_by(row)]:
            return False
        value = self.table.places.get(a.named, a.value)
        if a.kind in (ADD, SUB):
            after = (found + (a.value if a.kind == ADD else -a.value)) % 2**64
            return kind == "FetchXor" and after == found ^ operands[0]
        if a.kind == SLEEP:
            return kind == "Wait" and operands == [a.expected & LOW] and bool(a.value) == is_timed(row)
        same = {
            LOAD: ("Load", []),
            STORE: ("Store", [value]),
            EXCHANGE: ("Store", [value]),
            COMPARE_EXCHANGE: ("Exchange", [a.expected, value]),
            AND: ("FetchAnd", [value]),
            OR: ("FetchOr", [value]),
            WAKE: ("Wake", [self.table.most_threads if value == ALL_WOKEN else value]),
            MOVE: ("CmpRequeue", [a.expected & LOW, 0, value, self.table.most_threads]),
        }
        return same[a.kind] == (kind, operands)

    def rows_now(self, state):
        """The rows that the clock leaves, and where reinit's next call begins."""
        for it in state.rows:
            if it.demand not in (None, state.is_late):
                continue
            if it.row == RESTS:
                following = next_call(self.call, it.reply)
                yield from [At(following)] if following else []
                continue
            yield it

    def following(self, at, a, outcome, state):
        """The rows after this access, with each choice that there is; none if it isn't the row's."""
        made = self.table.makes(at.row, at.stage, at.overdue, a.at, outcome.found, outcome.woken, ticks(state.now))
        for access, row, stage, reply, overdue in made:
            if self.is_same(a, access, at.row, outcome.found):
                self.rows.add(at.row[0])
                if outcome.is_late:
                    row = self.table.lapsed(row)
                yield At(row, stage, demanded(at, row, outcome.found), reply, overdue)

    # ---- a step of both

    def step(self, a, outcome, state, path):
        reason, after = left_out(a, state), frozenset()
        if a.at not in ("", "hint", "distance"):
            after = frozenset(row for at in self.rows_now(state) for row in self.following(at, a, outcome, state))
        last = state.remembered(a, outcome.result, bool(after))
        if not after:
            if not reason:
                self.differs(a, state, path)
            state = state._replace(last=last)
            if a.kind == CLOCK:
                return state._replace(now=outcome.result)
            return state._replace(is_late=bool(outcome.result)) if a.kind == DEADLINE else state
        pending = a.value if a.kind == STORE and a.at == "pending" else state.pending
        slept = state.slept
        if a.kind == SLEEP:
            slept = {0: "woken", errno.ETIMEDOUT: "late"}.get(outcome.result, "not woken")
        elif a.kind == COMPARE_EXCHANGE and a.at == "slot":
            slept = "at the slot"
        if reason:  # it may be either
            after |= state.rows
        since = state.since if is_heir(state.rows) else state.now
        return State(after, pending, None, state.now, since, slept, last)

    def ends(self, a, state, path):
        for it in state.rows:
            if it.row == RESTS and it.demand in (None, state.is_late) and a.reply == ERRORS.get(it.reply):
                return
        self.differs(a, state, path)

    def differs(self, a, state, path):
        lines = [f"{self.call}: the C: {a}"]
        for it in state.rows:
            line = f"    the table, at {said(it.row)}"
            if it.demand is not None:
                line += f", if the deadline has {'' if it.demand else 'not '}passed"
            if it.row == RESTS:
                line += f": returns {it.reply}"
            else:
                kind, at, *operands = self.table.makes(it.row, it.stage, it.overdue, a.at, 0, 0, ticks(state.now))[0][0]
                operands = [self.table.names.get(x, hex(x)) if kind == "Store" else hex(x) for x in operands]
                if kind == "Wait":
                    operands.append("with a deadline" if is_timed(it.row) else "without a deadline")
                line += f": {' '.join([kind, self.table.names.get(at, hex(at)), *operands])}"
            lines.append(line)
        self.library.drive(self.asking, path)
        before = [Access(self.library, self.library.asked[i]).with_result(result) for i, result in enumerate(path)]
        raise Differs("\n".join([*lines, f"    after: {'; '.join(before[-40:])}"]))

    # ---- all states, first those that the fewest accesses lead to

    def explore(self, row):
        self.reach(Node(None, [], State(frozenset([At(row)]), 0, None, BEGIN, BEGIN, "", ())))
        while self.to_visit:
            node = self.to_visit.popleft()
            for outcome in self.outcomes(node.access, node.state):
                self.tried += 1
                after = self.step(node.access, outcome, node.state, node.path)
                self.reach(Node(node, [*node.path, outcome.result], after))

    def reach(self, node):
        """The call has come to a state. A new one is visited later; one on the way here is the end of a loop."""
        node.access = a = self.library.next(self.asking, node.path)
        if a.kind == RETURNS:
            return self.ends(a, node.state, node.path)
        node.key = node.state.key(a)
        if node.key not in self.met:
            self.met.add(node.key)
            return self.to_visit.append(node)
        above = node.above
        while above and above.key != node.key:
            above = above.above
        if above:
            self.go_around(node, node.path[len(above.path) :])

    def go_around(self, node, cycle):
        """Gives the same results again and again, until the C does something else than the last time around."""
        path, state, states = node.path, node.state, []
        name = (*node.key[:2], len(cycle))
        if name in self.gone_around:
            return
        self.gone_around.add(name)
        for result in cycle * 2:
            a = self.library.next(self.asking, path)
            fitting = [] if a.kind == RETURNS else [it for it in self.outcomes(a, state) if it.result == result]
            if not fitting:
                return self.reach(Node(None, path, state))
            states.append(state)
            state, path = self.step(a, fitting[0], state, path), [*path, result]
        more = self.library.drive(self.asking, path, len(cycle)) - len(path)
        if len(path) + more < MOST_ASKED - 1:
            state = states[len(cycle) + more % len(cycle)] if more else state
            self.reach(Node(None, path + [cycle[i % len(cycle)] for i in range(more)], state))


# ---- all calls

# Whether there is a deadline: 0 none, 1 a time, 2 something that isn't a time
DEADLINES = {"lock": (1, 0, 2), "wait": (1, 0)}
# What a thread knows of itself: whether it was an heir, whether it owes its way to another, how many wakes it has left
KNOWN = {"lock": [(0, 0, 0), (0, 1, 0)], "unlock": [(0, 0, 0), (1, 0, 0), (0, 0, 15)]}
KNOWN["wait"] = KNOWN["unlock"]
# The order in which calls are compared: a difference in a short one is found soon
SHORTEST_FIRST = ["signal", "broadcast", "consistent", "trylock", "unlock", "reinit", "wait", "lock"]


def first_row(call, deadline):
    taking = Record(mutex=0, how=("Tried",), timed=deadline > 0, wrong=deadline == 2)
    rows = {"lock": ("Looks", taking), "trylock": ("TryLooks", 0), "unlock": ("GiveLooks", 0)}
    rows |= {"consistent": ("MendLooks", 0), "reinit": ("AnewLooks", 0), "wait": ("WaitLooks", 0, 0, deadline > 0)}
    return (rows | {"signal": ("CountLooks", 0, 0, False), "broadcast": ("CountLooks", 0, 0, True)})[call]


def rows_of_table():
    with open(f"{Module.top}/crates/slots/specs/Rows.antt", encoding="utf-8") as it:
        return set(re.findall(r"(?m)^  (\w+) :", it.read().split("pub data Row :")[1]))


def compare(library, table, call, deadline, rows):
    """Compares a call; returns how many states it has, and how many results were given."""
    states = tried = 0
    row, met = first_row(call, deadline), {}
    if not table.may_begin(row):
        raise Differs(f"{call}: in the table, no call begins at {said(row)}")
    for was_heir, owes, spares in KNOWN.get(call, [(0, 0, 0)]):
        asking = Asking(CALLS.index(call), deadline, was_heir, owes, spares)
        comparison = Comparison(library, table, call, asking, met.setdefault((was_heir, spares), set()))
        comparison.explore(row)
        rows |= comparison.rows
        tried += comparison.tried
    return sum(map(len, met.values())), tried


def main():
    if len(sys.argv) < 3:
        sys.exit(__doc__.split("\n\n")[1])
    Module.top = sys.argv[2]
    library, table, rows, states, tried = Library(sys.argv[1]), Table(), set(), 0, 0
    calls = sys.argv[3:] or SHORTEST_FIRST
    try:
        for call in calls:
            for deadline in DEADLINES.get(call, (0,)):
                more = compare(library, table, call, deadline, rows)
                states, tried = states + more[0], tried + more[1]
    except Differs as it:
        sys.exit(str(it))
    missing = rows_of_table() - rows - {"Rests"}
    if missing and calls == SHORTEST_FIRST:
        sys.exit(f"rows that no call came to: {' '.join(sorted(missing))}")
    print(f"the C is the table: {len(rows)} rows, {states} states, {tried} results of accesses")


if __name__ == "__main__":
    main()
