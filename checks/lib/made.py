"""The table of crates/slots, row by row: `made` of specs/Table.antt, `reply` of specs/Replies.antt, `overdue_after` of
specs/Runs.antt and `manner` of specs/Stores.antt, as antt.py reads them, and what they need of a state.

A state has one mutex of the library, whose cell and slot are the machine's mutexes 0 and 1; two entries of the C
library on the thread's list; and one condition variable. Each address is its place. Thread SELF makes the accesses.
"""

from antt import Later, Module, Record, a_list, apply, force, items, plain

SELF, OTHER, THIRD = 5, 6, 7
OWNER, DIED, WAITERS, TURN = 0x3FFFFFFF, 1 << 30, 1 << 31, 1 << 33
FLAG = 1 << 32  # UNUSABLE of a cell, AWAKE of a slot, SLEPT of a counter
LOW = FLAG - 1
RESTS = ("Rests",)
LAYOUT = {"threads": 7, "mutexes": 4, "conditions": a_list([0]), "processes": a_list([0] * 7), "bases": a_list([0])}
# Rows along the thread's list: whether they link, and which entry
ON_LIST = {"Links": (True, "cell"), "HeirLinks": (True, "cell"), "SlotLinks": (True, "slot")}
ON_LIST |= {"GiveUnlinks": (False, "cell"), "FreeUnlinks": (False, "slot")}


class Table:
    def __init__(self):
        load = Module.load
        self.layout, self.known, self.manners = Record(**LAYOUT), {}, {}
        self.made = load("slots", "Table").value("made")
        self.reply = load("slots", "Replies").value("reply")
        self.manner = load("slots", "Stores").value("manner")
        self.lapse_row = load("slots", "Runs").value("lapse_row")
        self.overdue_after = load("slots", "Runs").value("overdue_after")
        self.may_call = load("slots", "Runs").value("may_call")
        self.most_threads = load("lockword", "Threads").value("most_threads")
        self.answer = load("stepprograms", "Accesses").value("answer_among")
        self.calls = {"Calling": load("mutex", "Whole"), "AtCondition": load("condvar", "Whole")}
        self.lists = {True: load("robustlist", "Link"), False: load("robustlist", "Unlink")}
        self.places = self.find_places()
        self.names = {place: name for name, place in self.places.items()}
        Module.by_hand["protocol", "Machine", "run"] = lambda s: lambda events: self.run(force(s), items(events))

    def find_places(self):
        layouts, chains = Module.load("memorymap", "Layouts"), Module.load("memorymap", "Chains")
        head = apply(layouts.value("head_place"), [SELF])
        found = {"head.first": head, "head.offset": head + 1, "pending": head + 2}
        found["counter"] = apply(layouts.value("counter_place"), [self.layout, 0])
        for mutex, name in enumerate(["cell", "slot", "one", "two"]):
            entry = apply(layouts.value("entry_place"), [self.layout, mutex])
            found[name] = apply(layouts.value("cell_place"), [self.layout, mutex])
            found[f"{name}.next"] = entry
            found[f"{name}.previous"] = apply(chains.value("previous_place"), [entry])
        return found

    # ---- rows

    def makes(self, row, stage, overdue, at, found, woken, time):
        """The access at a row, the next row and its stage, the reply if the call ends, and whether it is overdue then:
        for each choice. The access meets this word at this place, where this many sleep; and an heir says this time."""
        known = (row, stage, overdue, at, found, woken, time if row[0] == "HeirSets" else 0)
        if known not in self.known:
            self.known[known] = self.for_each_choice(*known)
        return self.known[known]

    def for_each_choice(self, row, stage, overdue, at, found, woken, time):
        state, asked = self.state(row, stage, overdue, at, found, woken), set()

        def choice(name, value):
            return Later(lambda: asked.add(name) or value)

        def made(yes, again):
            c = Record(yes=choice("yes", yes), again=choice("again", again), time=time)
            return self.after(row, stage, state, c)

        results = [made(False, False)]
        for yes, again in ((True, False), (False, True), (True, True)) if asked else ():
            results.append(made(yes, again))
        return list(dict.fromkeys(results))

    def after(self, row, stage, state, c):
        made = apply(self.made, [state, SELF, c, row])
        following = plain(made["next"])
        reply = plain(apply(self.reply, [state, SELF, c, row])) if following == RESTS else ("None",)
        is_along = stage and following[0] == row[0]
        next_stage = self.stepped(stage, state["machine"]) if is_along else self.stage(following)
        overdue = force(apply(self.overdue_after, [state, SELF, row]))
        return plain(made["access"]), following, next_stage, reply[1][0] if reply[0] == "Some" else None, overdue

    def made_by(self, row):
        """How the C makes the access at a row."""
        if row not in self.manners:
            self.manners[row] = plain(apply(self.manner, [row]))[0]
        return self.manners[row]

    def lapsed(self, row):
        """The row of a call whose deadline passes while it sleeps."""
        return plain(apply(self.lapse_row, [row]))

    def may_begin(self, row):
        return apply(self.may_call, [self.layout, 0, row])

    # ---- states

    def state(self, row, stage, overdue, at, found, woken):
        """Memory shows this word at this place, where this many sleep. The cell is the thread's own if the access is to
        another word, and marked if a wait has seen that."""
        own = SELF + (DIED if row[0] == "WaitCounts" and row[4] else 0)
        place = self.places.get(at)
        word = found % (TURN if at == "cell" else FLAG) if at in ("cell", "slot", "counter") else found
        machine = Record(
            layout=self.layout,
            words=lambda p: word if force(p) == place else own if force(p) == self.places["cell"] else 0,
            queues=lambda p: a_list([OTHER] * woken if force(p) == place else []),
            threads=lambda t: Record(stage=stage or ("Elsewhere",)),
        )
        is_flagged = bool(found & FLAG)
        return Record(
            machine=machine,
            turns=lambda k: found // TURN if at == ("cell", "slot")[force(k)] else 0,
            awake=lambda m: is_flagged and at == "slot",
            slept=lambda c: is_flagged and at == "counter",
            overdue=lambda t: overdue,
        )

    # ---- the machine's thread, by hand: where rows begin to go along the list (specs/Stands.antt), and `run`

    def stage(self, row):
        """Where it is at the first access of a row along the list; None at other rows."""
        if row[0] not in ON_LIST:
            return None
        place, (is_link, entry) = self.places, ON_LIST[row[0]]
        given = [place["head.first"], place[f"{entry}.next"]]
        began = apply(self.lists[is_link].value("link_started" if is_link else "unlink_started"), given)
        if row[0] == "GiveUnlinks" and row[2][0] == "OfWait":
            given = [SELF, *given, place["cell"], place["counter"], ("Unlinking", began, row[2][2])]
            return ("AtCondition", ("Wait", 0), plain(apply(self.calls["AtCondition"].value("cond_at"), given)))
        phase = ("Linking", began, ("OK",)) if is_link else ("Unlinking", began, False)
        whole = apply(self.calls["Calling"].value("whole_at"), [SELF, ("Lock",), *given, place[entry], phase])
        return ("Calling", ("OnMutex", ("TimedLock", 0)), plain(whole))

    def begun(self, operation):
        """Where a call of the machine begins."""
        kind = "Calling" if operation[0] == "OnMutex" else "AtCondition"
        call = apply(self.calls[kind].value("begins"), [self.layout, SELF, operation[1]])
        return (kind, operation if kind == "Calling" else operation[1], call)

    def stepped(self, stage, machine):
        """Where it is after its next access."""
        kind, call, program = stage
        module, name = self.calls[kind], {"Calling": "whole", "AtCondition": "cond"}[kind]
        access = apply(module.value(f"{name}_access"), [program])
        place = force(access[1])
        answer = apply(self.answer, [access, machine["words"](place), machine["queues"](place)])
        led = apply(module.value(f"{name}_led"), [program, answer])
        moved = apply(module.value(f"{name}_moved"), [program, led])
        phase = moved["phase"]
        return ("Idle",) if phase[0] == "Ended" else (kind, call, plain(moved))

    def run(self, machine, events):
        """The machine after these events of the thread, as far as its stage goes."""
        stage = force(machine["threads"](SELF))["stage"]
        for name, *given in events:
            if name == "Begin":
                stage = self.begun(plain(given[1]))
            elif name == "Step" and stage[0] in self.calls:
                stage = self.stepped(stage, machine)
            elif name != "Step":
                break
        return Record(threads=lambda t: Record(stage=stage))
