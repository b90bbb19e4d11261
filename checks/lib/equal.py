#!/usr/bin/env python3
"""Whether two modules' functions of pz_steps.h do the same for every input: what they answer, and each byte of the
structs but padding. For each possible path of the one, each of the other under that path's condition is run, and z3 is
asked whether anything can differ at its end. Ends with 1 and an input for which something does, where there is one.
usage: equal ONE.ll OTHER.ll [FUNCTION..], LLVM IR of both without vectors; not of plans

pz_step is asked in cases, one for each row of each program, as many side by side as there are processors. As a FUNCTION,
pz_step=ROW is it at one row: its number in specs/Codings.antt."""
import collections
import multiprocessing
import os
import sys
import time

sys.dont_write_bytecode = True
import z3

import ir

# The fields of each struct of pz_steps.h: where, and of how many bytes.
CALL = {"head": (0, 8), "entry": (8, 8), "cell": (16, 8), "counter": (24, 8), "x": (32, 8), "y": (40, 8)}
CALL |= {"reply": (48, 2), "kind": (50, 1), "flag": (51, 1), "seen": (56, 4), "on_condition": (60, 1)}
CALL |= {"program": (64, 1), "thread": (65, 1)}
WALK = {"head": (0, 8), "at": (8, 8), "seen": (16, 8), "entry": (24, 8), "offset": (32, 8), "pending": (40, 8)}
WALK |= {"loaded": (48, 2), "kind": (50, 1), "again": (51, 1), "of_pending": (52, 1), "thread": (56, 1)}
ACCESS = {"at": (0, 8), "a": (8, 8), "b": (16, 8), "kind": (24, 4), "most": (28, 4), "wakes": (32, 4)}
ACCESS |= {"point": (36, 2), "operation": (38, 1)}
STRUCTS = {"call": (72, CALL), "walk": (64, WALK), "access": (40, ACCESS)}
# What each function takes: structs by name, and numbers by their width in bits.
FUNCTIONS = {
    "pz_begin": ["call", "access", 32],
    "pz_expire": ["call", "access"],
    "pz_walk_begin": ["walk", "access"],
    "pz_walk_next": ["walk", "access"],
    "pz_walk_again": ["walk", 64],
    "pz_walk_step": ["walk", "access", 32, 64],
    "pz_step": ["call", "access", 32, 64],
}
ON_CONDITION, LOCKING, ROWS, ROWS_ON_CONDITION = 4, 20, 62, 22

# A function and the values of some fields, or the least that a field is
Case = collections.namedtuple("Case", "function fixed least")
Told = collections.namedtuple("Told", "function paths both questions differs")


def field(name, of):
    return z3.BitVec(f"{of}.{name}", 8 * STRUCTS[of][1][name][1])


def struct(of, fixed):
    """Its bytes: of each field a variable, or the number that it is fixed to."""
    size, fields = STRUCTS[of]
    found = [z3.BitVec(f"{of}.padding{at}", 8) for at in range(size)]
    for name, (at, count) in fields.items():
        whole = field(name, of)
        for i in range(count):
            found[at + i] = z3.Extract(8 * i + 7, 8 * i, whole) if count > 1 else whole
            if name in fixed and of == "call":
                found[at + i] = fixed[name] >> 8 * i & 255
    return found


def world(case):
    """What the function is given, and the objects that this points to."""
    objects, given = {}, []
    for i, it in enumerate(FUNCTIONS[case.function]):
        if isinstance(it, int):
            given.append(z3.BitVec(f"number{i}", it))
        else:
            objects[it] = struct(it, case.fixed)
            given.append(ir.Pointer(it, 0))
    return given, objects


def differences(function, state, answer, other_state, other_answer):
    """The conditions under which something differs at the ends of two paths."""
    found = [ir.vector(answer, 32) != ir.vector(other_answer, 32)]
    for it in FUNCTIONS[function]:
        if isinstance(it, int):
            continue
        for at, count in STRUCTS[it][1].values():
            for i in range(at, at + count):
                x, y = ir.vector(state.objects[it][i], 8), ir.vector(other_state.objects[it][i], 8)
                if not x.eq(y):
                    found.append(x != y)
    return z3.Or(found)


def compare(case):
    path, paths, both = ir.Path(), 0, 0

    class Differs(Exception):
        pass

    def at_both_ends(state, answer, other_state, other_answer):
        nonlocal both
        both += 1
        model = path.model_of(differences(case.function, state, answer, other_state, other_answer))
        if model is not None:
            raise Differs(str(model))

    def at_end(state, answer):
        nonlocal paths
        paths += 1
        given, objects = world(case)
        runner = ir.Runner(modules[1], path, lambda *other: at_both_ends(state, answer, *other))
        runner.call(case.function, given, objects)

    for name, least in case.least.items():
        path.solver.add(z3.UGE(field(name, "call"), least))
    differs = None
    try:
        given, objects = world(case)
        ir.Runner(modules[0], path, at_end).call(case.function, given, objects)
    except (Differs, ir.Wrong) as it:
        differs = f"{case.fixed} {case.least}: {it}"
    return Told(case.function, paths, both, path.questions, differs)


def cases(function):
    if function != "pz_step":
        return [Case(function, {}, {})]
    rows = [({"kind": row}, {}) for row in range(ROWS)] + [({}, {"kind": ROWS})]
    found = [Case(function, {"program": it, **row}, least) for it in range(ON_CONDITION) for row, least in rows]
    on_condition = {"program": ON_CONDITION}
    found += [Case(function, {**on_condition, "on_condition": LOCKING, **row}, least) for row, least in rows]
    others = [it for it in range(ROWS_ON_CONDITION) if it != LOCKING]
    found += [Case(function, {**on_condition, "on_condition": it}, {}) for it in others]
    found += [Case(function, on_condition, {"on_condition": ROWS_ON_CONDITION})]
    found += [Case(function, {}, {"program": ON_CONDITION + 1})]
    return found


def at_row(found, row):
    """The cases of one row, of either kind of program."""
    of_mutex = [it for it in found if it.fixed.get("kind") == row]
    return of_mutex + [it for it in found if it.fixed.get("on_condition") == row != LOCKING]


def are_all(found):
    """Whether each input is one of some case."""

    def holds(case):
        fixed = [field(name, "call") == value for name, value in case.fixed.items()]
        return z3.And(fixed + [z3.UGE(field(name, "call"), least) for name, least in case.least.items()])

    solver = z3.Solver()
    solver.add(z3.Not(z3.Or([holds(case) for case in found])))
    return solver.check() == z3.unsat


def main():
    global modules
    asked = [it.partition("=")[::2] for it in sys.argv[3:] or FUNCTIONS]
    if len(sys.argv) < 3 or any(function not in FUNCTIONS for function, _ in asked):
        sys.exit(__doc__)
    modules = [ir.Module(path) for path in sys.argv[1:3]]
    for function, row in asked:
        since, found, told = time.time(), cases(function), []
        assert are_all(found)
        if row:
            found = at_row(found, int(row))
        with multiprocessing.Pool(len(os.sched_getaffinity(0))) as pool:
            for it in pool.imap_unordered(compare, found):
                told.append(it)
                if it.differs:
                    sys.exit(f"{function}: differs: {it.differs}")
        paths, both, questions = (sum(it[i] for it in told) for i in (1, 2, 3))
        print(
            f"{function}: equal for every input{row and f' at row {row}'}: {len(found)} cases, {paths} paths of the one, {both} of both,"
            f" {questions} questions, {time.time() - since:.0f} s",
            flush=True,
        )


main()
