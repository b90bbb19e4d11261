#!/usr/bin/env python3
"""What the gate keeps on this machine, for checks that go on from it: they prove again none of the libraries that it has proved.

The gate keeps each library by the sum of all that its proof read; an older toolchain's keeps none, and leaves them in its
tree: there `checks/all`, once the gate has passed, runs this file, which notes their sums. What isn't kept is proved here,
as it would be there. A crate above these reads their statements, without their proofs, as the gate does.
"""

import copy
import hashlib
import importlib.machinery
import importlib.util
import os
import shutil
import sys
import tempfile
from concurrent.futures import FIRST_COMPLETED, ThreadPoolExecutor, wait

# What a check of a crate may take of the memory, in bytes.
MEMORY_FOR_A_CHECK = 3_500_000_000


def load_rt():
    """The toolchain's own command as a module, so that what is run here is just what the gate runs."""
    sys.dont_write_bytecode = True
    loader = importlib.machinery.SourceFileLoader("rt_command", os.path.realpath(shutil.which("rt")))
    module = importlib.util.module_from_spec(importlib.util.spec_from_loader("rt_command", loader))
    sys.modules["rt_command"] = module
    loader.exec_module(module)
    if not hasattr(module, "Kept"):
        module.Kept, module.seeded, module.linked = KeptInTree, seeded_by(module), shutil.copytree
    return module


class KeptInTree:
    """The libraries that an older toolchain's gate left in the tree: each with a note, the sum of all that it was made of."""

    def __init__(self, crates):
        # (the toolchain's own sum of a crate makes those below it anew each time)
        self.own = {it.name: self.own_sum(it.folder) for it in crates}

    @staticmethod
    def own_sum(folder):
        files = sys.modules["rtlib"].files_of(folder)
        return hashlib.sha256(repr([(os.path.relpath(it, folder), read(it)) for it in files]).encode()).hexdigest()

    @staticmethod
    def note_of(crate):
        return f"{crate.folder}/out/rlib/noted"

    def key(self, crate):
        whole = (read(f"{sys.modules['rt_command'].KIT}/WHAT"), [(it.name, it.said, self.own[it.name]) for it in [crate, *crate.below()]])
        return hashlib.sha256(repr(whole).encode()).hexdigest()

    def give(self, crate, _, key):
        if not os.path.isdir(crate.rlib) or not os.path.exists(self.note_of(crate)):
            return False
        return read(self.note_of(crate)) == key.encode()

    def is_built(self, crate):
        with open(self.note_of(crate), "w", encoding="utf-8") as it:
            it.write(self.key(crate))


def read(path):
    with open(path, "rb") as it:
        return it.read()


def seeded_by(rt):
    """What a newer toolchain's own call does: proves a crate as it stands, and gives a folder with what that leaves."""

    def seeded(crate, flags):
        room = tempfile.mkdtemp(prefix="rt-seed-")
        if not rt.checked(crate, {}, flags, f"{room}/seed").returncode:
            return room
        shutil.rmtree(room)
        return None

    return seeded


class Gate:
    """The crates of the tree at whose top this is run, and what the gate keeps of them."""

    def __init__(self):
        top = os.getcwd()
        self.rt = load_rt()
        # (its first call sets a signal's handler, which only the main thread may)
        self.rt.rtlib.guarded()
        self.rt.Crate.allowed = self.rt.handles_of(top)
        self.rt.Crate.cuts_libraries = True
        if self.keeps_in_tree:
            # its own crates_of puts aside what stands in the tree
            self.rt.rtlib.Crate = self.rt.Crate
            self.crates = sorted(self.rt.rtlib.crates_below(top), key=lambda it: len(it.below()))
        else:
            self.crates = self.rt.crates_of(top)

    @property
    def keeps_in_tree(self):
        return self.rt.Kept is KeptInTree

    def lanes(self):
        """How many checks run side by side: as many as there are processors, or as memory holds."""
        return max(1, min(self.rt.processors(), self.rt.free() // MEMORY_FOR_A_CHECK))

    def build_below(self, crates, lanes):
        """Gives these crates the libraries that they stand on, each once those below it are there. Nobody else works on them until this ends."""
        left = {it.name: it for crate in crates for it in crate.below()}
        self.rt.rtlib.lock([*crates, *left.values()])
        kept = self.rt.Kept(self.crates)
        with ThreadPoolExecutor(lanes) as pool:
            running = {}
            while left or running:
                for name, crate in list(left.items()):
                    if not {it.name for it in crate.below()} & {*left, *running.values()}:
                        running[pool.submit(self.build, left.pop(name), kept)] = name
                for built in wait(running, return_when=FIRST_COMPLETED).done:
                    name = running.pop(built)
                    if not built.result():
                        sys.exit(f"{name} isn't proved")

    def build(self, crate, kept):
        """Whether the library stands in its folder: as the gate keeps it, or else proved now."""
        if not self.keeps_in_tree:
            # what is kept is given by links, through which nothing may be written
            shutil.rmtree(f"{crate.folder}/out/rlib", ignore_errors=True)
        if not kept.give(crate, False, kept.key(crate)):
            crate = copy.copy(crate)
            with open(os.devnull, "w", encoding="utf-8") as crate.out:
                if crate.ci(["--jobs", "1"], False):
                    return False
        kept.is_built(crate)
        return True

    def note(self):
        """Notes the libraries that the gate has just left in this tree."""
        if self.keeps_in_tree:
            kept = KeptInTree(self.crates)
            for crate in self.crates:
                if os.path.isdir(crate.rlib):
                    kept.is_built(crate)


if __name__ == "__main__":
    os.chdir(os.path.join(os.path.dirname(os.path.realpath(__file__)), "..", ".."))
    Gate().note()
