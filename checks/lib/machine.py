"""The machine that outcomes.py explores, written from the tables of docs/CALLS.md: each access of a call and of the walk
over a dead thread's list.

A state has `words` by place, `queues` of sleepers by place, and a stage for each thread.
"""
WAITERS, DIED, UNUSABLE, OWNER = 1 << 31, 1 << 30, 1 << 32, (1 << 30) - 1
FULL, LOW = (1 << 32) - 1, (1 << 32) - 1
ON_CONDITION = ('wait', 'timedwait', 'signal', 'broadcast')
LOCKS = ('lock', 'timedlock', 'wait', 'timedwait')


class Memory:
    """A state while an event changes it."""

    def __init__(self, script, state):
        self.script, self.words, self.queues = script, list(state.words), dict(state.queues)

    def sleep(self, thread, place):
        self.queues[place] = self.queues.get(place, ()) + (thread,)

    def wake(self, place, n):
        queue = self.queues.pop(place, ())
        if queue[n:]:
            self.queues[place] = queue[n:]
        return len(queue[:n])

    def move(self, place, to):
        self.queues[to] = self.queues.get(to, ()) + self.queues.pop(place, ())
        if not self.queues[to]:
            del self.queues[to]

    def leave(self, thread):
        left = {place: tuple(t for t in queue if t != thread) for place, queue in self.queues.items()}
        self.queues = {place: queue for place, queue in left.items() if queue}

    def exchange(self, place, seen, new):
        if self.words[place] != seen:
            return False
        self.words[place] = new
        return True


# A call is (call, row, registers..), call being (operation, object). A row makes one access, and returns the next
# stage and a reply, of which one is None.

def begun(call):
    return (call, 'announce' if call[0] in ('lock', 'timedlock', 'trylock') else 'look')


def returns(call, reply, late=False):
    return None, 'ETIMEDOUT' if late and reply == 'OK' else reply


class Step:
    """One access of a thread that is in a call."""

    def __init__(self, script, memory, t, stage):
        self.memory, self.words, self.t, self.stage = memory, memory.words, t, stage
        self.call, self.row, self.registers = stage[0], stage[1], stage[2:]
        self.operation = self.call[0]
        self.cell = script.cell(script.mutex(self.call))
        self.entry, self.head = self.cell + 1, script.head(t)
        self.counter = script.counter(self.call[1]) if self.operation in ON_CONDITION else None

    def made(self):
        return getattr(self, self.row)(*self.registers)

    def to(self, row, *registers):
        return (self.call, row) + registers, None

    def owner(self, word):
        return word & OWNER

    # -- around the cell
    def announce(self, *registers):
        self.words[self.head + 2] = self.entry
        if self.operation in ('lock', 'timedlock'):
            return self.to('load', False)
        return self.to('try_load', 0) if self.operation == 'trylock' else self.to('unlink_next', *registers)

    def link_first(self, reply, late):
        return self.to('link_next', self.words[self.head], reply, late)

    def link_next(self, first, reply, late):
        self.words[self.entry] = first
        return self.to('link_previous', first, reply, late)

    def link_previous(self, first, reply, late):
        self.words[self.entry + 1] = self.head
        return self.to('link_head' if first == self.head else 'link_back', first, reply, late)

    def link_back(self, first, reply, late):
        self.words[first + 1] = self.entry
        return self.to('link_head', first, reply, late)

    def link_head(self, first, reply, late):
        self.words[self.head] = self.entry
        return self.to('clear', reply, late)

    def unlink_next(self, *kept):
        return self.to('unlink_previous', self.words[self.entry], *kept)

    def unlink_previous(self, following, *kept):
        return self.to('unlink_store', following, self.words[self.entry + 1], *kept)

    def unlink_store(self, following, previous, *kept):
        self.words[previous] = following
        return self.to('release', *kept) if following == self.head else self.to('unlink_back', following, previous, *kept)

    def unlink_back(self, following, previous, *kept):
        self.words[following + 1] = previous
        return self.to('release', *kept)

    def clear(self, reply, late):
        self.words[self.head + 2] = 0
        return returns(self.call, reply, late)

    # -- lock, and the lock that ends a wait; late: the deadline of the wait has passed
    def load(self, late):
        return self.decide(self.words[self.cell], late)

    def decide(self, word, late):
        if word & UNUSABLE:
            return self.to('wake_all', late) if word & WAITERS else self.to('clear', 'ENOTRECOVERABLE', late)
        if self.owner(word) == self.t:
            return self.to('clear', 'EDEADLK', late)
        if self.owner(word) == 0:
            return self.to('take', word, late)
        return self.to('sleep' if word & WAITERS else 'set_waiters', word, late)

    def take(self, seen, late):
        if not self.memory.exchange(self.cell, seen, seen | self.t):
            return self.decide(self.words[self.cell], late)
        return self.to('link_first', 'EOWNERDEAD' if seen & DIED else 'OK', late)

    def set_waiters(self, seen, late):
        if not self.memory.exchange(self.cell, seen, seen | WAITERS):
            return self.decide(self.words[self.cell], late)
        return self.to('sleep', seen | WAITERS, late)

    def sleep(self, seen, late):
        if self.words[self.cell] & LOW == seen & LOW:
            self.memory.sleep(self.t, self.cell)
        return self.to('load', late)

    def wake_all(self, late):
        self.memory.wake(self.cell, 250)
        return self.to('clear', 'ENOTRECOVERABLE', late)

    # -- trylock
    def try_load(self, failures):
        return self.try_decide(self.words[self.cell], failures)

    def try_decide(self, word, failures):
        if word & UNUSABLE:
            return self.to('clear', 'ENOTRECOVERABLE', False)
        if self.owner(word):
            return self.to('clear', 'EBUSY', False)
        return self.to('clear', 'X_RACED', False) if failures == 4 else self.to('try_take', word, failures)

    def try_take(self, seen, failures):
        if not self.memory.exchange(self.cell, seen, seen | self.t):
            return self.try_decide(self.words[self.cell], failures + 1)
        return self.to('link_first', 'EOWNERDEAD' if seen & DIED else 'OK', False)

    # -- the calls of owners begin with a look at the cell
    def look(self):
        word = self.words[self.cell]
        if self.owner(word) != self.t:
            return returns(self.call, 'EPERM')
        if self.operation == 'unlock':
            return self.to('announce', bool(word & DIED))
        if self.operation == 'consistent':
            return self.to('declare') if word & DIED else returns(self.call, 'EINVAL')
        if self.operation in ('signal', 'broadcast'):
            return self.to('look_at_counter')
        return returns(self.call, 'X_STATE') if word & DIED else self.to('load_counter')

    def release(self, kept):
        if self.operation != 'unlock':
            word = self.words[self.cell]
            self.words[self.cell] = word ^ self.t
            return self.to('wait_wake' if word & WAITERS else 'wait_sleep', kept)
        word = self.words[self.cell]
        self.words[self.cell] = word ^ (self.t | ((DIED | UNUSABLE) if kept else 0))
        return self.to('wake', kept) if word & WAITERS else self.to('clear', 'OK', False)

    def wake(self, all_of_them):
        woken = self.memory.wake(self.cell, 250 if all_of_them else 1)
        return self.to('clear', 'OK', False) if woken or all_of_them else self.to('trim')

    def trim(self):
        if self.cell not in self.memory.queues:
            self.memory.exchange(self.cell, WAITERS, 0)
        return self.to('clear', 'OK', False)

    def declare(self):
        self.words[self.cell] &= ~DIED
        return returns(self.call, 'OK')

    # -- wait
    def load_counter(self):
        return self.to('announce', self.words[self.counter] & LOW)

    def wait_wake(self, seen):
        self.memory.wake(self.cell, 1)
        return self.to('wait_sleep', seen)

    def wait_sleep(self, seen):
        if self.words[self.counter] & LOW == seen:
            self.memory.sleep(self.t, self.counter)
        return self.to('load', False)

    # -- signal and broadcast
    def look_at_counter(self):
        seen = self.words[self.counter]
        if seen == FULL:
            return returns(self.call, 'X_FULL')
        return self.to('count') if self.operation == 'signal' else self.to('count', seen & LOW)

    def count(self, *seen):
        self.words[self.counter] += 1
        return self.to('signal_wake') if self.operation == 'signal' else self.to('mark_waiters', *seen)

    def signal_wake(self):
        self.memory.wake(self.counter, 1)
        return returns(self.call, 'OK')

    def mark_waiters(self, seen):
        self.words[self.cell] |= WAITERS
        return self.to('move_all', seen)

    def move_all(self, seen):
        if self.words[self.counter] & LOW == (seen + 1) & LOW:
            self.memory.move(self.counter, self.cell)
        return returns(self.call, 'OK')


class Walk:
    """One access of the walk over a dead thread's list: ('walk', row, registers..)."""

    def __init__(self, script, memory, t, stage):
        self.memory, self.words, self.t, self.head = memory, memory.words, t, script.head(t)
        self.row, self.registers = stage[1], stage[2:]

    def made(self):
        return getattr(self, self.row)(*self.registers)

    def first(self):
        return ('walk', 'offset', self.words[self.head])

    def offset(self, first):
        return ('walk', 'pending', first)

    def pending(self, first):
        return self.forward(first, self.words[self.head + 2], 0)

    def forward(self, entry, pending, loaded):
        if entry != self.head and loaded < 2048:
            return ('walk', 'next', entry, pending, loaded)
        return ('walk', 'word', pending - 1, None) if pending else 'reaped'

    def next(self, entry, pending, loaded):
        rest = (self.words[entry], pending, loaded + 1)
        return self.forward(*rest) if entry == pending else ('walk', 'word', entry - 1, rest)

    def continued(self, rest):
        return self.forward(*rest) if rest else 'reaped'

    def word(self, at, rest):
        return self.looked(self.words[at], at, rest, False)

    def looked(self, word, at, rest, again):
        if rest is None and word & OWNER == 0:
            return ('walk', 'wake', at, rest)
        return ('walk', 'mark', at, word, again, rest) if word & OWNER == self.t else self.continued(rest)

    def mark(self, at, seen, again, rest):
        if self.memory.exchange(at, seen, (seen & ~OWNER) | DIED):
            return ('walk', 'wake', at, rest) if seen & WAITERS else self.continued(rest)
        return self.continued(rest) if again else self.looked(self.words[at], at, rest, True)

    def wake(self, at, rest):
        self.memory.wake(at, 1)
        return self.continued(rest)


def is_dying(stage):
    return isinstance(stage, tuple) and stage[0] == 'walk'


def is_in_call(stage):
    return isinstance(stage, tuple) and stage[0] != 'walk'


def sleeping(state):
    return {t: place for place, queue in state.queues for t in queue}
