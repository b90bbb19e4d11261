"""Every outcome of a small script, by a plain search over machine.py.

It shares no code with rfx-explore, and serves as its reference (checks/explore). As a command it prints what rfx-explore
prints, except for the order of the outcomes:

    python3 checks/lib/outcomes.py [--kills N] [--kill T].. [--expire] [--leave] [--spare] FILE
"""
import sys
from collections import deque, namedtuple

from machine import DIED, LOCKS, ON_CONDITION, OWNER, UNUSABLE
from machine import Memory, Step, Walk, begun, is_dying, is_in_call, sleeping

Item = namedtuple('Item', 'phase after act')  # act: (operation, object), or None to stop
Thread = namedtuple('Thread', 'stage at replies')  # stage: None if idle, 'reaped', or a call or a walk
State = namedtuple('State', 'words queues threads phase')
Asked = namedtuple('Asked', 'kills killable expire leave spare')


class Script:
    """The declarations of a script, and what each thread does."""

    def __init__(self, text):
        self.threads, self.mutexes, self.conditions, self.items, self.counters = [], [], [], [], []
        self.mutex_of_condition, phase = [], 0
        for line in text.splitlines():
            words = line.split()
            if not words or words[0].startswith('#'):
                continue
            if words[0] == 'thread':
                self.threads.append(words[1])
                self.items.append([])
            elif words[0] == 'mutex':
                self.mutexes.append(words[1])
            elif words[0] == 'mutexes':
                self.mutexes += [f'{words[1]}{i}' for i in range(int(words[2]))]
            elif words[0] == 'cond':
                self.conditions.append(words[1])
                self.mutex_of_condition.append(self.mutexes.index(words[2]))
                self.counters.append(int(words[3]))
            elif words[0] == 'phase':
                phase += 1
            elif words[0] != 'process':
                self.add(words, phase)

    def add(self, words, phase):
        after = None
        if words[0] == 'on':
            after, words = words[1], words[2:]
        thread = self.threads.index(words[1])
        act = None
        if words[0] == 'call':
            names = self.conditions if words[2] in ON_CONDITION else self.mutexes
            act = (words[2], names.index(words[3]))
        self.items[thread].append(Item(phase, after, act))

    # Places of words. Thread t is counted from 1, the others from 0.
    def head(self, t):
        return 1 + 3 * (t - 1)

    def cell(self, m):
        return 1 + 3 * len(self.threads) + 3 * m

    def counter(self, k):
        return 1 + 3 * len(self.threads) + 3 * len(self.mutexes) + k

    def mutex(self, call):
        return self.mutex_of_condition[call[1]] if call[0] in ON_CONDITION else call[1]

    def start(self):
        words = [0] * self.counter(len(self.conditions))
        for t in range(1, len(self.threads) + 1):
            words[self.head(t)], words[self.head(t) + 1] = self.head(t), (1 << 64) - 1
        for k, n in enumerate(self.counters):
            words[self.counter(k)] = n
        threads = tuple(Thread(None, 0, ()) for _ in self.threads)
        return State(tuple(words), (), threads, 0)


def next_call(script, index, thread):
    """The place after the next call of an idle thread, its phase and the call, or None: it has ended."""
    last = thread.replies[-1] if thread.replies else None
    for at, item in enumerate(script.items[index][thread.at:], thread.at):
        if item.after is None or item.after == last:
            return item.act and (at + 1, item.phase, item.act)
    return None


class Search:
    def __init__(self, script, asked):
        self.script, self.asked = script, asked

    def replaced(self, state, memory, t, stage, reply=None, **more):
        old = state.threads[t - 1]
        new = Thread(stage, more.get('at', old.at), old.replies + ((reply,) if reply else ()))
        threads = state.threads[:t - 1] + (new,) + state.threads[t:]
        return State(tuple(memory.words), tuple(sorted(memory.queues.items())), threads, more.get('phase', state.phase))

    def stepped(self, state, t):
        stage, memory = state.threads[t - 1].stage, Memory(self.script, state)
        if is_dying(stage):
            return self.replaced(state, memory, t, Walk(self.script, memory, t, stage).made())
        after, reply = Step(self.script, memory, t, stage).made()
        return self.replaced(state, memory, t, after, reply)

    def may_begin(self, state, phase):
        if phase == state.phase:
            return True
        for index, thread in enumerate(state.threads):
            if is_dying(thread.stage) or is_in_call(thread.stage):
                return False
            call = thread.stage is None and next_call(self.script, index, thread)
            if call and call[1] < phase:
                return False
        return True

    def answers(self, state, u, m, asleep):
        stage = state.threads[u - 1].stage
        if is_dying(stage):
            pending = state.words[self.script.head(u) + 2]
            return stage[1] == 'first' and pending == self.script.cell(m) + 1
        if not is_in_call(stage) or u in asleep or self.script.mutex(stage[0]) != m:
            return False
        in_lock = stage[0][0] in LOCKS and stage[1] in ('load', 'take', 'set_waiters', 'sleep', 'wake_all')
        return in_lock or stage[1] in ('wake', 'wait_wake')

    def may_spare(self, state, t, asleep):
        stage = state.threads[t - 1].stage
        if not (stage[1] == 'wait_wake' or stage[1] == 'wake' and not stage[2]):
            return False
        others = (u for u in range(1, len(state.threads) + 1) if u != t)
        return any(self.answers(state, u, self.script.mutex(stage[0]), asleep) for u in others)

    def expired(self, state, t, place):
        """The state after the deadline of a sleeping thread's call, or None if it has none there."""
        call, row, memory = *state.threads[t - 1].stage[:2], Memory(self.script, state)
        memory.leave(t)
        if call[0] == 'timedlock':
            return self.replaced(state, memory, t, (call, 'clear', 'ETIMEDOUT', False))
        if call[0] == 'timedwait' and place == self.script.counter(call[1]):
            return self.replaced(state, memory, t, (call, row, True))
        return None

    def killed(self, state, t):
        memory = Memory(self.script, state)
        memory.leave(t)
        return self.replaced(state, memory, t, ('walk', 'first'))

    def progress(self, state):
        """The states after each begin and step, and each deadline that is asked for."""
        asleep = sleeping(state)
        for t, thread in enumerate(state.threads, 1):
            call = thread.stage is None and next_call(self.script, t - 1, thread)
            if call and self.may_begin(state, call[1]):
                memory = Memory(self.script, state)
                yield self.replaced(state, memory, t, begun(call[2]), at=call[0], phase=call[1])
            elif is_dying(thread.stage) or is_in_call(thread.stage) and t not in asleep:
                yield self.stepped(state, t)
            elif t in asleep and self.asked.expire:
                after = self.expired(state, t, asleep[t])
                if after:
                    yield after

    def others(self, state):
        """The states after each other event that is asked for."""
        asleep = sleeping(state)
        dead = sum(thread.stage == 'reaped' or is_dying(thread.stage) for thread in state.threads)
        for t, thread in enumerate(state.threads, 1):
            alive = is_in_call(thread.stage) or thread.stage is None and next_call(self.script, t - 1, thread)
            if alive and dead < self.asked.kills and self.asked.killable[t - 1]:
                yield self.killed(state, t)
            if t in asleep and self.asked.leave:
                memory = Memory(self.script, state)
                memory.leave(t)
                yield self.replaced(state, memory, t, thread.stage)
            if self.asked.spare and is_in_call(thread.stage) and self.may_spare(state, t, asleep):
                stage = thread.stage
                after = (stage[0], 'wait_sleep', stage[2]) if stage[1] == 'wait_wake' else (stage[0], 'clear', 'OK', False)
                yield self.replaced(state, Memory(self.script, state), t, after)

    def bed(self, place):
        """How it is said that a thread sleeps on the word at a place."""
        names = {self.script.cell(m): name for m, name in enumerate(self.script.mutexes)}
        names |= {self.script.counter(k): f'cond {name}' for k, name in enumerate(self.script.conditions)}
        return f'asleep on {names[place]}'

    def outcome(self, state):
        asleep, cells = sleeping(state), []
        threads = []
        for t, thread in enumerate(state.threads, 1):
            waits = thread.stage is None and next_call(self.script, t - 1, thread)
            end = 'dead' if thread.stage == 'reaped' else self.bed(asleep[t]) if t in asleep else 'waiting' if waits else ''
            threads.append((self.script.threads[t - 1],) + thread.replies + ((end,) if end else ()))
        for m, name in enumerate(self.script.mutexes):
            word = state.words[self.script.cell(m)]
            owner = [f'owned by {self.script.threads[(word & OWNER) - 1]}'] if word & OWNER else []
            flags = [text for bit, text in ((DIED, 'inconsistent'), (UNUSABLE, 'unusable')) if word & bit]
            cells.append(name + ' ' + (', '.join(owner + flags) or 'free'))
        places = [self.script.cell(m) for m in range(len(self.script.mutexes))]
        on_mutex = any(place in places for place in asleep.values())
        mark = 'a deadlock' if on_mutex else 'a lost wakeup' if asleep else ''
        return tuple(' '.join(thread) for thread in threads) + tuple(cells) + (mark,)

    def run(self, limit=5_000_000):
        """The outcomes, each with how many events lead to it at least; how many states there are; and whether that is all."""
        start = self.script.start()
        seen, todo, outcomes = {start: 0}, deque([start]), {}
        while todo and len(seen) <= limit:
            state = todo.popleft()
            following = list(self.progress(state))
            if not following:
                outcomes.setdefault(self.outcome(state), seen[state])
            for after in following + list(self.others(state)):
                if after not in seen:
                    seen[after] = seen[state] + 1
                    todo.append(after)
        return outcomes, len(seen), not todo


def asked_of(words):
    """The script and what is asked for, by the words of the command."""
    words, kills, named, flags = list(words), None, [], {'expire': False, 'leave': False, 'spare': False}
    with open(words.pop()) as stream:
        script = Script(stream.read())
    while words:
        word = words.pop(0)
        if word == '--kills':
            kills = int(words.pop(0))
        elif word == '--kill':
            name = words.pop(0)
            named += [name] if name not in named else []
        else:
            flags[word.lstrip('-')] = True
    killable = [not named or name in named for name in script.threads]
    return script, Asked(min(len(named), 4) if kills is None else kills, killable, **flags)


if __name__ == '__main__':
    SCRIPT, ASKED = asked_of(sys.argv[1:])
    OUTCOMES, STATES, COMPLETE = Search(SCRIPT, ASKED).run()
    for number, outcome in enumerate(OUTCOMES, 1):
        print(number, ' | '.join(outcome))
    print(f'{len(OUTCOMES)} outcomes,', 'complete,' if COMPLETE else 'not complete,', STATES, 'states')
