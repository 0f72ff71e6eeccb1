#!/usr/bin/env python3
"""Tries every order of the steps of the turn in `crates/usp_shared/src/turn.rt` and `waiting.rt`.

Usage: tools/turn_model.py [--quick]

Two to four threads take turns. Each access to what they share is one step, and the futex is taken apart into the
kernel's own steps: a wait raises the count of waiters, locks the queue, compares the word, and then queues itself or
goes on; a wake looks at the count, and where it is not 0 locks the queue and takes all out. A wake-up without a
reason is tried too, but a run in which only such a wake-up helps is one that is stuck. Every state that can be reached
is looked at. It has to be found that

- no thread takes the nonce table out while another has it, and each call's place is its ticket;
- no run is stuck: while a thread has calls left, some thread has a step;
- no run goes on for ever, but for looks that find nothing new.

Versions of the turn that are broken on purpose follow. Each of them has to be found out, and the shortest run that
shows it is printed. The status is 1 where one is not, or where the turn as it is written fails. `--quick` leaves out
the cases that take more than a few seconds.

A seat sleeps only while two turns or more are ahead of it, and so each pass but the last before its turn could miss it:
the turn stands on that a seat is counted before the kernel compares, and on the comparison. That the count is looked at
behind the pass, and that all are woken, lets the next seat look on in time; both are needed where the next seat sleeps
too.

The steps are sequentially consistent, as each of the program's is; that the processor keeps to it is not modelled.
No test and no part of the gate runs this.
"""
import collections
import sys
from dataclasses import dataclass, replace

# What a thread does next.
(DRAW, LOOK, COUNT, W_RAISE, W_LOCK, W_COMPARE, W_QUEUE, SLEEP, UNCOUNT, OUT, CALL, COMMIT, BACK, PASS, CHECK,
 K_LOOK, K_LOCK, K_TAKE, END) = range(19)
NAMES = ("draw look count raise lock compare queue sleep uncount out call commit back pass check "
         "wake-look wake-lock wake-take end").split()


@dataclass(frozen=True)
class Turn:
    """The turn as it is written, where nothing is changed."""
    threads: int
    calls: int
    # A seat gives way once it has looked so often without seeing a turn pass.
    looks: int = 0
    # Seats with fewer turns than this ahead of them never sleep.
    awake: int = 2
    # Whoever passes a turn on passes it first, and then looks at the count of those who sleep.
    passes_first: bool = True
    # A seat is counted before the kernel compares.
    counts_first: bool = True
    # The kernel compares the word with the ticket that was seen.
    compares: bool = True
    # The bits of the word that it compares.
    mask: int = 0xffffffff
    # All who sleep are woken, and not one of them.
    wakes_all: bool = True
    # Whoever passes a turn on wakes those who sleep.
    wakes: bool = True
    # The nonce table is back before the turn is passed on.
    back_first: bool = True


@dataclass(frozen=True)
class Thread:
    at: int = DRAW
    ticket: int = -1
    seen: int = 0
    looks: int = 0
    left: int = 0
    flag: bool = False


@dataclass(frozen=True)
class State:
    tickets: int
    serving: int
    count: int
    at_home: bool
    asleep: int
    waiters: int
    lock: int
    queue: tuple
    threads: tuple


class Broken(Exception):
    pass


def begin(turn):
    one = Thread(left=turn.calls)
    return State(0, 0, 0, True, 0, 0, -1, (), (one,) * turn.threads)


def done(thread):
    return Thread(at=DRAW if thread.left > 0 else END, left=thread.left)


def steps_of(turn, s, i):
    """The steps of one thread: what each is, the state behind it, and whether it is a wake-up without a reason."""
    t = s.threads[i]

    def to(thread, **changes):
        threads = s.threads[:i] + (thread,) + s.threads[i + 1:]
        return replace(s, threads=threads, **changes)

    if t.at == DRAW:
        yield f"draws {s.tickets}", to(replace(t, at=LOOK, ticket=s.tickets, left=t.left - 1, looks=0, seen=-1),
                                       tickets=s.tickets + 1), False
    elif t.at == LOOK:
        if s.serving == t.ticket:
            yield "has the turn", to(replace(t, at=OUT, looks=0, seen=0)), False
        else:
            looks = 1 if t.seen != s.serving else t.looks + 1
            sleeps = looks > turn.looks and t.ticket - s.serving >= turn.awake
            after = (COUNT if turn.counts_first else W_RAISE) if sleeps else LOOK
            looks = min(looks, turn.looks + 1)
            yield f"sees {s.serving}", to(replace(t, at=after, seen=s.serving, looks=looks)), False
    elif t.at == COUNT:
        after = W_RAISE if turn.counts_first else (SLEEP if t.flag else UNCOUNT)
        yield "is counted", to(replace(t, at=after), asleep=s.asleep + 1), False
    elif t.at == W_RAISE:
        yield "waits", to(replace(t, at=W_LOCK), waiters=s.waiters + 1), False
    elif t.at == W_LOCK:
        if s.lock == -1:
            yield "locks", to(replace(t, at=W_COMPARE), lock=i), False
    elif t.at == W_COMPARE:
        same = not turn.compares or (s.serving & turn.mask) == (t.seen & turn.mask)
        yield f"compares: {'the same' if same else 'another'}", to(replace(t, at=W_QUEUE, flag=same)), False
    elif t.at == W_QUEUE:
        after = COUNT if not turn.counts_first else (SLEEP if t.flag else UNCOUNT)
        if t.flag:
            yield "sleeps", to(replace(t, at=after), lock=-1, queue=s.queue + (i,)), False
        else:
            yield "goes on", to(replace(t, at=after), lock=-1, waiters=s.waiters - 1), False
    elif t.at == SLEEP:
        if i not in s.queue:
            yield "wakes", to(replace(t, at=UNCOUNT, flag=False), waiters=s.waiters - 1), False
        elif s.lock == -1:
            queue = tuple(x for x in s.queue if x != i)
            yield "wakes for no reason", to(replace(t, at=UNCOUNT, flag=False), waiters=s.waiters - 1,
                                            queue=queue), True
    elif t.at == UNCOUNT:
        yield "is not counted", to(replace(t, at=LOOK, flag=False), asleep=s.asleep - 1), False
    elif t.at == OUT:
        if not s.at_home:
            raise Broken(f"thread {i} takes the nonce table out while another has it")
        yield "takes the table out", to(replace(t, at=CALL), at_home=False), False
    elif t.at == CALL:
        yield "calls", to(replace(t, at=COMMIT)), False
    elif t.at == COMMIT:
        if s.count != t.ticket:
            raise Broken(f"the call of ticket {t.ticket} has place {s.count}")
        after = BACK if turn.back_first else PASS
        yield f"enters {s.count}", to(replace(t, at=after), count=s.count + 1), False
    elif t.at == BACK:
        after = (PASS if turn.passes_first else CHECK) if turn.back_first else CHECK
        yield "puts the table back", to(replace(t, at=after), at_home=True), False
    elif t.at == PASS:
        if not turn.back_first:
            after = replace(t, at=BACK)
        elif turn.passes_first:
            after = replace(t, at=CHECK)
        else:
            after = replace(t, at=K_LOOK) if t.flag else done(t)
        yield "passes the turn on", to(after, serving=s.serving + 1), False
    elif t.at == CHECK:
        needed = s.asleep > 0 and turn.wakes
        if turn.passes_first or not turn.back_first:
            after = replace(t, at=K_LOOK) if needed else done(t)
        else:
            after = replace(t, at=PASS, flag=needed)
        yield f"counts {s.asleep} asleep", to(after), False
    elif t.at == K_LOOK:
        if s.waiters == 0:
            yield "finds nobody to wake", to(done(t)), False
        else:
            yield "wakes them", to(replace(t, at=K_LOCK)), False
    elif t.at == K_LOCK:
        if s.lock == -1:
            yield "locks", to(replace(t, at=K_TAKE), lock=i), False
    elif t.at == K_TAKE:
        queue = () if turn.wakes_all else s.queue[1:]
        yield f"woke {list(s.queue)}", to(done(t), lock=-1, queue=queue), False


def steps(turn, s):
    for i in range(turn.threads):
        for label, after, spurious in steps_of(turn, s, i):
            yield f"{i} {label}", after, spurious


def is_at_its_end(turn, s):
    return (all(t.at == END for t in s.threads) and s.count == turn.threads * turn.calls
            and s.at_home and s.asleep == 0 and s.waiters == 0)


def path_to(seen, s):
    path = []
    while seen[s] is not None:
        s, label = seen[s]
        path.append(label)
    return path[::-1]


def explore(turn):
    """How many states there are, how many ends, and what is wrong with a shortest run to it."""
    first = begin(turn)
    seen = {first: None}
    work = collections.deque([first])
    ends = 0
    while work:
        s = work.popleft()
        goes_on = False
        try:
            for label, after, spurious in steps(turn, s):
                # A look that changes nothing is no step forward.
                goes_on = goes_on or (not spurious and after != s)
                if after not in seen:
                    seen[after] = (s, label)
                    work.append(after)
        except Broken as broken:
            return len(seen), ends, str(broken), path_to(seen, s)
        if not goes_on:
            if not is_at_its_end(turn, s):
                where = ", ".join(NAMES[t.at] for t in s.threads)
                return len(seen), ends, f"stuck: {where}", path_to(seen, s)
            ends += 1
    return len(seen), ends, None, goes_in_a_circle(turn, seen)


def goes_in_a_circle(turn, seen):
    """Whether steps that have a reason lead back to a state, but for looks that change nothing."""
    after_of = {}
    before = collections.Counter()
    for s in seen:
        after_of[s] = [a for _, a, spurious in steps(turn, s) if not spurious and a != s]
        before.update(after_of[s])
    work = [s for s in seen if before[s] == 0]
    left = len(seen)
    while work:
        left -= 1
        for a in after_of[work.pop()]:
            before[a] -= 1
            if before[a] == 0:
                work.append(a)
    return left > 0


# (what, the turn, whether it takes more than a few seconds)
WRITTEN = [
    ("2 threads, 1 call each, and the next seat sleeps too", Turn(2, 1, awake=1), False),
    ("2 threads, 3 calls each", Turn(2, 3), False),
    ("2 threads, 2 calls each, 2 looks", Turn(2, 2, looks=2), False),
    ("3 threads, 1 call each", Turn(3, 1), False),
    ("3 threads, 1 call each, 1 look", Turn(3, 1, looks=1), False),
    ("3 threads, 2 calls each", Turn(3, 2), True),
    ("4 threads, 1 call each", Turn(4, 1), True),
]
BROKEN = [
    ("nobody is woken", Turn(3, 1, wakes=False)),
    ("a seat is counted once it sleeps", Turn(3, 1, counts_first=False)),
    ("a seat sleeps whatever ticket is served", Turn(3, 1, compares=False)),
    ("only the last bit of the ticket is compared", Turn(4, 1, mask=1)),
    ("the turn is passed on before the table is back", Turn(2, 1, back_first=False)),
    ("the next seat sleeps too, and the count is looked at before the turn is passed on",
     Turn(2, 1, awake=1, passes_first=False)),
    ("the next seat sleeps too, and only one is woken", Turn(3, 1, awake=1, wakes_all=False)),
]


def main():
    quick = "--quick" in sys.argv[1:]
    wrong = 0
    print("as it is written")
    for what, turn, slow in WRITTEN:
        if slow and quick:
            continue
        states, ends, fault, circle = explore(turn)
        if fault or circle:
            wrong += 1
            print(f"  {what}: WRONG: {fault or 'some run goes in a circle'}")
        else:
            print(f"  {what}: {states:,} states, {ends} ends, none stuck, none in a circle", flush=True)
    print("broken on purpose")
    for what, turn in BROKEN:
        states, _, fault, path = explore(turn)
        if fault:
            print(f"  {what}: found, {fault}\n    " + "; ".join(path), flush=True)
        else:
            wrong += 1
            print(f"  {what}: NOT FOUND in {states:,} states", flush=True)
    sys.exit(1 if wrong else 0)


if __name__ == "__main__":
    main()
