"""Shared. Logs that try to make a restart of them, or from the checkpoint that they begin with, slow or dear in memory; and logs that try to make an
audit of them slow: with checkpoints that may be true by what the program knows without a redo."""
from __future__ import annotations
import functools, itertools, math, struct
from collections.abc import Callable, Iterable, Iterator

from frames import NO_QUEUE, abort, begin, checkpoint, commit, define, definition, dequeue, deregister, enqueue, kill, newcomer, register, spelled, state

# A long payload: the longest ones have 65,535 bytes.
HEAVY = bytes(60000)
# What a name is made of.
LETTERS = b"abcdefghijklmnopqrstuvwxyz0123456789-._"
# A queue without an error queue, and 4,095 more, each of which has the one before it: name, limit and error queue.
CHAIN = [(b"q0", 0, NO_QUEUE), *((b"q%d" % queue, 1, queue - 1) for queue in range(1, 4096))]

Records = Iterator[bytes]


def unit_of(unit: int, operations: Iterable[bytes], end: Callable[[int], bytes] = commit) -> Records:
    """A unit, and how it ends."""
    yield begin(unit)
    yield from operations
    yield end(unit)


def open_units(n: int) -> Records:
    """Units that are never ended."""
    yield define(b"jobs")
    for unit in range(1, n // 2):
        yield begin(unit)
        yield enqueue(unit, 0)


def one_unit(n: int) -> Records:
    """A unit enqueues all, a second one takes all and aborts, a third one takes all and commits."""
    yield define(b"jobs")
    for unit, operation, end in ((1, enqueue, commit), (2, dequeue, abort), (3, dequeue, commit)):
        yield from unit_of(unit, itertools.repeat(operation(unit, 0), n // 3), end)


def units_in_turn(n: int) -> Records:
    """A thousand open units, and every operation is another one's than the last."""
    yield define(b"jobs")
    yield from (begin(unit) for unit in range(1, 1001))
    yield from (enqueue(1 + at % 1000, 0) for at in range(n // 2))
    yield from (commit(unit) for unit in range(1, 1001))
    yield from (begin(unit) for unit in range(1001, 2001))
    yield from (dequeue(1001 + at % 1000, 0) for at in range(n // 2))
    yield from (abort(unit) for unit in range(1001, 2001))


def one_registrant(n: int) -> Records:
    """A unit for each operation of one registrant, who never goes."""
    yield define(b"jobs")
    yield register(0, b"ann")
    for unit in range(1, n // 4):
        yield from unit_of(unit, [enqueue(unit, 0, b"ann", unit), dequeue(unit, 0, b"ann", unit)])


def strangers_go(n: int) -> Records:
    """All notes are one registrant's, and it is another one that comes and goes."""
    yield define(b"jobs")
    yield register(0, b"ann")
    yield begin(1)
    yield from (dequeue(1, 0, b"ann", tag) for tag in range(n // 3))
    yield from itertools.chain.from_iterable(itertools.repeat((register(0, b"bob"), deregister(0, b"bob")), n // 3))


def noted_and_gone(n: int) -> Records:
    """A registrant comes, makes a note in the same unit, and goes, again and again."""
    yield define(b"jobs")
    yield from unit_of(1, [register(0, b"ann"), enqueue(1, 0, b"ann", 1), deregister(0, b"ann")] * (n // 3))


def last_go_first(n: int) -> Records:
    """Many registrants with notes in one unit; they go, the last one first."""
    names = [b"n%d" % number for number in range(n // 4)]
    yield define(b"jobs")
    yield begin(1)
    yield from (register(0, name) for name in names)
    yield from (enqueue(1, 0, name, 1) for name in names)
    yield from (dequeue(1, 0, name, 1) for name in names)
    yield from (deregister(0, name) for name in reversed(names))
    yield commit(1)


def aborting(units: Iterable[int]) -> Records:
    """Units of which each takes an element and aborts."""
    for unit in units:
        yield from unit_of(unit, [dequeue(unit, 0)], abort)


def filled(count: int) -> Records:
    """A queue with so many elements, which one unit put in."""
    yield define(b"jobs")
    yield from unit_of(1, itertools.repeat(enqueue(1, 0), count))


def retried(n: int) -> Records:
    """One element of 60,000 bytes is taken and comes back, unit by unit."""
    yield define(b"jobs")
    yield from unit_of(1, [enqueue(1, 0, payload=HEAVY)])
    yield from aborting(range(2, n // 3))


def all_retried(n: int) -> Records:
    """Each unit takes one of many elements and aborts, so that the best one is always the same."""
    yield from filled(n // 2)
    yield from aborting(range(2, n // 6))


def moved(n: int) -> Records:
    """Elements of one queue leave it one by one for an error queue, where others take them meanwhile."""
    yield define(b"errors")
    yield define(b"jobs", 1, 0)
    yield from unit_of(1, itertools.repeat(enqueue(1, 1), n // 7))
    for unit in range(2, 2 * (n // 7), 2):
        yield from unit_of(unit, [dequeue(unit, 1)], abort)
        yield from unit_of(unit + 1, [dequeue(unit + 1, 0)], abort)


def all_moved(n: int) -> Records:
    """Units over 4,095 queues abort, and all elements go to the one error queue of all."""
    yield define(b"errors")
    yield from (define(b"q%d" % queue, 1, 0) for queue in range(1, 4096))
    for unit in range(1, n // 2048, 2):
        yield from unit_of(unit, (enqueue(unit, 1 + (unit * 512 + at) % 4095) for at in range(2048)))
        yield from unit_of(unit + 1, (dequeue(unit + 1, 1 + (unit * 512 + at) % 4095) for at in range(2048)), abort)


def all_queues(n: int) -> Records:
    """4,096 queues, each with an open unit of its own, and units that touch all of them."""
    yield from (define(b"q%d" % queue) for queue in range(4096))
    yield from (begin(1 + queue) for queue in range(4096))
    yield from (enqueue(1 + queue, queue) for queue in range(4096))
    for unit in range(5000, 5000 + n // 4096):
        yield from unit_of(unit, (enqueue(unit, queue) if unit % 2 else dequeue(unit, queue) for queue in range(4096)))


def all_aborted(n: int) -> Records:
    """Units that take from each of 4,096 queues, which have nothing, and abort."""
    yield from (define(b"q%d" % queue) for queue in range(4096))
    for unit in range(1, 1 + n // 4096):
        yield from unit_of(unit, (dequeue(unit, queue) for queue in range(4096)), abort)


def spread(n: int) -> Records:
    """One unit's elements over 4,096 queues, which stay."""
    yield from (define(b"q%d" % queue) for queue in range(4096))
    yield from unit_of(1, (enqueue(1, at % 4096) for at in range(n)))


def chained(n: int) -> Records:
    """Elements that fall through all queues of the chain, one after another."""
    yield from (define(*it) for it in CHAIN)
    unit = 0
    for _ in range(1 + n // (3 * 4096)):
        yield from unit_of(unit := unit + 1, [enqueue(unit, 4095)])
        for queue in range(4095, 0, -1):
            yield from unit_of(unit := unit + 1, [dequeue(unit, queue)], abort)


def all_killed(n: int) -> Records:
    """Many elements, and a KILL for each, the last one first."""
    yield from filled(n // 2)
    yield from (kill(0, 1 + n // 2 - at) for at in range(n // 2))


def none_killed(n: int) -> Records:
    """Many elements, held by one unit, and KILLs of these, of what was never there and of the first record."""
    yield from filled(n // 4)
    yield begin(2)
    yield from itertools.repeat(dequeue(2, 0), n // 4)
    yield from itertools.chain.from_iterable((kill(0, 2 + at), kill(0, n + at), kill(0, 0)) for at in range(n // 6))


def killed_and_new(n: int) -> Records:
    """Elements that are killed as soon as they are Free, in 4,096 queues in turn."""
    yield from (define(b"q%d" % queue) for queue in range(4096))
    place = 4096
    for unit in range(1, n // 4):
        queue = unit % 4096
        yield from unit_of(unit, [enqueue(unit, queue)])
        yield kill(queue, place + 1)
        place += 4


def name_of(number: int, letters: int = 4) -> bytes:
    """The name of so many letters with this number."""
    return bytes(LETTERS[number // len(LETTERS)**place % len(LETTERS)] for place in range(letters))


def enqueued_by_one(n: int) -> Records:
    """A registrant of one letter enqueues elements without payload, all in one unit."""
    yield define(b"jobs")
    yield register(0, b"a")
    yield from unit_of(1, itertools.repeat(enqueue(1, 0, b"a", 1, b""), n))


def enqueued_by_nobody(n: int) -> Records:
    """Elements without payload are enqueued, all in one unit."""
    yield define(b"jobs")
    yield from unit_of(1, itertools.repeat(enqueue(1, 0, payload=b""), n))


def enqueued_one_by_one(n: int) -> Records:
    """An element without payload in each unit."""
    yield define(b"jobs")
    for unit in range(1, n // 3):
        yield from unit_of(unit, [enqueue(unit, 0, payload=b"")])


def enqueued_and_open(n: int) -> Records:
    """A registrant of one letter enqueues an element without payload in each of many units, which stay open."""
    yield define(b"jobs")
    yield register(0, b"a")
    for unit in range(1, n // 2):
        yield begin(unit)
        yield enqueue(unit, 0, b"a", 1, b"")


def all_registered(n: int) -> Records:
    """Registrants of four letters."""
    yield define(b"jobs")
    yield from (register(0, name_of(number)) for number in range(n))


def nothing_killed(n: int) -> Records:
    """KILLs of what is not there."""
    yield define(b"jobs")
    yield from itertools.repeat(kill(0, 0), n)


def killed_by_one(n: int) -> Records:
    """A registrant of one letter enqueues elements without payload, all in one unit, and each is killed."""
    yield define(b"jobs")
    yield register(0, b"a")
    yield from unit_of(1, itertools.repeat(enqueue(1, 0, b"a", 1, b""), n // 2))
    yield from (kill(0, 3 + at) for at in range(n // 2))


def told_by(units: Iterable[bytes], registered: Iterable[bytes], elements: Iterable[bytes], notes: Iterable[bytes]) -> Records:
    """One checkpoint, the first record, which tells of one queue and of these members, though there are none."""
    yield checkpoint(state((2**31, 2**31, 0, 0), [definition(b"jobs")], units, registered, elements, notes))


def registrants_at(n: int) -> Records:
    """A checkpoint of registrants of four letters."""
    return told_by([], (newcomer(0, name) for name in sorted(map(name_of, range(n)))), [], [])


def short_names_at(n: int) -> Records:
    """A checkpoint of registrants of two letters, in as many queues as there may be: most members for the fewest bytes."""
    names = sorted(map(bytes, itertools.product(LETTERS, repeat=2)))[: n // 4096]
    queues = [definition(b"q%d" % queue) for queue in range(4096)]
    registered = (newcomer(queue, name) for queue in range(4096) for name in names)
    yield checkpoint(state((2**31, 2**31, 0, 0), queues, [], registered, [], []))


def units_at(n: int) -> Records:
    """A checkpoint of open units."""
    return told_by((struct.pack(">Q", unit) for unit in range(1, 1 + n)), [], [], [])


def elements_at(n: int) -> Records:
    """A checkpoint of elements without payload."""
    return told_by([], [], (struct.pack(">QIIBQBH", 1 + at, 0, 0, 5, 0, 0, 0) for at in range(n)), [])


def notes_at(n: int) -> Records:
    """A checkpoint of notes of one registrant, of a unit that is open."""
    notes = (struct.pack(">QQIB", 1 + at, 1, 0, 1) + b"a\2" + struct.pack(">QQ", 1, 2**64 - 1) for at in range(n))
    return told_by([struct.pack(">Q", 1)], [newcomer(0, b"a")], [], notes)


RESTARTED = [open_units, one_unit, units_in_turn, one_registrant, strangers_go, noted_and_gone, last_go_first]
RESTARTED += [retried, all_retried, moved, all_moved, all_queues, all_aborted, spread]
IN_VERSION_TWO = [chained, all_killed, none_killed, killed_and_new, nothing_killed, killed_by_one]
# Records that leave as much behind as they can.
SMALL = [enqueued_by_one, enqueued_by_nobody, enqueued_one_by_one, enqueued_and_open, all_registered]
# Restarts begin at their first record too.
TOLD_AT = [registrants_at, short_names_at, units_at, elements_at, notes_at]


# --- audits ----------------------------------------------------------------------------------------------------------

# To make keys that collide: how the toolchain's tables of hashes (IndexMap) hash a key, with no secret. The program has
# such a table for names of queues alone. Each number of the key is joined by xor with the hasher's state, a byte three
# times over and four bytes twice. The product of that and a factor for the number's size has 128 bits; its halves,
# joined by xor, are the next state. The halves of the last state, joined, are the hash, and its low bits the group at
# which a search begins; from a full group it goes on to the next. The groups are a power of two, and there are at most
# nine entries for each.
HASHER, FACTOR, GROUP_LOAD = 0x243F_6A88_85A3_08D3, 0x9E37_79B9_7F4A_7C15, 9
COPIES = {1: 0x1_0101, 4: 0x1_0000_0001, 8: 1}


def told_between(place: int, steps: Iterable[int], work: Callable[[int], Iterable[bytes]],
                 told: Callable[[int, int], bytes]) -> Records:
    """Behind so many records those of each step, and a checkpoint behind each, made of its own number and the step."""
    for step in steps:
        for body in work(step):
            yield body
            place += 1
        yield checkpoint(told(place, step))
        place += 1


def empty_unit(unit: int) -> Records:
    return unit_of(unit, [])


def taking_unit(unit: int) -> Records:
    return unit_of(unit, [dequeue(unit, 0)])


def none_told(place: int, unit: int) -> bytes:
    """A checkpoint that has all right if so many units have committed, but tells of no element."""
    return spelled((place, unit, unit, 0), [b"jobs"], [])


def few_elements(n: int, told: Callable[[int, int, list[tuple[int, bytes]]], bytes]) -> Records:
    """64 elements and n / 32 checkpoints, with a unit between any two of them."""
    elements = [(2 + at, b"payload %08d" % at) for at in range(64)]
    yield define(b"jobs")
    yield from unit_of(1, (enqueue(1, 0, payload=payload) for _, payload in elements))
    yield from told_between(67, range(2, n // 32), empty_unit, lambda place, unit: told(place, unit, elements))


def true_checkpoints(n: int) -> Records:
    """Checkpoints that spell their state."""
    return few_elements(n, lambda place, unit, elements: spelled((place, unit, unit, 0), [b"jobs"], elements))


def false_checkpoints(n: int) -> Records:
    """Checkpoints that are right but for the last byte of the last payload."""
    def told(place: int, unit: int, elements: list[tuple[int, bytes]]) -> bytes:
        return spelled((place, unit, unit, 0), [b"jobs"], [*elements[:-1], (65, b"payload 00000000")])

    return few_elements(n, told)


def many_elements(n: int, told: Callable[[int], bytes]) -> Records:
    """n / 2 elements, and then n / 2 checkpoints."""
    yield from filled(n // 2)
    yield from (checkpoint(told(n // 2 + 3 + at)) for at in range(n // 2))


def junk_checkpoints(n: int) -> Records:
    """Many elements, and checkpoints of four bytes."""
    return many_elements(n, lambda place: b"junk")


def empty_checkpoints(n: int) -> Records:
    """Many elements, and checkpoints that spell the empty state."""
    return many_elements(n, lambda place: bytes(52))


def counting_checkpoints(n: int) -> Records:
    """Many elements, and checkpoints that have all but these right."""
    return many_elements(n, lambda place: spelled((place, 1, 1, 0), [b"jobs"], []))


def one_told(n: int) -> Records:
    """Many elements, and checkpoints that have all right but tell of the first one only."""
    return many_elements(n, lambda place: spelled((place, 1, 1, 0), [b"jobs"], [(2, b"a")]))


def wide_checkpoints(n: int) -> Records:
    """4,000 queues, and checkpoints of one byte."""
    yield from (define(b"q%d" % queue) for queue in range(4000))
    yield from itertools.repeat(checkpoint(b"j"), n)


def queues_told(n: int) -> Records:
    """4,096 queues, and n / 4,096 checkpoints that spell them."""
    names = [b"q%d" % queue for queue in range(4096)]
    yield from map(define, names)
    yield from (checkpoint(spelled((4096 + at, 0, 0, 0), names, [])) for at in range(n // 4096))


def others_told(n: int, count: int, units: int) -> Records:
    """So many elements, and n / count checkpoints that tell of as many others, with so many units between any two."""
    elements = [(2 + at, b"b") for at in range(count)]

    def told(place: int, first: int) -> bytes:
        return spelled((place, first + units - 1, 1, first + units - 2), [b"jobs"], elements)

    yield from filled(count)
    firsts = range(2, 2 + units * (n // count), units)
    yield from told_between(3 + count, firsts, lambda first: aborting(range(first, first + units)), told)


def units_told(n: int) -> Records:
    """4,096 elements, which few records between two checkpoints go over one by one."""
    return others_told(n, 4096, 12)


def many_told(n: int) -> Records:
    """16,384 elements, with too many records between two checkpoints for that, and too few for a queue put together."""
    return others_told(n, 16384, 60)


def numbered(place: int, zeros: int = 44) -> bytes:
    """What begins with the number of its record, and has zeros behind it: at least as many as the shortest spelling."""
    return struct.pack(">Q", place) + bytes(zeros)


def own_number(n: int) -> Records:
    """Many elements, and checkpoints that have their own number right and nothing else."""
    return many_elements(n, numbered)


def held_by_one(n: int) -> Records:
    """Many elements, held by one unit, and checkpoints that tell of none."""
    held = n // 3
    yield from filled(held)
    yield begin(2)
    yield from itertools.repeat(dequeue(2, 0), held)
    yield from (checkpoint(spelled((4 + 2 * held + at, 2, 1, 0), [b"jobs"], [], [2])) for at in range(n // 3))


def units_between(n: int) -> Records:
    """Many elements, of which a unit takes one between any two checkpoints, which tell of none."""
    yield from filled(n // 3)
    yield from told_between(3 + n // 3, range(2, n // 6), taking_unit, none_told)


def empty_units_between(n: int) -> Records:
    """Many elements, and a unit of no operation between any two checkpoints, which tell of none."""
    yield from filled(n // 2)
    yield from told_between(3 + n // 2, range(2, n // 6), empty_unit, none_told)


def true_and_small(n: int) -> Records:
    """No element, and a unit of no operation between any two checkpoints, which are true."""
    yield define(b"jobs")
    yield from told_between(1, range(1, n // 3), empty_unit, none_told)


def others_deregister(n: int) -> Records:
    """All notes are one registrant's; another one comes and goes between any two checkpoints, which tell of neither."""
    yield define(b"jobs")
    yield register(0, b"ann")
    yield begin(1)
    yield from itertools.repeat(dequeue(1, 0, b"ann", 1), n // 2)
    yield from told_between(3 + n // 2, range(n // 6), lambda _: [register(0, b"bob"), deregister(0, b"bob")],
                            lambda place, _: spelled((place, 1, 0, 0), [b"jobs"], [], [1]))


def registrants(n: int) -> Records:
    """Many registrants, and checkpoints that have all right but tell of none."""
    yield define(b"jobs")
    yield from (register(0, b"n%d" % number) for number in range(n // 2))
    yield from (checkpoint(spelled((1 + n // 2 + at, 0, 0, 0), [b"jobs"], [])) for at in range(n // 2))


def no_unit_told(n: int) -> Records:
    """Many open units, and checkpoints that have all right but tell of none."""
    yield define(b"jobs")
    yield from (begin(1 + at) for at in range(n // 2))
    yield from (checkpoint(spelled((1 + n // 2 + at, n // 2, 0, 0), [b"jobs"], [])) for at in range(n // 2))


def heavy_below_light(n: int) -> Records:
    """Light elements go before heavy ones, one by one, with a checkpoint behind each that tells of no element."""
    heavy, light = n // 1024, n // 5
    yield define(b"jobs")
    yield begin(1)
    yield from itertools.repeat(enqueue(1, 0, payload=HEAVY, priority=1), heavy)
    yield from itertools.repeat(enqueue(1, 0, payload=b"", priority=2), light)
    yield commit(1)
    yield from told_between(3 + heavy + light, range(2, 2 + light), taking_unit, none_told)


def in_vain(n: int) -> Records:
    """Heavy elements, and 512 checkpoints that tell of none; between two, as many take from an empty queue."""
    heavy, queues = n // 1024, [b"jobs", b"none"]
    yield from map(define, queues)
    yield from unit_of(1, itertools.repeat(enqueue(1, 0, payload=HEAVY), heavy))
    yield from told_between(4 + heavy, range(2, 514), lambda unit: unit_of(unit, [dequeue(unit, 1)] * heavy),
                            lambda place, unit: spelled((place, unit, unit, 0), queues, []))


def come_and_go(n: int) -> Records:
    """Heavy elements, and 512 checkpoints that tell of none; between two, half as many light ones come and go."""
    heavy, light, queues = n // 1024, n // 2048, [b"jobs", b"light"]

    def coming_and_going(unit: int) -> Records:
        yield from unit_of(unit, [enqueue(unit, 1, payload=b"")] * light)
        yield from unit_of(unit + 1, [dequeue(unit + 1, 1)] * light)

    yield from map(define, queues)
    yield from unit_of(1, itertools.repeat(enqueue(1, 0, payload=HEAVY), heavy))
    yield from told_between(4 + heavy, range(2, 1026, 2), coming_and_going,
                            lambda place, unit: spelled((place, unit + 1, unit + 1, 0), queues, []))


def without_payloads(n: int) -> Records:
    """Heavy elements, and 256 checkpoints that tell of all of them but leave out the payloads."""
    heavy = n // 1024
    yield define(b"jobs")
    yield from unit_of(1, itertools.repeat(enqueue(1, 0, payload=HEAVY), heavy))
    elements = [(2 + at, b"") for at in range(heavy)]
    yield from (checkpoint(spelled((3 + heavy + at, 1, 1, 0), [b"jobs"], elements)) for at in range(256))


def element_missing(n: int) -> Records:
    """4,096 queues, and n / 4,096 checkpoints that spell them and then tell of one element, which they do not have."""
    names = [b"q%d" % queue for queue in range(4096)]
    yield from map(define, names)
    for at in range(n // 4096):
        yield checkpoint(spelled((4096 + at, 0, 0, 0), names, [])[:-8] + struct.pack(">II", 1, 0))


def other_elements(n: int) -> Records:
    """Many elements, and 40 checkpoints that tell of as many with the same numbers and another priority."""
    elements = [(2 + at, b"") for at in range(n // 32)]
    yield from filled(n // 32)
    for at in range(40):
        yield checkpoint(spelled((3 + n // 32 + at, 1, 1, 0), [b"jobs"], elements, priority=9))


def along_chain(n: int, told: Callable[[int, int], bytes]) -> Records:
    """4,096 queues in a chain, and n / 8,192 checkpoints with 500 units of no operation before each."""
    yield from (define(*it) for it in CHAIN)
    yield from told_between(4096, range(500, 500 + 500 * (n // 8192), 500),
                            lambda last: itertools.chain.from_iterable(map(empty_unit, range(last - 499, last + 1))), told)


def chain_numbered(n: int) -> Records:
    """A chain of error queues, and checkpoints that have their own number right and nothing else."""
    return along_chain(n, lambda place, last: numbered(place))


def chain_told(n: int) -> Records:
    """The same with checkpoints that are true."""
    definitions = [definition(*it) for it in CHAIN]
    return along_chain(n, lambda place, last: state((place, last, last, 0), definitions))


def short_names(count: int) -> list[bytes]:
    """So many names of three letters, rising."""
    return sorted(name_of(number, 3) for number in range(count))


def many_registered(n: int, names: list[bytes], told: Callable[[int, int], bytes]) -> Records:
    """Registrants, and n / 2,048 checkpoints. The first one registers again before each,
    82 times."""
    yield define(b"jobs")
    yield from (register(0, name) for name in names)
    yield from told_between(1 + len(names), range(n // 2048), lambda _: [register(0, names[0])] * 82, told)


def registrants_numbered(n: int) -> Records:
    """8,000 registrants, and checkpoints that have their own number right, and as many bytes as the shortest names would take."""
    return many_registered(n, short_names(8000), lambda place, _: numbered(place, 48000))


def registrants_begun(n: int) -> Records:
    """8,000 registrants, and checkpoints that have all counts right, and zeros for everything else: as many bytes as the shortest
    names would take."""
    return many_registered(n, short_names(8000), lambda place, _: struct.pack(">QQQQI", place, 0, 0, 0, 1) + bytes(48060))


def registrants_told(n: int) -> Records:
    """8,000 registrants, and checkpoints that are true."""
    names = short_names(8000)
    members = [newcomer(0, name) for name in names]
    return many_registered(n, names, lambda place, _: state((place, 0, 0, 0), [definition(b"jobs")], (), members))


def each_registered(n: int, between: list[bytes]) -> Records:
    """4,000 queues with a registrant each, and n / 2,048 true checkpoints with these records before each, which change nothing."""
    names = short_names(4000)
    definitions, members = list(map(definition, names)), [newcomer(queue, b"ann") for queue in range(4000)]
    yield from map(define, names)
    yield from (register(queue, b"ann") for queue in range(4000))
    yield from told_between(8000, range(n // 2048), lambda _: between,
                            lambda place, _: state((place, 0, 0, 0), definitions, (), members))


def queues_and_registrants_told(n: int) -> Records:
    """Registrants who register again."""
    return each_registered(n, [register(queue, b"ann") for queue in range(162)])


def told_and_nothing_killed(n: int) -> Records:
    """KILLs of what is not there."""
    return each_registered(n, [kill(queue, 0) for queue in range(162)])


def another_comes(n: int) -> Records:
    """4,000 registrants, and n / 8,192 checkpoints that have their own number right; before each, another comes and goes 400 times."""
    yield define(b"jobs")
    yield from (register(0, name) for name in short_names(4000))
    yield from told_between(4001, range(n // 8192), lambda _: [register(0, b"another"), deregister(0, b"another")] * 400,
                            lambda place, _: numbered(place))


def folded(state: int, number: int, size: int) -> int:
    """The hasher's state behind a number of 1, 4 or 8 bytes."""
    product = (state ^ number * COPIES[size]) * (FACTOR ^ 2 * size)
    return product % 2**64 ^ product >> 64


def groups_of(count: int) -> int:
    """How many groups a table has that grew to so many entries."""
    return 1 << ((count - 1) // GROUP_LOAD).bit_length()


def units_from_one_group(groups: int) -> Iterator[int]:
    """Units for which the search begins at one group of so many, and of each lower number of groups.

    Modulo 2^64 + 1, a product of 128 bits is its low half less its high one. So that difference, divided by the factor,
    is what to multiply. If it has zeros for the low bits of both its halves, the product's halves mostly agree in
    these bits, and xor makes zeros of them.
    """
    inverse = pow(FACTOR ^ 16, -1, 2**64 + 1)
    for low, high in itertools.product(range(5 * math.isqrt(groups)), repeat=2):
        unit = HASHER ^ (high << 32 | low) * groups * inverse % (2**64 + 1)
        last = folded(HASHER, unit, 8)
        if (last ^ last >> 32) % groups == 0:
            yield unit


def names_side_by_side(groups: int) -> Iterator[bytes]:
    """Names in queue 0 for which the search begins within the same thirty-second of so many groups.

    One name of 32 is such a name. That part is soon full, so that a search takes nearly as long as from one group.
    """
    numbers = [(letter, letter * COPIES[1]) for letter in LETTERS]
    queue_and_length = folded(folded(HASHER, 0, 4), 6, 8)
    factor, elsewhere = FACTOR ^ 2, groups - max(1, groups // 32)
    for front in itertools.product(LETTERS, repeat=5):
        state = functools.reduce(lambda state, letter: folded(state, letter, 1), front, queue_and_length)
        for letter, number in numbers:
            product = (state ^ number) * factor
            product ^= product >> 64
            if (product ^ product >> 32) & elsewhere == 0:
                yield bytes([*front, letter])


def colliding_units(n: int) -> Records:
    """Open units, each of which a table without a secret seeks among all before it: all enqueue, and half commit."""
    count = n // 3
    units = sorted(itertools.islice(units_from_one_group(groups_of(count)), count))
    yield define(b"jobs")
    yield from map(begin, units)
    yield from (enqueue(unit, 0) for unit in units)
    yield from map(commit, units[::2])


def registered_and_active(names: list[bytes]) -> Records:
    """Registrants: all come, then each enqueues in a unit of its own."""
    yield define(b"jobs")
    yield from (register(0, name) for name in names)
    for unit, name in enumerate(names, 1):
        yield from unit_of(unit, [enqueue(unit, 0, name, 1)])


def colliding_registrants(n: int) -> Records:
    """Registrants, each of whom a table without a secret seeks among nearly all who came before."""
    count = n // 4
    yield from registered_and_active(list(itertools.islice(names_side_by_side(groups_of(count)), count)))


def long_names(n: int) -> Records:
    """Registrants whose names have 64 bytes, the last of which alone differ: each look compares many long names."""
    yield from registered_and_active([b"n" * 56 + b"%08d" % number for number in range(n // 4)])


FALSE = [false_checkpoints, junk_checkpoints, empty_checkpoints, counting_checkpoints, one_told, wide_checkpoints, units_told]
FALSE += [many_told, own_number, held_by_one, units_between, empty_units_between, others_deregister, registrants]
FALSE += [no_unit_told, heavy_below_light, in_vain, come_and_go, without_payloads, element_missing, other_elements]
FALSE += [chain_numbered, registrants_numbered, registrants_begun, another_comes]
TRUE = [true_checkpoints, queues_told, true_and_small]
# Of which an audit is held to a rate.
RATED = [registrants_told, queues_and_registrants_told, told_and_nothing_killed]
LONG_AND_TRUE = [chain_told, *RATED]
# Without a checkpoint: an audit has the maps of its judge and of the queues beside the records.
WITHOUT = [colliding_units, colliding_registrants, long_names]
# Chains of error queues, and KILLs.
AUDITED_IN_VERSION_TWO = [chain_numbered, chain_told, told_and_nothing_killed]
