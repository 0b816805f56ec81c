#!/usr/bin/env python3
"""book_cases.py [SEED [LISTS]]: writes the lists that crates/book_cases replays, and what it must print (defaults: seed 1, 2,200 lists).

The first list is document 01's worked session; each other one is a start and random steps. tools/ledger.py gives each expected answer and, at the list's end, the whole book. One list in four
has its book altered on the way, as no step would, and goes on: 28, or whatever documents 01 and 02 say of that book.

A record: kind, a, b, t, the body's length (16 bits), the body; for a start (kind 0) and a step (1 to 6) then the expected number and
detail, and behind 15 both amounts (16 bytes each, little-endian). Kind 16 alters field a of record b to t. Kind 17 ends a list: its body is
the expected book: the open places (16 bits), the transfers under way (8 bits), each open place's subject (33 bytes: 32 and the length),
balance and reserved amount, each transfer's ends and amount. Kind 18 is the list before it once more, through the run: its body is the list as a session, t the
number of steps; behind it the length (16 bits) of what is expected: each step's number and detail, then the book as kind 17 has it. A list
that is no good session has none: its start was refused, its book was altered, or its bytes are no session.
"""
import collections, os, random, struct, sys
from ledger import *
from random_steps import a_step

seed, lists = int(sys.argv[1]) if len(sys.argv) > 1 else 1, int(sys.argv[2]) if len(sys.argv) > 2 else 2200
rng = random.Random(seed)
CRATE = os.path.join(os.path.dirname(os.path.abspath(__file__)), "..", "crates", "book_cases")
ALTER, LOOK, RUN = 16, 17, 18  # kinds of records that are no steps; those below are left to steps
def start_unit():
    return rng.choice([b"rd"] * 60 + [b"", b"u" * 32, b"u" * 33])


def alter(book):
    """Sets one field of the book to a byte, as crates/book_cases does."""
    a, b, t = rng.randrange(1, 14), rng.randrange(8), rng.choice([0, 1, 2, 3, 16, 32, 33, 128, 255])
    x, r = book.places[b], book.transfers[b]
    if a == 1:
        book.unit.length = t
    elif a == 2:
        book.opened = {p for p in book.opened if p > 7} | {p for p in range(8) if t >> p & 1}
    elif a == 3:
        book.opened = {p for p in book.opened if p < 8} | {p + 8 for p in range(8) if t >> p & 1}
    elif a == 4:
        book.pending = {p for p in range(8) if t >> p & 1}
    elif a == 5:
        x.subject.length = t
    elif a == 6:
        x.scale = t
    elif a == 7:
        x.balance = t << 120
    elif a == 8:
        r.source = t
    elif a == 9:
        r.destination = t
    elif a == 10:
        r.scale = t
    elif a == 11:
        r.amount = t << 120
    elif a == 12:
        x.reserved_scale = t
    else:
        x.reserved = t << 120
    return a, b, t


out, numbers, looks, altered, bad = bytearray(), collections.Counter(), 0, 0, 0
runs, run_answers, left_out = 0, 0, collections.Counter()


def put(kind, a, b, t, body, answer=None):
    global out
    out += struct.pack("<BBBBH", kind, a, b, t, len(body)) + body
    if answer:
        numbers[answer[0]] += 1
        out += bytes(answer[:2])
        if answer[0] == 15:
            out += answer[2].to_bytes(16, "little") + answer[3].to_bytes(16, "little")


def whole(book):
    data = struct.pack("<HB", sum(1 << p for p in book.opened), sum(1 << t for t in book.pending))
    for p in sorted(book.opened):
        x = book.places[p]
        data += x.subject.data + bytes([x.subject.length]) + x.balance.to_bytes(16, "little") + x.reserved.to_bytes(16, "little")
    for t in sorted(book.pending):
        r = book.transfers[t]
        data += bytes([r.source, r.destination]) + r.amount.to_bytes(16, "little")
    return data


def as_entry(kind, a, b, t, body):
    """A step as a session's entry: what its kind does not use is 0, and a finish, a cancel or a close has no body."""
    return {1: (1, a, 0, 0, body), 2: (2, a, b, 0, body), 3: (3, a, b, t, body), 4: (4, 0, 0, t, b""), 5: (5, 0, 0, t, b""),
            6: (6, a, 0, 0, b"")}[kind]


def why_not(entries, was_altered):
    """Why a list is not put through the run; None where it is."""
    if was_altered:
        return "altered"
    if start(entries[0][4])[0][0]:
        return "start refused"
    return None if len(entries) <= MOST_ENTRIES and entries_of(session(entries)) else "no session"


def put_run(entries, answers, book):
    """The list through the run. The model's own run must say what its steps said one by one."""
    global out, runs, run_answers
    data = session(entries)
    run_book, ran = run(data)
    assert ran == answers and whole(run_book) == whole(book)
    expected = b"".join(bytes(answer[:2]) for answer in ran) + whole(run_book)
    put(RUN, 0, 0, len(ran), data)
    out += struct.pack("<H", len(expected)) + expected
    runs, run_answers = runs + 1, run_answers + len(ran)


def worked():
    """Document 01's session."""
    opened = lambda subject, balance: sheet((SUBJECT, 1, subject), (UNIT, 1, b"rd"), (BALANCE, 1, balance))
    five = sheet((AMOUNT, 1, b"5"))
    return [(1, 0, 0, 0, opened(b"N1", b"5")), (1, 1, 0, 0, opened(b"N2", b"0")), (3, 0, 1, 0, five), (3, 1, 0, 1, five), (4, 0, 0, 0, b"")]


for n in range(lists):
    unit = start_unit() if n else b"rd"
    answer, book = start(unit)
    put(0, 0, 0, 0, unit, answer)
    state, entries, answers = 0, [(0, 0, 0, 0, unit)], []
    for k in range(rng.randrange(4, 14) if n else 5):
        if n % 4 == 3 and k > 2 and rng.random() < .5:
            put(ALTER, *alter(book), b"")
            altered += 1
            state = state or 1
        entry = a_step(rng, book, k) if n else worked()[k]
        answer = step(book, *entry)
        put(*entry, answer)
        entries.append(as_entry(*entry))
        answers.append(answer)
        state = 2 if answer[0] == 28 and state == 1 else state
    bad += state == 2
    looks += 1
    put(LOOK, 0, 0, 0, whole(book))
    reason = why_not(entries, state)
    if reason:
        left_out[reason] += 1
    else:
        put_run(entries, answers, book)

with open(os.path.join(CRATE, "stdin"), "wb") as f:
    f.write(out)
with open(os.path.join(CRATE, "stdout"), "w") as f:
    for number in range(32):
        if numbers[number]:
            f.write("number %d: %d equal, 0 unequal\n" % (number, numbers[number]))
    f.write("books at a list's end: %d equal, 0 unequal\nalterations: %d\naltered books that met 28: %d\n" % (looks, altered, bad))
    f.write("lists through the run: %d equal, 0 unequal\nanswers in them: %d\nbytes %d, left over 0\n" % (runs, run_answers, len(out)))
print(dict(sorted(numbers.items())), "lists", lists, "alterations", altered, "altered books that met 28", bad, "through the run", runs,
      "answers in them", run_answers, "left out", dict(left_out), "bytes", len(out))
