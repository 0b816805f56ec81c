"""Random steps and sessions for tests: mostly steps that a book could take, now and then odd ones of every kind."""
from layout import *
from ledger import LIMIT, start, step

SUBJECTS = [b"N1", b"N2", b"pier 7", b"\xff\x00", b"x" * 32]
BIG = str(LIMIT - 1).encode()


def amount_text(rng):
    return rng.choice([b"0", b"1", b"2", b"3", b"5", b"8", b"13", b"21", b"007", BIG, str(LIMIT // 2).encode(), str(rng.randrange(1 << 64)).encode(),
                       str(LIMIT).encode(), b"", b"1.5", b"1e3", b"2E1", b"-1", b"9" * 40, b"0" * 38 + b"1"] if rng.random() < .3
                      else [b"1", b"2", b"3", b"5", b"8"])


def field(rng, name, text, odd=.04):
    """A field that is a text, or now and then none, no string, or empty."""
    r = rng.random()
    return () if r < odd else ((name, 2, b""),) if r < 2 * odd else ((name, 1, b""),) if r < 3 * odd else ((name, 1, text),)


def torn(rng, data):
    if rng.random() < .95:
        return data
    data = bytearray(data)
    how = rng.randrange(4)
    if how == 0 and data:
        data[rng.randrange(len(data))] ^= 1 << rng.randrange(8)
    elif how == 1:
        data += b"\0"
    elif how == 2:
        data = data[:-1]
    else:
        data = bytearray()
    return bytes(data)


def of_held(rng, book, place):
    """An amount; now and then all that the place holds, so that places are emptied."""
    return b"%d" % book.places[place].balance if place in book.opened and rng.random() < .25 else amount_text(rng)


def out_of(rng, held):
    """An amount to reserve or to release: all that is held, a part of it, or one more; now and then any."""
    r = rng.random()
    if not held or r < .25:
        return amount_text(rng)
    return b"%d" % (held if r < .6 else rng.randrange(1, held + 1) if r < .85 else held + 1)


def to_the_limit(rng, book):
    """An amount; now and then all that the book has room for, so that it is full, or one more."""
    return b"%d" % (LIMIT - rng.randrange(2) - book.total()) if rng.random() < .12 else amount_text(rng)


def some(rng, most, odd=.05):
    return rng.randrange(256) if rng.random() < odd else rng.randrange(most)


def an_act(rng, book, place):
    """An act: often a reserve of what a place holds, or a release where something is reserved."""
    reserving = {p: book.places[p].reserved for p in sorted(book.opened) if book.places[p].reserved}
    holding = {p: book.places[p].balance for p in sorted(book.opened) if book.places[p].balance}
    operation = 17 if rng.random() < (.5 if reserving else .07) else rng.choice([12, 13, 14, 18, 19] * 3 + [16] * 5 + [11, 15, 20, 0, 255])
    held = {16: holding, 17: reserving}.get(operation)
    at = rng.choice(list(held)) if held and rng.random() < .9 else place()
    if operation in (16, 17):
        amount = out_of(rng, held.get(at))
    else:
        amount = to_the_limit(rng, book) if operation in (12, 13) else of_held(rng, book, at)
    return 2, at, operation, 0, torn(rng, sheet(*field(rng, AMOUNT, amount), *field(rng, AUTHORIZED_BY, b"boss", .1)))


def a_step(rng, book, k):
    """Opens first; then any step, mostly one that the book could take."""
    kind = 1 if k < 3 and rng.random() < .9 else rng.choice([1, 1, 2, 2, 2, 2, 3, 3, 3, 3, 3, 3, 4, 4, 5, 5, 6, 6, 6])
    if any(book.places[p].reserved for p in book.opened) and rng.random() < .15:
        kind = 2  # so that what is reserved comes back
    if kind in ENDS and not book.pending and rng.random() < .7:
        kind = 3  # so that there is something to finish or cancel
    if kind == 3 and len(book.opened) < 2 and rng.random() < .7:
        kind = 1  # so that there is somewhere to begin
    here = sorted(book.opened) or [0]
    place = lambda: rng.choice(here) if rng.random() < .85 else some(rng, 6)
    if kind == 1:
        unit = rng.choice([b"rd"] * 24 + [b"re", b"r", b"rd" * 20])
        subject = rng.choice(SUBJECTS * 4 + [b"y" * 33])
        balance = b"0" if rng.random() < .15 else amount_text(rng) if k < 2 else to_the_limit(rng, book)
        shut = [p for p in range(6) if p not in book.opened]
        at = k if k < 3 else shut[0] if shut and rng.random() < .6 else some(rng, 6)  # often one that was closed
        return 1, at, 0, 0, torn(rng, sheet(*field(rng, SUBJECT, subject, .02), *field(rng, UNIT, unit, .02), *field(rng, BALANCE, balance, .02)))
    if kind == 2:
        return an_act(rng, book, place)
    if kind == 3:
        other = field(rng, TO_SUBJECT, b"Z") if rng.random() < .2 else ()
        source = place()
        there = [p for p in here if p != source]
        destination = rng.choice(there) if there and rng.random() < .8 else place()
        return 3, source, destination, some(rng, 4, .04), torn(rng, sheet(*field(rng, AMOUNT, of_held(rng, book, source)), *other))
    if kind == CLOSE:
        empty = [p for p in sorted(book.opened) if not book.places[p].balance]
        empty += 2 * [p for p in empty if not book.places[p].reserved]
        return 6, rng.choice(empty) if empty and rng.random() < .8 else place(), 0, 0, b""
    return kind, 0, 0, rng.choice(sorted(book.pending)) if book.pending and rng.random() < .7 else some(rng, 4, .04), b""


def a_session(rng):
    """The entries of a session; steps go by the book that they lead to."""
    unit = rng.choice([b"rd"] * 40 + [b"", b"u" * 32, b"u" * 33])
    _, book = start(unit)
    entries = [(0, 0, 0, 0, unit)]
    r = rng.random()
    for k in range(rng.randrange(0, 12) if r < .96 else rng.randrange(10, 60) if r < .99 else rng.randrange(200, 262)):
        entry = a_step(rng, book, k)
        step(book, *entry)
        entries.append(entry)
    return entries


def damaged(rng, entries):
    """The bytes of the session with one thing wrong, often."""
    how = rng.randrange(9)
    k = rng.randrange(len(entries))
    kind, a, b, t, body = entries[k]
    if how == 0:
        entries[k] = (rng.choice([0, 1, 2, 3, 4, 5, 6, 7, 10, 255]), a, b, t, body)
    elif how == 1:
        entries[k] = (kind, *[x if rng.random() < .6 else rng.randrange(256) for x in (a, b, t)], body)
    elif how == 2:
        entries[k] = (kind, a, b, t, body + bytes(rng.randrange(1, 4)))
    elif how == 3:
        entries.append((1, 0, 0, 0, bytes(rng.choice([16000, 16384, 17000]) - rng.randrange(400))))
    data = bytearray(session(entries))
    if how == 4:
        data[rng.randrange(len(data))] ^= 1 << rng.randrange(8)
    elif how == 5:
        data = data[:rng.randrange(len(data) + 1)]
    elif how == 6:
        data += bytes(rng.randrange(1, 9))
    elif how == 7:
        data[rng.randrange(min(len(data), 2 + 8 * len(entries)))] = rng.randrange(256)
    elif how == 8:
        data = bytearray(rng.randbytes(rng.randrange(40)))
    return bytes(data)
