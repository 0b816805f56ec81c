"""The book, sessions and listing of documents 01 and 02 in Python, written from the documents: what the tests hold the library to.

A step answers (number, detail, available, requested); the last two are whole credits, 0 outside 15. The bytes of sheets and sessions are
tools/layout.py's.
"""
from layout import *

LIMIT = 1 << 128


class Refused(Exception):
    def __init__(self, number, detail=0, available=0, requested=0):
        self.answer = (number, detail, available, requested)


# ---- sheets

def input_sheet(data):
    """The fields of a sound input sheet as {name: body, None for no string}; 2 for a torn one."""
    try:
        return {name: body if kind == TEXT else None for name, kind, body in read_sheet(data)}
    except Fault:
        raise Refused(2)


def text_in(fields, name):
    if name not in fields:
        raise Refused(7, name)
    if fields[name] is None:
        raise Refused(8, name)
    if not fields[name]:
        raise Refused(9, name)
    return fields[name]


def amount_in(fields, name):
    if name not in fields:
        raise Refused(7, name)
    text = fields[name]
    if text is None:
        raise Refused(10, name)
    if any(mark in text for mark in b".eE"):
        raise Refused(11, name)
    if not 1 <= len(text) <= 39 or not all(48 <= c <= 57 for c in text) or int(text) >= LIMIT:
        raise Refused(10, name)
    return int(text)


# ---- the book

class Name:
    """32 bytes and a length: an altered book's may be any."""

    def __init__(self, text=b""):
        self.data, self.length = text.ljust(32, b"\0"), len(text)

    def text(self):
        return self.data[:self.length]

    def is_bad(self):
        return not 1 <= self.length <= 32


class Place:
    def __init__(self, subject=b"", balance=0):
        self.subject, self.balance, self.scale = Name(subject), balance, 0
        self.reserved = self.reserved_scale = 0


class Transfer:
    def __init__(self):
        self.source = self.destination = self.amount = self.scale = 0


class Book:
    """Every record, in use or not, so that altered books can be judged too."""

    def __init__(self, unit=b""):
        self.unit = Name(unit)
        self.opened, self.pending = set(), set()
        self.places = [Place() for _ in range(16)]
        self.transfers = [Transfer() for _ in range(8)]

    def total(self):
        return (sum(self.places[p].balance + self.places[p].reserved for p in self.opened)
                + sum(self.transfers[t].amount for t in self.pending))

    def is_bad(self):
        return (self.total() >= LIMIT or self.unit.is_bad()
                or any(self.places[p].subject.is_bad() for p in self.opened)
                or any(x.scale or x.reserved_scale for x in self.places) or any(x.scale for x in self.transfers)
                or any(end not in self.opened for t in self.pending
                       for end in (self.transfers[t].source, self.transfers[t].destination)))


def start(unit):
    """The answer, and the book: of zeros where the start is refused."""
    if not unit:
        return (9, UNIT, 0, 0), Book()
    if len(unit) > 32:
        return (27, UNIT, 0, 0), Book()
    return (0, 0, 0, 0), Book(unit)


def do_open(book, place, data):
    if place > 15:
        raise Refused(22)
    if place in book.opened:
        raise Refused(5)
    fields = input_sheet(data)
    subject, unit, balance = text_in(fields, SUBJECT), text_in(fields, UNIT), amount_in(fields, BALANCE)
    if unit != book.unit.text():
        raise Refused(26)
    if len(subject) > 32:
        raise Refused(27, SUBJECT)
    if book.total() + balance >= LIMIT:
        raise Refused(25)
    book.opened.add(place)
    book.places[place] = Place(subject, balance)


def asked_for(fields):
    asked = amount_in(fields, AMOUNT)
    if asked == 0:
        raise Refused(14)
    return asked


def taken(held, fields):
    asked = asked_for(fields)
    if asked > held:
        raise Refused(15, 0, held, asked)
    return asked


def do_act(book, place, operation, data):
    if place > 15:
        raise Refused(22)
    if place not in book.opened:
        raise Refused(6)
    fields = input_sheet(data)
    if operation not in (12, 13, 14, 16, 17, 18, 19):
        raise Refused(4)
    x = book.places[place]
    if operation in (12, 19):
        text_in(fields, AUTHORIZED_BY)
    if operation in (12, 13):
        asked = asked_for(fields)
        if book.total() + asked >= LIMIT:
            raise Refused(25)
        x.balance += asked
    elif operation == 17:  # document 02, request 5: what was reserved comes back, and the total stays
        asked = asked_for(fields)
        if asked > x.reserved:
            raise Refused(31)
        x.reserved -= asked
        x.balance += asked
    else:
        asked = taken(x.balance, fields)
        x.balance -= asked
        if operation == 16:
            x.reserved += asked


def do_begin(book, source, destination, transfer, data):
    if source > 15 or destination > 15 or transfer > 7:
        raise Refused(22)
    if source == destination:
        raise Refused(24)
    if transfer in book.pending:
        raise Refused(21)
    if source not in book.opened or destination not in book.opened:
        raise Refused(6)
    fields = input_sheet(data)
    x, r = book.places[source], book.transfers[transfer]
    asked = taken(x.balance, fields)
    x.balance -= asked
    r.source, r.destination, r.amount = source, destination, asked
    book.pending.add(transfer)


def freed(book, transfer):
    """Frees the number of a transfer under way, its record zeros; gives what the record was."""
    if transfer > 7:
        raise Refused(22)
    if transfer not in book.pending:
        raise Refused(23)
    r = book.transfers[transfer]
    book.pending.remove(transfer)
    book.transfers[transfer] = Transfer()
    return r


def do_finish(book, transfer):
    r = freed(book, transfer)
    book.places[r.destination].balance += r.amount


def do_cancel(book, transfer):
    """Document 02, request 1: the credits are back at the source."""
    r = freed(book, transfer)
    book.places[r.source].balance += r.amount


def do_close(book, place):
    """Document 02, request 2: the node leaves, and the place may be opened again."""
    if place > 15:
        raise Refused(22)
    if place not in book.opened:
        raise Refused(6)
    if book.places[place].balance or book.places[place].reserved:
        raise Refused(29)
    if any(place in (book.transfers[t].source, book.transfers[t].destination) for t in book.pending):
        raise Refused(30)
    book.opened.remove(place)
    book.places[place] = Place()


def step(book, kind, a, b, t, body):
    """Does a session's entry on the book; gives the answer."""
    if book.is_bad():
        return (28, 0, 0, 0)
    try:
        if kind == 1:
            do_open(book, a, body)
        elif kind == 2:
            do_act(book, a, b, body)
        elif kind == 3:
            do_begin(book, a, b, t, body)
        elif kind == 4:
            do_finish(book, t)
        elif kind == 5:
            do_cancel(book, t)
        elif kind == 6:
            do_close(book, a)
        else:
            raise ValueError("kind %d is no step" % kind)
    except Refused as refused:
        return refused.answer
    return (0, 0, 0, 0)


# ---- sessions

def entries_of(data):
    """The entries of a session, or None for a broken layout."""
    try:
        return read_session(data)
    except Fault:
        return None


def run(data):
    """The run of a session: its book and its steps' answers; None for a bad one."""
    entries = entries_of(data)
    if entries is None:
        return None
    answer, book = start(entries[0][4])
    if answer[0]:
        return None
    return book, [step(book, *entry) for entry in entries[1:]]


def listed(book, answers):
    """The listing's text of a run."""
    lines = ["%d %d %d" % (k, answer[0], answer[1]) for k, answer in enumerate(answers, 1)]
    lines += ["place %d %d %d" % (p, book.places[p].balance, book.places[p].reserved) for p in sorted(book.opened)]
    lines.append("held %d way %d total %d" % (len(book.opened), len(book.pending), book.total()))
    return "".join(line + "\n" for line in lines).encode()


def listing(data):
    ran = run(data)
    return b"bad session\n" if ran is None else listed(*ran)
