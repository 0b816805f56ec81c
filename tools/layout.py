"""The byte layout of sheets and sessions, for all tools and tests in Python: names and numbers, writing, reading, and what is wrong.

Written from documents 01 and 02. Others have the layout once more, on purpose, so that a mistake here is seen: the proved code (crates/sheet,
crates/session), the C test of every entry (tests/entries*.c), tools/sheet_cases.py, and the bytes written out in tools/session-test.
"""
import struct

NAMES = ("subject", "unit", "quantity", "balance", "remaining", "maximum", "amount", "to_subject", "to_unit", "authorized_by")
SUBJECT, UNIT, QUANTITY, BALANCE, REMAINING, MAXIMUM, AMOUNT, TO_SUBJECT, TO_UNIT, AUTHORIZED_BY = range(1, 11)
TEXT, NO_STRING = 1, 2  # kinds of an input sheet's fields
MOST_TEXT = 256

START, OPEN, ACT, BEGIN, FINISH, CANCEL, CLOSE = range(7)  # kinds of a session's entries
KINDS = ("start", "open", "act", "begin", "finish", "cancel", "close")
ENDS = (FINISH, CANCEL)  # of these an entry has a transfer, t, and nothing else
BARE = (*ENDS, CLOSE)  # of these it has one number, t or a close's a, and no body
OPERATIONS = {"mint": 12, "credit": 13, "debit": 14, "reserve": 16, "release": 17, "spend": 18, "burn": 19}  # those of act
MOST_BYTES, MOST_ENTRIES = 16384, 256
MOST_NAME = 32  # bytes of a unit or a subject


class Fault(Exception):
    """What is wrong with bytes that are no sheet or no session."""


def name_of(number):
    """A field's name in words."""
    return NAMES[number - 1] if 1 <= number <= len(NAMES) else "name %d" % number


def count_of(number, thing):
    return "%s %s%s" % (format(number, ","), thing, "" if number == 1 else "s")


# ---- sheets

def sheet(*fields):
    """The bytes of an input sheet of (name, kind, body); the caller sees to names that rise."""
    table, bodies, at = b"", b"", 1 + 6 * len(fields)
    for name, kind, body in fields:
        table += struct.pack("<BBHH", name, kind, at, len(body))
        bodies, at = bodies + body, at + len(body)
    return bytes([len(fields)]) + table + bodies


def read_sheet(data):
    """The fields of a sound input sheet as [(name, kind, body)]; a Fault for a torn one."""
    if not data:
        raise Fault("it has no bytes; a sheet without fields is the byte 0")
    at, last, fields = 1 + 6 * data[0], 0, []
    if at > len(data):
        raise Fault("its count says %s, which take %s, and it has %d" % (count_of(data[0], "field"), count_of(at, "byte"), len(data)))
    for k in range(data[0]):
        name, kind, offset, length = struct.unpack_from("<BBHH", data, 1 + 6 * k)
        if not 1 <= name <= len(NAMES):
            raise Fault("field %d has the name %d; names are 1 to %d" % (k + 1, name, len(NAMES)))
        if name <= last:
            raise Fault("the name of field %d, %s, does not stand behind that of field %d, %s" % (k + 1, name_of(name), k, name_of(last)))
        if kind not in (TEXT, NO_STRING):
            raise Fault("%s has the kind %d; an input's are 1, a text, and 2, no string" % (name_of(name), kind))
        if offset != at:
            raise Fault("%s says that its body is at byte %d, and it must be at %d" % (name_of(name), offset, at))
        if kind == TEXT and length > MOST_TEXT:
            raise Fault("%s has %d bytes; the most is %d" % (name_of(name), length, MOST_TEXT))
        if kind == NO_STRING and length:
            raise Fault("%s is no string, and has a body of %s" % (name_of(name), count_of(length, "byte")))
        fields.append((name, kind, data[offset:offset + length]))
        at, last = at + length, name
    if at != len(data):
        raise Fault("its fields end at byte %d, and it has %d" % (at, len(data)))
    return fields


# ---- sessions

def session(entries):
    """The bytes of a session of (kind, a, b, t, body)."""
    table, bodies, at = b"", b"", 2 + 8 * len(entries)
    for kind, a, b, t, body in entries:
        table += struct.pack("<BBBBHH", kind, a, b, t, at & 0xFFFF, len(body))
        bodies, at = bodies + body, at + len(body)
    return struct.pack("<H", len(entries)) + table + bodies


def read_session(data):
    """The entries of a session as [(kind, a, b, t, body)]; a Fault for a broken layout. A start that is refused is no matter of layout."""
    if not data:
        raise Fault("it has no bytes")
    if len(data) > MOST_BYTES:
        raise Fault("it has more than %s bytes" % format(MOST_BYTES, ","))
    if len(data) < 2:
        raise Fault("it has one byte; the count alone takes two")
    (count,) = struct.unpack_from("<H", data)
    at, entries = 2 + 8 * count, []
    if not 1 <= count <= MOST_ENTRIES:
        raise Fault("its count of entries is %s; it is 1 to %d" % (format(count, ","), MOST_ENTRIES))
    if at > len(data):
        raise Fault("its count says %s, which take %s, and it has %s" %
                    ("1 entry" if count == 1 else "%d entries" % count, count_of(at, "byte"), format(len(data), ",")))
    for k in range(count):
        kind, a, b, t, offset, length = struct.unpack_from("<BBBBHH", data, 2 + 8 * k)
        wrong = wrong_entry(k, kind, a, b, t, length)
        if not wrong and offset != at:
            wrong = "it says that its body is at byte %d, and it must be at %d, where %s" % (
                offset, at, "the one before ends" if k else "the table ends")
        if not wrong and at + length > len(data):
            wrong = "its body of %s would end at byte %d, and the file ends at %d" % (count_of(length, "byte"), at + length, len(data))
        if wrong:
            raise Fault("%s: %s" % (entry_of(k, kind), wrong))
        entries.append((kind, a, b, t, data[offset:offset + length]))
        at += length
    if at != len(data):
        raise Fault("behind its last body %s" % ("stands a byte more" if at + 1 == len(data) else "stand %d bytes more" % (len(data) - at)))
    return entries


def wrong_entry(k, kind, a, b, t, length):
    """What is wrong with an entry's fields, its offset aside; None where nothing is."""
    if k == 0 and kind != START:
        return "its kind is %d; the first entry is a start, kind 0" % kind
    if k and kind == START:
        return "a second start"
    if kind >= len(KINDS):
        return "its kind is %d; kinds are 0 to %d" % (kind, len(KINDS) - 1)
    unused = {START: "abt", OPEN: "bt", ACT: "t", BEGIN: "", FINISH: "ab", CANCEL: "ab", CLOSE: "bt"}[kind]
    for field, value in zip("abt", (a, b, t)):
        if field in unused and value:
            return "its field %s is %d; this kind does not use it, so it must be 0" % (field, value)
    if kind in BARE and length:
        return "it has a body of %s; a %s has none" % (count_of(length, "byte"), KINDS[kind])
    return None


def entry_of(k, kind):
    """An entry in words: the step that it is, as the listing counts."""
    return "entry %d%s%s" % (k + 1, " (step %d)" % k if k else "", ", " + KINDS[kind] if kind < len(KINDS) else "")
