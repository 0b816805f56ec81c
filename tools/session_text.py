"""A session as a text that people can write: to_bytes and to_text, for tools/session and the tools that show steps. docs/SESSION.md has
the format."""
import re
from layout import *

FORMS = {  # what to write, for messages
    "unit": "unit TEXT, as: unit rd",
    "open": "open PLACE FIELD.., as: open 0 subject=N1 unit=rd balance=5",
    "act": "act PLACE OPERATION FIELD.., as: act 0 spend amount=3",
    "begin": "begin FROM TO TRANSFER FIELD.., as: begin 0 1 0 amount=5",
    "finish": "finish TRANSFER, as: finish 0",
    "cancel": "cancel TRANSFER, as: cancel 0",
    "close": "close PLACE, as: close 0",
    "bytes": "bytes HEX, as: bytes 0100ff",
}
STEPS = {"open": (OPEN, ("the place",)), "act": (ACT, ("the place", "the operation")),
         "begin": (BEGIN, ("the source", "the destination", "the transfer")), "finish": (FINISH, ("the transfer",)), "cancel": (CANCEL, ("the transfer",)),
         "close": (CLOSE, ("the place",))}
QUOTED = r'"(?:[^"\\]|\\["\\]|\\x[0-9a-fA-F]{2})*"'
SPACE = re.compile(r"[ \t]*")
WORD = re.compile(r'(?:[^ \t"]|%s)+' % QUOTED)
CURLY = "\u201c\u201d\u201e\u201f"  # what word processors make of quotes: a mistake outside plain ones
ESCAPE = re.compile(r'\\(x[0-9a-fA-F]{2}|["\\])')


class Wrong(Exception):
    """What is wrong with a text, and what to write."""


# ---- text to bytes

def decoded(data):
    """The text that the bytes are, without a byte order mark."""
    if data.startswith((b"\xff\xfe", b"\xfe\xff")):
        raise Wrong("line 1: this is UTF-16; save the text as UTF-8")
    if b"\0" in data[:2]:  # a session's count has a byte 0
        raise Wrong("line 1: this is no text; is it a session? to-text makes a text of it")
    try:
        return data.decode("utf-8-sig")
    except UnicodeDecodeError as e:
        line = data.count(b"\n", 0, e.start) + 1
        raise Wrong("line %d: byte %02x is not UTF-8; save the text as UTF-8, or write the byte as \\x%02x in quotes" % (line, data[e.start], data[e.start]))


def words_of(line):
    """The words of a line, up to a comment: a word that starts with #."""
    found, at = [], 0
    while True:
        at = SPACE.match(line, at).end()
        if at == len(line) or line[at] == "#":
            return found
        word = WORD.match(line, at)
        if not word or word.end() < len(line) and line[word.end()] not in " \t":
            raise Wrong("from column %d: a quote that does not end, or a backslash with something else behind it than \\, \" or xNN; "
                        "write \\\\ for a backslash, \\\" for a quote" % ((word.end() if word else at) + 1))
        for k, c in enumerate(re.sub(QUOTED, lambda m: "x" * len(m[0]), word[0])):
            if c in CURLY:
                raise Wrong("column %d: %s is no quote here; write plain quotes, \"" % (at + k + 1, c))
            if not c.isprintable():
                raise Wrong("column %d: the character U+%04X is not seen outside quotes; write a plain space, or put the value in quotes"
                            % (at + k + 1, ord(c)))
        found.append(word[0])
        at = word.end()


def value(word, what):
    """The bytes of a text: a word, or what stands in quotes."""
    if word.startswith('"'):
        if not re.fullmatch(QUOTED, word):
            raise Wrong("%s: something stands behind the closing quote; put a space there, or the whole text in quotes" % what)
        parts = ESCAPE.split(word[1:-1])  # text, escape, text ..
        return b"".join(part.encode() if k % 2 == 0 or len(part) == 1 else bytes([int(part[1:], 16)]) for k, part in enumerate(parts))
    for mark, called in (('"', "quote"), ("\\", "backslash")):
        if mark in word:
            raise Wrong('%s: a %s inside a word; put the whole text in quotes, as "a \\%s b"' % (what, called, mark))
    return word.encode()


def hexed(word, what):
    if len(word) % 2 or not re.fullmatch("[0-9a-fA-F]*", word):
        raise Wrong("%s: `%s` is not an even number of hexadecimal digits; write two for each byte, as 00ff" % (what, word[:40]))
    return bytes.fromhex(word)


def number(word, what, form):
    if not re.fullmatch("[0-9]{1,9}", word) or int(word) > 255:
        raise Wrong("%s must be a number from 0 to 255, not `%s`; write %s" % (what, word, form))
    return int(word)


def operation(word, form):
    if word in OPERATIONS:
        return OPERATIONS[word]
    if not re.fullmatch("[0-9]+", word):
        raise Wrong("`%s` is no operation; write %s, or a number from 0 to 255" % (word, ", ".join(OPERATIONS)))
    return number(word, "the operation", form)


def fields(words):
    """The body that the words of a step say."""
    if any(word.startswith("raw=") for word in words):
        if len(words) > 1:
            raise Wrong("raw= is the whole body; write it alone, without fields")
        return hexed(words[0][4:], "raw")
    found = {}
    for k, word in enumerate(words):
        name, sign, rest = word.partition("=")
        behind = words[k + 1] if k + 1 < len(words) else ""
        if sign and not name or not sign and name in NAMES and behind.startswith("=") or sign and name in NAMES and not rest:
            name = name or "NAME"
            raise Wrong("no spaces around =; write %s=VALUE, or %s=\"\" for an empty text" % (name, name))
        if not sign or name not in NAMES:
            raise Wrong("`%s` is no field; write NAME=VALUE with a NAME of %s; a value with spaces stands in quotes" % (word, ", ".join(NAMES)))
        if name in found:
            raise Wrong("the field %s stands twice; write it once" % name)
        body = b"" if rest == "!" else value(rest, name)
        if len(body) > MOST_TEXT:
            raise Wrong("%s has %d bytes; write %d at most" % (name, len(body), MOST_TEXT))
        found[name] = (NO_STRING if rest == "!" else TEXT, body)
    return sheet(*((n, *found[name]) for n, name in enumerate(NAMES, 1) if name in found))


def entry(words):
    if words[0] not in STEPS:
        raise Wrong("`%s` is no step; write unit, open, act, begin, finish, cancel, close or bytes at the start of the line" % words[0])
    form = FORMS[words[0]]
    kind, wanted = STEPS[words[0]]
    given, rest = words[1:1 + len(wanted)], words[1 + len(wanted):]
    if len(given) < len(wanted):
        raise Wrong("%s is missing; write %s" % (wanted[len(given)], form))
    numbers = [operation(word, form) if what == "the operation" else number(word, what, form) for word, what in zip(given, wanted)]
    if kind in BARE:
        if rest:
            raise Wrong("%s has no field; write %s" % (words[0], form))
        return (kind, numbers[0], 0, 0, b"") if kind == CLOSE else (kind, 0, 0, numbers[0], b"")
    return (kind, *(numbers + [0, 0])[:3], fields(rest))


def start_of(words):
    if words[0] != "unit" or len(words) < 2:
        raise Wrong("the first line is the start; write %s" % FORMS["unit"])
    if len(words) > 2:
        raise Wrong('unit takes one text; write one with spaces in quotes, as: unit "strain readings"')
    if words[1] == "!":
        raise Wrong('the unit is a text; write unit "!" for the text !')
    return START, 0, 0, 0, value(words[1], "unit")


def to_bytes(text):
    entries, raw, size = [], None, 2
    for n, line in enumerate(text.split("\n"), 1):
        try:
            words = words_of(line[:-1] if line.endswith("\r") else line)
            if not words:
                continue
            if words[0] == "bytes":
                if entries:
                    raise Wrong("bytes lines are a whole file; write no other line beside them")
                if len(words) > 2:
                    raise Wrong("bytes takes one word of digits; write no spaces among them")
                raw = (raw or b"") + hexed("".join(words[1:]), "bytes")
                continue
            if raw is not None:
                raise Wrong("bytes lines are a whole file; write no other line beside them")
            if entries and words[0] == "unit":
                raise Wrong("a second unit; a session has one, so write it in the first line alone")
            entries.append(entry(words) if entries else start_of(words))
            size += 8 + len(entries[-1][4])
            if len(entries) > MOST_ENTRIES:
                raise Wrong("a session has at most %d lines, its unit's among them; write the rest as another session" % MOST_ENTRIES)
            if size > MOST_BYTES:
                raise Wrong("up to here the session has %s bytes and the most is %s; write the rest as another session"
                            % (format(size, ","), format(MOST_BYTES, ",")))
        except Wrong as wrong:
            raise Wrong("line %d: %s" % (n, wrong))
    if raw is not None:
        return raw
    if not entries:
        raise Wrong("line 1: the text has no line but comments; write %s" % FORMS["unit"])
    return session(entries)


# ---- bytes to text

def shown(data):
    """A text as it is typed: a word, or in quotes. What is no UTF-8, or is not seen, is \\xNN for each byte."""
    word = data.decode("utf-8", "surrogateescape")
    if word and word != "!" and word.isprintable() and not set(word) & set(' "#\\' + CURLY):
        return word
    return '"%s"' % "".join("\\" + c if c in '"\\' else c if c.isprintable() else
                            "".join("\\x%02x" % b for b in c.encode("utf-8", "surrogateescape")) for c in word)


def fields_shown(body):
    """The words of a sound sheet; raw= for another body."""
    try:
        return ["%s=%s" % (name_of(name), "!" if kind == NO_STRING else shown(text)) for name, kind, text in read_sheet(body)]
    except Fault:
        return ["raw=" + body.hex()]


def line_of(kind, a, b, t, body):
    """The line of a sound session's entry."""
    if kind == START:
        return "unit " + shown(body)
    if kind in BARE:
        return "%s %d" % (KINDS[kind], a if kind == CLOSE else t)
    words = {number: word for word, number in OPERATIONS.items()}
    head = {OPEN: ["open", a], ACT: ["act", a, words.get(b, b)], BEGIN: ["begin", a, b, t]}[kind]
    return " ".join([str(x) for x in head] + fields_shown(body))


def looks_like_text(data):
    """Whether the bytes are a session's text that was not made into a session."""
    lines = data.decode("utf-8-sig", "replace").split("\n")
    first = next((line.split()[0] for line in lines if line.split() and not line.lstrip().startswith("#")), None)
    return first in FORMS and b"\0" not in data[:2]  # a session's count has a byte 0


def to_text(data):
    try:
        lines = [line_of(*x) for x in read_session(data)]
    except Fault as fault:
        lines = ["# no session: %s" % fault]
        if looks_like_text(data):
            lines.append("# is it a text? to-bytes makes a session of it")
        lines += ["bytes " + data[i:i + 32].hex() if data else "bytes" for i in range(0, len(data) or 1, 32)]
    return "".join(line + "\n" for line in lines)
