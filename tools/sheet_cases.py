#!/usr/bin/env python3
"""Makes the cases of crates/sheet_cases and the lines that it must print, from document 01's section "Sheets" and
document 02's request 3 alone.

Run it in the repository's root, with no argument:

    python3 tools/sheet_cases.py

It rewrites crates/sheet_cases/stdin and crates/sheet_cases/stdout, the same bytes every time, and prints the counts.
Nothing here is taken from the Rattle code. Where a sheet is torn, document 01 says nothing of lookup; the lines then hold
the project's reading, that a byte past the end is 0 and a part past the end is what is there.
"""
import itertools, os, struct

TEXT, OTHER, AMOUNT = 1, 2, 3
STATES = {
    "stack": [(1, TEXT), (2, TEXT), (3, AMOUNT)],
    "balance": [(1, TEXT), (2, TEXT), (4, AMOUNT)],
    "meter": [(1, TEXT), (5, AMOUNT), (6, AMOUNT)],
}


def raw(rows, bodies):
    """A sheet of these table rows (name, kind, offset, length) and bodies, sound or not."""
    return bytes([len(rows)]) + b"".join(struct.pack("<BBHH", *row) for row in rows) + b"".join(bodies)


def sheet(fields):
    """The sheet of these fields (name, kind, body), laid out as document 01 says."""
    at, rows = 1 + 6 * len(fields), []
    for name, kind, body in fields:
        rows.append((name, kind, at, len(body)))
        at += len(body)
    return raw(rows, [body for _, _, body in fields])


def amount(mantissa, scale):
    return mantissa.to_bytes(16, "little") + bytes([scale])


def length_ok(kind, n):
    return {TEXT: n <= 256, OTHER: n == 0, AMOUNT: n == 17}.get(kind, False)


def table(data):
    """The rows of a sheet's table, or None where it does not lie inside the sheet."""
    if not data or len(data) < 1 + 6 * data[0]:
        return None
    return [struct.unpack_from("<BBHH", data, 1 + 6 * i) for i in range(data[0])]


def laid_out(data):
    """Whether names rise, lengths are of their kinds, and the bodies stand in order with no gap to the sheet's end."""
    rows = table(data)
    if rows is None:
        return False
    names = [row[0] for row in rows]
    if any(b <= a for a, b in zip(names, names[1:])):
        return False
    place = 1 + 6 * len(rows)
    for _, kind, offset, length in rows:
        if offset != place or not length_ok(kind, length):
            return False
        place += length
    return place == len(data)


def as_input(data):
    return laid_out(data) and all(1 <= name <= 10 and kind in (TEXT, OTHER) for name, kind, _, _ in table(data))


def as_state(data):
    if not data:
        return "absent"
    if laid_out(data):
        fields = [row[:2] for row in table(data)]
        for state, wanted in STATES.items():
            if fields == wanted:
                return state
    return "torn"


def walk(rows):
    """How many entries of an input are found sound before the first that is not, and where the next body must start then."""
    last, place = 0, 1 + 6 * len(rows)
    for passed, (name, kind, offset, length) in enumerate(rows):
        if not (last < name <= 10 and kind in (TEXT, OTHER) and length_ok(kind, length) and offset == place):
            return passed, place
        last, place = name, place + length
    return len(rows), place


def line(data):
    """What the program prints for a sheet."""
    count = data[0] if data else 0
    padded = data + bytes(1 + 6 * count)
    rows = [struct.unpack_from("<BBHH", padded, 1 + 6 * i) for i in range(count)]
    words = ["sound" if as_input(data) else "torn", as_state(data), "{}@{}".format(*walk(rows))]
    for name in range(1, 11):
        for row in rows:
            if row[0] == name:
                _, kind, offset, length = row
                body = data[offset : offset + length]
                word = f"{name}:{kind}@{offset}+{length}/{len(body)}"
                if kind == AMOUNT:
                    body = body.ljust(17, b"\0")
                    word += f"={int.from_bytes(body[8:16], 'little')},{int.from_bytes(body[:8], 'little')},{body[16]}"
                words.append(word)
                break
    return " ".join(words)


A = amount(0x0F0E0D0C0B0A09080706050403020100, 7)
B = amount(2**128 - 1, 255)
OPENED = [(1, TEXT, b"N1"), (2, TEXT, b"rd"), (4, TEXT, b"5")]
MIXED = [(3, OTHER, b""), (7, TEXT, b"12"), (10, OTHER, b"")]
TEN = [(n, TEXT, b"t" * n) for n in range(1, 11)]
STACK = [(1, TEXT, b"N1"), (2, TEXT, b"rd"), (3, AMOUNT, A)]
BALANCE = [(1, TEXT, b"N1"), (2, TEXT, b"rd"), (4, AMOUNT, A)]
METER = [(1, TEXT, b"N1"), (5, AMOUNT, A), (6, AMOUNT, B)]
SOUND = [OPENED, MIXED, STACK, BALANCE, METER]


def rows_of(fields):
    return table(sheet(fields))


def sheets():
    # sound ones, and the least
    yield from (sheet(fields) for fields in SOUND + [TEN])
    yield from (b"", b"\0", b"\1", b"\3", b"\xff", bytes(7), bytes(19))
    # each byte of a sound sheet altered
    for fields in SOUND:
        data = sheet(fields)
        for i, byte in enumerate(data):
            for other in ((byte + 1) % 256, (byte - 1) % 256, byte ^ 128):
                yield data[:i] + bytes([other]) + data[i + 1 :]
    # each length short, and some long
    for fields in SOUND:
        data = sheet(fields)
        yield from (data[:n] for n in range(len(data)))
        yield from (data + bytes(n) for n in (1, 2, 17, 256))
    for fields in SOUND:
        data, rows = sheet(fields), rows_of(fields)
        bodies = [body for _, _, body in fields]
        for i, j in itertools.combinations(range(3), 2):
            # entries swapped: as they are, and laid out anew
            swapped = list(rows)
            swapped[i], swapped[j] = swapped[j], swapped[i]
            yield raw(swapped, bodies)
            turned = list(fields)
            turned[i], turned[j] = turned[j], turned[i]
            yield sheet(turned)
            # a name twice
            yield sheet([(fields[i][0], k, b) if n == j else (name, k, b) for n, (name, k, b) in enumerate(fields)])
        for i in range(3):
            # gaps before a body, overlaps of it with what stands before, and a body at another's place
            for by in (1, 2, -1, -2):
                moved = [(n, k, o + (by if m >= i else 0), l) for m, (n, k, o, l) in enumerate(rows)]
                cut = max(by, 0)
                yield raw(moved, bodies[:i] + [bytes(cut)] + bodies[i:])
                alone = [(n, k, o + (by if m == i else 0), l) for m, (n, k, o, l) in enumerate(rows)]
                yield raw(alone, bodies)
            # an entry left out, and a fourth
            yield sheet(fields[:i] + fields[i + 1 :])
        yield sheet(fields + [(11, TEXT, b"x")])
        yield sheet(sorted(fields + [(8, TEXT, b"x")]))
    # empty bodies at a wrong place
    for kind in (TEXT, OTHER):
        for at in (0, 1, 12, 13, 14, 15, 16, 255, 256, 65535):
            yield raw([(2, TEXT, 13, 2), (7, kind, at, 0)], [b"rd"])
            yield raw([(2, kind, at, 0), (7, TEXT, 13, 2)], [b"12"])
    # names and kinds outside
    for name in (0, 1, 10, 11, 12, 128, 255):
        yield sheet([(name, TEXT, b"x")])
        yield sheet([(name, OTHER, b"")])
    for kind in (0, 1, 2, 3, 4, 5, 128, 255):
        for body in (b"", b"x", A):
            yield sheet([(7, kind, body)])
            yield sheet([(1, TEXT, b"N1"), (2, TEXT, b"rd"), (4, kind, body)])
    # the longest texts
    for n in (255, 256, 257, 300):
        yield sheet([(1, TEXT, b"s" * n)])
        yield sheet([(1, TEXT, b"s" * n), (2, TEXT, b"rd"), (4, AMOUNT, A)])
        yield sheet([(1, TEXT, b"N1"), (2, TEXT, b"u" * n), (3, AMOUNT, A)])
        yield sheet([(1, TEXT, b"s" * n), (5, AMOUNT, A), (6, AMOUNT, B)])
    # amounts one byte short and long
    for body in (A[:16], A + b"\0"):
        yield sheet([(1, TEXT, b"N1"), (2, TEXT, b"rd"), (4, AMOUNT, body)])
        yield sheet([(1, TEXT, b"N1"), (5, AMOUNT, body), (6, AMOUNT, B)])
    # the fields of one state under the names or kinds of another
    for a, b, c in itertools.product((1, 2), (2, 5), (3, 4, 6)):
        for kb, kc in itertools.product((TEXT, AMOUNT), (TEXT, AMOUNT)):
            yield sheet([(a, TEXT, b"N1"), (b, kb, A if kb == AMOUNT else b"rd"), (c, kc, B if kc == AMOUNT else b"5")])
    # where a 16-bit sum would wrap: an entry of 65,535 bytes that are not there, that wraps, and that are there
    yield raw([(1, TEXT, 7, 65535)], [b"N1"])
    yield raw([(1, TEXT, 13, 65535), (2, TEXT, 12, 3)], [b"rd"])
    yield raw([(1, TEXT, 13, 65535), (2, OTHER, 12, 0)], [])
    yield raw([(1, TEXT, 7, 65535)], [b"s" * 65535])
    # and sheets that are 65,536 bytes longer than their tables say
    yield sheet(OPENED) + bytes(65536)
    yield sheet(BALANCE) + bytes(65536)


def writes():
    """Writers: the tag, the room, the texts and the amounts; the line expected."""
    for tag, state in enumerate(STATES, 1):
        for x, y in ((2, 2), (0, 0), (256, 256), (257, 1)):
            subject, unit = bytes(range(48, 58)) * 26, b"rd" * 200
            subject, unit = subject[:x], unit[:y]
            fields = [subject, A, B] if state == "meter" else [subject, unit, A]
            made = sheet([(name, kind, body) for (name, kind), body in zip(STATES[state], fields)])
            for room in (0, 18, 19, len(made) - 1, len(made), len(made) + 1, len(made) + 9):
                buffer = b"\xaa" * (room + 4)
                if room < len(made):
                    expected = "narrow " + buffer.hex()
                else:
                    expected = f"done {len(made)} " + (made + buffer[len(made) :]).hex()
                yield tag, struct.pack("<HHH", room, x, y) + subject + unit + A + B, expected


def main():
    cases = [(0, data, line(data)) for data in sheets()] + list(writes())
    folder = os.path.join("crates", "sheet_cases")
    with open(os.path.join(folder, "stdin"), "wb") as out:
        for tag, data, _ in cases:
            out.write(bytes([tag]) + len(data).to_bytes(3, "little") + data)
    with open(os.path.join(folder, "stdout"), "w", encoding="ascii") as out:
        out.writelines(text + "\n" for _, _, text in cases)
    judged = [text for tag, _, text in cases if tag == 0]
    print(f"{len(judged)} sheets, {sum(t.startswith('sound') for t in judged)} sound as inputs, "
          f"{sum(t.split()[1] in STATES for t in judged)} sound as states; {len(cases) - len(judged)} writes")


main()
