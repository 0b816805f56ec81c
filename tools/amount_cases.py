#!/usr/bin/env python3
"""Makes the cases of crates/amount_cases and what the program must print on them: its files stdin and stdout.

Written from document 01 alone, with Python's integers, fractions and decimals; it shares nothing with the crate.
Run it from anywhere to make both files anew: tools/amount_cases.py
"""
import decimal
import fractions
import pathlib

LIMIT = 2**128
MANTISSAS = [0, 1, 5, 9, 10, 1200, 10**18, 10**19 - 1, 2**64 - 1, 2**64, 2**64 + 1, 10**37, 10**38, 3 * 10**38,
             LIMIT // 10, LIMIT // 10 + 1, LIMIT - 10**19, LIMIT - 2, LIMIT - 1]
SCALES = [0, 1, 18, 38, 39, 254, 255]


def text(m, s):
    with decimal.localcontext() as context:
        context.prec = 500
        shown = format(decimal.Decimal(m).scaleb(-s), "f")
    return shown.rstrip("0").rstrip(".") if "." in shown else shown


def order(a, b):
    x, y = (fractions.Fraction(m, 10**s) for m, s in (a, b))
    return "less" if x < y else "equal" if x == y else "greater"


def total(a, b, sign, number):
    """The sum or the difference at the larger scale, or the refusal's number."""
    scale = max(a[1], b[1])
    left, right = (m * 10 ** (scale - s) for m, s in (a, b))
    result = left + sign * right
    if left >= LIMIT or right >= LIMIT or not 0 <= result < LIMIT:
        return str(number)
    return f"{result}@{scale}"


def pair(a, b):
    least = a if order(a, b) == "less" else b
    return (f"{a[0]} {a[1]} {b[0]} {b[1]}",
            f"{order(a, b)}, min {least[0]}@{least[1]}, sum {total(a, b, 1, 17)}, difference {total(a, b, -1, 18)}, "
            f"text {text(*a)} {text(*b)}")


def read(line):
    whole = 1 <= len(line) <= 39 and all(48 <= b <= 57 for b in line)
    return f"{int(line)}@0" if whole and int(line) < LIMIT else "10"


def pairs():
    amounts = [(m, s) for m in MANTISSAS for s in SCALES]
    count = len(amounts)
    for i, a in enumerate(amounts):
        for step in (0, 1, 7, 58):  # itself, the next scale, the next mantissa, one far off
            yield a, amounts[(i + step) % count]
    for m, s in ((12, 1), (LIMIT // 10, 0), (10**37, 200), (1, 254)):  # equal values at unequal scales
        yield (m, s), (m * 10, s + 1)
        yield (m * 10, s + 1), (m, s)
    yield (15, 1), (1, 0)
    yield (LIMIT - 1, 0), (0, 1)  # a rescaling that leaves 128 bits
    yield (5, 200), (0, 0)  # zero rescales to every scale


def texts():
    top = str(LIMIT - 1).encode()
    yield from (b"", b"0", b"7", b"9", b"10", b"007", b"/", b":", b"+1", b"-1", b" 1", b"1 ", b"1.0", b"1e3", b"1E3", b"0x1", b"1/2")
    yield from (b"0" * k + b"1" for k in (1, 37, 38, 39, 40))
    yield from (b"9" * k for k in (19, 20, 38, 39, 40, 255))
    yield from (top, str(LIMIT).encode(), b"0" + top, top[:-1], top + b"0", b"4" + top[1:])
    yield from (str(10**k).encode() for k in range(39))
    yield from (str(2**k + d).encode() for k in (32, 63, 64, 127) for d in (-1, 0, 1))
    yield from (bytes([49, b, 49]) for b in range(256) if b != 10)  # each byte between digits; a line feed ends a case


folder = pathlib.Path(__file__).resolve().parent.parent / "crates" / "amount_cases"
cases, said = [], []
for a, b in pairs():
    line, answer = pair(a, b)
    cases.append(line.encode())
    said.append(line.encode() + b": " + answer.encode())
for line in texts():
    cases.append(b"r" + line)
    said.append(b"r" + line + b": " + read(line).encode())
(folder / "stdin").write_bytes(b"".join(c + b"\n" for c in cases))
(folder / "stdout").write_bytes(b"".join(s + b"\n" for s in said))
print(f"{len(cases)} cases, {sum(len(c) + 1 for c in cases)} bytes of input")
