#!/usr/bin/env python3
"""Counts what the program `replay` must print: reads crates/replay/stdin and writes crates/replay/stdout.

It calls no code of the repository: the counts come from the list alone, which the oracle writes
(oracle/src/record.rs has its command and its form). Run it from anywhere after the list was made anew:
tools/replay_expected.py
"""
import collections
import pathlib
import struct
import sys

HEAD = struct.Struct("<BBBHHHH")  # call, profile, operation; lengths of state or source, destination, input, buffer
ANSWER = struct.Struct("<BB17s17sH")  # number, detail, available, requested, length
SOURCES = ("from the Rust", "from the layer over it", "recorded differences, to document 01")


def records(listed):
    """Each record's number and flag; ends the run where the list is damaged."""
    at = 0
    while at < len(listed):
        start = at
        try:
            call, _, _, state, destination, given, _ = HEAD.unpack_from(listed, at)
            at += HEAD.size + state + destination + given
            number, _, _, _, length = ANSWER.unpack_from(listed, at)
            at += ANSWER.size + length
            flag = listed[at]
        except (struct.error, IndexError):
            sys.exit(f"the list ends inside the record at byte {start}")
        if call not in (1, 2, 3) or number > 20 or flag > 2:
            sys.exit(f"no record at byte {start}: call {call}, number {number}, flag {flag}")
        at += 1
        yield number, flag


folder = pathlib.Path(__file__).resolve().parent.parent / "crates" / "replay"
listed = (folder / "stdin").read_bytes()
found = list(records(listed))
numbers = collections.Counter(number for number, flag in found if flag != 2)  # the differences are counted apart
sources = collections.Counter(flag for _, flag in found)
rows = [(f"number {number}", numbers[number]) for number in range(21)]
rows += [(name, sources[flag]) for flag, name in enumerate(SOURCES)]
rows += [("all records", len(found))]
lines = [f"{name}: {count} equal, 0 unequal" for name, count in rows]
lines.append(f"bytes {len(listed)}, left over 0")
(folder / "stdout").write_text("\n".join(lines) + "\n")
print(f"{len(found)} records, {len(listed)} bytes")
