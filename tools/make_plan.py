#!/usr/bin/env python3
"""Write a plan file from lines of text.

usage: make_plan.py [--records N] OUT < LINES
       make_plan.py --hex [--records N] < LINES

The first line is a station's label; each later line is `LABEL PARENT`, a
station and an earlier station that it is joined to.  Empty lines and lines
that begin with `#` are skipped.  N is the number of records in a block, 31
where it is not given.  With --hex the bytes are printed as the hex digits that
a script takes, and no file is written.
"""

import sys

BLOCK_BYTES = 512
MOST_RECORDS = 31
MOST_BLOCKS = 34
SIGNS = frozenset(b"ABCDEFGHIJKLMNOPQRSTUVWXYZ0123456789-")


def label_bytes(text):
    raw = text.upper().encode("ascii", "replace")
    if not 1 <= len(raw) <= 8 or not set(raw) <= SIGNS:
        raise ValueError(f"{text!r} is not a label: 1 to 8 letters, digits or hyphens")
    return raw.ljust(8)


def record_bytes(words, seen):
    """The 16 bytes of a record; `seen` holds the labels of the earlier ones."""
    if len(words) != (2 if seen else 1):
        raise ValueError("the first line is LABEL, each later one LABEL PARENT")
    station = label_bytes(words[0])
    parent = label_bytes(words[1]) if seen else b" " * 8
    if station in seen:
        raise ValueError(f"the station {words[0]} stands twice")
    if seen and parent not in seen:
        raise ValueError(f"{words[1]} is no earlier station")
    seen.add(station)
    return station + parent


def records_of(lines):
    records, seen = [], set()
    for number, line in enumerate(lines, 1):
        words = line.split()
        if not words or words[0].startswith("#"):
            continue
        try:
            records.append(record_bytes(words, seen))
        except ValueError as error:
            raise ValueError(f"line {number}: {error}") from None
    if not 1 <= len(records) <= 1024:
        raise ValueError(f"a plan has 1 to 1,024 stations, and not {len(records)}")
    return records


def check_of(block):
    return sum((k + 1) * byte for k, byte in enumerate(block[:510])) % 65536


def block_bytes(place, last, records):
    head = place.to_bytes(2, "big") + bytes([len(records), 1 if last else 0])
    body = (head + b"".join(records)).ljust(510, b"\0")
    return body + check_of(body).to_bytes(2, "big")


def plan_bytes(records, per_block=MOST_RECORDS):
    groups = [records[i : i + per_block] for i in range(0, len(records), per_block)]
    if len(groups) > MOST_BLOCKS:
        raise ValueError(f"a plan file has at most {MOST_BLOCKS} blocks")
    return b"".join(
        block_bytes(place, place == len(groups) - 1, group)
        for place, group in enumerate(groups)
    )


def main(words):
    as_hex = "--hex" in words
    words = [w for w in words if w != "--hex"]
    per_block = MOST_RECORDS
    if "--records" in words:
        at = words.index("--records")
        per_block = int(words[at + 1])
        del words[at : at + 2]
    if len(words) != (0 if as_hex else 1) or not 1 <= per_block <= MOST_RECORDS:
        sys.exit(__doc__)
    try:
        data = plan_bytes(records_of(sys.stdin), per_block)
    except ValueError as error:
        sys.exit(f"make_plan.py: {error}")
    if as_hex:
        print(data.hex())
    else:
        with open(words[0], "wb") as out:
            out.write(data)


if __name__ == "__main__":
    main(sys.argv[1:])
