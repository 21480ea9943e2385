#!/usr/bin/env python3
"""The verdicts of a feed, told from the format's text alone.

    tools/feed_cases.py            what the program feed_cases must write (crates/feed_cases/stdout)
    tools/feed_cases.py --bytes    the feed itself, for crates/feed_show/stdin
    tools/feed_cases.py --hex      the feed in hexadecimal
    tools/feed_cases.py --shortest each refusal with the shortest bytes that give it, found by trying
                                   every string of the letters that matter, shortest first

It shares nothing with the crate: it goes through the fields by their lengths, as docs/FEED.md lists them.
"""
import itertools
import sys

FEED = (b"TRF" + b"\x00\x01"
        + b"T" + b"\x03" + b"A17" + b"\x01LC" + b"\x02FP" + b"\x03" + b"\x00\x00\x00\x64" + b"\x00\x00\x04\x1a"
        + b"C" + b"\x03" + b"\x00\x00\x04\x1a"
        + b"T" + b"\x01" + b"B" + b"\x18FC" + b"\x18LP" + b"\x10" + b"\x05\xf5\xe1\x00" + b"\x00\x0f\x42\x40"
        + b"Z")


class Refused(Exception):
    pass


def entry_fields(kind):
    """The fields of an entry after its letter: lengths, with what judges each."""
    def length(b):
        return None if 1 <= b[0] <= 16 else 25

    def letters(b):
        return None if b in (b"LP", b"LC", b"FP", b"FC") else 26

    if kind == b"T":
        return [(1, length), ("reference", None), (1, None), (2, letters), (1, None), (2, letters), (1, None), (4, None), (4, None)]
    if kind == b"C":
        return [(1, None), (4, None)]
    return None


def verdict(data):
    """0 where the bytes are accepted, else the number of the refusal."""
    rest = data

    def take(n):
        nonlocal rest
        if len(rest) < n:
            raise Refused(23)
        part, rest = rest[:n], rest[n:]
        return part

    try:
        if take(3) != b"TRF":
            return 21
        if take(2) != b"\x00\x01":
            return 22
        while True:
            kind = take(1)
            if kind == b"Z":
                return 27 if rest else 0
            fields = entry_fields(kind)
            if fields is None:
                return 24
            reference = None
            for size, judge in fields:
                part = take(reference if size == "reference" else size)
                fault = judge(part) if judge else None
                if fault:
                    return fault
                if reference is None:
                    reference = part[0]
    except Refused as refused:
        return refused.args[0]


def told(v):
    return "ok" if v == 0 else str(v)


def runs(verdicts):
    """Equal verdicts of neighbouring byte values, as one: 'first-last verdict'."""
    out, start = [], 0
    for value in range(1, 257):
        if value == 256 or verdicts[value] != verdicts[start]:
            span = str(start) if value - 1 == start else f"{start}-{value - 1}"
            out.append(f"{span} {told(verdicts[start])}")
            start = value
    return ", ".join(out)


def cases():
    for n in range(len(FEED) + 1):
        print(f"first {n}: {told(verdict(FEED[:n]))}")
    for place in range(len(FEED)):
        verdicts = [verdict(FEED[:place] + bytes([value]) + FEED[place + 1:]) for value in range(256)]
        print(f"byte {place}: {runs(verdicts)}")


def shortest():
    letters = [b"T", b"R", b"F", b"\x00", b"\x01", b"C", b"Z", b"L", b"P", b"\x11"]
    found = {}
    heads = [b"", b"TRF", b"TRF\x00\x01", b"TRF\x00\x01T"]
    for head in heads:
        for n in range(6):
            for tail in itertools.product(letters, repeat=n):
                data = head + b"".join(tail)
                v = verdict(data)
                if v not in found or len(data) < len(found[v]):
                    found[v] = data
    for v in sorted(found):
        print(told(v), len(found[v]), found[v].hex(" "))


if "--bytes" in sys.argv:
    sys.stdout.buffer.write(FEED)
elif "--hex" in sys.argv:
    print(FEED.hex(" "))
elif "--shortest" in sys.argv:
    shortest()
else:
    cases()
