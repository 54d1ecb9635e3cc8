"""Rows that make logs over disks which fail, for ken_rows_disks."""

from rows import bytes_word

# The calls of a disk that a format makes, and those of a seal: writes and syncs.
FORMAT_CALLS = 6
SEAL_CALLS = 4
# Node 0 of 3, 16 pages.
FORMAT = "format 0 3 16"
FAILED = "the disk failed"


def number(value, width):
    return value.to_bytes(width, "big")


def record(turn):
    """A record of one message, one output and one page, as a turn of a ring makes them."""
    origin = number(turn, 8) + number(turn, 8) + b"\xff" + number(turn, 8)
    sends = b"\1" + b"\1" + number(1, 8) + number(1, 2) + b"1"
    outs = b"\1" + number(1, 8) + number(1, 2) + b"2"
    pages = number(1, 2) + number(0, 4) + b"\x5a" * 256
    fields = origin + b"\0" + sends + outs + pages
    return number(len(fields), 4) + fields


def cuts_of(records, cuts):
    """Cuts that lie evenly over the calls of the seals: the pick of the first at each call that is cut."""
    step = records * SEAL_CALLS // (cuts + 1)
    picks = {}
    for place in range(1, cuts + 1):
        picks.setdefault(FORMAT_CALLS + place * step + place % SEAL_CALLS, place)
    return picks


def new_row(picks):
    return " ".join(["new", *[f"{call} {pick}" for call, pick in picks.items()]])


def seal_row(turn, count=1):
    return f"seal {bytes_word(record(turn))} {count}"
