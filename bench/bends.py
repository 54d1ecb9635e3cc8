"""Bends reports: each way changes the lines of one near a place, so that most become wrong. A line has its line feed."""

import re

# What a number becomes. The last one is the same in 64 bits.
NUMBERS = [lambda n: n + 1, lambda n: max(n - 1, 0), lambda n: n + 2**64]
# Characters that a text, or a number, mostly doesn't have there.
ODD = ["0", "x", " ", "-", "+", ",", "\t", "\r", "\0", "\xff"]
# One more than a node may restart where its script doesn't say.
OFTEN = 65


def left_out(rng, lines, place, other):
    del lines[place]


def doubled(rng, lines, place, other):
    lines.insert(place, lines[place])


def often(rng, lines, place, other):
    lines[place:place] = lines[place : place + 1] * OFTEN


def exchanged(rng, lines, place, other):
    lines[place : place + 2] = lines[place : place + 2][::-1]


def moved(rng, lines, place, other):
    lines.insert(rng.randint(0, len(lines) - 1), lines.pop(place))


def from_another(rng, lines, place, other):
    lines.insert(place + rng.randint(0, 1), rng.choice(other))


def cut_off(rng, lines, place, other):
    del lines[place:]


def without_line_feed(rng, lines, place, other):
    lines[-1] = lines[-1][:-1]


def going_on(rng, lines, place, other):
    lines.append(rng.choice(["x", "\n", lines[-1], rng.choice(other), rng.choice(other)[:-1]]))


def other_number(rng, lines, place, other):
    numbers, line = list(re.finditer("[0-9]+", lines[place])), lines[place]
    if numbers:
        it = rng.choice(numbers)
        lines[place] = f"{line[: it.start()]}{rng.choice(NUMBERS)(int(it[0]))}{line[it.end() :]}"


def zero_in_front(rng, lines, place, other):
    numbers, line = list(re.finditer("[0-9]+", lines[place])), lines[place]
    if numbers:
        start = rng.choice(numbers).start()
        lines[place] = f"{line[:start]}0{line[start:]}"


def another_space(rng, lines, place, other):
    line = lines[place]
    at = rng.choice([it.start() for it in re.finditer("[ \n]|^", line)])
    lines[place] = f"{line[:at]} {line[at:]}"


def odd_character(rng, lines, place, other):
    line = lines[place]
    at = rng.randrange(len(line))
    lines[place] = line[:at] + rng.choice(ODD) + line[at + rng.randint(0, 1) :]


def other_text(rng, lines, place, other):
    """Another text of an output, or another last word."""
    line = lines[place].rstrip("\n")
    front = line[: line.rfind(" ") + 1]
    lines[place] = rng.choice([f"{front}\n", f"{line}x\n", f"{line[:-1]}\n", f"{front}ok\n", f"{front}-\n", f"{front}1,2\n"])


WAYS = [left_out, doubled, often, exchanged, moved, from_another, cut_off, without_line_feed, going_on]
WAYS += [other_number, other_number, zero_in_front, another_space, odd_character, other_text]


def place_in(rng, lines):
    """A place, so that each kind of line comes up as often as another."""
    kind = rng.choice(sorted({line.split(" ")[0] for line in lines}))
    return rng.choice([place for place, line in enumerate(lines) if line.split(" ")[0] == kind])


def bent(rng, lines, other, times):
    """The lines after so many bends, with lines of another report."""
    lines = list(lines)
    for _ in range(times):
        if lines:
            rng.choice(WAYS)(rng, lines, place_in(rng, lines), other)
    return lines
