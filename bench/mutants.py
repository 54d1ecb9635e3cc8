"""Makes bytes of logs, images, packets and scripts by docs/FORMATS.md, at random, and changes them."""

import dataclasses
import json
import random

from reader import (
    KEYS,
    KINDS,
    MAX_NODES,
    MAX_TEXT,
    OPEN,
    OUTSIDE,
    PAGE,
    Base,
    Header,
    Node,
    Record,
)

# Numbers at which something may turn, whatever they stand for.
TURNING = [0, 1, 2, 7, 8, 9, 15, 16, 17, 32, 161, 162, 255, 256, 511, 512, 513, 4095, 4096, 4097, 65535, 1_081_838]
TURNING += [1_081_839, 2**31, 2**32 - 1, 2**32, 2**63, 2**64 - 1]
BYTES = [0x00, 0x01, OPEN, 0xFF]


def is_likely(chance):
    return random.random() < chance


def random_bytes(count):
    return random.getrandbits(8 * count + 8).to_bytes(count + 1, "big")[1:]


def drawn_bytes(most):
    return random_bytes(random.randrange(most + 1))


def drawn_text():
    return drawn_bytes(MAX_TEXT if is_likely(0.02) else 3)


# Spellings


def number(value, width):
    """What of the number fits."""
    return (value % 256**width).to_bytes(width, "big")


class Spelling:
    """Bytes, and the places and widths of the lengths and counts among them."""

    def __init__(self):
        self.data, self.lengths = bytearray(), []

    def put(self, *fields):
        """Appends numbers, each with its width, and bytes."""
        for one in fields:
            self.data += number(*one) if isinstance(one, tuple) else one

    def length(self, value, width):
        self.lengths.append((len(self.data), width))
        self.put((value, width))

    def text(self, text):
        self.length(len(text), 2)
        self.put(text)

    def part(self, part):
        """Appends another spelling."""
        self.lengths += [(len(self.data) + place, width) for place, width in part.lengths]
        self.put(part.data)


def spell_header(header):
    spelling = Spelling()
    spelling.put(b"KENL\1", (header.node, 1), (header.nodes, 1), (header.pages, 4), (header.generation, 4))
    spelling.put((header.turns, 8))
    spelling.length(header.base_bytes, 4)
    spelling.put(bytes(4))
    return spelling


def spell_pages(spelling, pages):
    spelling.length(len(pages), 2)
    for page, data in pages:
        spelling.put((page, 4), data)


def spell_outputs(spelling, outputs):
    for place, text in outputs:
        spelling.put((place, 8))
        spelling.text(text)


def spell_base(base):
    spelling = Spelling()
    spelling.put((base.stamp, 8), *[(value, 8) for value in base.consumed + base.sent], (base.made, 8))
    spelling.length(len(base.messages), 4)
    for to, place, stamp, text in base.messages:
        spelling.put((to, 1), (place, 8), (stamp, 8))
        spelling.text(text)
    spelling.length(len(base.outputs), 4)
    spell_outputs(spelling, base.outputs)
    spell_pages(spelling, base.pages)
    return spelling


def spell_record(record):
    fields = Spelling()
    fields.put((record.turn, 8), (record.stamp, 8), (record.sender, 1), (record.number, 8))
    fields.length(len(record.draws), 1)
    fields.put(*[(draw, 8) for draw in record.draws])
    fields.length(len(record.sends), 1)
    for to, place, text in record.sends:
        fields.put((to, 1), (place, 8))
        fields.text(text)
    fields.length(len(record.outputs), 1)
    spell_outputs(fields, record.outputs)
    spell_pages(fields, record.pages)
    spelling = Spelling()
    spelling.length(len(fields.data), 4)
    spelling.part(fields)
    return spelling


def spell_log(header, base, records, free=b""):
    """A log, whose header tells the length of its base, and free bytes behind its closed gate."""
    behind = spell_base(base) if base else Spelling()
    header = dataclasses.replace(header, base_bytes=len(behind.data))
    spelling = Spelling()
    for part in [spell_header(header), *map(spell_record, records)]:
        spelling.put((OPEN, 1))
        spelling.part(part)
        if len(spelling.data) == 32:
            spelling.part(behind)
    spelling.put(b"\0", free)
    return spelling


# Heaps


def spell_heap(root, pages, cells):
    """A heap with blocks of these lengths, where a 0 is a gap of 32 bytes. What is left is a gap."""
    heap, size, after_gap = bytearray(number(root, 8) + b"KENH" + number(pages, 4)), PAGE * pages, False
    for length in cells:
        span = 16 + ((length + 15) // 16 * 16 if length else 16)
        is_gap = length == 0
        if len(heap) + span <= size and not (is_gap and after_gap):
            heap += number(span, 4) + number(length, 4) + bytes(8) + random_bytes(span - 16)
            after_gap = is_gap
    left = size - len(heap)
    if after_gap and left == 16:
        heap[-32:] = number(48, 4) + bytes(44)
    elif after_gap and left:
        heap += number(left, 4) + number(left - 16, 4) + bytes(left - 8)
    elif left:
        heap += number(left, 4) + bytes(left - 4)
    return bytes(heap)


def drawn_heap(pages):
    cells = [random.choice([0, 1, 15, 16, 17, 40, random.randrange(PAGE * pages)]) for _ in range(random.randrange(6))]
    return spell_heap(random.choice(TURNING), pages, cells)


def pages_of(heap):
    return [(place // PAGE, heap[place : place + PAGE]) for place in range(0, len(heap), PAGE)]


# Logs


class Author:
    """A node that makes turns at random, and writes its logs."""

    def __init__(self, owner):
        self.owner, self.generation = owner, 1
        self.turns, self.stamp, self.made = 0, 0, 0
        self.consumed, self.sent = [0] * (MAX_NODES + 1), [0] * MAX_NODES
        self.messages, self.outputs = [], []
        self.heap = spell_heap(0, owner.pages, [])
        self.image, self.base, self.records = self.heap, None, []

    def header(self):
        turns = self.turns - len(self.records)
        return Header(self.owner.node, self.owner.nodes, self.owner.pages, self.generation, turns, 0)

    def send(self):
        to, text = random.randrange(self.owner.nodes), drawn_text()
        self.sent[to] += 1
        self.messages.append((to, self.sent[to], self.stamp, text))
        return to, self.sent[to], text

    def emit(self):
        self.made += 1
        self.outputs.append((self.made, drawn_text()))
        return self.outputs[-1]

    def change(self):
        """Changes the heap, and tells the pages that a record has of it."""
        before = pages_of(self.heap)
        if is_likely(0.6):
            self.heap = drawn_heap(self.owner.pages)
        return [page for page, old in zip(pages_of(self.heap), before) if page != old or is_likely(0.1)]

    def turn(self):
        sender = random.choice([*range(self.owner.nodes), OUTSIDE])
        place = MAX_NODES if sender == OUTSIDE else sender
        self.turns += 1
        self.stamp += random.randrange(1, 4)
        self.consumed[place] += 1
        count = 16 if is_likely(0.02) else 2
        self.records.append(
            Record(
                turn=self.turns,
                stamp=self.stamp,
                sender=sender,
                number=self.consumed[place],
                draws=[random.choice(TURNING) for _ in range(random.randrange(count + 1))],
                sends=[self.send() for _ in range(random.randrange(count + 1))],
                outputs=[self.emit() for _ in range(random.randrange(count + 1))],
                pages=self.change(),
            )
        )

    def turn_over(self):
        """Goes over to another log. What is acknowledged and emitted by then is left out, and what the image has."""
        kept = [random.randrange(sent + 1) for sent in self.sent]
        self.messages = sorted(message for message in self.messages if message[1] > kept[message[0]])
        self.outputs = self.outputs[random.randrange(len(self.outputs) + 1) :]
        pages = [page for page in pages_of(self.heap) if is_likely(0.5)]
        self.image = self.heap
        numbers = self.stamp, self.consumed[:], self.sent[:], self.made
        self.base, self.records = Base(*numbers, self.messages[:], self.outputs[:], pages), []
        self.generation += 1

    def torn_image(self):
        """The image, with anything in the pages that the log has."""
        image = bytearray(self.image)
        for item in [self.base, *self.records]:
            for page, _ in item.pages if item else []:
                if is_likely(0.5):
                    image[page * PAGE : (page + 1) * PAGE] = random_bytes(PAGE)
        return bytes(image) + drawn_bytes(2)

    def log(self):
        return spell_log(self.header(), self.base, self.records, drawn_bytes(3))

    def bent_log(self):
        """The log, with some of its fields changed, or items left out, doubled or exchanged."""
        header, base, records = self.header(), self.base, self.records
        for _ in range(random.choice([1, 1, 1, 2])):
            part = random.random()
            if part < 0.1:
                header = bent(header)
            elif part < 0.5 and base:
                base = bent(base)
            elif records:
                records = bent(records)
        return spell_log(header, base, records, drawn_bytes(3))


OWNERS = [Node(0, 1, 1), Node(1, 2, 1), Node(2, 3, 2), Node(7, 8, 1), Node(0, 3, 3)]


def drawn_author(owner):
    author = Author(owner)
    for _ in range(random.choice([0, 0, 1, 1, 2])):
        for _ in range(random.randrange(1, 4)):
            author.turn()
        author.turn_over()
    return author


# Fields that are changed


def bent_number(value):
    others = [value + 1, value - 1, value + 1, value - 1, value + 2, value * 2, 16 * value, random.choice(TURNING)]
    return random.choice(others) % 2**64


def bent_list(items):
    items = items[:]
    place, other = random.randrange(len(items)), random.randrange(len(items))
    work = random.randrange(6)
    if work == 0:
        del items[place]
    elif work == 1:
        items.insert(other, items[place])
    elif work == 2:
        items[place], items[other] = items[other], items[place]
    else:
        items[place] = bent(items[place])
    return items


def bent_bytes(data):
    return random.choice([b"", data + data, data[:-1], bytes(512), bytes(513), mutated(data)])


def bent(value):
    """A value with one of its parts changed."""
    if dataclasses.is_dataclass(value):
        names = [one.name for one in dataclasses.fields(value) if getattr(value, one.name) not in ([], None)]
        name = random.choice(names)
        return dataclasses.replace(value, **{name: bent(getattr(value, name))})
    if isinstance(value, tuple):
        places = [place for place, part in enumerate(value) if part not in ([], None)]
        place = random.choice(places)
        return (*value[:place], bent(value[place]), *value[place + 1 :])
    if isinstance(value, list):
        return bent_list(value)
    return bent_number(value) if isinstance(value, int) else bent_bytes(value)


# Bytes that are changed


def piece(data):
    """The ends of a piece, mostly a short one."""
    start = random.randrange(len(data) + 1)
    most = len(data) - start
    return start, start + random.randrange((most if is_likely(0.1) else min(most, 8)) + 1)


def with_byte(data):
    place = random.randrange(len(data))
    byte = random.choice([*BYTES, data[place] ^ 0xFF, data[place] ^ 1 << random.randrange(8), random.randrange(256)])
    return data[:place] + bytes([byte]) + data[place + 1 :]


def cut_off(data):
    return data[: random.randrange(len(data))]


def without_piece(data):
    start, end = piece(data)
    return data[:start] + data[end:]


def doubled(data):
    start, end = piece(data)
    return data[:end] + data[start:]


def with_more(data):
    place = random.randrange(len(data) + 1)
    return data[:place] + random.choice([bytes([random.choice(BYTES)]), drawn_bytes(4)]) + data[place:]


def exchanged(data):
    ends = sorted([*piece(data), *piece(data)])
    one, two, three, four = ends
    return data[:one] + data[three:four] + data[two:three] + data[one:two] + data[four:]


def with_number(data, place=None, width=None):
    """With another number in a field of bytes."""
    width = width or random.choice([1, 2, 4, 8])
    place = random.randrange(len(data)) if place is None else place
    value = int.from_bytes(data[place : place + width], "big")
    others = [value + 1, value - 1, value + random.randrange(-16, 17), len(data) - place - width, random.choice(TURNING)]
    return data[:place] + number(random.choice(others), width) + data[place + width :]


WORKS = [with_byte, with_byte, with_byte, cut_off, without_piece, doubled, with_more, exchanged, with_number]


def mutated(data, most=1):
    for _ in range(random.randrange(1, most + 1)):
        if data:
            data = random.choice(WORKS)(data)
    return data


def mutant(spelling):
    """The bytes of a spelling, changed: mostly a length or a few of its bytes, rarely not at all."""
    data = bytes(spelling.data)
    if spelling.lengths and is_likely(0.4):
        data = with_number(data, *random.choice(spelling.lengths))
    if is_likely(0.6):
        data = mutated(data, random.choice([1, 1, 4]))
    return data


# Cases: the bytes that one answer is of


def log_case():
    author = drawn_author(random.choice(OWNERS))
    for _ in range(random.randrange(5)):
        author.turn()
    log = author.bent_log() if is_likely(0.5) else author.log()
    return [mutant(log) if is_likely(0.7) else bytes(log.data)]


def disks_case(owner):
    """Three disks, of which mostly one is changed."""
    author = drawn_author(owner if is_likely(0.9) else random.choice(OWNERS))
    before = bytes(author.log().data) if author.generation > 1 else b""
    older = dataclasses.replace(author.header(), generation=max(1, author.generation - 1), turns=0)
    other = bytes(spell_log(older, None, []).data) if author.generation == 2 else before
    other = random.choice([b"", other, mutated(other), drawn_bytes(40)])
    for _ in range(random.randrange(5)):
        author.turn()
    log = author.bent_log() if is_likely(0.5) else author.log()
    log = mutant(log) if is_likely(0.2) else bytes(log.data)
    image = author.torn_image()
    if is_likely(0.25):
        image = mutated(image, 2)
    disks = [log, image, other]
    return disks[::-1] if is_likely(0.4) else disks


def image_case(owner):
    """An empty log over an image, whose heap is changed."""
    log = spell_log(Header(owner.node, owner.nodes, owner.pages, 1, 0, 0), None, [])
    heap = drawn_heap(owner.pages)
    if is_likely(0.8):
        heads, place = [], 16
        while place < len(heap):
            heads.append(place)
            place += int.from_bytes(heap[place : place + 4], "big")
        place = random.choice([8, 12, *heads, *[head + 4 for head in heads], *[head + 8 for head in heads]])
        if place < len(heap):
            heap = with_number(heap, place, 4)
    if is_likely(0.3):
        heap = mutated(heap)
    return [bytes(log.data), heap, b""]


def packet_case():
    spelling = Spelling()
    ends = [(random.randrange(9 if is_likely(0.1) else 8), 1) for _ in range(2)]
    numbers = [(random.choice([random.randrange(1, 9), random.choice(TURNING)]), 8) for _ in range(2)]
    if is_likely(0.6):
        spelling.put(b"\1", *ends, *numbers)
        spelling.text(random.choice([drawn_text(), drawn_bytes(514), bytes(512), bytes(513)]))
    else:
        spelling.put(b"\2", *ends, numbers[0])
    return [mutant(spelling) if is_likely(0.7) else bytes(spelling.data)]


# Scripts

WORDS = ["ring", "kv", "lose", "repeat", "", "a", " ~", "\x1f", "\x7f", "\u00e9", "\U0001f600", "Ring", "x" * 512, "y" * 513]
# Spellings of values that may turn something.
VALUES = ["null", "true", "false", "0", "1", "2", "8", "9", "-1", "-0", "1.0", "1e0", "1e2", "1E400", "-1e400", "1e-400"]
VALUES += ["18446744073709551615", "18446744073709551616", "1000000000", "1000000001", "4096", "4097", "100000", "100001"]
VALUES += ["1000", "1001", "01", "+1", ".5", "1.", "NaN", "Infinity", "-Infinity", "[]", "{}", "[[]]", '{"a":0}', "0.0", "3"]
VALUES += ["1.7976931348623157e308", "1.7976931348623158e308", "1.7976931348623159e308", "1" + "0" * 400 + "e-400"]
VALUES += ['"\\ud83d\\ude00"', '"\\ud83d"', '"\\u0041"', '"\\x"', "0e99999999999", "1" * 400, '"\t"', "'a'", "1,", "//"]


class Spelled(str):
    """A value of a script as it is spelled."""


def drawn_call():
    return random.choice([1, 2, 3, random.randrange(1, 99), 1_000_000_000])


def drawn_items(most, item):
    return [item() for _ in range(random.randrange(most))]


def drawn_script():
    nodes = random.randrange(1, 9)
    node = lambda: random.randrange(nodes)
    act = lambda: random.choice(["lose", "repeat", 1, 8, random.randrange(1, 9)])
    word = lambda: random.choice(["0", "2", "put a b", "~", "", *WORDS] if is_likely(0.2) else ["0", "7", "ab"])
    put = lambda: [node(), node(), drawn_call(), act()]
    script = {"nodes": nodes, "kind": random.choice(KINDS), "inputs": drawn_items(5, lambda: [node(), word()])}
    others = {
        "pages": random.choice([1, 16, 4096]),
        "seed": random.choice([0, 1, 2**64 - 1]),
        "turns": random.choice([1, 100_000]),
        "rounds": random.choice([0, 1000]),
        "restarts": random.choice([0, 1000]),
        "cuts": drawn_items(4, lambda: [node(), random.randrange(3), drawn_call(), random.choice([0, 1, 2**64 - 1])]),
        "mail": drawn_items(4, put),
        "acks": drawn_items(4, put),
        "outlets": drawn_items(4, lambda: [node(), drawn_call()]),
    }
    keys = random.sample(list(others), random.randrange(len(others) + 1))
    return {**script, **{key: others[key] for key in keys}}


def bent_value(value):
    """A value of a script with one of its parts changed."""
    if is_likely(0.2):
        return Spelled(random.choice(VALUES))
    if isinstance(value, dict):
        return bent_object(value)
    if isinstance(value, list) and value:
        items, place, other = value[:], random.randrange(len(value)), random.randrange(len(value))
        work = random.randrange(7)
        if work == 0:
            del items[place]
        elif work == 1:
            items.insert(other, items[place])
        elif work == 2:
            items.append(random.choice([0, "x", [], None]))
        else:
            items[place] = bent_value(items[place])
        return items
    if isinstance(value, int) and not isinstance(value, bool):
        return random.choice([value + 1, value - 1, value * 2, 3 - value, random.choice(TURNING)])
    return random.choice(WORDS)


def bent_object(value):
    value, key = dict(value), random.choice(list(value))
    work = random.randrange(10)
    if work == 0:
        del value[key]
    elif work == 1:
        value[random.choice(["", "a", "z", "Nodes", "node", "nodes ", "\u00e9", key + "s", key[:-1], "\ue000", "\U00010000"])] = 0
    elif work == 2:
        value[random.choice(KEYS)] = Spelled(random.choice(VALUES))
    else:
        value[key] = bent_value(value[key])
    return value


def gap():
    return random.choice([" ", "\n", "\t", "\r", "  "]) if is_likely(0.05) else ""


def spelled_text(text):
    """A string of JSON, in which some signs are escaped that need not be."""
    if is_likely(0.3):
        return json.dumps(text)
    signs = [f"\\u{ord(sign):04x}" if is_likely(0.05) and ord(sign) < 0xD800 else None for sign in text]
    plain = json.dumps(text, ensure_ascii=False)
    if any(signs):
        return '"' + "".join(sign or json.dumps(one, ensure_ascii=False)[1:-1] for sign, one in zip(signs, text)) + '"'
    return plain


def spelled_value(value):
    if isinstance(value, Spelled):
        return str(value)
    if isinstance(value, dict):
        members = [f"{gap()}{spelled_text(key)}{gap()}:{spelled_value(part)}" for key, part in value.items()]
        if members and is_likely(0.1):
            members.insert(random.randrange(len(members)), random.choice(members))
        if members and is_likely(0.1):
            key = random.choice(list(value))
            members.insert(0 if is_likely(0.7) else len(members), f'"{key}":{random.choice(VALUES)}')
        return gap() + "{" + ",".join(members) + "}" + gap()
    if isinstance(value, list):
        return gap() + "[" + ",".join(map(spelled_value, value)) + "]" + gap()
    if isinstance(value, str):
        return gap() + spelled_text(value) + gap()
    return gap() + json.dumps(value) + gap()


def script_case():
    script = drawn_script()
    for _ in range(random.choice([0, 1, 1, 1, 2])):
        script = bent_value(script) if is_likely(0.03) or not script else bent_object(script)
        if not isinstance(script, dict):
            break
    data = spelled_value(script).encode()
    if is_likely(0.25):
        data = mutated(data, random.choice([1, 1, 3]))
    return [data]
