"""Reads the bytes of logs, images, packets and scripts by docs/FORMATS.md alone, in plain Python."""

import json
import math
from dataclasses import dataclass, field

from rows import bytes_word, named, text_word

PAGE = 256
OPEN = 0xA5
MAX_NODES = 8
OUTSIDE = 255
MAX_TEXT = 512
MAX_ITEMS = 16
MAX_PAGES = 4096
MAX_RECORD = 1_081_838
# The first gate, and what follows it in a log.
HEADER_PLACE, HEADER_BYTES, FIRST_GATE = 0, 31, 32

LOG, IMAGE, SECOND_LOG = 0, 1, 2


class NotThat(Exception):
    """The bytes aren't what was to be read from them."""


class Damaged(Exception):
    """A log, or of a node's disks one, is wrong at a place."""

    def __init__(self, place, disk=LOG):
        super().__init__(place, disk)
        self.place, self.disk = place, disk


class Broken(Exception):
    """A script breaks a rule at an index."""

    def __init__(self, rule, index):
        super().__init__(rule, index)
        self.rule, self.index = rule, index


def demand(holds):
    if not holds:
        raise NotThat


class Fields:
    """Takes fields from the front of bytes."""

    def __init__(self, data):
        self.data, self.place = data, 0

    def bytes(self, count):
        taken = self.data[self.place : self.place + count]
        demand(len(taken) == count)
        self.place += count
        return taken

    def number(self, width, least=0, most=2**64 - 1):
        value = int.from_bytes(self.bytes(width), "big")
        demand(least <= value <= most)
        return value

    def text(self, most):
        return self.bytes(self.number(2, most=most))

    def several(self, width, item, most=2**32):
        return [item() for _ in range(self.number(width, most=most))]

    def page(self):
        return self.number(4), self.bytes(PAGE)

    def pages(self, most):
        pages = self.several(2, self.page, most)
        demand(rises([page for page, _ in pages]))
        return pages

    def end(self):
        demand(self.place == len(self.data))


def rises(keys):
    return all(one < other for one, other in zip(keys, keys[1:]))


# Logs


@dataclass
class Header:
    node: int
    nodes: int
    pages: int
    generation: int
    turns: int
    base_bytes: int


@dataclass
class Base:
    stamp: int
    consumed: list
    sent: list
    made: int
    # Of each message to, number, stamp and text, of each output number and text.
    messages: list
    outputs: list
    pages: list


@dataclass
class Record:
    turn: int
    stamp: int
    sender: int
    number: int
    draws: list
    sends: list
    outputs: list
    pages: list


@dataclass
class Log:
    header: Header
    base: Base = None
    # Each with the place of its gate.
    records: list = field(default_factory=list)
    # The place of the closed gate.
    end: int = 0


def read_header(data):
    fields = Fields(data[:HEADER_BYTES])
    demand(fields.bytes(4) == b"KENL" and fields.number(1) == 1)
    header = Header(*[fields.number(width) for width in (1, 1, 4, 4, 8, 4)])
    demand(fields.bytes(4) == bytes(4) and header.generation >= 1)
    demand(header.generation > 1 or (header.turns, header.base_bytes) == (0, 0))
    return header


def read_base(data):
    fields = Fields(data)
    base = Base(
        stamp=fields.number(8),
        consumed=[fields.number(8) for _ in range(MAX_NODES + 1)],
        sent=[fields.number(8) for _ in range(MAX_NODES)],
        made=fields.number(8),
        messages=fields.several(4, lambda: (fields.number(1), fields.number(8), fields.number(8), fields.text(65535))),
        outputs=fields.several(4, lambda: (fields.number(8), fields.text(65535))),
        pages=fields.pages(65535),
    )
    fields.end()
    demand(rises([message[:2] for message in base.messages]) and rises([number for number, _ in base.outputs]))
    return base


def read_record(data):
    fields = Fields(data)
    record = Record(
        turn=fields.number(8, 1),
        stamp=fields.number(8, 1),
        sender=fields.number(1),
        number=fields.number(8, 1),
        draws=fields.several(1, lambda: fields.number(8), MAX_ITEMS),
        sends=fields.several(
            1, lambda: (fields.number(1, most=MAX_NODES - 1), fields.number(8, 1), fields.text(MAX_TEXT)), MAX_ITEMS
        ),
        outputs=fields.several(1, lambda: (fields.number(8, 1), fields.text(MAX_TEXT)), MAX_ITEMS),
        pages=fields.pages(MAX_PAGES),
    )
    fields.end()
    demand(record.sender < MAX_NODES or record.sender == OUTSIDE)
    return record


def or_damaged(place, read, data):
    try:
        return read(data)
    except NotThat:
        raise Damaged(place) from None


def is_unformatted(data):
    return len(data) < FIRST_GATE or data[0] != OPEN


def framed(data, place):
    """The bytes of the record at a place, which are to be there, all of them."""
    fields = Fields(data[place : place + 4 + MAX_RECORD])
    return fields.bytes(fields.number(4, most=MAX_RECORD))


def mount(data):
    """The log that is on a disk of these bytes, or None where there is none."""
    if is_unformatted(data):
        return None
    header = or_damaged(HEADER_PLACE, read_header, data[1:FIRST_GATE])
    log, gate = Log(header), FIRST_GATE + header.base_bytes
    if header.generation > 1:
        base = data[FIRST_GATE:gate]
        if len(base) < header.base_bytes:
            raise Damaged(FIRST_GATE)
        log.base = or_damaged(FIRST_GATE, read_base, base)
    while gate < len(data) and data[gate] == OPEN:
        record = or_damaged(gate, lambda place: framed(data, place), gate + 1)
        log.records.append((gate, or_damaged(gate, read_record, record)))
        gate += 5 + len(record)
    if gate >= len(data):
        raise Damaged(len(data))
    log.end = gate
    return log


# Heaps


@dataclass
class Heap:
    root: int
    # The places and the bytes of the blocks.
    blocks: list


def number_at(data, place, width):
    return int.from_bytes(data[place : place + width], "big")


def read_heap(data, pages):
    """The value of a heap of so many pages. One that stands for none is damaged at a place."""
    if data[8:12] != b"KENH":
        raise Damaged(8, IMAGE)
    if number_at(data, 12, 4) != pages:
        raise Damaged(12, IMAGE)
    heap, place, after_gap = Heap(number_at(data, 0, 8), []), 16, False
    while place < len(data):
        span, length = number_at(data, place, 4), number_at(data, place + 4, 4)
        is_gap = length == 0
        fits = span % 16 == 0 and 16 <= span <= len(data) - place and not any(data[place + 8 : place + 16])
        if not fits or (after_gap if is_gap else span != 16 + (length + 15) // 16 * 16):
            raise Damaged(place, IMAGE)
        if not is_gap:
            heap.blocks.append((place + 16, data[place + 16 : place + 16 + length]))
        place, after_gap = place + span, is_gap
    return heap


# Recoveries


@dataclass
class Node:
    """Who recovers: a node, of how many, with how many pages."""

    node: int
    nodes: int
    pages: int

    def owns(self, header):
        return (header.node, header.nodes, header.pages) == (self.node, self.nodes, self.pages)

    def has_sender(self, sender):
        return sender < self.nodes or sender == OUTSIDE

    def has_pages(self, pages):
        return all(page < self.pages for page, _ in pages)


@dataclass
class Store:
    """What is recovered. The numbers consumed are those of the nodes 0 to 7 and of the outside, those sent of the nodes."""

    turns: int
    stamp: int = 0
    consumed: list = field(default_factory=lambda: [0] * (MAX_NODES + 1))
    sent: list = field(default_factory=lambda: [0] * MAX_NODES)
    made: int = 0
    # Of each message to, number, stamp and text, of each output number and text.
    messages: list = field(default_factory=list)
    outputs: list = field(default_factory=list)
    heap: Heap = None


def is_last_of(numbers, last):
    """Whether numbers, which may be none, go up by one, from at least 1, to the last."""
    return numbers == list(range(last - len(numbers) + 1, last + 1)) and (not numbers or numbers[0] >= 1)


def check_base(owner, header, base):
    demand(not any(base.consumed[owner.nodes : MAX_NODES]) and not any(base.sent[owner.nodes :]))
    demand(max(base.made, sum(base.sent)) <= MAX_ITEMS * header.turns)
    demand(owner.has_pages(base.pages))
    demand(all(len(item[-1]) <= MAX_TEXT for item in base.messages + base.outputs))
    demand(all(to < owner.nodes and 1 <= stamp <= base.stamp for to, _, stamp, _ in base.messages))
    for node, last in enumerate(base.sent):
        demand(is_last_of([number for to, number, _, _ in base.messages if to == node], last))
    demand(is_last_of([number for number, _ in base.outputs], base.made))


def replay(owner, store, record):
    demand(record.turn == store.turns + 1 and record.stamp > store.stamp)
    demand(owner.has_sender(record.sender))
    sender = MAX_NODES if record.sender == OUTSIDE else record.sender
    demand(record.number == store.consumed[sender] + 1)
    for to, number, text in record.sends:
        demand(to < owner.nodes and number == store.sent[to] + 1)
        store.sent[to] = number
        store.messages.append((to, number, record.stamp, text))
    for number, text in record.outputs:
        demand(number == store.made + 1)
        store.made = number
        store.outputs.append((number, text))
    demand(owner.has_pages(record.pages))
    store.turns, store.stamp, store.consumed[sender] = record.turn, record.stamp, record.number


def on_disk(disk, work, *given):
    try:
        return work(*given)
    except Damaged as damaged:
        raise Damaged(damaged.place, disk) from None


def header_of(disk, data):
    if is_unformatted(data):
        return None
    return on_disk(disk, or_damaged, HEADER_PLACE, read_header, data[1:FIRST_GATE])


def current_disk(headers):
    """The disk of the log that counts, where there is one."""
    one, other = headers[LOG], headers[SECOND_LOG]
    if one and other and one.generation == other.generation:
        raise Damaged(0, SECOND_LOG)
    if one and (not other or one.generation > other.generation):
        return LOG
    return SECOND_LOG


def lay_over(heap, pages):
    for page, data in pages:
        heap[page * PAGE : (page + 1) * PAGE] = data


def recover(owner, disks):
    """What a node's disks hold: its log, image and second log. None where there is nothing to recover."""
    headers = {disk: header_of(disk, disks[disk]) for disk in (LOG, SECOND_LOG)}
    if not any(headers.values()):
        return None
    current = current_disk(headers)
    log = on_disk(current, mount, disks[current])
    for disk, header in headers.items():
        if header and not owner.owns(header):
            raise Damaged(0, disk)
    base = log.base
    store = Store(log.header.turns)
    if base:
        on_disk(current, or_damaged, FIRST_GATE, lambda base: check_base(owner, log.header, base), base)
        store = Store(
            log.header.turns, base.stamp, base.consumed[:], base.sent[:], base.made, base.messages[:], base.outputs[:]
        )
    for gate, record in log.records:
        on_disk(current, or_damaged, gate, lambda record: replay(owner, store, record), record)
    size = owner.pages * PAGE
    if len(disks[IMAGE]) < size:
        raise Damaged(len(disks[IMAGE]), IMAGE)
    heap = bytearray(disks[IMAGE][:size])
    lay_over(heap, base.pages if base else [])
    for _, record in log.records:
        lay_over(heap, record.pages)
    store.heap = read_heap(bytes(heap), owner.pages)
    return store


def dump_lines(owner, store):
    """The lines of a dump, in bytes."""
    heap = [f"{place}:{len(block)}" for place, block in store.heap.blocks]
    senders = [*map(str, range(MAX_NODES)), "out"]
    lines = [f"node {owner.node} turns {store.turns} stamp {store.stamp} outputs {store.made}"]
    lines += [" ".join(["heap", str(owner.node), str(store.heap.root), *heap])]
    lines += [f"from {sender} {number}" for sender, number in zip(senders, store.consumed) if number]
    lines += [f"sent {node} {number}" for node, number in enumerate(store.sent) if number]
    messages = sorted(store.messages, key=lambda it: it[:2])
    lines += [f"waiting {to} {number} {len(text)}" for to, number, _, text in messages]
    return [*(line.encode() for line in lines), *(b"due %d %s" % output for output in store.outputs)]


def dump(owner, disks):
    """What `ken dump` answers over files with these bytes: its status, what it writes, and its text."""
    try:
        store = recover(owner, disks)
    except Damaged as damaged:
        return 4, b"", f"ken: node {owner.node} disk {damaged.disk} damaged at {damaged.place}"
    lines = dump_lines(owner, store) if store else [b"fresh"]
    return 0, b"".join(line + b"\n" for line in lines), ""


# Packets


@dataclass
class Mail:
    sender: int
    to: int
    number: int
    stamp: int
    text: bytes


@dataclass
class Ack:
    sender: int
    to: int
    through: int


def node_of(fields):
    return fields.number(1, most=MAX_NODES - 1)


def decode(data):
    """The packet that has these bytes, or None."""
    fields = Fields(data)
    try:
        kind = fields.number(1, 1, 2)
        ends = node_of(fields), node_of(fields)
        if kind == 1:
            packet = Mail(*ends, fields.number(8, 1), fields.number(8, 1), fields.text(MAX_TEXT))
        else:
            packet = Ack(*ends, fields.number(8, 1))
        fields.end()
    except NotThat:
        return None
    return packet


# Scripts

MAX_SCRIPT = 1_048_576
MAX_DEPTH = 127
MAX_CALL = 1_000_000_000
MAX_WHOLE = 2**64 - 1
KINDS = ("ring", "tally", "share", "mix", "kv", "bank")
KEYS = ("nodes", "kind", "inputs", "pages", "seed", "turns", "rounds", "restarts", "cuts", "mail", "acks", "outlets")
DISKS = 3
MAX_HELD = 8
MAX_INPUTS, MAX_CUTS, MAX_ACTS, MAX_OUTLETS = 10_000, 256, 1024, 256


class Other(float):
    """A number of a script that is no whole number."""


def other_number(spelled):
    value = Other(spelled)
    demand(math.isfinite(value))
    return value


def whole_number(spelled):
    if spelled[0] == "-" or len(spelled) > 20 or int(spelled) > MAX_WHOLE:
        return other_number(spelled)
    return int(spelled)


def no_constant(_):
    """NaN and the infinities are no JSON."""
    raise NotThat


def nests_at_most(text, most):
    """Whether the lists and objects of a text nest so deep at most. Brackets in strings aren't counted."""
    depth, in_string, place = 0, False, 0
    while place < len(text):
        sign = text[place]
        if in_string:
            place += sign == "\\"
            in_string = sign != '"'
        elif sign == '"':
            in_string = True
        elif sign in "[{":
            depth += 1
            if depth > most:
                return False
        elif sign in "]}":
            depth -= 1
        place += 1
    return True


def has_half_pair(value):
    """Whether half of a surrogate pair, which escapes can spell, is in a string or a list of them. It is no character."""
    if isinstance(value, list):
        return any(map(has_half_pair, value))
    return isinstance(value, str) and any("\ud800" <= sign <= "\udfff" for sign in value)


def object_of(members):
    """Of a key that comes twice the last value counts, but each value is to be JSON."""
    for key, value in members:
        demand(not has_half_pair(key) and not has_half_pair(value))
    return dict(members)


def read_json(data):
    """What the JSON text of an object says. What a text that is no object says isn't looked at."""
    text = data.decode("utf-8")
    demand(nests_at_most(text, MAX_DEPTH))
    return json.loads(
        text, object_pairs_hook=object_of, parse_float=other_number, parse_int=whole_number, parse_constant=no_constant
    )


def read_object(data):
    try:
        demand(len(data) <= MAX_SCRIPT)
        script = read_json(data)
        demand(isinstance(script, dict))
    except (NotThat, ValueError, RecursionError):
        raise Broken(1, 0) from None
    return script


def is_whole(value, least, most):
    return type(value) is int and least <= value <= most


def has_numbers(item, *ranges):
    return all(is_whole(value, least, most) for value, (least, most) in zip(item, ranges))


def check_number(script, key, rule, index, least, most):
    if key in script and not is_whole(script[key], least, most):
        raise Broken(rule, index)


def check_items(items, rule, most, is_item, name=lambda item: None):
    """Looks for the first item that isn't one, or whose name an earlier item has, or that is one too many."""
    if not isinstance(items, list):
        raise Broken(rule, 0)
    names = set()
    for index, item in enumerate(items):
        if index == most or not isinstance(item, list) or not is_item(item) or name(item) in names:
            raise Broken(rule, index)
        names.add(name(item) or index)


def is_act(act):
    return act in ("lose", "repeat") if isinstance(act, str) else is_whole(act, 1, MAX_HELD)


def read_script(data):
    """The object that the bytes are, which keeps the rules."""
    script = read_object(data)
    for index, key in enumerate(sorted(script, key=lambda key: key.encode())):
        if key not in KEYS:
            raise Broken(2, index)
    if not is_whole(script.get("nodes"), 1, MAX_NODES):
        raise Broken(3, 0)
    if script.get("kind") not in KINDS:
        raise Broken(4, 0)
    check_number(script, "pages", 5, 0, 1, MAX_PAGES)
    check_number(script, "seed", 6, 0, 0, MAX_WHOLE)
    check_number(script, "rounds", 7, 0, 0, 1000)
    check_number(script, "turns", 7, 1, 1, 100_000)
    check_number(script, "restarts", 7, 2, 0, 1000)
    node, call = (0, script["nodes"] - 1), (1, MAX_CALL)
    inputs = script.get("inputs")
    check_items(inputs, 8, MAX_INPUTS, lambda i: len(i) == 2 and has_numbers(i, node) and isinstance(i[1], str))
    for index, (_, text) in enumerate(inputs):
        if len(text.encode()) > MAX_TEXT:
            raise Broken(9, index)
    for index, (_, text) in enumerate(inputs):
        if any(not " " <= sign <= "~" for sign in text):
            raise Broken(10, index)
    pick = (0, MAX_WHOLE)
    is_cut = lambda i: len(i) == 4 and has_numbers(i, node, (0, DISKS - 1), call, pick)
    check_items(script.get("cuts", []), 11, MAX_CUTS, is_cut, lambda i: tuple(i[:3]))
    for key, rule in (("mail", 12), ("acks", 13)):
        is_put = lambda i: len(i) == 4 and has_numbers(i, node, node, call) and is_act(i[3])
        check_items(script.get(key, []), rule, MAX_ACTS, is_put, lambda i: tuple(i[:3]))
    is_outlet = lambda i: len(i) == 2 and has_numbers(i, node, call)
    check_items(script.get("outlets", []), 14, MAX_OUTLETS, is_outlet, tuple)
    return script


# Rows that ask for the bytes, each with the lines that answer it


def item_lines(name, items):
    """A line for each item, of its numbers and a text behind them."""
    return [f"{named(**{name: item[:-1]})} {text_word(item[-1])}" for item in items]


def base_lines(base):
    numbers = named(stamp=base.stamp, consumed=base.consumed, sent=base.sent, outputs=base.made)
    return [numbers, *item_lines("message", base.messages), *item_lines("output", base.outputs), *item_lines("page", base.pages)]


def record_lines(record):
    numbers = named(turn=record.turn, stamp=record.stamp, **{"from": record.sender}, number=record.number, draws=record.draws)
    return [numbers, *item_lines("send", record.sends), *item_lines("output", record.outputs), *item_lines("page", record.pages)]


def log_lines(data):
    try:
        log = mount(data)
    except Damaged as damaged:
        return [f"the item at {damaged.place} is damaged"]
    if not log:
        return ["there is no log"]
    header = log.header
    lines = [named(generation=header.generation, records=len(log.records), end=log.end)]
    owner = dict(node=header.node, nodes=header.nodes, pages=header.pages)
    lines.append(named(**owner, generation=header.generation, turns=header.turns, base=header.base_bytes))
    for part in [base_lines(log.base)] if log.base else []:
        lines += part
    for _, record in log.records:
        lines += record_lines(record)
    return lines


def mount_rows(data):
    return [("new", []), (f"write 0 {bytes_word(data)}", ["ok"]), ("log 0", log_lines(data))]


def recover_rows(owner, *disks):
    """A row of a node whose owner was told by an earlier row. Where there is no store, one is made on the disks."""
    row = " ".join(["recover", *map(bytes_word, disks)])
    try:
        store = recover(owner, disks)
    except Damaged as damaged:
        return [(row, [f"disk {damaged.disk} is damaged at {damaged.place}"])]
    if not store:
        return [(row, ["fresh"])]
    words = [named(turns=store.turns, stamp=store.stamp, consumed=store.consumed, sent=store.sent, outputs=store.made)]
    words += item_lines("message", sorted(store.messages)) + item_lines("output", store.outputs)
    words.append(named(root=store.heap.root))
    words += [f"{named(block=place)} {bytes_word(block)}" for place, block in store.heap.blocks]
    return [(row, [" ".join(words)])]


def decode_rows(data):
    packet, answer = decode(data), "no packet"
    if isinstance(packet, Mail):
        answer = f"mail {packet.sender} {packet.to} {packet.number} {packet.stamp} {text_word(packet.text)}"
    if isinstance(packet, Ack):
        answer = f"ack {packet.sender} {packet.to} {packet.through}"
    return [(f"decode {bytes_word(data)}", [answer])]


def script_lines(data):
    try:
        script = read_script(data)
    except Broken as broken:
        return [f"rule S{broken.rule} at {broken.index}"]
    absent = dict(pages=16, seed=0, turns=1000, rounds=0, restarts=64)
    numbers = {key: script.get(key, value) for key, value in absent.items()}
    counts = {key: len(script.get(key, [])) for key in ("inputs", "cuts", "mail", "acks", "outlets")}
    return [named(nodes=script["nodes"], **numbers), named(**counts)]


def read_rows(data):
    return [(f"bytes {bytes_word(data)}", []), ("read", script_lines(data))]
