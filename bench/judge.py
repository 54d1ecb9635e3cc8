"""Judges reports by the rules of docs/FORMATS.md, line by line, beside an abstract network that makes their turns."""

import re

NUMBER = "(?:0|[1-9][0-9]{0,19})"
# How each kind of line is spelled, in the order in which the kinds come. The network spells what heaps and ends have to say.
SPELLINGS = {
    "turn": re.compile(f"turn ({NUMBER}) ({NUMBER}) (out|{NUMBER}) ({NUMBER}) (-|{NUMBER}(?:,{NUMBER})*)"),
    "emit": re.compile(f"emit ({NUMBER}) ({NUMBER}) (.*)", re.DOTALL),
    "restart": re.compile(f"restart ({NUMBER}) at ({NUMBER})"),
    "heap": re.compile("(.*)", re.DOTALL),
    "end": re.compile("(.*)", re.DOTALL),
}
KINDS = list(SPELLINGS)


class Judge:
    """What the lines of a report have told so far. Each kind of line has a method, which says whether the line is right after
    those before it. A node may restart `most` times."""

    def __init__(self, network, most):
        self.network, self.most = network, most
        self.kind, self.last_turn, self.last_node, self.heaps = "turn", (0, 0), 0, 0
        self.emitted = [0] * network.nodes
        self.restarts = [[] for _ in range(network.nodes)]

    def takes(self, line):
        """Whether a line, without its line feed, is right after those before it. After a wrong one none is asked."""
        kind = line.split(" ")[0]
        spelled = kind in SPELLINGS and SPELLINGS[kind].fullmatch(line)
        if not spelled or self.has_ended() or KINDS.index(kind) < KINDS.index(self.kind):
            return False
        if kind != self.kind:
            self.kind, self.last_node = kind, 0
        return getattr(self, kind)(*spelled.groups())

    def has_ended(self):
        return self.kind == "end"

    def turn(self, stamp, node, sender, number, draws):
        place = int(stamp), int(node)
        drawn = [] if draws == "-" else [int(draw) for draw in draws.split(",")]
        rises, self.last_turn = self.last_turn < place, place
        made = self.network.step(None if sender == "out" else int(sender), int(node), drawn)
        return rises and made == (int(stamp), int(number))

    def is_next_node(self, node):
        """Whether a node is one of the run, and not below that of the line before, of the same kind."""
        before, self.last_node = self.last_node, node
        return before <= node < self.network.nodes

    def emit(self, node, number, text):
        node, number = int(node), int(number)
        if not self.is_next_node(node):
            return False
        outputs, most = self.network.outputs[node], self.emitted[node]
        self.emitted[node] = max(most, number)
        return 1 <= number <= min(most + 1, len(outputs)) and text == outputs[number - 1]

    def restart(self, node, turns):
        node, turns = int(node), int(turns)
        if not self.is_next_node(node):
            return False
        restarts = self.restarts[node]
        restarts.append(turns)
        return len(restarts) <= self.most and turns <= self.network.made[node] and restarts == sorted(restarts)

    def heap(self, line):
        node, self.heaps = self.heaps, self.heaps + 1
        return node < self.network.nodes and f"{line}\n" == self.network.heap_line(node)

    def end(self, line):
        are_emitted = self.emitted == [len(outputs) for outputs in self.network.outputs]
        return self.heaps == self.network.nodes and are_emitted and f"{line}\n" == self.network.end_line()


def first_wrong_line(network, most, report):
    """The first line of a report that is wrong, counted from 1, or None where all is right. A line that is missing is
    missed in the place of the next, and a last line without a line feed is wrong."""
    judge = Judge(network, most)
    *lines, rest = report.split("\n")
    for place, line in enumerate(lines, 1):
        if not judge.takes(line):
            return place
    return None if judge.has_ended() and not rest else len(lines) + 1
