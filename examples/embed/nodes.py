#!/usr/bin/env python3
"""Runs a script on nodes, a node for each of a network's, and prints what `replay` prints for it.

usage: nodes.py TABLES RANKS SCRIPT      (Python 3.11 or later, for the names of nodes in TABLES)"""

import contextlib
import sys
from pathlib import Path

sys.path.insert(0, str(Path(__file__).resolve().parent.parent.parent / "python"))  # Where the package is installed, this isn't needed.
sys.dont_write_bytecode = True

import card_switch

WAYS = {card_switch.CS_ANSWER: b"answer", card_switch.CS_POST: b"post"}


class Script:
    """A script on nodes, and the packets that they put. The words of its lines are those of docs/FORMATS.md."""

    def __init__(self, nodes):
        self.nodes = {node.name: node for node in nodes}
        self.packets = {}

    def _step(self, line):
        """The node of a line, and what it puts out."""
        word, _, rest = line.partition(b" ")
        words = rest.split(b" ")
        if word in (b"take", b"up", b"down"):
            return self._step_at_link(word, *words)
        node = self.nodes[words[0]]
        if word == b"enter":
            return node, node.step(card_switch.CS_ENTER, rest.partition(b" ")[2])
        if word == b"host":
            return node, node.step(card_switch.CS_HOST_ANSWER, words[2], number=int(words[1]))
        if word == b"date":
            return node, node.step(card_switch.CS_NEW_DATE, words[1])
        return node, (node.step(card_switch.CS_LEND, rest) if word == b"lend" else node.step(card_switch.CS_TICK))

    def _step_at_link(self, word, name, at, serial=b"0"):
        node, number = self.nodes[at], int(serial)
        link = node.link(name)
        if word != b"take":
            return node, node.step(card_switch.CS_LINK_UP if word == b"up" else card_switch.CS_LINK_DOWN, link=link)
        (packet,) = (data for (by, *packet), data in self.packets.items() if packet == [link, number] and by != at)
        return node, node.step(card_switch.CS_TAKE, packet, link, number)

    def run(self, text):
        """Runs the lines, and gives the lines that `replay` prints."""
        for number, line in enumerate(text.splitlines(), 1):
            node, outputs = self._step(line)
            yield b"%d %s" % (number, node.name)
            for output in outputs:
                if output.way == card_switch.CS_PUT:
                    self.packets[node.name, output.link, output.number] = output.data
                    yield b"  put %s %d %s" % (node.link_name(output.link), output.number, output.data)
                elif output.way == card_switch.CS_ASK:
                    yield b"  ask %d %s" % (output.number, output.data)
                else:
                    yield b"  %s %s" % (WAYS[output.way], output.data)


def names_of(tables):
    import tomllib  # Of Python 3.11 and later; nothing else here needs it.

    return [node["name"].encode() for node in tomllib.loads(tables.decode())["node"]]


def main():
    if len(sys.argv) != 4:
        print(__doc__, file=sys.stderr)
        return 2
    tables, ranks, script = (Path(path).read_bytes() for path in sys.argv[1:])
    with contextlib.ExitStack() as stack:
        nodes = [stack.enter_context(card_switch.Node(tables, ranks, name)) for name in names_of(tables)]
        for line in Script(nodes).run(script):
            sys.stdout.buffer.write(line + b"\n")
    return 0


if __name__ == "__main__":
    sys.exit(main())
