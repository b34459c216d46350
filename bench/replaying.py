#!/usr/bin/env python3
"""Measures `replay` on scripts of 1, 4 and 16 MiB, or of other sizes.

usage: replaying.py [PROG [MIB..]]      (default: ./card_switch, at the top of the repository, and 1 4 16)

Three kinds of script: on two nodes requests that are answered one after another, and the same with 30,000 requests pending
besides; and at each of four acquirers in turn requests whose link goes down while they are under way, with their reversals and
acknowledgements. Four, since a node's history is full after 1,000,000 entries. A line of the table has the bytes and lines of the
script, the seconds, lines a second, the most memory by bytes of input, and the same without what the program has for an empty script:
its own code and libraries, and tables.
"""
import os
import sys
import tempfile

sys.dont_write_bytecode = True

import measuring

TOP = os.path.dirname(os.path.dirname(os.path.abspath(__file__)))
MIB = 1 << 20


ACQUIRERS = "ABCD"


def part(name):
    with open(os.path.join(TOP, "examples", "first", name), encoding="ascii") as file:
        return file.read()


def two_nodes():
    """The tables and ranks of one acquirer and one host."""
    return part("tables.toml") + "%%\n" + part("ranks.txt") + "%%\n"


def four_acquirers():
    """The same tables with four acquirers instead of one, and their ranks."""
    lines = ['[network]', 'currency = "840"', 'date = "0314"', 'host_ticks = 100', 'advice_ticks = 50']
    for place, node in enumerate(ACQUIRERS + "H"):
        lines += ['[[node]]', 'name = "%s"' % node, 'id = "%d"' % (1001 + place)]
    for node in ACQUIRERS:
        lines += ['[[link]]', 'name = "%sH"' % node, 'ends = ["%s", "H"]' % node, 'ticks = 3']
    for node in ACQUIRERS:
        lines += ['[[acquirer]]', 'id = "%s"' % acquirer(node), 'node = "%s"' % node]
    lines += ['[[issuer]]', 'name = "I"', 'prefix = "4"', 'home = "H"', 'named = []', 'ceiling = 0']
    for node in ACQUIRERS:
        lines += ['[[route]]', 'node = "%s"' % node, 'prefix = "4"', 'links = ["%sH"]' % node]
    ranks = ["RANKS 1"] + ["%s 4 1" % node for node in ACQUIRERS] + ["H 4 0", "END"]
    return "\n".join(lines + ["%%"] + ranks + ["%%"]) + "\n"


def acquirer(node):
    """The acquirer's number (element 32) at a node."""
    return "%d" % (400001 + ACQUIRERS.index(node))


def request(number, node="A"):
    trace = (number // 1000000, number % 1000000)
    return "enter %s 0100722000010000800016411111111111111100000000000000100003140915%02d%06d06%s840" % ((node,) + trace + (acquirer(node),))


def answered(number, serials):
    """A request to the host and back: four lines."""
    put = serials.put("A", "AH")
    ask = serials.put("H", "asks")
    return [request(number), "take AH H %d" % put, "host H %d 00" % ask, "take AH A %d" % serials.put("H", "AH")]


def failed(number, serials):
    """A request whose link goes down, and its reversal, which is acknowledged."""
    node = ACQUIRERS[number % len(ACQUIRERS)]
    link = node + "H"
    serials.put(node, link)
    lines = [request(number, node), "down %s %s" % (link, node), "up %s %s" % (link, node)]
    # The reversal is stored while the link is down, and goes out when it is due, fifty ticks later.
    lines += ["tick " + node] * 50
    lines += ["take %s H %d" % (link, serials.put(node, link))]
    return lines + ["take %s %s %d" % (link, node, serials.put("H", link))]


class Serials:
    """The serials that each node counts on each link, and its asks."""

    def __init__(self):
        self.counts = {}

    def put(self, node, what):
        """The next one."""
        self.counts[node, what] = self.counts.get((node, what), 0) + 1
        return self.counts[node, what]


def script(kind, size):
    serials = Serials()
    lines, length, number = [], 0, 0
    if kind == "pending":
        for number in range(1, 30001):
            if length > size // 2:
                break
            serials.put("A", "AH")
            lines.append(request(number))
            length += len(lines[-1]) + 1
    cycle = failed if kind == "failing" else answered
    while length < size:
        number += 1
        added = cycle(number, serials)
        lines += added
        length += sum(len(line) + 1 for line in added)
    return "\n".join(lines) + "\n", len(lines)


def of_text(program, text, pause=0.001):
    """Seconds, the most memory and the status of a run of a script."""
    with tempfile.NamedTemporaryFile("w", encoding="ascii") as file:
        file.write(text)
        file.flush()
        return measuring.measured([program, "replay"], file.name, pause)


def main():
    program = os.path.abspath(sys.argv[1]) if sys.argv[1:] else os.path.join(TOP, "card_switch")
    sizes = [int(word) for word in sys.argv[2:]] or [1, 4, 16]
    for kind in ("answered", "pending", "failing"):
        front = four_acquirers() if kind == "failing" else two_nodes()
        # Such a run takes some milliseconds, so few of them are seen shortly before their end.
        empty = max(of_text(program, front, 0)[1] for _ in range(100))
        for size in sizes:
            text, lines = script(kind, size * MIB - len(front) - 4096)
            seconds, memory, status = of_text(program, front + text)
            note = "" if status == 0 else "  status %d" % status
            print("%-9s %8d bytes %7d lines %7.2f s %9d lines/s %5.1f times the input %5.1f without its own%s" % (kind, len(text), lines, seconds, lines / seconds, memory / len(text), (memory - empty) / len(text), note), flush=True)


if __name__ == "__main__":
    main()
