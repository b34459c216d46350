#!/usr/bin/env python3
"""Writes bundles of about 1, 4 and 16 MiB for measurements: valid tables, and ranks that fall along every route.

usage: make_bundles.py FOLDER [SEED]

64 nodes stand in a tree whose root is the home of every issuer, with more links towards the root, 256 in all. Each class
is an issuer's prefix or extends one. There are two shapes:

- 1.bundle, 4.bundle, 16.bundle: every node but the home has a route row and a stand-in row for each class;
- many-1.bundle, many-4.bundle, many-16.bundle: many classes with a row at three nodes each, under issuers with a row at
  six, and ranks at the nodes that need one. many-16-refused.bundle lacks a rank of its last class.

The same seed gives the same bytes."""

import random
import sys
from pathlib import Path

NODES = 64
LINKS = 256
ISSUERS = 256
SIZES_MIB = (1, 4, 16)


def node_name(node):
    return f"N{node:02d}"


def link_name(link):
    return f"L{link:03d}"


def make_links(rng):
    """Pairs of a node and one nearer to the root: first the tree, then more."""
    links = [(node, (node - 1) // 3) for node in range(1, NODES)]
    while len(links) < LINKS:
        node = rng.randrange(2, NODES)
        links.append((node, rng.randrange(node)))
    return links


def make_ranks(links):
    """The number of links of the longest walk from each node."""
    ranks = [0] * NODES
    for node in range(1, NODES):
        ranks[node] = 1 + max(ranks[to] for frm, to in links if frm == node)
    return ranks


def heading(links):
    parts = ['[network]\ncurrency = "840"\ndate = "0314"\nhost_ticks = 100\nadvice_ticks = 50\n']
    for node in range(NODES):
        parts.append(f'[[node]]\nname = "{node_name(node)}"\nid = "{100001 + node}"\n')
    for link, (frm, to) in enumerate(links):
        parts.append(
            f'[[link]]\nname = "{link_name(link)}"\nends = ["{node_name(frm)}", "{node_name(to)}"]\nticks = {3 + link % 40}\n'
        )
    for node in range(NODES):
        parts.append(f'[[acquirer]]\nid = "{400001 + node}"\nnode = "{node_name(node)}"\n')
    return "".join(parts)


class Classes:
    """Prefixes, none twice: each fourth that of a new issuer, while there is room, and others extend an issuer's."""

    def __init__(self, rng):
        self.rng = rng
        self.issuers = []
        self.all = set()

    def next(self):
        if len(self.issuers) < ISSUERS and len(self.all) == 4 * len(self.issuers):
            prefix = str(400 + len(self.issuers))
            self.issuers.append(prefix)
        else:
            prefix = self.extension()
        self.all.add(prefix)
        return prefix

    def extension(self):
        while True:
            issuer = self.issuers[self.rng.randrange(len(self.issuers))]
            more = self.rng.randrange(2, 10)
            prefix = issuer + f"{self.rng.randrange(10 ** more):0{more}d}"
            if prefix not in self.all:
                return prefix


def issuer_row(number, prefix, named):
    return (
        f'[[issuer]]\nname = "I{number:03d}"\nprefix = "{prefix}"\nhome = "{node_name(0)}"\n'
        f"named = [{named}]\nceiling = 1000000\n"
    )


def class_rows(rng, prefix, down, ranks):
    """The route rows, the stand-in rows and the ranks of a class."""
    routes, stand_ins = [], []
    for node in range(1, NODES):
        chosen = rng.sample(down[node], min(len(down[node]), rng.randrange(1, 4)))
        names = ", ".join(f'"{link_name(link)}"' for link in chosen)
        routes.append(f'[[route]]\nnode = "{node_name(node)}"\nprefix = "{prefix}"\nlinks = [{names}]\n')
        stand_ins.append(
            f'[[stand_in]]\nnode = "{node_name(node)}"\nprefix = "{prefix}"\n'
            f"day = {rng.randrange(100, 10000)}\nsingle = {rng.randrange(10, 100)}\n"
        )
    lines = [f"{node_name(node)} {prefix} {ranks[node]}\n" for node in range(NODES)]
    return "".join(routes), "".join(stand_ins), "".join(lines)


def make_bundle(size, seed):
    rng = random.Random(seed)
    links = make_links(rng)
    ranks = make_ranks(links)
    down = [[link for link, (frm, _) in enumerate(links) if frm == node] for node in range(NODES)]
    named = ", ".join(f'"{node_name(node)}"' for node in range(1, NODES))
    head = heading(links)
    classes = Classes(rng)
    issuers, routes, stand_ins, lines = [], [], [], []
    used = len(head) + len("%%\nRANKS 1\nEND\n")
    while True:
        prefix = classes.next()
        issuer = issuer_row(len(classes.issuers), prefix, named) if prefix in classes.issuers else ""
        rows = class_rows(rng, prefix, down, ranks)
        used += len(issuer) + sum(len(part) for part in rows)
        if used > size:
            break
        issuers.append(issuer)
        for part, row in zip((routes, stand_ins, lines), rows):
            part.append(row)
    tables = "".join([head, *issuers, *routes, *stand_ins])
    return tables + "%%\nRANKS 1\n" + "".join(lines) + "END\n"


def route_row(node, prefix, chosen):
    names = ", ".join(f'"{link_name(link)}"' for link in chosen)
    return f'[[route]]\nnode = "{node_name(node)}"\nprefix = "{prefix}"\nlinks = [{names}]\n'


def needed_ranks(prefix, rows, links, ranks):
    """A rank for each node with a row in force, and for the other ends of its links."""
    nodes = set(rows)
    for chosen in rows.values():
        nodes.update(links[link][1] for link in chosen)
    return [f"{node_name(node)} {prefix} {ranks[node]}\n" for node in sorted(nodes)]


def make_many(size, seed):
    """The tables, and the lines of ranks of each class."""
    rng = random.Random(seed)
    links = make_links(rng)
    ranks = make_ranks(links)
    down = [[link for link, (frm, _) in enumerate(links) if frm == node] for node in range(NODES)]
    head = heading(links)
    classes = Classes(rng)
    own_rows, issuers, routes, lines = {}, [], [], {}
    used = len(head) + len("%%\nRANKS 1\nEND\n")
    while True:
        prefix = classes.next()
        is_issuer = prefix in classes.issuers
        nodes = rng.sample(range(1, NODES), 6 if is_issuer else 3)
        own = {node: rng.sample(down[node], min(len(down[node]), rng.randrange(1, 3))) for node in nodes}
        text = "".join(route_row(node, prefix, chosen) for node, chosen in own.items())
        issuer = issuer_row(len(classes.issuers), prefix, "") if is_issuer else ""
        begun = [prefix[:n] for n in range(1, len(prefix) + 1) if prefix[:n] in own_rows]
        rows = {}
        for front in begun:
            rows.update(own_rows[front])
        rows.update(own)
        ranks_of = needed_ranks(prefix, rows, links, ranks)
        used += len(issuer) + len(text) + sum(map(len, ranks_of))
        if used > size - size // 50:
            break
        own_rows[prefix] = own
        issuers.append(issuer)
        routes.append(text)
        lines[prefix] = (rows, ranks_of)
    # A class that was made before a class that begins it: its rows in force are those of both, and it needs some more ranks.
    for prefix in lines:
        rows = {}
        for n in range(1, len(prefix) + 1):
            rows.update(own_rows.get(prefix[:n], {}))
        lines[prefix] = needed_ranks(prefix, rows, links, ranks)
    return "".join([head, *issuers, *routes]), lines


def many_bundle(tables, lines):
    return tables + "%%\nRANKS 1\n" + "".join("".join(ranks_of) for ranks_of in lines.values()) + "END\n"


def main():
    folder = Path(sys.argv[1])
    seed = int(sys.argv[2]) if len(sys.argv) > 2 else 1
    folder.mkdir(parents=True, exist_ok=True)
    for size in SIZES_MIB:
        bundle = make_bundle(size * 2**20, seed)
        (folder / f"{size}.bundle").write_text(bundle)
        tables, lines = make_many(size * 2**20, seed)
        (folder / f"many-{size}.bundle").write_text(many_bundle(tables, lines))
    last = max(lines)
    lines[last] = lines[last][:-1]
    (folder / f"many-{size}-refused.bundle").write_text(many_bundle(tables, lines))


if __name__ == "__main__":
    main()
