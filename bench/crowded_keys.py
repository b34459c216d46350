#!/usr/bin/env python3
"""Writes a bundle whose keys a hashed table has where their sender chose, and times `replay` or `check` of such bundles.

usage: crowded_keys.py WHAT WHERE COUNT > BUNDLE
       crowded_keys.py times [PROGRAM [COUNT..]]      (default: ./card_switch, and 50000 120000)

The program's hash has a fixed seed, so whoever chooses keys also chooses their hashes. WHAT is

- keys:       requests, which the acquirer's node refuses, since its link is down; their keys stay known
- identities: reversals, whose identities stay known (at most 65,536, as all that follow)
- stored:     the same, by what the store of advices knows them by
- cards:      requests of different cards that the node approves by itself, within the limit of each card and date
- ranks:      ranks of one node at different prefixes
- apart:      the same, behind two ranks of one prefix that don't stand together, so that a rank is known by its node and its prefix
- routes:     tables of 64 nodes with as many routes each (at most 4,096), of the same prefixes at each node
- rows:       tables of 64 nodes with as many routes together (at most 262,144), each of another prefix

Of the last four `check` refuses the first rank that is missing. WHERE is

- any:    in their order
- place:  the lowest 13 bits of the hashes are alike, so that a table of up to 73,728 keys has one place for all of them
- alike:  the lowest 9 bits are alike, one place for up to 4,608 keys, and the highest 8, by which a search tells keys of one place apart
- near:   the places are the first eighth of 8,192
- spread: the lowest 4 bits are alike, so that the keys share each sixteenth place

The second form prints the least processor seconds of nine runs of other keys and of chosen ones, by turns, with the quotient. It needs cc."""

import functools
import resource
import subprocess
import sys
import tempfile
from pathlib import Path

TOP = Path(__file__).resolve().parent.parent
EXAMPLES = TOP / "examples"
PARTS = TOP / "bench" / "crowded_parts"
MASKS = {"any": 0, "place": 0x1FFF, "alike": 0xFF0001FF, "near": 0x1C00, "spread": 0xF}
ACQUIRER = "400001"
MOST_STORED = 65536
NODES = 64
MOST_ROUTES = 4096


@functools.cache
def found(source, *words):
    """What a program of crowded_parts prints."""
    with tempfile.TemporaryDirectory() as folder:
        program = str(Path(folder) / "found")
        subprocess.run(["cc", "-O2", "-o", program, str(PARTS / source)], check=True)
        done = subprocess.run([program, *map(str, words)], check=True, stdout=subprocess.PIPE, text=True)
    return [line.split() for line in done.stdout.splitlines()]


def keys(where, count, of):
    """Pairs of a trace and a time."""
    return found("keys.c", ACQUIRER.zfill(11), count, MASKS[where], 0, of)


def network(example):
    folder = EXAMPLES / example
    return (folder / "tables.toml").read_text() + "%%\n" + (folder / "ranks.txt").read_text() + "%%\n"


def request(card, amount, trace, time):
    return f"enter A 0100722000010000800016{card}000000{amount:012d}{time}{trace}06{ACQUIRER}840\n"


def reversal(trace, time):
    original = f"0100{trace}{time}{ACQUIRER.zfill(11)}{0:011d}"
    return f"enter A 0400F2200001000080000000004000000000164111111111111111000000000000001000{time}{trace}06{ACQUIRER}840{original}\n"


def keys_bundle(where, count):
    lines = [request("4111111111111111", 1000, *key) for key in keys(where, count, 0)]
    return network("first") + "down AH A\n" + "".join(lines)


def reversals_bundle(where, count, of):
    return network("first") + "down AH A\n" + "".join(reversal(*key) for key in keys(where, count, of))


def cards_bundle(where, count):
    cards = found("cards.c", "0314", count, MASKS[where], 0)
    lines = [request(card, 1, f"{number:06d}", "0314091530") for number, (card,) in enumerate(cards)]
    return network("link_fails") + "down AP A\ndown AQ A\n" + "".join(lines)


def prefixes(where, count, *front):
    return [prefix for (prefix,) in found("prefixes.c", count, MASKS[where], 0, *front)]


def ranks_bundle(where, count, *front, first=""):
    lines = [f"A {prefix} 1\n" for prefix in prefixes(where, count, *front)]
    return (EXAMPLES / "first" / "tables.toml").read_text() + "%%\nRANKS 1\n" + first + "".join(lines) + "END\n"


def apart_bundle(where, count):
    return ranks_bundle(where, count, "A", first="A 5 1\nA 6 1\nH 5 0\n")


def star(prefixes_of):
    """A network of nodes about the issuer's, the last, and the routes of each, but no ranks."""
    names = [f"N{number}" for number in range(10, 10 + NODES)]
    home = names[-1]
    # The home's routes take the first link.
    links = [*names[:-1], names[0]]
    head = '[network]\ncurrency = "840"\ndate = "0314"\nhost_ticks = 3\nadvice_ticks = 5\n'
    nodes = [f'[[node]]\nname = "{name}"\nid = "{number + 1}"\n' for number, name in enumerate(names)]
    spokes = [f'[[link]]\nname = "{name}"\nends = ["{name}", "{home}"]\nticks = 4\n' for name in names[:-1]]
    issuer = f'[[issuer]]\nname = "I"\nprefix = "4"\nhome = "{home}"\nnamed = []\nceiling = 0\n'
    routes = [
        f'[[route]]\nnode = "{name}"\nprefix = "{prefix}"\nlinks = ["{link}"]\n'
        for name, link, own in zip(names, links, prefixes_of)
        for prefix in own
    ]
    return head + "".join(nodes + spokes) + issuer + "".join(routes) + "%%\nRANKS 1\nEND\n"


def routes_bundle(where, count):
    return star([prefixes(where, count)] * NODES)


def rows_bundle(where, count):
    found_prefixes = prefixes(where, count)
    return star([found_prefixes[node::NODES] for node in range(NODES)])


BUNDLES = {
    "keys": keys_bundle,
    "identities": lambda where, count: reversals_bundle(where, count, 1),
    "stored": lambda where, count: reversals_bundle(where, count, 2),
    "cards": cards_bundle,
    "ranks": ranks_bundle,
    "apart": apart_bundle,
    "routes": routes_bundle,
    "rows": rows_bundle,
}
CHECKED = ("ranks", "apart", "routes", "rows")
MOST = {"identities": MOST_STORED, "stored": MOST_STORED, "cards": MOST_STORED, "routes": MOST_ROUTES, "rows": NODES * MOST_ROUTES}


def processor_seconds(program, what, path):
    before = resource.getrusage(resource.RUSAGE_CHILDREN)
    with open(path, "rb") as given:
        subprocess.run([program, "check" if what in CHECKED else "replay"], stdin=given, stdout=subprocess.DEVNULL, check=False)
    after = resource.getrusage(resource.RUSAGE_CHILDREN)
    return after.ru_utime + after.ru_stime - before.ru_utime - before.ru_stime


def least_seconds(program, what, where, count, folder):
    """Of as many keys in their order, and of the chosen ones."""
    paths = []
    for kind in ("any", where):
        path = Path(folder) / kind
        path.write_text(BUNDLES[what](kind, count))
        paths.append(path)
    runs = [[processor_seconds(program, what, path) for path in paths] for _ in range(9)]
    return [min(seconds) for seconds in zip(*runs)]


def print_times(program, counts):
    with tempfile.TemporaryDirectory() as folder:
        for what in BUNDLES:
            for count in sorted({min(count, MOST.get(what, count)) for count in counts}):
                wheres = ("place", "near", "spread") if what != "routes" else ("place", "alike", "near", "spread")
                for where in wheres:
                    plain, chosen = least_seconds(program, what, where, count, folder)
                    print(f"{what:<10} {count:>7} {where:<6} {plain:8.3f} s {chosen:8.3f} s {chosen / plain:6.2f}", flush=True)


def main():
    words = sys.argv[1:]
    if words[:1] == ["times"] and all(word.isdigit() for word in words[2:]):
        program = str(Path(words[1]).resolve()) if len(words) > 1 else str(TOP / "card_switch")
        print_times(program, list(map(int, words[2:])) or [50000, 120000])
    elif len(words) == 3 and words[0] in BUNDLES and words[1] in MASKS and words[2].isdigit():
        sys.stdout.write(BUNDLES[words[0]](words[1], int(words[2])))
    else:
        raise SystemExit(__doc__.strip())


if __name__ == "__main__":
    main()
