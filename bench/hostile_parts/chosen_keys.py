"""Scripts whose keys, identities or cards a hashed table has at one place, so many that they took long once, and such tables and ranks."""

import re
import sys
from functools import partial
from pathlib import Path

sys.path.insert(0, str(Path(__file__).resolve().parents[1]))

import crowded_keys

COUNT = 60000
FIRST_ROUTE = re.compile(r'\[\[route\]\]\nnode = "(\w+)"\nprefix = "(\d+)"\n')


def has_answers(wanted, _job, status, _data, out, err):
    if (status, err) != (0, b""):
        return f"status {status}"
    count = out.count(b"\n  answer ")
    return None if count == wanted else f"{count} answers of {wanted}"


def misses_rank(node, prefix, _job, status, _data, out, err):
    """The first rank that is missing is that of this node at this prefix."""
    wanted = f"refused 1 no rank: node {node} prefix {prefix}\n".encode()
    return None if (status, out, err) == (1, wanted, b"") else f"status {status}, another refusal"


def cases():
    for what in ("keys", "identities", "stored", "cards"):
        yield "replay", crowded_keys.BUNDLES[what]("place", COUNT).encode(), partial(has_answers, COUNT)
    for what in ("ranks", "apart"):
        yield "check", crowded_keys.BUNDLES[what]("place", COUNT).encode(), partial(misses_rank, "A", "4")
    for what, where, count in (("routes", "alike", crowded_keys.MOST_ROUTES), ("rows", "place", COUNT)):
        bundle = crowded_keys.BUNDLES[what](where, count)
        # Each node's routes have their prefixes in order, and the first node's are the first.
        yield "check", bundle.encode(), partial(misses_rank, *FIRST_ROUTE.search(bundle).groups())
