"""Networks of stars and plans for them, as the parts of a bundle.

A star is a hub and its leaves; the hubs of all stars stand around the first one. Each hub is the home of an issuer of its own, to which
every other node routes. Each node has four acquirers, and the issuers let each other node approve a little by itself."""

DATE = "0314"
ACQUIRERS = 4
DAY = 5000
SINGLE = 2000
AMOUNT = 1000
# The host of each home approves up to this amount: each tenth request is above it.
LIMIT = 1500


def luhn(front):
    """The card number with its check digit."""
    total = 0
    for place, digit in enumerate(reversed(front)):
        value = int(digit) * (2 if place % 2 == 0 else 1)
        total += value - 9 if value > 9 else value
    return front + str(-total % 10)


class Network:
    """So many stars of so many nodes each."""

    def __init__(self, stars, size):
        self.stars, self.size = stars, size
        self.nodes = stars * size
        self.links = [(leaf, self.hub(leaf)) for leaf in range(self.nodes) if leaf != self.hub(leaf)]
        self.links += [(self.hub_of(star), 0) for star in range(1, stars)]

    def hub_of(self, star):
        return star * self.size

    def hub(self, node):
        return node - node % self.size

    def prefix(self, star):
        return f"4{star}"

    def card(self, star, number):
        return luhn(f"{self.prefix(star)}{number:013d}")

    def next_node(self, node, home):
        """The node to which a node sends what is for a home, and how many links are left from it."""
        if node != self.hub(node):
            return self.hub(node), self.distance(node, home)
        return (0 if node else home), self.distance(node, home)

    def distance(self, node, home):
        if node == home:
            return 0
        if node != self.hub(node):
            return 1 + self.distance(self.hub(node), home)
        return 1 if 0 in (node, home) else 2

    def link_name(self, node, other):
        for place, (low, high) in enumerate(self.links):
            if (low, high) in ((node, other), (other, node)):
                return f"L{place}"
        raise ValueError("no link")

    def tables(self, ticks):
        rows = [f'[network]\ncurrency = "840"\ndate = "{DATE}"\nhost_ticks = 100\nadvice_ticks = 50\n']
        rows += [f'[[node]]\nname = "N{node}"\nid = "{1001 + node}"\n' for node in range(self.nodes)]
        rows += [
            f'[[link]]\nname = "L{place}"\nends = ["N{low}", "N{high}"]\nticks = {ticks}\n'
            for place, (low, high) in enumerate(self.links)
        ]
        rows += [f'[[acquirer]]\nid = "{acquirer}"\nnode = "N{node}"\n' for acquirer, node in self.acquirers()]
        for star in range(self.stars):
            rows += self.issuer(star)
        return "".join(rows)

    def issuer(self, star):
        home, prefix = self.hub_of(star), self.prefix(star)
        others = [node for node in range(self.nodes) if node != home]
        named = ", ".join(f'"N{node}"' for node in others)
        yield (
            f'[[issuer]]\nname = "I{star}"\nprefix = "{prefix}"\nhome = "N{home}"\nnamed = [{named}]\n'
            f"ceiling = {DAY * len(others)}\n"
        )
        for node in others:
            link = self.link_name(node, self.next_node(node, home)[0])
            yield f'[[route]]\nnode = "N{node}"\nprefix = "{prefix}"\nlinks = ["{link}"]\n'
            yield f'[[stand_in]]\nnode = "N{node}"\nprefix = "{prefix}"\nday = {DAY}\nsingle = {SINGLE}\n'

    def ranks(self):
        lines = [
            f"N{node} {self.prefix(star)} {self.distance(node, self.hub_of(star))}\n"
            for star in range(self.stars)
            for node in range(self.nodes)
        ]
        return "RANKS 1\n" + "".join(lines) + "END\n"

    def acquirers(self):
        return [(400001 + ACQUIRERS * node + k, node) for node in range(self.nodes) for k in range(ACQUIRERS)]


def request(card, amount, trace, acquirer):
    return f"01007220000100008000{len(card)}{card}000000{amount:012d}{DATE}091530{trace:06d}06{acquirer}840"


def plan(network, rng, turns, tick_every, faults, messages, sessions=None):
    """Sessions of all acquirers, or of the last ones, with so many requests each, for cards of all issuers."""
    lines = ["PLAN 1", f"turns {turns}", f"tick_every {tick_every}"]
    lines += [f"host N{network.hub_of(star)} {LIMIT}" for star in range(network.stars)]
    lines += faults
    acquirers = network.acquirers()
    for acquirer, _ in acquirers if sessions is None else acquirers[-sessions:]:
        lines.append(f"session {acquirer}")
        for trace in range(1, messages + 1):
            card = network.card(rng.randrange(network.stars), rng.randrange(1000))
            amount = AMOUNT * (2 if rng.randrange(10) == 0 else 1)
            lines.append("send " + request(card, amount, trace, acquirer))
    return "\n".join(lines) + "\nEND\n"


def bad_links(network, rng):
    """Loss, delay and repetition on each link."""
    lines = []
    for place in range(len(network.links)):
        lines.append(f"lose L{place} {rng.randrange(20, 60)}")
        lines.append(f"delay L{place} {rng.randrange(5, 30)} {rng.randrange(1, 40)}")
        lines.append(f"repeat L{place} {rng.randrange(2, 20)}")
    return lines


def bundle(network, ticks, plan_text):
    return network.tables(ticks) + "%%\n" + network.ranks() + "%%\n" + plan_text
