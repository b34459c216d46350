"""Networks of cases: tables and ranks by rows, each a word for its kind and the values of its columns."""

from texts import RANGE, CaseError, block_text, for_each_number

# The columns of each kind of row, and how a value is written: as a text, as a number, or as a list of all values that are left.
TEXT, NUMBER, REST = "text", "number", "rest"
COLUMNS = {
    "node": (("name", TEXT), ("id", TEXT)),
    "link": (("name", TEXT), ("ends", 2), ("ticks", NUMBER)),
    "acquirer": (("id", TEXT), ("node", TEXT)),
    "issuer": (("name", TEXT), ("prefix", TEXT), ("home", TEXT), ("ceiling", NUMBER), ("named", REST)),
    "route": (("node", TEXT), ("prefix", TEXT), ("links", REST)),
    "stand_in": (("node", TEXT), ("prefix", TEXT), ("day", NUMBER), ("single", NUMBER)),
}
# Where a kind's columns stand in another order in the tables.
WRITTEN = {"issuer": ("name", "prefix", "home", "named", "ceiling")}
SETTINGS = {"currency": "840", "date": "0314", "host_ticks": "100", "advice_ticks": "50"}
KINDS = ("settings", *COLUMNS, "rank")


def quoted(value):
    return f'"{value}"'


def listed(values):
    return "[" + ", ".join(map(quoted, values)) + "]"


def row_text(kind, words):
    """A row of tables, as TOML."""
    lines, left = {}, list(words)
    for column, form in COLUMNS[kind]:
        taken = len(left) if form == REST else form if form == 2 else 1
        if taken > len(left):
            raise CaseError(f"a row '{kind}' without '{column}': {' '.join(words)}")
        values, left = left[:taken], left[taken:]
        lines[column] = listed(values) if form in (REST, 2) else values[0] if form == NUMBER else quoted(values[0])
    if left:
        raise CaseError(f"a row '{kind}' with more than its columns: {' '.join(words)}")
    order = WRITTEN.get(kind, lines)
    return "".join([f"[[{kind}]]\n", *(f"{column} = {lines[column]}\n" for column in order)])


def rows_said(text):
    """The row, or behind `FIRST..LAST` one for each number, which stands in it in place of #."""
    count, _, row = text.partition(" ")
    return for_each_number(count, row) if RANGE.fullmatch(count) else [text]


def settings_text(rows):
    values = dict(SETTINGS)
    for words in rows:
        values.update(zip(words[::2], words[1::2]))
    text = "".join(f"{key} = {values[key] if key.endswith('ticks') else quoted(values[key])}\n" for key in SETTINGS)
    return "[network]\n" + text


class Network:
    """Rows of each kind, or texts of tables and ranks."""

    def __init__(self, rows=None, tables=None, ranks=None):
        self.rows = rows or {kind: [] for kind in KINDS}
        self.text = tables
        self.rank_text = ranks

    def like(self, directives, purchases):
        """The network with the rows of these directives in place of all its rows of those kinds."""
        kinds = {one.word for one in directives if one.word in KINDS}
        rows = {kind: [] if kind in kinds else list(self.rows[kind]) for kind in KINDS}
        tables, ranks = self.text, self.rank_text
        for one in directives:
            if one.word in KINDS:
                rows[one.word].extend(row.split() for row in rows_said(one.rest))
            elif one.word == "tables":
                tables = block_text(one.block, purchases)
            elif one.word == "ranks":
                ranks = block_text(one.block, purchases)
            else:
                raise CaseError(f"no kind of row: {one.word}")
        return Network(rows, tables, ranks)

    def without(self, kind):
        if kind not in KINDS:
            raise CaseError(f"no kind of row: {kind}")
        return Network({**self.rows, kind: []}, self.text, self.rank_text)

    def tables(self):
        if self.text is not None:
            return self.text
        rows = (row_text(kind, words) for kind in COLUMNS for words in self.rows[kind])
        return settings_text(self.rows["settings"]) + "".join(rows)

    def ranks(self):
        if self.rank_text is not None:
            return self.rank_text
        return "".join(["RANKS 1\n", *(" ".join(words) + "\n" for words in self.rows["rank"]), "END\n"])


def all_networks(blocks, purchases):
    """The networks of all files, by their names."""
    networks = {}
    for block in blocks:
        name, like, other = (block.name.split() + ["", "", ""])[:3]
        if name in networks or (like and (like != "like" or other not in networks)):
            raise CaseError(f"{block.path}:{block.line}: a network is 'NAME' or 'NAME like OTHER', with a name of its own and an earlier other one")
        base = networks[other] if like else Network()
        try:
            networks[name] = base.like(block.directives, purchases)
        except CaseError as error:
            raise CaseError(f"{block.path}:{block.line}: {error}") from None
    return networks
