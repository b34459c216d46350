"""Cases of a program: what it is run with, what it reads, what it prints, and its status."""

import difflib
import subprocess

from networks import KINDS
from purchases import Purchases
from texts import CaseError, CaseFailed, as_bytes, block_text, directive_text, unescaped

SECONDS = 120
PARTS = ("tables", "ranks", "script", "plan", "part")
SHOWN = 20


def network_of(case, networks, purchases):
    """The network that a case names, with the rows that it has otherwise; none where it names none."""
    names = [one.rest for one in case.directives if one.word == "network"]
    if not names:
        return None
    if names[-1] not in networks:
        raise CaseError(f"no network {names[-1]}")
    network = networks[names[-1]]
    for one in case.directives:
        if one.word == "without":
            network = network.without(one.rest)
    rows = [type(one)(one.line, *one.rest.partition(" ")[::2]) for one in case.directives if one.word == "with"]
    if any(row.word not in KINDS for row in rows):
        raise CaseError(f"'with' is followed by a row: {', '.join(KINDS)}")
    return network.like(rows, purchases)


def own_text(case, word, purchases):
    """The text that a case has below a directive; none where it doesn't have that."""
    found = [one for one in case.directives if one.word == word]
    if len(found) > 1:
        raise CaseError(f"'{word}' stands twice")
    return directive_text(found[0], purchases) if found else None


def in_two_places(tables, rows):
    """Tables with further rows: behind all others, and right behind the settings."""
    if not rows:
        return [tables]
    front, mark, back = tables.partition("[[")
    return [tables + rows, front + rows + mark + back]


def all_tables(case, network, purchases):
    """The tables of the case: none, one text, or with `further` rows two."""
    tables = own_text(case, "tables", purchases)
    if tables is None and network is not None:
        tables = network.tables()
    rows = "".join(directive_text(one, purchases) for one in case.directives if one.word == "further")
    return [] if tables is None else in_two_places(tables, rows)


def parts_of(case, network, tables, purchases, job):
    """The parts of the input, in order: tables and ranks, of a network where the case doesn't give them, and then its script, plan and other parts."""
    ranks = own_text(case, "ranks", purchases)
    parts = [] if tables is None else [tables]
    if ranks is not None or (network is not None and job != "make"):
        parts.append(ranks if ranks is not None else network.ranks())
    for one in case.directives:
        if one.word in ("script", "plan", "part"):
            parts.append(directive_text(one, purchases))
    return parts


def changed(case, text):
    """The input with each piece that `change` names replaced, once, by what `to` says."""
    pieces = [unescaped(one.rest) for one in case.directives if one.word == "change"]
    others = [unescaped(one.rest) for one in case.directives if one.word == "to"]
    if len(pieces) != len(others):
        raise CaseError("'change' and 'to' come in pairs")
    for old, new in zip(pieces, others):
        if not old or old not in text:
            raise CaseError(f"the input has no piece {old!r}")
        text = text.replace(old, new, 1)
    return text


def input_of(case, parts, purchases):
    whole = own_text(case, "input", purchases)
    if whole is not None and parts:
        raise CaseError("a whole input and parts of one")
    text = whole if whole is not None else "%%\n".join(parts)
    if any(one.word == "carriage_returns" for one in case.directives):
        text = text.replace("\n", "\r\n")
    return as_bytes(changed(case, text))


def inputs_of(case, networks, purchases, job):
    """The inputs with which the case is run: one, two with `further` rows, and each as many times as `times` says."""
    network = network_of(case, networks, purchases)
    tables = all_tables(case, network, purchases) or [None]
    inputs = [input_of(case, parts_of(case, network, one, purchases, job), purchases) for one in tables]
    return inputs * int(last_said(case, "times") or 1)


def difference(wanted, printed):
    """The lines in which two texts differ."""
    lines = [text.decode("latin-1").split("\n") for text in (wanted, printed)]
    shown = list(difflib.unified_diff(*lines, "wanted", "printed", lineterm="", n=1))
    return "\n".join(line[:300] for line in shown[:SHOWN])


def last_said(case, word):
    """What stands behind a word where the case says it last: what is given for a whole file comes first."""
    return next((one.rest for one in reversed(case.directives) if one.word == word), None)


INPUT_WORDS = {"network", "with", "without", "further", "change", "to", "carriage_returns", "input", "purchase", "times", *PARTS}
WORDS = {"run", *INPUT_WORDS, "prints", "or", "has", "lacks", "status", "complains"}


def wanted_texts(case, purchases):
    """What may be printed: the text of `prints`, and of each `or`."""
    return [as_bytes(directive_text(one, purchases)) for one in case.directives if one.word in ("prints", "or")]


def compare(case, purchases, status, printed, complained):
    """Fails where the status, what was printed, or what stands on standard error is another."""
    wanted = wanted_texts(case, purchases)
    pieces = [as_bytes(unescaped(one.rest)) for one in case.directives if one.word == "has"]
    absent = [as_bytes(unescaped(one.rest)) for one in case.directives if one.word == "lacks"]
    if not wanted and not pieces:
        raise CaseError("a case without 'prints' or 'has'")
    if wanted and printed not in wanted:
        raise CaseFailed(difference(wanted[0], printed))
    for piece in pieces:
        if piece not in printed:
            raise CaseFailed(f"not printed: {piece.decode('latin-1')}")
    for piece in absent:
        if piece in printed:
            raise CaseFailed(f"printed: {piece.decode('latin-1')}")
    wanted_status = int(last_said(case, "status") or 0)
    if status != wanted_status:
        raise CaseFailed(f"status {status} for {wanted_status}")
    complains = [unescaped(one.rest) for one in case.directives if one.word == "complains"]
    if bool(complained) != bool(complains):
        raise CaseFailed(f"on standard error: {complained.decode('latin-1')[:300]!r}")
    for words in complains:
        if words.encode() not in complained:
            raise CaseFailed(f"not on standard error: {words}")


class Programs:
    """The programs of a release."""

    def __init__(self, folder):
        self.folder = folder

    def run(self, name, arguments, data):
        try:
            done = subprocess.run([self.folder / name, *arguments], input=data, capture_output=True, timeout=SECONDS, check=False)
        except subprocess.TimeoutExpired:
            raise CaseFailed(f"no end after {SECONDS} seconds") from None
        return done.returncode, done.stdout, done.stderr


def checked_ranks(programs, tables):
    """What `check` says of tables with the ranks that `make` makes for them, or what `make` says where it makes none."""
    status, made, complained = programs.run("card_switch", ["make"], tables)
    return programs.run("card_switch", ["check"], tables + b"%%\n" + made) if status == 0 else (status, made, complained)


def run_program_case(case, networks, programs):
    """Runs a case of a program. `run made_ranks` has `card_switch make` make ranks for tables, and `card_switch check` check them."""
    purchases = Purchases()
    for one in case.directives:
        if one.word not in WORDS:
            raise CaseError(f"'{one.word}' is no word of a program's case")
        if one.word == "purchase":
            purchases.add(one.rest)
    name, *arguments = [unescaped(word) for word in last_said(case, "run").split()]
    job = "make" if name == "made_ranks" else arguments[0] if arguments else ""
    for data in inputs_of(case, networks, purchases, job):
        if name == "made_ranks":
            compare(case, purchases, *checked_ranks(programs, data))
        else:
            compare(case, purchases, *programs.run(name, arguments, data))
