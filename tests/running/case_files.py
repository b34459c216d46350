"""Reads the files of cases: networks, cases, and tables of cases. cases/README.md tells the form.

A file is lines. One that begins at the margin opens a network (`network NAME`, or `network NAME like OTHER`), a case (`case NAME`), a table of
cases (`cases NAME`), or what all later cases of the file begin with (`given`). The lines below it, four blanks in, are its directives: a word,
and the rest of the line. The lines of a text stand eight blanks in, below their directive."""

from dataclasses import dataclass, field
from pathlib import Path

from texts import CaseError, unescaped

MARGIN, INSIDE = 4, 8


@dataclass(frozen=True)
class Directive:
    """A line of a case: its number in the file, its first word, the rest, and the lines of the text below it, none where there is no text."""

    line: int
    word: str
    rest: str = ""
    block: tuple = ()


@dataclass
class Block:
    """What a line at the margin opens, with its directives."""

    path: Path
    line: int
    word: str
    name: str
    directives: list = field(default_factory=list)


@dataclass(frozen=True)
class Case:
    """A case: where it stands, its name, and its directives."""

    path: Path
    line: int
    name: str
    directives: tuple

    @property
    def title(self):
        return f"{self.path.stem}: {self.name}"


def fault(path, line, words):
    return CaseError(f"{path}:{line}: {words}")


def indent_of(text):
    return len(text) - len(text.lstrip(" "))


def blocks_of(path):
    """The blocks of a file, in order."""
    blocks = []
    for number, text in enumerate(path.read_text().split("\n"), 1):
        words = text.strip()
        if not words or words.startswith("#"):
            continue
        indent = indent_of(text)
        if indent == 0:
            word, _, name = words.partition(" ")
            blocks.append(Block(path, number, word, name.strip()))
        elif not blocks:
            raise fault(path, number, "a line before the first that begins at the margin")
        elif indent == MARGIN:
            word, _, rest = words.partition(" ")
            blocks[-1].directives.append(Directive(number, word, rest.strip()))
        elif indent >= INSIDE and blocks[-1].directives:
            last = blocks[-1].directives[-1]
            blocks[-1].directives[-1] = Directive(last.line, last.word, last.rest, (*last.block, (number, text[INSIDE:])))
        else:
            raise fault(path, number, "neither at the margin, nor four or eight blanks in")
    return blocks


def rows_of(block, each):
    """The cases of a table: each line below `each` gives the values of the directives that `each` names."""
    words = [word.strip() for word in each.rest.split("|")]
    common = [one for one in block.directives if one is not each]
    if not each.block:
        raise fault(block.path, each.line, "a table without a case")
    for number, text in each.block:
        cells = [cell.strip() for cell in text.strip().removeprefix("|").split(" | ")]
        if len(cells) != len(words):
            raise fault(block.path, number, f"{len(cells)} values for {len(words)} words")
        given = [Directive(number, word, cell) for word, cell in zip(words, cells)]
        yield Case(block.path, number, block.name, (*common, *given))


def cases_of_block(block, given):
    """The cases of a block, behind what is given for all."""
    if not block.name:
        raise fault(block.path, block.line, "a case without a name")
    if block.word == "case":
        return [Case(block.path, block.line, block.name, (*given, *block.directives))]
    tables = [one for one in block.directives if one.word == "each"]
    if len(tables) != 1:
        raise fault(block.path, block.line, "a table of cases has one line 'each'")
    return [Case(case.path, case.line, case.name, (*given, *case.directives)) for case in rows_of(block, tables[0])]


def read_file(path):
    """The networks and the cases of a file."""
    networks, cases, given = [], [], []
    for block in blocks_of(path):
        if block.word == "network":
            networks.append(block)
        elif block.word == "given":
            given = block.directives
        elif block.word in ("case", "cases"):
            cases.extend(cases_of_block(block, given))
        else:
            raise fault(path, block.line, f"'{block.word}' opens nothing")
    if not networks and not cases:
        raise fault(path, 1, "a file without cases")
    return networks, cases


def read_folder(folder):
    """All networks and all cases of a folder's files, file by file, that of the shared networks first."""
    networks, cases = [], []
    for path in sorted(folder.glob("*.txt"), key=lambda path: (path.name != "networks.txt", path.name)):
        found, some = read_file(path)
        networks.extend(found)
        cases.extend(some)
    titles = {}
    for case in cases:
        first = titles.setdefault(case.title, case)
        if (first.path, first.name) == (case.path, case.name) and first.line != case.line and not shares_table(first, case):
            raise fault(case.path, case.line, f"the name '{case.name}' stands at line {first.line} too")
    return networks, cases


def shares_table(one, other):
    """Whether two cases are lines of one table: they have the same directives at its head."""
    heads = [tuple(directive.line for directive in case.directives if directive.line != case.line) for case in (one, other)]
    return heads[0] == heads[1] and one.directives[-1].line == one.line and other.directives[-1].line == other.line


def unescaped_rest(directive):
    return unescaped(directive.rest)
