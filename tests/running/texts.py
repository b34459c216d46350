"""Texts of cases: lines as they stand, lines that repeat, bytes, and the messages of purchases."""

import re

ESCAPES = {"n": "\n", "t": "\t", "r": "\r", "\\": "\\", "s": " "}
ESCAPE = re.compile(r"\\(x[0-9A-Fa-f]{2}|.)", re.DOTALL)
RANGE = re.compile(r"([0-9]+)\.\.([0-9]+)")


class CaseError(Exception):
    """A case that can't be read."""


class CaseFailed(Exception):
    """A case that came out otherwise."""


def unescaped(text):
    """The text with \\n, \\t, \\r, \\s (a blank), \\\\ and \\xHH as what they stand for."""

    def meant(match):
        word = match[1]
        if word[0] == "x" and len(word) == 3:
            return chr(int(word[1:], 16))
        if word not in ESCAPES:
            raise CaseError(f"'\\{word}' stands for nothing")
        return ESCAPES[word]

    return ESCAPE.sub(meant, text)


def as_bytes(text):
    """One byte for each character, as \\xHH stands for one."""
    return text.encode("latin-1")


def line_text(text, purchases):
    """The text that a line of a block stands for."""
    mark, rest = text[:1], text[1:].removeprefix(" ")
    if mark == "|":
        return purchases.filled(rest) + "\n"
    if mark == "=":
        return unescaped(purchases.filled(rest))
    if mark == "*":
        return repeated(rest, purchases)
    raise CaseError(f"a line of a text begins with | or = or *: {text}")


def for_each_number(range_text, text):
    """The text for each number of `FIRST..LAST`, which stands in it in place of #. Where FIRST begins with 0, all numbers have as many digits."""
    first, last = RANGE.fullmatch(range_text).groups()
    width = len(first) if first.startswith("0") else 0
    return [text.replace("#", str(number).zfill(width)) for number in range(int(first), int(last) + 1)]


def repeated(text, purchases):
    """`COUNT LINE` is so many lines, `FIRST..LAST LINE` one for each number; `= TEXT` in place of LINE has escapes and no end of a line of its own."""
    count, _, line = text.partition(" ")
    line = purchases.filled(line)
    one = unescaped(line[2:]) if line.startswith("= ") else line + "\n"
    if count.isdigit():
        return one * int(count)
    if RANGE.fullmatch(count) is None:
        raise CaseError(f"no count and text: {text}")
    return "".join(for_each_number(count, one))


def block_text(block, purchases):
    """The text of the lines below a directive."""
    return "".join(line_text(text, purchases) for _, text in block)


def directive_text(directive, purchases):
    """The text of a directive: what stands below it, or the rest of its line; `nothing` is none."""
    if directive.block:
        if directive.rest:
            raise CaseError(f"a text beside '{directive.word}' and one below it, at line {directive.line}")
        return block_text(directive.block, purchases)
    if directive.rest in ("", "nothing"):
        return ""
    return unescaped(purchases.filled(directive.rest)) + "\n"
