"""Inputs of 16,777,216 bytes and of one more, and others that are deep or have many of something."""

import random

import answers
import changes
import full_nodes
import system

MOST = answers.MOST_BYTES


def filled(piece, size):
    return (piece * (size // len(piece) + 1))[:size]


def short_answer(job, status, data, out, err):
    """Of a long output only its length, its beginning and the status are looked at."""
    if len(out) <= 1 << 20:
        return answers.problem_of(job, status, data, out, err)
    if job not in ("decode", "frames") or status not in (0, 2) or err:
        return f"status {status} with {len(out)} bytes"
    return None if out.startswith(b"message 1\n") and out.endswith(b"\n") else "no messages"


def accepted(job, status, data, out, err):
    if len(data) > MOST:
        return answers.problem_of(job, status, data, out, err)
    return None if (status, out, err) == (0, b"accepted\n", b"") else f"status {status}: {out[:60]}"


def deep_tables(size=1 << 20):
    """Tables of about so many bytes, by name, that nest, or have very many keys or very long ones."""
    network = b'[network]\ncurrency = "840"\ndate = "0314"\nhost_ticks = 100\nadvice_ticks = 50\n'
    yield "brackets without an end", b"x = " + b"[" * size
    yield "brackets", b"x = " + b"[" * size + b"]" * size
    yield "inline tables without an end", b"x = " + b"{x = " * (size // 5)
    yield "inline tables", b"x = " + b"{x = " * (size // 8) + b"1" + b"}" * (size // 8)
    yield "a dotted key", b"x" + b".x" * (size // 2) + b" = 1"
    yield "a dotted header", b"[x" + b".x" * (size // 2) + b"]"
    yield "a dotted header of a row", b"[[x" + b".x" * (size // 2) + b"]]"
    yield "a string without an end", b'x = "' + b"a" * size
    yield "a string", b'x = "' + b"a" * size + b'"'
    yield "escapes", b'x = "' + b"\\u0041" * (size // 6) + b'"'
    yield "digits", b"x = " + b"9" * size
    yield "digits behind a point", b"x = 0." + b"9" * size
    yield "digits of an exponent", b"x = 1e" + b"9" * size
    yield "a list", b"x = [" + b"1," * (size // 2) + b"]"
    yield "headers of rows", b"[[node]]\n" * (size // 9)
    yield "rows of nodes", network + b"".join(b'[[node]]\nname = "N%d"\nid = "%d"\n' % (n, n + 1) for n in range(size // 52))
    yield "keys", b"".join(b"k%d = 1\n" % number for number in range(size // 12))
    yield "headers", b"".join(b"[k%d]\n" % number for number in range(size // 10))
    yield "keys of a table", b"".join(b"a.k%d = 1\n" % number for number in range(size // 12))
    yield "keys of a row", network + b"[[node]]\n" + b"".join(b"k%d = 1\n" % number for number in range(size // 12))
    yield "headers below a row", network + b"[[node]]\n" + b"".join(b"[node.k%d]\n" % number for number in range(size // 14))
    yield "a list of rows", network + b"node = [" + b"{}," * (size // 3) + b"]"
    yield "a list of names", network + b"issuer = [{named = [" + b'"A",' * (size // 4) + b"]}]"
    yield "a string of lines", b'x = """' + b"\n" * size + b'"""'
    yield "quotes", b"'" * size
    yield "byte order marks", b"\xef\xbb\xbf" * (size // 3)
    yield "a comment", b"#" + b"x" * size
    yield "comments", b"#x\n" * (size // 3)


def deep_cases():
    for _, tables in deep_tables():
        yield "make", tables, answers.problem_of
        yield "check", tables + b"\n%%\nRANKS 1\nEND\n", answers.problem_of


def many_lines():
    """Scripts, plans and ranks of very many lines."""
    bundle = changes.tables_and_ranks(changes.FIRST) + changes.LINE
    tables = changes.text_of(changes.FIRST / "tables.toml") + changes.LINE
    yield "check", tables + b"RANKS 1\n" + b"A 4 1\n" * 100000, answers.problem_of
    yield "check", tables + b"RANKS 1\n" + b"".join(b"A %d 1\n" % number for number in range(500000)) + b"H 4 0\nEND\n", answers.problem_of
    yield "replay", bundle + b"up AH A\ndown AH A\n" * 400000, answers.problem_of
    yield "replay", bundle + b"enter A " + changes.REQUEST + b"\n" + (b"enter A " + changes.REQUEST + b"\n") * 100000, answers.problem_of
    yield "replay", bundle + b"\n" * 1000000, answers.problem_of
    yield "run", bundle + b"PLAN 1\nturns 100\ntick_every 0\n" + b"session 400001\n" * 100000 + b"END\n", answers.problem_of
    sends = (b"send " + changes.REQUEST + b"\n") * 10000
    yield "run", bundle + b"PLAN 1\nturns 10\ntick_every 1\nsession 400001\n" + sends + b"END\n", answers.problem_of
    yield "run", bundle + b"PLAN 1\nturns 10\ntick_every 1\nsession 400001\n" + sends + b"send x\nEND\n", answers.problem_of


def longest_bundles():
    """The longest input that is read, and one a byte longer."""
    for size in (MOST, MOST + 1):
        yield "check", system.long_bundle(size), accepted


def cases(seed):
    rng = random.Random(seed)
    noise = rng.randbytes(MOST + 1)
    message = changes.REQUEST + b"\n"
    yield from longest_bundles()
    for size in (MOST, MOST + 1):
        for job in ("check", "make", "replay", "run", "decode", "frames"):
            for piece in (b"\x00", b"[", b"%%\n", b"\r\n", b"[[node]]\n", noise):
                yield job, filled(piece, size), short_answer
        yield "decode", filled(message, size), short_answer
        yield "decode", filled(b"\n", size), short_answer
        yield "frames", filled(changes.FRAME, size), short_answer
        yield "frames", filled(b"\x00\x00", size), short_answer
        yield "frames", filled(b"\xff\xff" + b"0" * 65535, size), short_answer
    yield from deep_cases()
    yield from many_lines()
    yield from full_nodes.cases()
