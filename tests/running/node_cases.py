"""Cases of a node: what comes to it, and what it puts out, step by step, by the functions of card_switch.h.

`network NAME` and `node NAME` say which node. An input is `enter MESSAGE`, `take LINK SERIAL MESSAGE`, `link_down LINK`, `link_up LINK`, `ticks COUNT`,
`host ASK CODE`, `date DATE` or `lend NODE CARD DATE AMOUNT`; all ticks of a line but the last put nothing out. Behind an input stands each of its
outputs, in order: `put LINK SERIAL MESSAGE`, `answer MESSAGE`, `ask NUMBER MESSAGE` or `post MESSAGE`. Or `refused FAULT`: then the input has no
outputs, and changed nothing. Or `unknown`: no input of this node. purchases.py says what a MESSAGE is.

Each node has a twin, to which comes what the node doesn't refuse, and which has to put out the same: so what is refused leaves no trace."""

import sys
from pathlib import Path

from program_cases import network_of
from purchases import Purchases
from texts import CaseError, CaseFailed, as_bytes, unescaped

sys.path.insert(0, str(Path(__file__).resolve().parent.parent.parent / "python"))
import card_switch as embedded

# Each fault of a step by its word: its number in card_switch.h.
REFUSALS = {
    "foreign_acquirer": 2,
    "type_not_for_gate": 4,
    "unknown_ask": 5,
    "replacement": 6,
    "history_full": 7,
    "no_place": 9,
    "not_lent": 10,
}
MESSAGE_FAULTS = {"short": 1, "bad_type": 2, "bit_map": 3, "element": 4, "length": 5, "character": 6, "trailing": 7}
WAYS = {"put": embedded.CS_PUT, "answer": embedded.CS_ANSWER, "ask": embedded.CS_ASK, "post": embedded.CS_POST}
ASIDE = ("network", "with", "without", "node", "purchase")


class Stepped:
    """A node, its twin, and what the last input gave that no line has spoken of yet."""

    def __init__(self, node, twin, name):
        self.node, self.twin, self.name = node, twin, name
        self.outputs, self.fault = [], None

    def left_over(self):
        return bool(self.outputs) or self.fault is not None

    def give(self, kind, data=b"", link=0, number=0):
        if self.left_over():
            raise CaseFailed(f"left over: {self.outputs or self.fault}")
        try:
            self.outputs = self.node.step(kind, data, link, number)
        except embedded.NodeFault as fault:
            self.fault = fault.args
            return
        if self.twin.step(kind, data, link, number) != self.outputs:
            raise CaseFailed("the twin, to which no refused input came, puts out something else")

    def link(self, name):
        return self.node.link(name.encode())


def message_bytes(words, purchases):
    return as_bytes(unescaped(purchases.message(words))) if words else b""


def give_input(stepped, word, words, purchases):
    """Gives the node the input of a line. Returns false where the line says none."""
    if word == "enter":
        stepped.give(embedded.CS_ENTER, message_bytes(words, purchases))
    elif word == "take":
        stepped.give(embedded.CS_TAKE, message_bytes(words[2:], purchases), stepped.link(words[0]), int(words[1]))
    elif word in ("link_up", "link_down"):
        stepped.give(embedded.CS_LINK_UP if word == "link_up" else embedded.CS_LINK_DOWN, link=stepped.link(words[0]))
    elif word == "ticks":
        for _ in range(int(words[0])):
            stepped.give(embedded.CS_TICK)
    elif word == "host":
        stepped.give(embedded.CS_HOST_ANSWER, unescaped(words[1]).encode("latin-1"), number=int(words[0]))
    elif word == "date":
        stepped.give(embedded.CS_NEW_DATE, words[0].encode())
    elif word == "lend":
        stepped.give(embedded.CS_LEND, " ".join([stepped.name, *words]).encode())
    elif word == "kind":
        stepped.give(int(words[0]), message_bytes(words[1:], purchases))
    else:
        return False
    return True


def wanted_fault(words):
    """What a step tells of a refusal: its number, that of the message's fault, and that of the element."""
    if words[0] == "decode":
        return (1, MESSAGE_FAULTS[words[1]], int(words[2]) if len(words) > 2 else 0)
    if words[0] == "missing":
        return (3, 0, int(words[1]))
    return (REFUSALS[words[0]], 0, 0)


def check_refused(stepped, words):
    wanted = (embedded.CS_REFUSED, *wanted_fault(words))
    if stepped.fault != wanted:
        raise CaseFailed(f"refused as {stepped.fault} for {wanted}" if stepped.fault else "not refused")
    stepped.fault = None


def check_unknown(stepped):
    if stepped.fault != (embedded.CS_UNKNOWN, 0, 0, 0):
        raise CaseFailed(f"known: {stepped.fault or stepped.outputs}")
    stepped.fault = None


def check_output(stepped, word, words, purchases):
    if stepped.fault is not None:
        raise CaseFailed(f"refused: {stepped.fault}")
    if not stepped.outputs:
        raise CaseFailed("nothing more is put out")
    link = stepped.link(words[0]) if word == "put" else 0
    number = int(words[1] if word == "put" else words[0]) if word in ("put", "ask") else 0
    message = words[{"put": 2, "ask": 1}.get(word, 0) :]
    found, wanted = tuple(stepped.outputs.pop(0)), (WAYS[word], link, number, message_bytes(message, purchases))
    if found != wanted:
        raise CaseFailed(f"put out: {found}\n  wanted: {wanted}")


def do_line(stepped, directive, purchases):
    words = directive.rest.split()
    if give_input(stepped, directive.word, words, purchases):
        return
    if directive.word == "refused":
        check_refused(stepped, words)
    elif directive.word == "unknown":
        check_unknown(stepped)
    elif directive.word in WAYS:
        check_output(stepped, directive.word, words, purchases)
    else:
        raise CaseError(f"'{directive.word}' is no word of a node's case")


def run_lines(case, stepped, purchases):
    """Does the lines of a case, and fails at the first that comes out otherwise, with its number."""
    lines = [one for one in case.directives if one.word not in ASIDE]
    if not any(one.word in (*WAYS, "refused", "unknown") for one in lines) and not any(one.word == "ticks" for one in lines):
        raise CaseError("a case that names no output")
    for directive in lines:
        try:
            do_line(stepped, directive, purchases)
        except (IndexError, KeyError, ValueError):
            raise CaseError(f"line {directive.line} can't be read: {directive.word} {directive.rest}") from None
        except CaseFailed as failed:
            raise CaseFailed(f"line {directive.line}, {directive.word} {directive.rest}\n{failed}") from None
    if stepped.left_over():
        raise CaseFailed(f"left over at the end: {stepped.outputs or stepped.fault}")


def run_node_case(case, networks, library):
    purchases = Purchases()
    for one in case.directives:
        if one.word == "purchase":
            purchases.add(one.rest)
    network = network_of(case, networks, purchases)
    name = next(one.rest for one in case.directives if one.word == "node")
    texts = (network.tables().encode(), network.ranks().encode(), name.encode())
    with embedded.Node(*texts, library) as node, embedded.Node(*texts, library) as twin:
        run_lines(case, Stepped(node, twin, name), purchases)
