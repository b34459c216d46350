"""Cases of the codec, by cs_message_read and cs_message_write of card_switch.h.

`read MESSAGE` reads one. Behind it stands each of its elements, `element NUMBER VALUE`, in ascending order, with the value as it stands in the message;
or `fault FAULT [ELEMENT]`. `write TYPE` writes one of the elements that stand behind it, `set NUMBER VALUE`; then comes `gives MESSAGE`, or a fault.
FAULT is short, bad_type, bit_map, element, length, character or trailing. `again MESSAGE` reads a message and writes it from what was read:
`gives MESSAGE` says what that is, and where nothing is said it is the same message."""

from purchases import Purchases
from texts import CaseError, CaseFailed, as_bytes, unescaped

FAULTS = {"short": 1, "bad_type": 2, "bit_map": 3, "element": 4, "length": 5, "character": 6, "trailing": 7}
NAMES = {number: name for name, number in FAULTS.items()}
VERBS = ("read", "write", "again")
SAID = ("element", "set", "gives", "fault")


def told_fault(fault):
    """A fault in the words of a case."""
    return f"{NAMES.get(fault[0], fault[0])} {fault[1]}"


class Spoken:
    """A call of the codec, and what the lines behind it say of it."""

    def __init__(self, verb):
        self.verb = verb
        self.said = []

    def texts(self, word):
        return [one.rest for one in self.said if one.word == word]


def calls_of(case):
    calls = []
    for one in case.directives:
        if one.word in VERBS:
            calls.append(Spoken(one))
        elif one.word in SAID and calls:
            calls[-1].said.append(one)
        elif one.word != "purchase":
            raise CaseError(f"'{one.word}' is no word of a message's case")
    return calls


def numbered(texts):
    """Numbers of elements with their values."""
    pairs = [text.partition(" ")[::2] for text in texts]
    return [(int(number), as_bytes(unescaped(value))) for number, value in pairs]


def wanted_fault(call):
    found = call.texts("fault")
    if not found:
        return None
    name, *element = found[0].split()
    return (FAULTS[name], int(element[0]) if element else 0)


def compare_fault(fault, wanted):
    if fault != wanted:
        raise CaseFailed(f"fault {told_fault(fault) if fault else 'none'}, wanted {told_fault(wanted) if wanted else 'none'}")


def do_read(call, library, message):
    fault, elements = library.read_message(message)
    compare_fault(fault, wanted_fault(call))
    wanted = numbered(call.texts("element"))
    found = [(number, message[start : start + length]) for number, start, length in elements]
    if fault is None and found != wanted:
        raise CaseFailed(f"elements {found}\n  wanted {wanted}")


def do_write(call, library, kind):
    fault, written = library.write_message(kind, numbered(call.texts("set")))
    compare_fault(fault, wanted_fault(call))
    gives = call.texts("gives")
    if fault is None and (len(gives) != 1 or as_bytes(unescaped(gives[0])) != written):
        raise CaseFailed(f"written: {written}\n  wanted: {gives}")
    if fault is None and library.read_message(written)[0] is not None:
        raise CaseFailed("what was written isn't read again")


def do_again(call, library, message):
    fault, elements = library.read_message(message)
    compare_fault(fault, None)
    values = [(number, message[start : start + length]) for number, start, length in elements]
    fault, written = library.write_message(message[:4], values)
    compare_fault(fault, None)
    wanted = as_bytes(unescaped(call.texts("gives")[0])) if call.texts("gives") else message
    if written != wanted:
        raise CaseFailed(f"written: {written}\n  wanted: {wanted}")


def run_message_case(case, _networks, library):
    purchases = Purchases()
    for one in case.directives:
        if one.word == "purchase":
            purchases.add(one.rest)
    do = {"read": do_read, "write": do_write, "again": do_again}
    for call in calls_of(case):
        verb = call.verb
        if verb.word != "again" and not call.said:
            raise CaseError(f"line {verb.line}: a call without an outcome")
        try:
            do[verb.word](call, library, as_bytes(unescaped(purchases.filled(verb.rest))))
        except CaseFailed as failed:
            raise CaseFailed(f"line {verb.line}, {verb.word} {verb.rest[:200]}\n{failed}") from None
