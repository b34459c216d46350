"""Messages of ISO 8583:1987 by the names of purchases: the request that an acquirer enters, its response, advices and reversals.

`purchase NAME FIELD VALUE ..` names one. It has the fields below, each as it stands here where nothing else is said. A message is the name of a
purchase and a form: TYPE is a message type, NODE the id of the node that made the message, CODE a response code, AMOUNT an actual amount."""

import re

from texts import CaseError

FIELDS = {
    "acquirer": "400001",
    "card": "4111111111111111",
    "amount": "000000001000",
    "trace": "000001",
    "date": "0314",
    "currency": "840",
    "reversed_under": "900000",
}
# The time, trace number and acquirer of a reversal.
REVERSING = "0314091600{reversed_under}06{acquirer}"
ORIGINAL = "0100{trace}031409153000000{acquirer}00000000000"
# Each form: the names of its words, and its elements in ascending order. {0} and so on are the words.
FORMS = {
    # The request that an acquirer enters: elements 2, 3, 4, 7, 11, 32 and 49.
    "request": (("TYPE",), "{0}722000010000800016{card}000000{amount}0314091530{trace}06{acquirer}{currency}"),
    # The same with its settlement date, element 15, as a gate puts it.
    "dated_request": (("TYPE",), "{0}722200010000800016{card}000000{amount}0314091530{trace}{date}06{acquirer}{currency}"),
    # The request with the local time, element 12, which no response carries.
    "timed_request": (("TYPE",), "{0}723000010000800016{card}000000{amount}0314091530{trace}09153006{acquirer}{currency}"),
    "timed_dated_request": (("TYPE",), "{0}723200010000800016{card}000000{amount}0314091530{trace}091530{date}06{acquirer}{currency}"),
    # Its response, with element 39.
    "answered": (("CODE",), "0110722200010200800016{card}000000{amount}0314091530{trace}{date}06{acquirer}{0}{currency}"),
    # A node's advice that it approved by itself, or the acknowledgement: with elements 33 and 39.
    "stand_in": (("TYPE", "NODE", "CODE"), "{0}722200018200800016{card}000000{amount}0314091530{trace}{date}06{acquirer}04{1}{2}{currency}"),
    # A node's own reversal, or the acknowledgement: with element 90.
    "own_reversal": (
        ("TYPE", "NODE", "CODE"),
        "{0}F222000182008000000000400000000016{card}000000{amount}0314091530{trace}{date}06{acquirer}04{1}{2}{currency}" + ORIGINAL,
    ),
    # The acquirer's reversal, under a trace number of its own.
    "reversal": (("TYPE",), "{0}F220000100008000000000400000000016{card}000000{amount}" + REVERSING + "{currency}" + ORIGINAL),
    # The same, that leaves an actual amount, with element 95.
    "partial_reversal": (
        ("TYPE", "AMOUNT"),
        "{0}F220000100008000000000420000000016{card}000000{amount}" + REVERSING + "{currency}" + ORIGINAL + "{1}000000000000C00000000C00000000",
    ),
    # The response to it, or the acknowledgement.
    "reversal_response": (("TYPE", "CODE"), "{0}F220000102008000000000400000000016{card}000000{amount}" + REVERSING + "{1}{currency}" + ORIGINAL),
}
BRACES = re.compile(r"\{([a-z][a-z_0-9]*) ([a-z_]+(?: [0-9A-Za-z]+)*)\}")


class Purchases:
    """The purchases that a case names."""

    def __init__(self):
        self.fields = {}

    def add(self, rest):
        name, *pairs = rest.split()
        if name in self.fields:
            raise CaseError(f"a second purchase {name}")
        fields = dict(zip(pairs[::2], pairs[1::2]))
        if len(pairs) % 2 or not set(fields) <= set(FIELDS):
            raise CaseError(f"the fields of a purchase are {', '.join(FIELDS)}, each with a value: {rest}")
        self.fields[name] = {**FIELDS, **fields}

    def message(self, words):
        """The message of a name, a form and the form's words; `text` and words are those words."""
        name, *form = words
        if name == "text":
            return " ".join(form)
        if name not in self.fields:
            raise CaseError(f"no purchase {name}")
        if not form or form[0] not in FORMS or len(form) - 1 != len(FORMS[form[0]][0]):
            raise CaseError(f"no form of a message: {' '.join(form)}")
        return FORMS[form[0]][1].format(*form[1:], **self.fields[name])

    def filled(self, text):
        """The text with the message in place of each {NAME FORM ..} whose name is a purchase's."""

        def meant(match):
            return self.message([match[1], *match[2].split()]) if match[1] in self.fields else match[0]

        return BRACES.sub(meant, text)
