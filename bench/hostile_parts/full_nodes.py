"""Scripts that fill a node, or give one step tens of thousands of outputs. The whole of what they print is worked out from the rules."""

from functools import partial

import changes

FAILS = changes.EXAMPLES / "link_fails"
SHARED = changes.EXAMPLES / "shared_limits"

# A stored advice takes one place of a node, a pending request two.
PLACES = 65536
MOST_ENTRIES = 1000000

CARD = b"164111111111111111000000"
REQUEST_TIME = b"0314091530"
REVERSAL_TIME = b"0314091600"
ACQUIRER = b"06400001"


def trace(number):
    return b"%06d" % number


def enter(message):
    return b"enter A " + message


def put(link, serial, message):
    return b"put %s %d %s" % (link, serial, message)


def answer(message):
    return b"answer " + message


def original(number):
    return b"0100" + trace(number) + REQUEST_TIME + b"0000040000100000000000"


def request(number, amount):
    return b"01007220000100008000" + CARD + amount + REQUEST_TIME + trace(number) + ACQUIRER + b"840"


def forwarded(number, amount):
    return b"01007222000100008000" + CARD + amount + REQUEST_TIME + trace(number) + b"0314" + ACQUIRER + b"840"


def answered(number, amount, code):
    return b"01107222000102008000" + CARD + amount + REQUEST_TIME + trace(number) + b"0314" + ACQUIRER + code + b"840"


def own_reversal(number, amount):
    front = b"0420F2220001820080000000004000000000" + CARD + amount + REQUEST_TIME + trace(number)
    return front + b"0314" + ACQUIRER + b"04100168840" + original(number)


def own_approval(number, amount):
    front = b"01207222000182008000" + CARD + amount + REQUEST_TIME + trace(number)
    return front + b"0314" + ACQUIRER + b"04100100840"


def reversal(kind, number, amount):
    front = kind + b"F2200001000080000000004000000000" + CARD + amount + REVERSAL_TIME + trace(number)
    return front + ACQUIRER + b"840" + original(number)


def reply(kind, number, amount, code):
    front = kind + b"F2200001020080000000004000000000" + CARD + amount + REVERSAL_TIME + trace(number)
    return front + ACQUIRER + code + b"840" + original(number)


def partial_reversal(number, amount, actual):
    front = b"0400F2200001000080000000004200000000" + CARD + amount + REVERSAL_TIME + trace(number)
    return front + ACQUIRER + b"840" + original(number) + actual + b"000000000000C00000000C00000000"


TEN = b"000000001000"
# The example's gate may approve a thousand of these.
LEAST = b"000000000001"
APPROVED = 1000


class Script:
    """The lines of a script, and what it prints."""

    def __init__(self, folder):
        self.bundle = changes.tables_and_ranks(folder) + changes.LINE
        self.lines = []
        self.printed = []

    def add(self, line, *outputs, node=b"A"):
        self.lines.append(line + b"\n")
        self.printed.append(b"%d %s\n" % (len(self.lines), node))
        self.printed.extend(b"  " + output + b"\n" for output in outputs)

    def case(self):
        """The script runs to its end."""
        return self.ending(b"", 0, b"".join(self.printed))

    def refused(self, line, fault):
        """One more line is refused: nothing else is printed."""
        return self.ending(line + b"\n", 2, b"fault script 3 step %d %s\n" % (len(self.lines) + 1, fault))

    def ending(self, line, status, printed):
        return "replay", self.bundle + b"".join(self.lines) + line, partial(is_printed, status, printed)


def is_printed(wanted_status, wanted, _job, status, _data, out, err):
    if (status, out, err) == (wanted_status, wanted, b""):
        return None
    same = next((place for place, (a, b) in enumerate(zip(out, wanted)) if a != b), min(len(out), len(wanted)))
    return f"status {status}, {len(out)} bytes of {len(wanted)}, another one at {same}: {out[same : same + 60]}"


def fill_with_reversals(script, links):
    """With the gate's links down each reversal is answered and stored, and put on no link."""
    for link in links:
        script.add(b"down %s A" % link)
    for number in range(1, PLACES + 1):
        script.add(enter(reversal(b"0400", number, TEN)), answer(reply(b"0410", number, TEN, b"00")))


def full_of_reversals():
    """No place is left for a reversal or a request; a known reversal needs none."""
    script = Script(changes.FIRST)
    fill_with_reversals(script, [b"AH"])
    last = PLACES + 1
    yield script.refused(enter(reversal(b"0400", last, TEN)), b"9")
    yield script.refused(enter(partial_reversal(last, TEN, TEN)), b"9")
    yield script.refused(enter(partial_reversal(last, TEN, b"000000001001")), b"6")
    for _ in range(2):
        script.add(enter(request(last, TEN)), answer(answered(last, TEN, b"96")))
    script.add(enter(reversal(b"0400", PLACES, TEN)), answer(reply(b"0410", PLACES, TEN, b"00")))
    yield script.case()


def nothing_to_lend():
    """An amount that may not be lent is refused before the lack of a place."""
    script = Script(SHARED)
    fill_with_reversals(script, [b"AH"])
    yield script.refused(b"lend A B 4111111111111111 0314 301", b"10")
    yield script.refused(b"lend A B 4111111111111111 0314 300", b"9")


def full_behind_the_gate():
    """The gate's reversals are acknowledged by the next node, which is full of them: it answers a request 96, and takes neither the
    gate's reversal of that request nor the advice of its approval."""
    script = Script(FAILS)
    for number in range(1, PLACES + 1):
        passed = reversal(b"0420", number, TEN)
        entered = enter(reversal(b"0400", number, TEN))
        script.add(entered, answer(reply(b"0410", number, TEN, b"00")), put(b"AP", number, passed))
        acknowledged = put(b"AP", number, reply(b"0430", number, TEN, b"00"))
        script.add(b"take AP P %d" % number, acknowledged, put(b"PH", number, passed), node=b"P")
        script.add(b"take AP A %d" % number)
    last = PLACES + 1
    script.add(enter(request(last, TEN)), put(b"AP", last, forwarded(last, TEN)))
    script.add(b"take AP P %d" % last, put(b"AP", last, answered(last, TEN, b"96")), node=b"P")
    script.add(b"tick A")
    script.add(b"tick A")
    undone = put(b"AP", last + 1, own_reversal(last, TEN))
    advised = put(b"AP", last + 2, own_approval(last, TEN))
    script.add(b"tick A", undone, answer(answered(last, TEN, b"00")), advised)
    yield script.case()
    yield script.refused(b"take AP P %d" % (last + 1), b"9")
    yield script.refused(b"take AP P %d" % (last + 2), b"9")


def forward_all(script, count):
    for number in range(1, count + 1):
        script.add(enter(request(number, LEAST)), put(b"AP", number, forwarded(number, LEAST)))


def failures(link, first, count):
    """What the failure of so many requests puts out: each is reversed, and those that the gate's limit holds are approved."""
    serial, outputs = first, []
    for number in range(1, count + 1):
        outputs.append(put(link, serial, own_reversal(number, LEAST)))
        serial += 1
        if number <= APPROVED:
            outputs.append(answer(answered(number, LEAST, b"00")))
            outputs.append(put(link, serial, own_approval(number, LEAST)))
            serial += 1
        else:
            outputs.append(answer(answered(number, LEAST, b"61")))
    return outputs


def full_of_requests():
    """Requests that wait take two places each, and without two a further one is answered 96. One that is reversed gives up two and
    takes one, which is left for a reversal and not for a request."""
    script = Script(FAILS)
    most = PLACES // 2
    forward_all(script, most)
    script.add(enter(request(most + 1, LEAST)), answer(answered(most + 1, LEAST, b"96")))
    yield script.refused(enter(reversal(b"0400", most + 2, LEAST)), b"9")
    script.add(
        enter(reversal(b"0400", 1, LEAST)),
        answer(answered(1, LEAST, b"68")),
        answer(reply(b"0410", 1, LEAST, b"00")),
        put(b"AP", most + 1, reversal(b"0420", 1, LEAST)),
    )
    script.add(enter(request(most + 3, LEAST)), answer(answered(most + 3, LEAST, b"96")))
    script.add(
        enter(reversal(b"0400", most + 2, LEAST)),
        answer(reply(b"0410", most + 2, LEAST, b"00")),
        put(b"AP", most + 2, reversal(b"0420", most + 2, LEAST)),
    )
    yield script.refused(enter(reversal(b"0400", most + 4, LEAST)), b"9")
    yield script.case()


def many_fail():
    """Requests that wait on one link fail together: the link goes down, and all goes out by the other one; or their time is over."""
    count = PLACES // 2 - 1
    script = Script(FAILS)
    forward_all(script, count)
    script.add(b"down AP A", *failures(b"AQ", 1, count))
    yield script.case()
    script = Script(FAILS)
    forward_all(script, count)
    script.add(b"tick A")
    script.add(b"tick A")
    script.add(b"tick A", *failures(b"AP", count + 1, count))
    yield script.case()


def many_sent_again():
    """Advices that are due at one tick."""
    count = 20000
    script = Script(FAILS)
    for number in range(1, count + 1):
        first = put(b"AP", number, reversal(b"0420", number, TEN))
        script.add(enter(reversal(b"0400", number, TEN)), answer(reply(b"0410", number, TEN, b"00")), first)
    for _ in range(49):
        script.add(b"tick A")
    again = (put(b"AP", count + number, reversal(b"0421", number, TEN)) for number in range(1, count + 1))
    script.add(b"tick A", *again)
    yield script.case()


def full_history():
    """After so many entries whatever comes is refused, also what is no message."""
    script = Script(changes.FIRST)
    for _ in range(MOST_ENTRIES):
        script.add(b"tick A")
    yield script.case()
    yield script.refused(b"tick A", b"7")
    yield script.refused(b"enter A ", b"7")


def cases():
    yield from full_of_reversals()
    yield from nothing_to_lend()
    yield from full_behind_the_gate()
    yield from full_of_requests()
    yield from many_fail()
    yield from many_sent_again()
    yield from full_history()
