"""What network_view may answer: the texts, the JSON and the pictures that docs/FORMATS.md tells, and the status that goes with each."""

import json
import re
from xml.etree import ElementTree

import answers
from answers import NAME, NUMBER, PREFIX

PARTS = ("bundle", "tables", "ranks", "check")
TRACE_FAULT = (
    rb"trace (?:1 malformed|2 unknown node|3 unknown link|4 no node|5 no message|6 not in script|7 memory) line [1-9][0-9]*"
)
FAULT = answers.fault_of(PARTS)
FAULT_OF_TRACE = re.compile(rb"fault " + TRACE_FAULT + rb"\n|" + FAULT.pattern)

VERDICT = rb"(accepted|" + answers.REFUSED.pattern[:-2] + rb")\n"
TO = NAME + rb" to " + NAME + rb"(?:, fallback " + NAME + rb" to " + NAME + rb")*"
CARD = re.compile(
    VERDICT
    + rb"(?:class " + PREFIX + rb"|no class)\n"
    + rb"(?:issuer " + NAME + rb": PAN prefix " + PREFIX + rb"; home " + NAME + rb"; ceiling " + NUMBER
    + rb"; (?:named nodes(?: " + NAME + rb")+|no named nodes)|no issuer)\n"
    + rb"(?:node " + NAME + rb"(?: \(home\))?: (?:rank " + NUMBER + rb"|no rank); (?:route " + PREFIX + rb": " + TO + rb"|no route); "
    + rb"(?:stand-in " + PREFIX + rb": day " + NUMBER + rb", single " + NUMBER + rb"|no stand-in)\n)*"
    + rb"sum of stand-in days " + NUMBER + rb"; (?:ceiling " + NUMBER + rb"|no ceiling)\n"
    + rb"(?:acquirer [0-9]{1,11} at " + NAME + rb": (?:" + TO + rb"; )*(?:home|no route|and so on)\n)*"
)
REFUSALS = re.compile(VERDICT + rb"((?:" + answers.REFUSED.pattern[:-2] + rb"; \[\[" + answers.TABLE + rb"\]\] [1-9][0-9]*\n)*)")

CARD_KEYS = ["acquirers", "class", "issuer", "nodes", "refusal", "sum_of_days", "verdict"]
# The keys of each refusal beside its number and words.
REFUSAL_KEYS = {
    1: {"prefix", "node"},
    2: {"prefix", "node", "link"},
    3: {"prefix", "node"},
    4: {"prefix", "sum", "ceiling"},
    5: {"prefix", "node"},
    6: {"acquirer"},
    7: {"node_id"},
    8: {"link"},
}

BOX = (
    rb"n[0-9]+ \[shape=box,(?:color=red,)?label=<" + NAME + rb"<br/>[0-9]{1,11}<br/>(?:rank " + NUMBER + rb"|no rank)(?:, home)?"
    + rb"(?:<br/><font(?: color='red')?>day " + NUMBER + rb"</font>)?>\]\n"
)
LINK = (
    rb"n[0-9]+ -> n[0-9]+ \[dir=none,constraint=false,color=gray,(?:color=red,)?label=<" + NAME + rb" " + NUMBER + rb">\]\n"
)
ARROW = rb"n[0-9]+ -> n[0-9]+ \[color=blue,(?:color=red,)?style=(?:solid|dashed)\]\n"
GRAPH = re.compile(
    rb"digraph network \{\nrankdir=LR\nlabelloc=t\nlabel=<" + VERDICT + rb"<br/>(?:class " + PREFIX + rb"|no class)>\n"
    + rb"(?:" + BOX + rb")*(?:" + LINK + rb")*(?:" + ARROW + rb")*\}\n"
)
SVG = "{http://www.w3.org/2000/svg}"

HEADING = (
    b"line      node      in/out                   type  message                         STAN    time        acquirer     code\n"
)
ROW = re.compile(
    rb"[0-9]{1,10} +" + NAME + rb" +(?:in(?: [ -~]*)?|(?:put " + NAME + rb" [0-9]{1,10}|answer|ask [0-9]{1,10}|post) "
    + rb" *(?:-     grant(?: taken)?|0[14][0-3][01]  [ -~]+))"
)


def is_written_so(text, value):
    """Whether a text is a value's JSON on one line, with its keys in the order of bytes and without spaces."""
    return (json.dumps(value, separators=(",", ":"), sort_keys=True) + "\n").encode() == text


def read_json(text):
    """The value of a text that is written so; nothing for others."""
    try:
        value = json.loads(text)
    except ValueError:
        return None
    return value if is_written_so(text, value) else None


def problem_of_verdict(status, verdict):
    """Whether the status is that of the verdict."""
    return None if (status == 0) == (verdict == b"accepted") else f"status {status} with {verdict}"


def problem_of_card(status, _data, out):
    found = CARD.fullmatch(out)
    return "no view of a card" if found is None else problem_of_verdict(status, found[1])


def problem_of_card_object(status, _data, out):
    view = read_json(out)
    if not isinstance(view, dict) or list(view) != CARD_KEYS:
        return "no object of a card"
    refusal = view["refusal"]
    if (refusal is None) != (view["verdict"] == "accepted") or view["verdict"] not in ("accepted", "refused"):
        return "another verdict"
    problem = None if refusal is None else problem_of_refusal(refusal, set())
    return problem or problem_of_verdict(status, view["verdict"].encode())


def problem_of_refusal(refusal, more):
    """What is wrong with the object of a refusal, that has these keys more."""
    if not isinstance(refusal, dict) or refusal.get("number") not in REFUSAL_KEYS:
        return "no refusal"
    if set(refusal) != REFUSAL_KEYS[refusal["number"]] | {"number", "words"} | more:
        return "other keys of a refusal"
    return None if answers.REFUSED.fullmatch(refusal["words"].encode() + b"\n") else "other words of a refusal"


def problem_of_refusals(status, _data, out):
    found = REFUSALS.fullmatch(out)
    if found is None:
        return "no refusals"
    words = [line.split(b";")[0] for line in found[2].splitlines()]
    if words[:1] != ([] if found[1] == b"accepted" else [found[1]]):
        return "another first refusal"
    return problem_of_verdict(status, found[1])


def problem_of_refusal_objects(status, _data, out):
    objects = [read_json(line) for line in out.splitlines(keepends=True)]
    if objects == [{"verdict": "accepted"}]:
        return problem_of_verdict(status, b"accepted")
    if len(objects) < 2 or not all(isinstance(one, dict) for one in objects) or objects[0].get("verdict") != "refused":
        return "no objects of refusals"
    if objects[0].get("words") != objects[1].get("words"):
        return "another first refusal"
    problems = [problem_of_refusal(objects[0], {"verdict"}), *(problem_of_refusal(one, {"row"}) for one in objects[1:])]
    return next((problem for problem in problems if problem), problem_of_verdict(status, b"refused"))


def problem_of_picture(status, _data, out):
    try:
        picture = ElementTree.fromstring(out)
    except ElementTree.ParseError as error:
        return f"no XML: {error}"
    texts = [text.text or "" for text in picture.iter(SVG + "text")]
    if picture.tag != SVG + "svg" or len(texts) < 2 or not re.fullmatch("class [0-9]{1,12}|no class", texts[1]):
        return "no picture"
    found = re.fullmatch(VERDICT, texts[0].encode())
    return "no verdict" if found is None else problem_of_verdict(status, found[1])


def problem_of_graph(status, _data, out):
    found = GRAPH.fullmatch(out)
    return "no graph" if found is None else problem_of_verdict(status, found[1])


def problem_of_table(status, data, out):
    if status == 1:
        return None if answers.REFUSED.fullmatch(out) else "status 1 and no refusal"
    if not out.startswith(HEADING):
        return "no heading"
    rows = out[len(HEADING) :].splitlines()
    wanted = answers.lines_in(answers.parts_of(data)[-1])
    if len(rows) != wanted:
        return f"{len(rows)} rows of {wanted} lines"
    return next((f"a row {row[:60]}" for row in rows if ROW.fullmatch(row) is None), None)


PROBLEMS = {
    "card": problem_of_card,
    "card_object": problem_of_card_object,
    "refusals": problem_of_refusals,
    "refusal_objects": problem_of_refusal_objects,
    "picture": problem_of_picture,
    "graph": problem_of_graph,
    "trace": problem_of_table,
}


def problem_of(job, status, data, out, err):
    """What is wrong with an answer, or nothing."""
    if status not in (0, 1, 2):
        return f"status {status}"
    if err:
        return "words on standard error"
    counts = (3, 4) if job == "trace" else (2,)
    if (FAULT_OF_TRACE if job == "trace" else FAULT).fullmatch(out):
        return answers.problem_of_fault(counts, status, data, out)
    if len(data) > answers.MOST_BYTES:
        return "an input that is too long was taken"
    if len(answers.parts_of(data)) not in counts:
        return "another number of parts was taken"
    return "status 2 and no fault" if status == 2 else PROBLEMS[job](status, data, out)


def names_memory(out):
    """Whether the output is a line that names memory."""
    return re.fullmatch(rb"fault (?:bundle 4 memory|tables 8 memory|ranks 6 memory|check 9 memory|trace 7 memory line [0-9]+)\n", out) is not None
