"""What card_switch.h declares, for ctypes: its numbers and their words, its structures, and the functions of a library."""

import ctypes

CS_DONE, CS_REFUSED, CS_FAULT, CS_TOO_SMALL, CS_NO_MEMORY, CS_UNKNOWN, CS_EMPTY = range(7)
CS_MOST_INPUT = 16777216
CS_MOST_ELEMENTS = 127
CS_MOST_OUTPUT = 13218
CS_FAULT_SHORT, CS_FAULT_TYPE, CS_FAULT_BIT_MAP, CS_FAULT_ELEMENT, CS_FAULT_LENGTH, CS_FAULT_CHARACTER, CS_FAULT_TRAILING = range(1, 8)
CS_ENTER, CS_TAKE, CS_LINK_UP, CS_LINK_DOWN, CS_TICK, CS_HOST_ANSWER, CS_NEW_DATE, CS_LEND = range(1, 9)
CS_REFUSAL_MESSAGE, CS_REFUSAL_ACQUIRER, CS_REFUSAL_MISSING, CS_REFUSAL_TYPE, CS_REFUSAL_ASK, CS_REFUSAL_REPLACEMENT, CS_REFUSAL_FULL = range(1, 8)
CS_REFUSAL_NO_PLACE, CS_REFUSAL_NOT_LENT = 9, 10
CS_PUT, CS_ANSWER, CS_ASK, CS_POST = range(1, 5)

# What the numbers mean. tests/calls holds these words against the comments of card_switch.h.
STATUS_WORDS = {
    CS_DONE: "The job is done",
    CS_REFUSED: "The tables are refused, have a circle, or no ranks were found for them",
    CS_FAULT: "The input has a fault, or there was too little memory for it",
    CS_TOO_SMALL: "The caller's buffer or array is too small",
    CS_NO_MEMORY: "There was no memory",
    CS_UNKNOWN: "What a call names isn't there: a node, a link, an output, or an input that the node could take",
    CS_EMPTY: "The handle holds no node",
}
FAULT_WORDS = {
    CS_FAULT_SHORT: "The bytes end too early",
    CS_FAULT_TYPE: "No message type stands at the front",
    CS_FAULT_BIT_MAP: "A byte of a bit map is no hexadecimal digit",
    CS_FAULT_ELEMENT: "The element is not in the table of elements",
    CS_FAULT_LENGTH: "The element's length is no number, or above the most",
    CS_FAULT_CHARACTER: "The element has a byte that isn't of its class",
    CS_FAULT_TRAILING: "Bytes stand behind the last element",
}
REFUSAL_WORDS = {
    CS_REFUSAL_MESSAGE: "The bytes are no message",
    CS_REFUSAL_ACQUIRER: "The acquirer isn't attached to the node",
    CS_REFUSAL_MISSING: "A required element is missing",
    CS_REFUSAL_TYPE: "The message's type isn't for this input",
    CS_REFUSAL_ASK: "The host was never asked so",
    CS_REFUSAL_REPLACEMENT: "A partial reversal without a right actual amount",
    CS_REFUSAL_FULL: "The node has had 1,000,000 inputs, which is the most",
    CS_REFUSAL_NO_PLACE: "There is no place for an advice, or for a lent amount",
    CS_REFUSAL_NOT_LENT: "The amount may not be lent",
}

BYTES = ctypes.c_char_p
LENGTH = ctypes.c_size_t


class Handle(ctypes.Structure):
    _fields_ = [("node", ctypes.c_void_p)]


class Input(ctypes.Structure):
    _fields_ = [("number", ctypes.c_uint64), ("link", LENGTH), ("kind", ctypes.c_uint8)]


class Element(ctypes.Structure):
    _fields_ = [("start", LENGTH), ("length", LENGTH), ("number", ctypes.c_uint8)]


class Reading(ctypes.Structure):
    _fields_ = [("count", LENGTH), ("fault", ctypes.c_uint8), ("element", ctypes.c_uint8)]


class Writing(ctypes.Structure):
    _fields_ = [("length", LENGTH), ("fault", ctypes.c_uint8), ("element", ctypes.c_uint8)]


class Step(ctypes.Structure):
    _fields_ = [("outputs", LENGTH), ("refusal", ctypes.c_uint8), ("message_fault", ctypes.c_uint8), ("element", ctypes.c_uint8)]


class Output(ctypes.Structure):
    _fields_ = [("number", ctypes.c_uint64), ("link", LENGTH), ("length", LENGTH), ("way", ctypes.c_uint8)]


A_LENGTH = ctypes.POINTER(LENGTH)
AN_ELEMENT = ctypes.POINTER(Element)
A_HANDLE = ctypes.POINTER(Handle)
JOB = [BYTES, LENGTH, BYTES, LENGTH, A_LENGTH]
# What each function takes. All give a status but the two that are named below.
FUNCTIONS = {
    "cs_check": JOB,
    "cs_make": JOB,
    "cs_replay": JOB,
    "cs_decode": [ctypes.c_bool, *JOB],
    "cs_message_read": [BYTES, LENGTH, AN_ELEMENT, LENGTH, ctypes.POINTER(Reading)],
    "cs_message_get": [AN_ELEMENT, LENGTH, ctypes.c_uint8, AN_ELEMENT],
    "cs_message_write": [BYTES, LENGTH, BYTES, LENGTH, AN_ELEMENT, LENGTH, BYTES, LENGTH, ctypes.POINTER(Writing)],
    "cs_node_new": [BYTES, LENGTH, BYTES, LENGTH, BYTES, LENGTH, A_HANDLE],
    "cs_node_free": [A_HANDLE],
    "cs_node_step": [A_HANDLE, ctypes.POINTER(Input), BYTES, LENGTH, ctypes.POINTER(Step)],
    "cs_node_output": [A_HANDLE, LENGTH, BYTES, LENGTH, ctypes.POINTER(Output)],
    "cs_node_link": [A_HANDLE, BYTES, LENGTH, A_LENGTH],
    "cs_node_link_name": [A_HANDLE, LENGTH, BYTES, LENGTH, A_LENGTH],
}
NO_STATUS = {"cs_message_get": ctypes.c_bool, "cs_node_free": None}


def loaded(path: str) -> ctypes.CDLL:
    """The library at a path, its functions declared."""
    library = ctypes.CDLL(path)
    for name, arguments in FUNCTIONS.items():
        function = getattr(library, name)
        function.argtypes = arguments
        function.restype = NO_STATUS.get(name, ctypes.c_uint8)
    return library
