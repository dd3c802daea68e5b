"""Formulas with a fault in their bytes: where the first one is, by a scan written out here, and formulas with the refusals that they get."""
from nodes import BINARY, BOOLEAN, CALL, COMPARE, CONDITIONAL, NODE_SIZE, NUMBER, SYMBOL, TRUTH, UNARY
from nodes import fields, head, node, number, symbol

# operators of each kind, and its children; a list may have any number
OPERATORS = {NUMBER: 1, TRUTH: 1, SYMBOL: 1, UNARY: 3, BINARY: 6, COMPARE: 6, BOOLEAN: 2, CALL: 16, CONDITIONAL: 1}
CHILDREN = {NUMBER: 0, TRUTH: 0, SYMBOL: 0, UNARY: 1, BINARY: 2, COMPARE: 2, CONDITIONAL: 3}

# the worked flight, and a formula with a node of each kind
FLIGHT = node(BINARY, 0, [symbol(0), node(BINARY, 3, [node(BINARY, 2, [symbol(1), symbol(2)]), node(BINARY, 0, [symbol(3), symbol(4)])])])
EACH_KIND = node(CONDITIONAL, 0, [
    node(BOOLEAN, 0, [node(COMPARE, 0, [symbol(0), number(1.0)]), node(TRUTH, value=1)]),
    node(UNARY, 1, [symbol(0)]),
    node(CALL, 11, [symbol(0), symbol(1)]),
])
# the head of a Min with as many arguments as can be
MOST = head(CALL, 11, 65535)
NAMES, BAD_NAMES = b"a:p", b"a:p,"


# ---- the scan

def is_node(b):
    kind, operator, children, symbol_number, value = fields(b)
    if operator >= OPERATORS.get(kind, 0) or children != CHILDREN.get(kind, children):
        return False
    return (kind == SYMBOL or symbol_number == 0) and (kind == NUMBER or value <= int(kind == TRUTH))


def first_fault(b):
    """`12:node`, `2:node` or `13:node` for the first fault in byte order, nothing for a formula."""
    owed, k = 1, 0
    while owed:
        here = b[NODE_SIZE * k:NODE_SIZE * (k + 1)]
        if len(here) < NODE_SIZE:
            return "12:%d" % k
        if not is_node(here):
            return "2:%d" % k
        owed, k = owed - 1 + fields(here)[2], k + 1
    return "13:%d" % k if len(b) > NODE_SIZE * k else None


# ---- formulas, each with a name line and the refusal as legs shows it: number, colon, node or path

def changed(b, at, new):
    return b[:at] + new + b[at + len(new):]


def table():
    """The worked flight cut, lengthened and changed."""
    wrong = changed(FLIGHT, 48, b"\x09")
    yield "no bytes", b"", NAMES, "12:0"
    yield "the first 5", FLIGHT[:5], NAMES, "12:0"
    yield "the first 16", FLIGHT[:16], NAMES, "12:1"
    yield "the first 40", FLIGHT[:40], NAMES, "12:2"
    yield "the first 40, wrong names", FLIGHT[:40], BAD_NAMES, "12:2"
    yield "the first 128", FLIGHT[:128], NAMES, "12:8"
    yield "the first 143", FLIGHT[:143], NAMES, "12:8"
    yield "all, wrong names", FLIGHT, BAD_NAMES, "3:"
    yield "a byte more", FLIGHT + b"\0", NAMES, "13:9"
    yield "a node more", FLIGHT + symbol(0), NAMES, "13:9"
    yield "byte 48 is 9", wrong, NAMES, "2:3"
    yield "byte 48 is 9, cut to 70", wrong[:70], NAMES, "2:3"
    yield "byte 48 is 9, cut to 50", wrong[:50], NAMES, "12:3"
    yield "byte 2 is 3", changed(FLIGHT, 2, b"\x03"), NAMES, "2:0"


def counts():
    """A count that may be anything is never wrong by itself. Size and depth come later."""
    three = symbol(0) * 3
    yield "Min of 2 with three", head(CALL, 11, 2) + three, NAMES, "13:3"
    yield "Min of 4 with three", head(CALL, 11, 4) + three, NAMES, "12:4"
    yield "Min of 65,535 with three", MOST + three, NAMES, "12:4"
    yield "Min of 65,535 with two, a kind 9 and one", MOST + symbol(0) * 2 + head(9) + symbol(0), NAMES, "2:3"
    yield "And of 65,535 with three", head(BOOLEAN, 0, 65535) + three, NAMES, "12:4"
    yield "256 Mins of 65,535", MOST * 256, NAMES, "12:256"
    yield "255 Mins of 65,535 and a kind 9", MOST * 255 + head(9), NAMES, "2:255"
    deep = head(UNARY, 1, 1) * 200 + symbol(0)
    yield "200 Negatives, less a byte", deep[:-1], NAMES, "12:200"
    yield "200 Negatives and a byte", deep + b"\0", NAMES, "13:201"
    yield "200 Negatives", deep, NAMES, "4:root"


def cuts():
    for c in range(len(FLIGHT)):
        yield "cut at byte %d" % c, FLIGHT[:c], NAMES, "12:%d" % (c // NODE_SIZE)


def wrong_fields(b):
    """A node's bytes with one field made wrong: each that its kind doesn't leave open."""
    kind = b[0]
    yield "kind", changed(b, 0, b"\x09")
    yield "operator", changed(b, 1, bytes([OPERATORS[kind]]))
    if kind in CHILDREN:
        yield "count", changed(b, 2, bytes([CHILDREN[kind] + 1]))
        yield "high byte of the count", changed(b, 3, b"\x01")
    if kind != SYMBOL:
        yield "symbol number", changed(b, 4, b"\x01")
        yield "high byte of the symbol number", changed(b, 7, b"\x80")
    if kind != NUMBER:
        yield "value", changed(b, 8, b"\x02")
        yield "high byte of the value", changed(b, 15, b"\x80")


def spoilt(formula):
    """The formula with a wrong field in each of its nodes in turn."""
    for k in range(len(formula) // NODE_SIZE):
        at = NODE_SIZE * k
        for field, wrong in wrong_fields(formula[at:at + NODE_SIZE]):
            yield "%s of node %d" % (field, k), changed(formula, at, wrong), NAMES, "2:%d" % k


def doubled():
    """Two faults at once: a spoilt node and a cut before, in or after it, a second spoilt node, or bytes left over."""
    for k in range(9):
        at = NODE_SIZE * k
        wrong = changed(FLIGHT, at, b"\x09")
        for c in (at, at + 1, at + 15):
            yield "node %d wrong, cut at byte %d" % (k, c), wrong[:c], NAMES, "12:%d" % k
        for c in (at + 16, at + 17):
            yield "node %d wrong, cut at byte %d" % (k, c), wrong[:c], NAMES, "2:%d" % k
        yield "nodes %d and 8 wrong" % k, changed(wrong, 128, b"\x09"), NAMES, "2:%d" % k
        yield "node %d wrong and a byte more" % k, wrong + b"\0", BAD_NAMES, "2:%d" % k
    yield "a byte more that is no kind", FLIGHT + b"\x09", NAMES, "13:9"
    yield "a node more that is none", FLIGHT + head(9), BAD_NAMES, "13:9"


def formulas():
    """What it is, formula, name line and refusal of each; none has more than 4,096 bytes."""
    for part in (table(), counts(), cuts(), spoilt(FLIGHT), spoilt(EACH_KIND), doubled()):
        yield from part
