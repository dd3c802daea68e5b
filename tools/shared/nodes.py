"""A formula's bytes: nodes of 16 bytes, each followed by its children (docs/REFERENCE.md, 1), and the records of a derivative's nodes (10). The one home of these
bytes in the Python tools."""
import struct

NODE_SIZE = 16
PROGRAM_BYTES_PER_NODE = 240
RECORD_SIZE = 8

NUMBER, TRUTH, SYMBOL, UNARY, BINARY, COMPARE, BOOLEAN, CALL, CONDITIONAL = range(9)
NAN_BITS = 0x7FF8000000000000

FIELDS = "<BBHIQ"
CHILDREN = struct.Struct("<H")
RECORD = struct.Struct("<II")


def bits(value):
    """The bits of an f64; every NaN has the same."""
    return NAN_BITS if value != value else struct.unpack("<Q", struct.pack("<d", value))[0]


def head(kind, operator=0, children=0, symbol=0, value=0):
    """One node, by the number of its children."""
    return struct.pack(FIELDS, kind, operator, children, symbol, value)


def node(kind, operator=0, children=(), symbol=0, value=0):
    """A node and its children."""
    return head(kind, operator, len(children), symbol, value) + b"".join(children)


def fields(b):
    """Kind, operator, number of children, symbol number and value of a node's bytes."""
    return struct.unpack(FIELDS, b)


def children_at(b, at):
    """How many children the node at a byte has."""
    return CHILDREN.unpack_from(b, at + 2)[0]


def nodes_in(b):
    """How many nodes the bytes take, a last part counted as one."""
    return -(-len(b) // NODE_SIZE)


def record(rule, source):
    """The record of a derivative's node: a rule's number and a node of the formula."""
    return RECORD.pack(rule, source)


def read_records(b):
    """The records of a list, as pairs."""
    return list(RECORD.iter_unpack(b))


def program_room(formula):
    """The bytes that the slice for a formula's program needs."""
    return PROGRAM_BYTES_PER_NODE * nodes_in(formula)


def number(value):
    return node(NUMBER, value=bits(value))


def symbol(i):
    return node(SYMBOL, symbol=i)
