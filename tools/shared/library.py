"""The library for Python: `vebrostin_derive` (include/vebrostin.h) of target/staticlib/libvebrostin.a, which tools/library/build.sh writes."""
import ctypes
import os
import subprocess

from nodes import NODE_SIZE, PROGRAM_BYTES_PER_NODE, RECORD_SIZE

ROOT = os.path.dirname(os.path.dirname(os.path.dirname(os.path.abspath(__file__))))
PATH_LENGTH, REPORT_LENGTH = 8192, 8


def shared_library():
    """The static library as one that Python can load."""
    archive, out = os.path.join(ROOT, "target", "staticlib", "libvebrostin.a"), os.path.join(ROOT, "target", "library", "libvebrostin.so")
    os.makedirs(os.path.dirname(out), exist_ok=True)
    subprocess.run(["cc", "-shared", "-o", out, "-Wl,--whole-archive", archive, "-Wl,--no-whole-archive", "-lm"], check=True)
    return out


class Library:
    """`derive` with slices for a derivative of so many nodes."""

    def __init__(self, nodes):
        self.call = ctypes.CDLL(shared_library()).vebrostin_derive
        self.call.restype = ctypes.c_size_t
        self.slices = [ctypes.create_string_buffer(size) for size in (PATH_LENGTH, NODE_SIZE * nodes, RECORD_SIZE * nodes, PROGRAM_BYTES_PER_NODE * nodes)]
        self.report = (ctypes.c_uint64 * REPORT_LENGTH)()

    def derive(self, formula, names, by):
        """The answer, and what the slices for the tree and for its records hold."""
        size = ctypes.c_size_t
        lent = [word for slice_ in self.slices for word in (slice_, size(len(slice_)))]
        answer = self.call(formula, size(len(formula)), names, size(len(names)), ctypes.c_uint32(by), *lent, self.report, size(REPORT_LENGTH))
        return answer, self.slices[1].raw, self.slices[2].raw
