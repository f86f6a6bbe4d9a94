# SPDX-License-Identifier: Apache-2.0
"""In place of pyarrow, where it isn't installed: the calls that docs/RECIPES.md makes, on columns of strings that have the memory
of Arrow."""
import array as arrays
import struct


def binary():
    return "binary"


class Part:
    """A part of a column. Where it is a slice, its memory has other strings before it and after it."""

    def __init__(self, values, offset=0):
        self.values, self.offset = values, offset

    def __len__(self):
        return len(self.values)

    def to_pylist(self):
        return list(self.values)

    def buffers(self):
        strings = [text.encode() for text in ["before"] * self.offset + self.values + ["after"]]
        ends = [len(b"".join(strings[:number])) for number in range(len(strings) + 1)]
        return [None, struct.pack("<%di" % len(ends), *ends), b"".join(strings)]


class Column(Part):
    @property
    def chunks(self):
        return [Part([]), Part(self.values[:1], 1), Part(self.values[1:], 2)]

    def drop_null(self):
        return Column([value for value in self.values if value is not None])

    def to_numpy(self):
        return arrays.array("q", self.values)


def array(values, type=None):
    if type == "binary" and not all(isinstance(value, bytes) for value in values):
        raise TypeError("not all values are bytes")
    return Column(list(values))


def table(columns):
    return columns
