#!/usr/bin/env python3
"""The numbers of a dump, as a collector written in Python takes them: it walks the dump on standard input and prints a line
for each field, `serial generation number left` or `serial refused N`. The exit status is 0 where the listing is whole: it
ends in `records N`, and no `stopped` line is before it.

    make shared
    examples/collector.py <samples/drives.dump
    examples/collector.py --new <samples/drives-new.dump
    examples/collector.py --new --judge samples/judge-before.dump samples/judge-after.dump

With --judge it walks two dumps of one board and judges each field that is in both: `serial yes number` where the one after is
a right write of that number on the one before, whichever spare groups the board erased, `serial no`, or `serial refused N`.
`serial layout differs` and `serial twice` are told where the fields cannot be held against each other. The exit status is 0
where both dumps were walked to their end; one that was not is told on standard error.

The shared library is for x86-64, and so the Python that loads it has to be. It is target/shared/libgorvlime.so, or what
--library or GORVLIME_LIBRARY in the environment names: libgorvlime.so.1 where it is installed. include/gorvlime.h tells what
each number of an answer means.
"""
import argparse
import collections
import ctypes
import os
import sys

MADE = os.path.join(os.path.dirname(os.path.dirname(os.path.abspath(__file__))), "target", "shared", "libgorvlime.so")
DUMP_MOST = 65536
RANGES_MOST = 16
ROWS_AT_ONCE = 64

# The numbers of a row, of an old dump and of a new one.
Row = collections.namedtuple("Row", "serial m t v start length refused generation number left unerased")
NewRow = collections.namedtuple("NewRow", "serial layout form m t v start length refused generation number left unerased")
Field = collections.namedtuple("Field", "shape cells")


class Opened(ctypes.Structure):
    _fields_ = [(name, ctypes.c_uint64) for name in ("refusal", "offset", "layouts", "first")]


class Walked(ctypes.Structure):
    _fields_ = [(name, ctypes.c_uint64) for name in ("refusal", "offset", "rows", "next", "ended")]


class Shape(ctypes.Structure):
    _fields_ = [(name, ctypes.c_uint64) for name in ("form", "m", "t", "count")] + [("v", ctypes.c_uint64 * RANGES_MOST)]


class Listed(ctypes.Structure):
    _fields_ = [("refusal", ctypes.c_uint64), ("shape", Shape)]


class Judged(ctypes.Structure):
    _fields_ = [(name, ctypes.c_uint64) for name in ("refusal", "yes", "number", "generation", "unerased")]


def load(path):
    """The library, told what its functions take and answer."""
    library = ctypes.CDLL(path)
    lent = [ctypes.c_char_p, ctypes.c_size_t]
    walk = lent + [ctypes.c_size_t, ctypes.POINTER(ctypes.c_uint64), ctypes.c_size_t]
    for function, takes, answers in (
            (library.gorvlime_open_new, lent, Opened),
            (library.gorvlime_walk, walk, Walked),
            (library.gorvlime_walk_new, walk, Walked),
            (library.gorvlime_listed_shape, lent + [ctypes.c_uint64], Listed),
            (library.gorvlime_judge, [Shape] + lent + lent, Judged)):
        function.argtypes, function.restype = takes, answers
    return library


def walks(walk, kind, dump, at):
    """Walks on from an offset until there is no more to be had: each answer, and the rows that came with it."""
    width = len(kind._fields)
    numbers = (ctypes.c_uint64 * (ROWS_AT_ONCE * width))()
    while True:
        walked = walk(dump, len(dump), at, numbers, len(numbers))
        yield walked, [kind(*numbers[i * width:(i + 1) * width]) for i in range(walked.rows)]
        if walked.refusal != 0 or walked.ended:
            return
        at = walked.next


def walks_of(library, dump, is_new):
    if not is_new:
        return walks(library.gorvlime_walk, Row, dump, 0)
    # Of a list that is refused `first` is 0, and the walk is refused as the list was.
    return walks(library.gorvlime_walk_new, NewRow, dump, library.gorvlime_open_new(dump, len(dump)).first)


def print_field(row):
    if row.refused:
        print(row.serial, "refused", row.refused)
    else:
        print(row.serial, row.generation, row.number, row.left)


def stop_of(walked):
    """What a listing says of a walk that did not come to the dump's end."""
    return {0: "", 7: "stopped 7 at %d" % walked.offset, 8: "refused 8"}[walked.refusal]


def dump_of(file):
    """One byte more than a dump may have, so that the walk sees what is too much and refuses it."""
    return file.read(DUMP_MOST + 1)


def print_listing(library, dump, is_new):
    """Whether the listing is whole."""
    records = 0
    for walked, rows in walks_of(library, dump, is_new):
        for row in rows:
            print_field(row)
        records += len(rows)
    stop = stop_of(walked)
    if stop:
        print(stop)
    if walked.refusal != 8:
        print("records", records)
    return not stop


def shape_of(library, dump, row):
    """The shape of a record, with all its ranges."""
    if isinstance(row, NewRow):
        return library.gorvlime_listed_shape(dump, len(dump), row.layout).shape
    return Shape(m=row.m, t=row.t, count=1, v=(ctypes.c_uint64 * RANGES_MOST)(row.v))


def fields_of(library, path, is_new):
    """The fields of each serial, in the order of the dump, and what stopped its walk, if anything did."""
    with open(path, "rb") as file:
        dump = dump_of(file)
    fields = collections.defaultdict(list)
    for walked, rows in walks_of(library, dump, is_new):
        for row in rows:
            fields[row.serial].append(Field(shape_of(library, dump, row), dump[row.start:row.start + row.length]))
    return fields, stop_of(walked)


def judgement(library, before, after):
    """What is to be said of a serial that has these fields."""
    if len(before) > 1 or len(after) > 1:
        return "twice"
    (shape, cells), (later_shape, later_cells) = before[0], after[0]
    if bytes(shape) != bytes(later_shape):
        return "layout differs"
    judged = library.gorvlime_judge(shape, cells, len(cells), later_cells, len(later_cells))
    if judged.refusal:
        return "refused %d" % judged.refusal
    return "yes %d" % judged.number if judged.yes else "no"


def print_judgements(library, paths, is_new):
    """Whether both dumps were walked to their end."""
    (before, stop), (after, later_stop) = (fields_of(library, path, is_new) for path in paths)
    for serial in before:
        if serial in after:
            print(serial, judgement(library, before[serial], after[serial]))
    for path, why in zip(paths, (stop, later_stop)):
        if why:
            print("collector.py: %s: %s" % (path, why), file=sys.stderr)
    return not (stop or later_stop)


def main():
    parser = argparse.ArgumentParser(usage="collector.py [--new] [--library PATH] <DUMP\n"
                                     "       collector.py [--new] [--library PATH] --judge BEFORE AFTER")
    parser.add_argument("--new", action="store_true")
    parser.add_argument("--judge", nargs=2)
    parser.add_argument("--library", default=os.environ.get("GORVLIME_LIBRARY", MADE))
    options = parser.parse_args()
    try:
        library = load(options.library)
    except (OSError, AttributeError) as why:
        sys.exit("collector.py: cannot load the library: %s" % why)
    if options.judge is None:
        sys.exit(0 if print_listing(library, dump_of(sys.stdin.buffer), options.new) else 1)
    try:
        sys.exit(0 if print_judgements(library, options.judge, options.new) else 1)
    except OSError as why:
        sys.exit("collector.py: cannot read a dump: %s" % why)


if __name__ == "__main__":
    main()
