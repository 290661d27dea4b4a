#!/usr/bin/python3
"""A table of many dumps, and a line for each drive over their days.

usage: examples/curve.py [--new] [--csv FILE] [--picture FILE] [--label TEXT] FILE..

A FILE is a dump named by its day, as 2025-01-31.dump, which fieldlist lists (with --new as a new dump), or a listing that
fieldlist has made already, as 2025-01-31.txt. The table goes to standard output unless --csv names a file. The picture, a
PNG, needs matplotlib, which `make curve` installs; the table does not. --label says what the numbers are, with their unit.

A file that is not named by a day, cannot be read or has no whole listing is told on standard error and left out with all its
drives; of the others everything is written, and the exit status is 1.
"""
import argparse
import collections
import csv
import datetime
import hashlib
import io
import itertools
import os
import re
import subprocess
import sys

ROOT = os.path.dirname(os.path.dirname(os.path.abspath(__file__)))
FIELDLIST = [os.path.join(ROOT, "tools", "run"), "fieldlist"]
COLUMNS = ("day", "serial", "generation", "number", "left", "refused")
# What a listing says of a new drive that has not reported yet. It is neither a number nor a fault.
NOT_REPORTED = "refused 11"

# A row of the table: a day, and as text what the listing says; what it does not say is "".
Row = collections.namedtuple("Row", COLUMNS)
# A reading of a line. The number is new unless the reading before had it already; a spent field keeps it for good.
Point = collections.namedtuple("Point", "day number new spent")
# Days on end on which a drive has no number, and why.
Gap = collections.namedtuple("Gap", "days reason")
# What a drive's readings make: lists of points, each of which is joined in itself alone, and the gaps.
Line = collections.namedtuple("Line", "stretches gaps")


class LeftOut(Exception):
    """Why nothing is taken from a file."""


def day_of(path):
    name = re.fullmatch(r"(\d{4}-\d{2}-\d{2})(\.\w+)?", os.path.basename(path), re.ASCII)
    try:
        return datetime.date.fromisoformat(name[1])
    except (TypeError, ValueError):
        raise LeftOut("not named by a day, as 2025-01-31.dump is") from None


def listing_of(path, words):
    """The lines of a listing, or those that fieldlist prints for a dump; what it says on standard error is passed on."""
    with open(path, "rb") as file:
        if path.endswith(".txt"):
            return lines_in(file.read())
        run = subprocess.run(FIELDLIST + words, stdin=file, stdout=subprocess.PIPE)
    if run.returncode != 0:
        sys.exit("curve: fieldlist cannot be run")
    return lines_in(run.stdout)


def lines_in(text):
    """The lines of a text. A last one that lacks its line feed was cut off and is none."""
    return text.decode("ascii", "replace").split("\n")[:-1]


def rows_of(day, lines):
    """The rows of a listing that is whole: it ends in `records N`, and no `stopped` line is before it. Of one that stops even
    the lines before are left out: a count that is damaged shifts what stands behind it, so that wrong ones may be among
    them."""
    if lines == ["refused 8"]:
        raise LeftOut("more than 65,536 bytes, refused 8")
    stopped = [line for line in lines if line.startswith("stopped")]
    if stopped:
        raise LeftOut(stopped[0] + ", so it is cut off, damaged or of the other kind (--new)")
    if lines[-1:] != ["records %d" % (len(lines) - 1)]:
        raise LeftOut("not a whole listing")
    return [row_of(day, line) for line in lines[:-1]]


def row_of(day, line):
    found = re.fullmatch(r"(\d+) (?:(\d+) (\d+) (\d+)|refused (\d+))", line, re.ASCII)
    if not found:
        raise LeftOut("not a line of a listing: " + line)
    return Row(day, *found.groups(""))


def table_of(paths, words, tell):
    """The rows of all files by day, those of a day in the order of the files and of their records."""
    rows = []
    for path in paths:
        try:
            rows += rows_of(day_of(path), listing_of(path, words))
        except LeftOut as why:
            tell("%s is left out: %s" % (path, why))
        except OSError as error:
            tell("%s is left out: %s" % (path, error.strerror))
    return sorted(rows, key=lambda row: row.day)


def doubled(rows):
    """Days with their serials that more than one row has. Which row is the drive's cannot be known."""
    count = collections.Counter((row.day, row.serial) for row in rows)
    return {key for key in count if count[key] > 1}


def csv_of(rows):
    text = io.StringIO()
    writer = csv.writer(text, lineterminator="\n")
    writer.writerow(COLUMNS)
    writer.writerows(rows)
    return text.getvalue()


def put(table, path):
    if path is None:
        sys.stdout.write(table)
        return
    with open(path, "w", encoding="ascii", newline="") as file:
        file.write(table)


def source_of(table):
    """What a picture says of the table that it was drawn from."""
    return "CSV sha256 " + hashlib.sha256(table.encode("ascii")).hexdigest()


def never_written(row, later):
    """Is this the 0 of a blank field of form 0? As many writes are left as the field has in all, which the drive's next
    number tells: its generation and the writes left add up to them. Where none comes, nothing tells."""
    if (row.generation, row.number) != ("1", "0"):
        return False
    for after in later:
        if after.number and (after.generation, after.number) != ("1", "0"):
            return int(after.generation) + int(after.left) == int(row.left)
    return False


def points_of(rows):
    """The points of readings between which there is no gap."""
    points, before = [], None
    for row in rows:
        reading = (row.generation, row.number)
        points.append(Point(row.day, int(row.number), reading != before, row.left == "0"))
        before = reading
    return points


def line_of(rows, double):
    """The line of one drive from its rows, in the order of their days. On a day of `double` it has no number."""
    def reason(row):
        if (row.day, row.serial) in double:
            return "twice"
        return "refused " + row.refused if row.refused else ""

    line = Line([], [])
    told = [row for place, row in enumerate(rows)
            if reason(row) != NOT_REPORTED and (reason(row) or not never_written(row, rows[place + 1:]))]
    for why, run in itertools.groupby(told, reason):
        if why:
            line.gaps.append(Gap(sorted({row.day for row in run}), why))
        else:
            line.stretches.append(points_of(run))
    return line


def lines_of(rows):
    """A line for each serial, in the order of the serials."""
    drives = collections.defaultdict(list)
    for row in rows:
        drives[row.serial].append(row)
    double = doubled(rows)
    return {serial: line_of(drives[serial], double) for serial in sorted(drives, key=int)}


# After Okabe and Ito, for the colour-blind too, some of them darker since serials are written in them.
COLOURS = ("#0072b2", "#d55e00", "#008060", "#aa3377", "#a67c00", "#2090d0", "#333333")
GREY = "#595959"
DOT = {"marker": "o", "markersize": 5}
RING = {"marker": "o", "markersize": 6, "markerfacecolor": "white", "markeredgewidth": 1.6}
CROSS = {"marker": "x", "markersize": 7, "markeredgewidth": 2, "linestyle": ""}


def rows_in(axes, points):
    """How many rows of so many points of height the axes have room for."""
    return axes.get_window_extent().height / axes.figure.dpi * 72 / points


def plot(axes, points, **style):
    axes.plot([point.day for point in points], [point.number for point in points], **style)


def draw_line(axes, line, colour):
    """New numbers are joined. Where a field keeps its number the machine has told nothing, so that no line may bend there;
    what follows the last new number is dotted."""
    for points in line.stretches:
        new = [point for point in points if point.new]
        plot(axes, new, color=colour, linewidth=1.6, **DOT)
        plot(axes, [new[-1], points[-1]], color=colour, linewidth=1.4, linestyle=":")
        plot(axes, [point for point in new if point.spent], color=colour, linestyle="", **RING)


def draw_gaps(axes, lines, colours):
    """Crosses stand below all numbers, a row for each drive with gaps, so that none is taken for a number."""
    marked = [serial for serial in lines if lines[serial].gaps]
    rows = max(rows_in(axes, 16), len(marked) + 1)
    low, high = axes.get_ylim()
    axes.set_ylim(low - (high - low) * len(marked) / (rows - len(marked)), high)
    for place, serial in enumerate(marked):
        height = (place + 0.5) / rows
        for gap in lines[serial].gaps:
            axes.plot(gap.days, [height] * len(gap.days), color=colours[serial],
                      transform=axes.get_xaxis_transform(), **CROSS)
            axes.annotate("%s %s" % (serial, gap.reason), (gap.days[-1], height), xycoords=("data", "axes fraction"),
                          xytext=(8, 0), textcoords="offset points", va="center", fontsize=9, color=colours[serial])


def spread(heights, least, top):
    """Heights moved so that each is at least so far above the one below it, and none above the top while there is room."""
    order = sorted(heights, key=heights.get)
    moved, floor, ceiling = {}, float("-inf"), top + least
    for key in order:
        moved[key] = floor = max(heights[key], floor + least)
    for key in reversed(order):
        moved[key] = ceiling = min(moved[key], ceiling - least)
    return moved


def label_lines(axes, lines, colours):
    """Each serial stands behind the end of its line."""
    ends = {serial: line.stretches[-1][-1] for serial, line in lines.items() if line.stretches}
    low, high = axes.get_ylim()
    heights = spread({serial: end.number for serial, end in ends.items()}, (high - low) / rows_in(axes, 12), high)
    for serial, height in heights.items():
        axes.annotate(serial, (ends[serial].day, height), xytext=(8, 0), textcoords="offset points", va="center",
                      color=colours[serial], annotation_clip=False)


def explain(axes):
    from matplotlib.lines import Line2D
    marks = (("new number", {"color": GREY, **DOT}), ("no new number since", {"color": GREY, "linestyle": ":"}),
             ("field spent", {"color": GREY, **RING}), ("gap: no number, and why", {"color": GREY, **CROSS}))
    axes.legend(handles=[Line2D([], [], label=label, **style) for label, style in marks], loc="upper center",
                bbox_to_anchor=(0.5, -0.12), ncol=len(marks), frameon=False, labelcolor=GREY)


def store(picture, path, source):
    """A PNG file that names its source, in 256 colours, which makes it a third as large."""
    from PIL import Image, PngImagePlugin
    drawn, text = io.BytesIO(), PngImagePlugin.PngInfo()
    picture.savefig(drawn, format="png")
    text.add_text("Source", source)
    Image.open(drawn).convert("RGB").quantize().save(path, format="png", optimize=True, pnginfo=text)


def draw(lines, label, path, source):
    import matplotlib
    from matplotlib import figure
    # What a user has set would make another picture of the same numbers.
    matplotlib.rcdefaults()
    matplotlib.rcParams["figure.constrained_layout.w_pad"] = 0.1
    colours = {serial: COLOURS[place % len(COLOURS)] for place, serial in enumerate(lines)}
    picture = figure.Figure(figsize=(9, max(4.5, 0.3 * len(lines))), dpi=100, constrained_layout=True)
    axes = picture.add_subplot()
    for serial, line in lines.items():
        draw_line(axes, line, colours[serial])
    draw_gaps(axes, lines, colours)
    label_lines(axes, lines, colours)
    explain(axes)
    axes.set_xlabel("day of the dump")
    axes.set_ylabel(label)
    axes.yaxis.get_major_locator().set_params(integer=True, min_n_ticks=1)
    # No number is below 0, only crosses are.
    axes.yaxis.set_major_formatter(lambda number, place: "{:,.0f}".format(number) if number >= 0 else "")
    axes.tick_params(axis="y", length=0)
    axes.grid(axis="y", color="#dddddd")
    for side in ("top", "right", "left"):
        axes.spines[side].set_visible(False)
    store(picture, path, source)


def options_of(words):
    usage, _, description = __doc__.partition("usage: ")[2].partition("\n\n")
    parser = argparse.ArgumentParser(usage=usage, description=description, allow_abbrev=False,
                                     formatter_class=argparse.RawDescriptionHelpFormatter)
    parser.add_argument("--new", action="store_true", help=argparse.SUPPRESS)
    for name in ("--csv", "--picture", "--label"):
        parser.add_argument(name, help=argparse.SUPPRESS)
    parser.add_argument("files", nargs="+", help=argparse.SUPPRESS)
    return parser.parse_args(words)


def main():
    faults = []

    def tell(fault):
        print("curve: " + fault, file=sys.stderr)
        faults.append(fault)

    options = options_of(sys.argv[1:])
    rows = table_of(options.files, ["--new"] if options.new else [], tell)
    for day, serial in sorted(doubled(rows)):
        tell("%s is listed more than once on %s: its line has a gap there" % (serial, day))
    table = csv_of(rows)
    put(table, options.csv)
    if options.picture:
        try:
            draw(lines_of(rows), options.label or "number", options.picture, source_of(table))
        except ImportError:
            tell("no picture without matplotlib: make curve installs Debian's python3-matplotlib for /usr/bin/python3")
    sys.exit(1 if faults else 0)


if __name__ == "__main__":
    try:
        main()
    except OSError as error:
        sys.exit("curve: %s" % error)
