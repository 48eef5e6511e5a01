#!/usr/bin/env python3
"""Looks at a picture that tools/picture made: holds each pixel across against the table, by what
stands in the SVG alone.

    look.py TABLE.csv PICTURE.svg

Of every counter: the hours that are not known are shaded, by a pixel at least, over the whole
height of its panel, and nothing else lies there; every other pixel has the foot, and a bar as high
as the largest change that is known of its hours; and how many are not known is said. What shaded
means, and how many hours stand together, is said above. Exit status 1 where it is otherwise, and
a line a fault."""
import re
import sys
import xml.etree.ElementTree as ElementTree

SVG = "{http://www.w3.org/2000/svg}"
BOX = r"M(\d+) (\d+)h([1-9]\d*)v([1-9]\d*)h-\d+z"
LETTER = 7
faults = []


def fault(*words):
    faults.append(" ".join(str(word) for word in words))


def table_of(path):
    """The change of each counter in each hour, None in a gap."""
    with open(path, newline="", encoding="ascii") as lines:
        head, *rows, end = lines.read().split("\r\n")
    assert head == "hour,counter,change" and end == ""
    table = {}
    for hour, counter, change in (row.split(",") for row in rows):
        table.setdefault(counter, {})[int(hour)] = int(change) if change else None
    return table


def pixels(name, boxes):
    """The top and the height of the box at each pixel across."""
    at = {}
    for left, top, width, height in boxes:
        for x in range(left, left + width):
            if x in at:
                fault(name, "two shapes at pixel", x)
            at[x] = top, height
    return at


def columns_of(left, right, hours):
    """The pixels and the hours of each column: an hour of whole pixels, or two of whole hours."""
    width, together = (right - left) // len(hours), 1
    if not width:
        width, together = 2, -(-len(hours) // ((right - left) // 2))
    columns = [hours[at:at + together] for at in range(0, len(hours), together)]
    if len(columns) * width != right - left:
        fault(right - left, "pixels are no columns of", len(hours), "hours")
    return [(range(left + at * width, left + (at + 1) * width), column)
            for at, column in enumerate(columns)]


class Panel:
    """A counter's panel, beside its changes."""

    def __init__(self, group, changes):
        self.name, self.hours = group.get("id"), len(changes)
        self.known = {hour: change for hour, change in changes.items() if change is not None}
        self.most = max(self.known.values(), default=0)
        self.boxes = {"band": [], "bar": [], "foot": []}
        self.fills = {}
        for path in group.iter(SVG + "path"):
            if set(path.attrib) != {"class", "fill", "d"}:
                fault(self.name, "a shape is drawn in another way")
            self.fills[path.get("class")] = path.get("fill")
            if not re.fullmatch(f"({BOX})+", path.get("d")):
                fault(self.name, "something that is no box of whole pixels")
            found = [tuple(map(int, box)) for box in re.findall(BOX, path.get("d"))]
            self.boxes[path.get("class")] += found
        self.band, self.bar, self.foot = (pixels(self.name, self.boxes[kind])
                                          for kind in ("band", "bar", "foot"))
        self.highest = max((height for _, height in self.bar.values()), default=0)
        self.texts = [(text.get("text-anchor"), int(text.get("x")), text.text)
                      for text in group.iter(SVG + "text")]

    def all_boxes(self):
        return [box for boxes in self.boxes.values() for box in boxes]

    def look_across(self, left, right):
        """Each pixel is a gap's or has a foot; bars stand on feet; gaps are as high as all."""
        gaps, feet = set(self.band), set(self.foot)
        if gaps & feet or gaps | feet != set(range(left, right)) or not set(self.bar) <= feet:
            fault(self.name, "a line or a bar lies in a gap, or a pixel is neither")
        top = min(top for _, top, *_ in self.all_boxes())
        end = max(top + height for _, top, _, height in self.all_boxes())
        if any(box != (top, end - top) for box in self.band.values()):
            fault(self.name, "a gap that is not as high as the panel")

    def look_at(self, column, hours):
        """A column is shaded where its hours are not known, and as high as their changes."""
        here = [self.known[hour] for hour in hours if hour in self.known]
        shaded = sum(x in self.band for x in column)
        if (shaded > 0) != (len(here) < len(hours)) or (shaded == len(column)) != (not here):
            fault(self.name, "hours", hours, "known", len(here), "pixels shaded", shaded)
        if not here:
            return
        for x in (x for x in column if x in self.foot):
            high, change = self.bar[x][1] if x in self.bar else 0, max(here)
            wanted = self.highest * change / max(1, self.most)
            if (high > 0) != (change > 0) or abs(high - wanted) > 2:
                fault(self.name, "hours", hours, "largest change", change, "height", high)

    def look_at_numbers(self, columns):
        """A number stands above its hour's bar, and in no gap."""
        hours = {x: hours for column, hours in columns for x in column}
        for _, x, number in (text for text in self.texts if text[0] == "middle"):
            reach = range(x - LETTER * len(number) // 2, x + LETTER * len(number) // 2)
            if [str(self.known.get(hour)) for hour in hours[x]] != [number]:
                fault(self.name, "hours", hours[x], "have the number", number)
            if any(x not in self.foot for x in reach):
                fault(self.name, "the number", number, "lies in a gap")

    def look_beside(self, left):
        """What is said beside the panel, which does not reach into it."""
        gaps = self.hours - len(self.known)
        largest = f"largest change {self.most}" if self.known else "no change known"
        wanted = [f"{self.name[-3:]}h", f"{gaps} of {self.hours} not known", largest]
        said = [(x, words) for anchor, x, words in self.texts if anchor == "start"]
        if [words for _, words in said] != wanted:
            fault(self.name, "says", said, "and not", wanted)
        if any(x + LETTER * len(words) > left for x, words in said):
            fault(self.name, "what is said beside it reaches into it")


def look_around(picture, panels):
    """A unit is a pixel, and nothing lies between the panels' edges but what is theirs."""
    if picture.get("viewBox") != f"0 0 {picture.get('width')} {picture.get('height')}":
        fault("a unit is no pixel")
    if {part.tag for part in picture} != {SVG + "g", SVG + "rect", SVG + "text"}:
        fault("something else is drawn")
    within = {part.tag for group in picture.findall(SVG + "g") for part in group}
    if not within <= {SVG + "path", SVG + "text"}:
        fault("something else is drawn in a panel")
    boxes = [box for panel in panels for box in panel.all_boxes()]
    top, end = min(box[1] for box in boxes), max(box[1] + box[3] for box in boxes)
    for box in picture.findall(SVG + "rect")[1:]:
        if top < int(box.get("y")) + int(box.get("height")) and int(box.get("y")) < end:
            fault("something lies over the panels")


def look_above(picture, panels, together):
    """The shade is that of a sample above the panels, and told from bars and from white."""
    white, sample = picture.findall(SVG + "rect")[:2]
    shade = sample.get("fill")
    if white.get("fill") != "white" or min(bytes.fromhex(shade[1:])) > 0xB0:
        fault("the shade", shade, "is hardly seen")
    for panel in panels:
        others = panel.fills.get("bar"), panel.fills.get("foot")
        if panel.fills.get("band", shade) != shade or shade in others:
            fault(panel.name, "is not drawn in the shade of the sample, or bars are")
    said = [text.text for text in picture.findall(SVG + "text")][1]
    if not said.startswith("not known") or (together > 1) != (f" {together} hours: " in said):
        fault("above the panels stands", said)


def main(table_path, picture_path):
    table, picture = table_of(table_path), ElementTree.parse(picture_path).getroot()
    groups = picture.findall(SVG + "g")
    if [group.get("id") for group in groups] != [f"counter-{counter}" for counter in table]:
        fault("the panels are not those of the table's counters, in its order")
        return
    panels = [Panel(group, changes) for group, changes in zip(groups, table.values())]
    look_around(picture, panels)
    boxes = [box for panel in panels for box in panel.all_boxes()]
    left, right = min(box[0] for box in boxes), max(box[0] + box[2] for box in boxes)
    columns = columns_of(left, right, list(next(iter(table.values()))))
    look_above(picture, panels, len(columns[0][1]))
    for panel in panels:
        panel.look_across(left, right)
        for column, hours in columns:
            panel.look_at(column, hours)
        panel.look_at_numbers(columns)
        panel.look_beside(left)


if __name__ == "__main__":
    main(*sys.argv[1:])
    for line in faults[:20]:
        print(line)
    sys.exit(bool(faults))
