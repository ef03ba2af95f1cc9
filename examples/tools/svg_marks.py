"""What the bars and points of a picture in SVG stand for, as gnuplot writes it.

    svg_marks.py PICTURE

Prints a line for each bar and each point: the words that the key has for it; the name on the axis
that is next to it, and below that the name of its group, if it has one; and by the marks of the
other axis, the per cent at both ends of a bar, or of a point.
"""

import re
import sys
import xml.etree.ElementTree as tree

SVG = "{http://www.w3.org/2000/svg}"


def pair(text):
    """The first two numbers."""
    return tuple(float(part) for part in re.findall(r"-?\d+\.\d+", text)[:2])


def words(element):
    return "".join(element.itertext()).strip()


def names(root):
    """Each name at a mark of an axis: the place of the mark, and the element of the name."""
    for group in root.iter(SVG + "g"):
        if len(group) == 2 and group[0].tag == SVG + "path" and group[1].tag == SVG + "g":
            yield pair(group[0].get("d")), group[1]


def groups(root, above):
    """The place and the words of what stands between this height and the label of the axis."""
    found = [(*pair(text.get("transform")), words(text))
             for text in root.iter(SVG + "g") if text.get("text-anchor") == "middle"]
    label = max(y for _, y, _ in found)
    return [(x, text) for x, y, text in found if above < y < label]


def nearest(places, x):
    """The words that are next to this place, in a list."""
    return [min(places, key=lambda place: abs(place[0] - x))[1]] if places else []


def marks(plot):
    """The place of each bar or point, and its lower and upper end. That of the key is the first of
    the bars, and the last of the points."""
    for polygon in list(plot.iter(SVG + "polygon"))[1:]:
        ends = [tuple(map(float, end.split(","))) for end in polygon.get("points").split()]
        across, heights = [end[0] for end in ends], [end[1] for end in ends]
        yield sum(across) / len(across), max(heights), min(heights)
    for point in list(plot.iter(SVG + "use"))[:-1]:
        x, y = pair(point.get("transform"))
        yield x, y, y


def main():
    root = tree.parse(sys.argv[1]).getroot()
    beside, below, lowest = {}, [], 0.0
    for (x, y), name in names(root):
        if name.get("text-anchor") == "end":
            beside[float(words(name))] = y
        else:
            below.append((x, words(name)))
            lowest = max(lowest, pair(name.get("transform"))[1])
    low, high = min(beside), max(beside)
    per_cent = (high - low) / (beside[high] - beside[low])
    for plot in root.iter(SVG + "g"):
        if not plot.get("id", "").startswith("gnuplot_plot_"):
            continue
        key = words(next(plot.iter(SVG + "text")))
        for x, bottom, top in marks(plot):
            ends = [low + (y - beside[low]) * per_cent for y in (bottom, top)]
            print(key, *nearest(below, x), *nearest(groups(root, lowest), x),
                  *(f"{round(end, 1) + 0:g}" for end in ends), sep=", ")


if __name__ == "__main__":
    main()
