"""The words of a picture in SVG, as gnuplot writes it.

    svg_texts.py PICTURE           prints each text on a line
    svg_texts.py --name PICTURE    prints the names that a browser shows for the picture
    svg_texts.py --apart PICTURE   checks that no two texts meet, and that none is cut off

Letters are taken to be as wide as those of a wide font: six tenths of its height, seven for a
capital, and nine for M and W.
"""

import re
import sys
import xml.etree.ElementTree as tree

SVG = "{http://www.w3.org/2000/svg}"


def texts(element, x=0.0, y=0.0, turned=False, size=12.0, anchor="start"):
    """Each text with its place, whether it is turned, its size and its anchor."""
    place = re.match(r"translate\(([-\d.]+),([-\d.]+)\)", element.get("transform", ""))
    if place:
        x, y = x + float(place[1]), y + float(place[2])
        turned = "rotate" in element.get("transform")
    size = float(element.get("font-size", size))
    anchor = element.get("text-anchor", anchor)
    if element.tag == SVG + "text":
        yield "".join(element.itertext()).strip(), x, y, turned, size, anchor
    for child in element:
        yield from texts(child, x, y, turned, size, anchor)


def tenths(letter):
    """The width of a letter, in tenths of the font's height."""
    if letter in "MW":
        return 9
    return 7 if letter.isupper() else 6


def box(text, x, y, turned, size, anchor):
    """The left, top, right and bottom of a text."""
    wide = size * sum(map(tenths, text)) / 10
    start = {"start": 0.0, "middle": wide / 2, "end": wide}[anchor]
    if turned:
        return x - 0.7 * size, y - wide + start, x + 0.1 * size, y + start
    return x - start, y - 0.7 * size, x - start + wide, y + 0.1 * size


def meetings(root):
    """What is wrong with the places of the texts."""
    width, height = (float(part) for part in root.get("viewBox").split()[2:])
    placed = [(entry[0], box(*entry)) for entry in texts(root) if entry[0]]
    for number, (text, (left, top, right, bottom)) in enumerate(placed):
        if left < 0 or top < 0 or right > width or bottom > height:
            yield f"cut off: {text}"
        for other, (left2, top2, right2, bottom2) in placed[:number]:
            if left < right2 and left2 < right and top < bottom2 and top2 < bottom:
                yield f"{other} meets {text}"


def main():
    root = tree.parse(sys.argv[-1]).getroot()
    assert root.tag == SVG + "svg"
    if sys.argv[1] == "--name":
        print(*(title.text for title in root.findall(SVG + "title")), sep="\n")
        return 0
    if sys.argv[1] != "--apart":
        for entry in texts(root):
            print(entry[0])
        return 0
    found = list(meetings(root))
    print(*found, sep="\n", file=sys.stderr)
    return 1 if found else 0


if __name__ == "__main__":
    sys.exit(main())
