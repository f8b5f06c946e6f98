"""Where the texts of a picture are, measured without a browser: by the widths of the font that the picture names, which is one of fixed width."""
import dataclasses
import re
import xml.etree.ElementTree as ElementTree
from collections.abc import Iterator

SVG = "{http://www.w3.org/2000/svg}"
# Each character of DejaVu Sans Mono is so many times as wide as the size of the font, and it reaches so far above its line and below.
ADVANCE = 1233 / 2048
ASCENT, DESCENT = 0.76, 0.22
# Signs of lines, and of what hides a line that is drawn before it.
LINES = {"g", "x", "r", "j", "G"}
COVERS = {"B", "H", "w", "f", "p", "h"}


@dataclasses.dataclass(frozen=True)
class Box:
    """From where to where, and what it is of."""

    left: float
    right: float
    top: float
    bottom: float
    told: str = ""

    def meets(self, other: "Box", least: float = 1) -> bool:
        """Whether it meets another one by more than a pixel."""
        return (
            self.left + least < other.right
            and other.left + least < self.right
            and self.top + least < other.bottom
            and other.top + least < self.bottom
        )

    def part(self, other: "Box") -> "Box":
        """What it has in common with another one."""
        return Box(
            max(self.left, other.left),
            min(self.right, other.right),
            max(self.top, other.top),
            min(self.bottom, other.bottom),
        )

    def has(self, other: "Box") -> bool:
        """Whether another one is within it."""
        return (
            self.left <= other.left
            and other.right <= self.right
            and self.top <= other.top
            and other.bottom <= self.bottom
        )


def rules(style: str, name: str) -> dict[str, str]:
    """What the first rules of a style, those for light ground, say of each class."""
    found = {}
    for classes, body in re.findall(r"([^{}@]+)\{([^{}]*)\}", style.split("@media")[0]):
        if value := re.search(rf"{name}:([\w.]+)", body):
            for word in classes.split(","):
                if re.fullmatch(r"\.\w+", word.strip()):
                    found[word.strip()[1:]] = value[1].removesuffix("px")
    return found


def paths(data: str, down: float, right: float) -> Iterator[Box]:
    """The lines of a path's data, one after the other, as boxes of no width or no height."""
    x = y = 0.0
    start = x, y
    for sign, numbers in re.findall(r"([MHVhvlz])([^MHVhvlz]*)", data):
        values = [float(number) for number in numbers.split()]
        old = x, y
        match sign:
            case "M":
                x, y = values
                start = x, y
                continue
            case "H":
                x = values[0]
            case "h":
                x += values[0]
            case "V":
                y = values[0]
            case "v":
                y += values[0]
            case "l":
                x, y = x + values[0], y + values[1]
            case "z":
                x, y = start
        yield Box(min(old[0], x) + right, max(old[0], x) + right, min(old[1], y) + down, max(old[1], y) + down)


def rectangles(data: str, down: float, right: float) -> Iterator[Box]:
    """The rectangles of a path's data, and what bars with an open end cover."""
    for x, y, other, height in re.findall(r"M (\d+) (\d+)H (\d+)v ?(\d+)", data):
        left, end = sorted((int(x), int(other)))
        yield Box(left + right, end + right, int(y) + down, int(y) + int(height) + down)


class Look:
    """A picture, gone through in the order in which it is drawn: its texts, and what is wrong with them."""

    def __init__(self, root: ElementTree.Element) -> None:
        style = root.findtext(SVG + "style", "")
        self.sizes = rules(style, "font-size")
        self.anchors = rules(style, "text-anchor")
        self.size = float(root.attrib["font-size"])
        self.frame = Box(0, float(root.attrib["width"]), 0, float(root.attrib["height"]))
        # What is drawn so far: lines, and what hides them, with numbers in their order.
        self.at = 0
        self.lines: list[tuple[int, Box]] = []
        self.covers: list[tuple[int, Box]] = []
        self.texts: list[tuple[int, Box]] = []
        self.go(root, [], 0, 0)

    def go(self, element: ElementTree.Element, classes: list[str], right: float, down: float) -> None:
        """Goes through an element and all in it."""
        self.at += 1
        own = [*classes, *(element.get("class") or "").split()]
        if moved := re.match(r"translate\((\d+) (\d+)\)", element.get("transform") or ""):
            right, down = right + int(moved[1]), down + int(moved[2])
        last = set((element.get("class") or "").split())
        if element.tag == SVG + "path":
            data = element.attrib["d"]
            if last & LINES:
                self.lines += [(self.at, line) for line in paths(data, down, right)]
            if last & COVERS:
                self.covers += [(self.at, cover) for cover in rectangles(data, down, right)]
        elif element.tag == SVG + "text":
            self.texts.append((self.at, self.text(element, own, right, down)))
            return
        for child in element:
            self.go(child, own, right, down)

    def text(self, element: ElementTree.Element, classes: list[str], right: float, down: float) -> Box:
        """Where a text is."""
        size = float(next((self.sizes[name] for name in reversed(classes) if name in self.sizes), self.size))
        anchor = next((self.anchors[name] for name in reversed(classes) if name in self.anchors), "start")
        told = "".join(element.itertext())
        width = len(told) * size * ADVANCE
        x, y = float(element.attrib["x"]) + right, float(element.attrib["y"]) + down
        left = x - width / 2 if anchor == "middle" else x
        return Box(left, left + width, y - ASCENT * size, y + DESCENT * size, told)

    def clipped(self) -> list[str]:
        """The texts that are not within the picture."""
        return [text.told for _, text in self.texts if not self.frame.has(text)]

    def struck(self) -> Iterator[str]:
        """The texts through which a line goes that is drawn behind them, or before them with nothing between that hides it."""
        for number, text in self.texts:
            for at, line in self.lines:
                wide = Box(line.left - 1, line.right + 1, line.top - 1, line.bottom + 1)
                if not wide.meets(text, 2):
                    continue
                part = line.part(Box(text.left + 1, text.right - 1, text.top + 1, text.bottom - 1))
                hidden = any(at < cover_at < number and cover.has(part) for cover_at, cover in self.covers)
                if at > number or not hidden:
                    yield text.told

    def meeting(self) -> Iterator[tuple[str, str]]:
        """The texts that meet another one."""
        for place, (_, one) in enumerate(self.texts):
            for _, other in self.texts[place + 1 :]:
                if one.meets(other, 2):
                    yield one.told, other.told
