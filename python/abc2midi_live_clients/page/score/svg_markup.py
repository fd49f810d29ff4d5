"""The SVG of `abcm2ps` as a tree of elements that a page may show, and the places of its notes in the text.

score_elements.js makes elements of the tree. It has the same lists of elements and attributes, and leaves out any other."""

import re
from itertools import takewhile
from typing import Any, NoReturn, Optional
from xml.parsers import expat

Node = list[Any]  # a tag, its attributes, and what is in it: nodes and texts
Attributes = dict[str, Any]

MOST_ELEMENTS = 60_000
MOST_DEEP = 16
TOO_LARGE = "the score is too large to be shown"
PREFIX = "score-"  # of identifiers and classes, so that none is one of the page
NUMBER = re.compile(r"-?(?:\d{1,7}(?:\.\d{1,6})?|\.\d{1,6})")
COUNT = re.compile(r"\d{1,7}", re.A)
NUMBERS = re.compile(r"[\d.,eE\s-]{1,200}")
LENGTH = re.compile(r"(\d{1,6}(?:\.\d{1,4})?)(?:px)?")
PATH = re.compile(r"[MmLlHhVvCcSsQqTtAaZz\d.,eE\s+-]{0,100000}")
TRANSFORM = re.compile(r"(?:\s*(?:translate|scale|rotate|matrix|skewX|skewY)\([\d.,eE\s-]{1,100}\)){1,8}\s*")
NAME = re.compile(r"[A-Za-z_][\w.-]{0,40}", re.A)
FONT_WORDS = r"(?:\s*(?:italic|oblique|bold|normal))*"
FONT = re.compile(rf"\s*font:({FONT_WORDS})\s*(\d{{1,4}}(?:\.\d{{1,4}})?)px\s+([A-Za-z][A-Za-z, -]{{0,60}})\s*(?:;\s*)?")
ENTITY = re.compile(rb"&(?!(?:amp|lt|gt|quot|apos|#[0-9]{1,7}|#x[0-9A-Fa-f]{1,6});)")
UNWRITABLE = re.compile("[\x00-\x08\x0b-\x1f\x7f-\x9f\ufffe\uffff]")
Forms = dict[str, "re.Pattern[str]"]

SIZES = ("x", "y", "width", "height")
PLACES: Forms = {"x": NUMBER, "y": NUMBER, "transform": TRANSFORM}
WORDS: Forms = {
    **PLACES,
    "text-anchor": re.compile("start|middle|end"),
    "font-family": re.compile("serif|sans-serif|monospace"),
    "font-size": NUMBER,
    "font-style": re.compile("italic|oblique|normal"),
    "font-weight": re.compile("bold|normal"),
}
SHAPES: dict[str, Forms] = {
    "g": {"transform": TRANSFORM, "stroke-width": NUMBER},
    "defs": {},
    "path": {"d": PATH, "transform": TRANSFORM, "stroke-width": NUMBER, "stroke-dasharray": NUMBERS},
    "ellipse": {"cx": NUMBER, "cy": NUMBER, "rx": NUMBER, "ry": NUMBER, "transform": TRANSFORM, "stroke-width": NUMBER},
    "circle": {"cx": NUMBER, "cy": NUMBER, "r": NUMBER, "transform": TRANSFORM, "stroke-width": NUMBER},
    "line": {"x1": NUMBER, "y1": NUMBER, "x2": NUMBER, "y2": NUMBER, "stroke-width": NUMBER},
    "rect": {**PLACES, "width": NUMBER, "height": NUMBER, "stroke-width": NUMBER},
    "text": WORDS,
    "tspan": {**WORDS, "dx": NUMBER, "dy": NUMBER},
    "use": PLACES,
}
HEAD = re.compile(f"#{PREFIX}\\w*hd\\w*", re.A | re.I)
SCALE = re.compile(r"\s*scale\((\d{1,3}(?:\.\d{1,5})?)\)\s*")
BELOW = 24  # pixels below the last note or text of an image: a dynamic or the foot of a staff may be there
REACH = 7  # of a head, from its centre to both sides
KINDS = {"N": "note", "R": "rest", "g": "grace"}
TEXTS = ("text", "tspan")


class NoDrawing(Exception):
    """The bytes are no drawing that can be shown."""


class Drawing:
    """What a parser finds: of the elements of each image those that are known, and of their attributes those that are known and
    of the form that they have. All else is left out, with what is in it."""

    def __init__(self) -> None:
        self.images: list[Node] = []
        self.open: list[Optional[Node]] = []  # None for an element that is left out
        self.sizes: list[int] = []  # how many elements each open one has, with those that it uses
        self.defined: dict[str, int] = {}  # the sizes of elements that others may use

    def begin(self, tag: str, attributes: Attributes) -> None:
        """An element begins."""
        if len(self.open) > MOST_DEEP:
            raise NoDrawing(TOO_LARGE)
        inside = self.open[-1] if self.open else None
        node: Optional[Node] = None
        if tag == "svg" and len(self.open) == 1:
            node = ["svg", size_of(attributes)]
            self.images.append(node)
        elif inside is not None and tag == "abc":
            self.place(attributes)
        elif inside is not None and tag in SHAPES and not (inside[0] in TEXTS and tag not in TEXTS):
            node = [tag, self.known(tag, attributes)]
            if tag != "use" or "href" in node[1]:
                inside.append(node)
        used = node[1].get("href", "") if node else ""
        self.open.append(node)
        self.sizes.append(1 + self.defined.get(used.removeprefix(f"#{PREFIX}"), 0))

    def end(self, _: str) -> None:
        """An element ends. From now on others may use it."""
        node, size = self.open.pop(), self.sizes.pop()
        if size > MOST_ELEMENTS:
            raise NoDrawing(TOO_LARGE)
        if self.sizes:
            self.sizes[-1] += size
        if node and "id" in node[1]:
            self.defined[node[1]["id"].removeprefix(PREFIX)] = size

    def text(self, text: str) -> None:
        """Text, which counts in texts alone."""
        inside = self.open[-1] if self.open else None
        if inside is not None and inside[0] in TEXTS:
            inside.append(text)

    def place(self, attributes: Attributes) -> None:
        """Where a note is, as an element of its own; never in a text."""
        kind = KINDS.get(attributes.get("type", ""))
        found = {name: attributes.get(name, "") for name in SIZES}
        counts = {name: attributes.get(name, "") for name in ("row", "col")}
        if kind and all(map(NUMBER.fullmatch, found.values())) and all(map(COUNT.fullmatch, counts.values())):
            inside = next(node for node in reversed(self.open) if node is not None and node[0] not in TEXTS)
            found |= upright(found) | of_heads(inside)
            inside.append(["place", {"kind": kind, **found, **{name: int(count) for name, count in counts.items()}}])

    def known(self, tag: str, attributes: Attributes) -> Attributes:
        """The attributes that may be shown."""
        forms = SHAPES[tag]
        found = {name: value for name, value in attributes.items() if name in forms and forms[name].fullmatch(value)}
        drawn = "paper" if attributes.get("fill") == "white" else attributes.get("class")
        if drawn in ("fill", "stroke", "paper"):
            found["class"] = PREFIX + drawn
        if NAME.fullmatch(attributes.get("id", "")):
            found["id"] = PREFIX + attributes["id"]
        reference = attributes.get("xlink:href", "")
        if tag == "use" and reference[:1] == "#" and reference[1:] in self.defined:
            found["href"] = f"#{PREFIX}{reference[1:]}"
        return {**found, **font_of(attributes.get("style", ""))}


def upright(found: Attributes) -> Attributes:
    """A place whose height is less than 0, as `abcm2ps` says it of a note far off the staff, reaches that far up."""
    top, height = float(found["y"]), float(found["height"])
    return {"y": f"{top + height:.2f}", "height": f"{-height:.2f}"} if height < 0 else {}


def of_heads(node: Node) -> Attributes:
    """How far the heads of the note that was drawn last in a node reach from left to right, and how far down the centre of each is from the
    lowest one on, if there are some. What `abcm2ps` says of its breadth counts the words below it, too."""
    drawn = takewhile(lambda child: child[0] != "place", reversed(node[2:]))
    heads = [child[1] for child in drawn if HEAD.fullmatch(child[1].get("href", "")) and {"x", "y"} <= child[1].keys()]
    if not heads:
        return {}
    centres = [float(head["x"]) for head in heads]
    return {
        "x": f"{min(centres) - REACH:.2f}",
        "width": f"{max(centres) - min(centres) + 2 * REACH:.2f}",
        "heads": sorted((float(head["y"]) for head in heads), reverse=True),
    }


def size_of(attributes: Attributes) -> Attributes:
    """The width and the height of an image."""
    width, height = (LENGTH.fullmatch(attributes.get(name, "")) for name in ("width", "height"))
    if not width or not height:
        raise NoDrawing("the score has no size")
    return {"width": width[1], "height": height[1], "viewBox": f"0 0 {width[1]} {height[1]}"}


def font_of(style: str) -> Attributes:
    """The font of a style, as attributes."""
    font = FONT.fullmatch(style)
    if not font:
        return {}
    found = {"font-size": font[2], "font-family": font[3].strip()}
    for word, name in (("italic", "font-style"), ("bold", "font-weight")):
        if word in font[1]:
            found[name] = word
    return found


def cut(image: Node) -> None:
    """Cuts an image below what is drawn on it: it is as high as a page."""
    size = image[1]
    height = min(float(size["height"]), lowest(image, 1) + BELOW)
    size |= {"height": f"{height:.2f}", "viewBox": f"0 0 {size['width']} {height:.2f}"}


def lowest(node: Node, scale: float) -> float:
    """How far down the notes and texts in a node reach, on an image that is seen at a scale."""
    attributes = node[1]
    found = SCALE.fullmatch(attributes.get("transform", ""))
    scale *= float(found[1]) if found else 1
    own = (float(attributes.get("y", 0)) + float(attributes.get("height", 0))) * scale if node[0] in ("place", "text") else 0
    inside = [lowest(child, scale) for child in node[2:] if isinstance(child, list) and child[0] != "defs"]
    return max([own, *inside])


def refuse(*_: object) -> NoReturn:
    """Refuses what no drawing of `abcm2ps` has: a document type, an entity, an instruction."""
    raise NoDrawing("the score is no plain SVG")


def images_of(data: bytes) -> list[Node]:
    """The images in the output of `abcm2ps`, which are one after another."""
    drawing = Drawing()
    parser = expat.ParserCreate("utf-8")
    parser.buffer_text = True
    parser.SetParamEntityParsing(expat.XML_PARAM_ENTITY_PARSING_NEVER)
    parser.StartDoctypeDeclHandler = refuse  # in an element there can be none; this does not rest on it
    parser.EntityDeclHandler = refuse
    parser.ProcessingInstructionHandler = refuse
    parser.StartElementHandler = drawing.begin
    parser.EndElementHandler = drawing.end
    parser.CharacterDataHandler = drawing.text
    text = UNWRITABLE.sub(" ", ENTITY.sub(b"&amp;", data).decode("utf-8", "replace"))
    try:
        parser.Parse(f"<images>{text}</images>".encode(), True)
    except expat.ExpatError as error:
        raise NoDrawing("the score cannot be read") from error
    for image in drawing.images:
        cut(image)
    return drawing.images
