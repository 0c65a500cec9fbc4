"""A PDF file: texts in any script, shaped by Pango once each and drawn by cairo."""
from __future__ import annotations

import dataclasses
import importlib
from collections.abc import Iterable
from typing import Any, BinaryIO

# A millimetre in points, in which all lengths are.
MM = 72 / 25.4
# Each kind of paper, with its width and its height.
PAPERS = {"a4": (210 * MM, 297 * MM), "letter": (612.0, 792.0)}
FONTS = "Noto Sans, DejaVu Sans, Sans"
# The size of each style in points, and whether it is bold.
STYLES = {"room": (18, True), "head": (12, True), "when": (12, False), "strong": (9, True),
          "row": (9, False), "small": (8, False), "seat": (20, True), "name": (12, True),
          "tiny": (6.5, False), "tight": (7, True), "tighter": (5, True), "tightest": (3.2, True)}
# The distance of lines, and where the first one is below its top, by the size of the letters.
PITCH, ASCENT = 1.35, 1.05
# How wide a line is, and how black; a rule between rows is fainter.
LINE, RULE = (0.5, 0.0), (0.3, 0.6)
# No text is longer on paper.
MOST_SIGNS = 400
PACKAGES = {"gi": "python3-gi-cairo gir1.2-pango-1.0", "cairo": "python3-gi-cairo",
            "icu": "python3-icu"}


class Lacking(Exception):
    """What has to be installed first, in words."""


def module(name: str) -> Any:
    """A module of a Debian package that only lists need."""
    try:
        return importlib.import_module(name)
    except ImportError as fault:
        packages = PACKAGES[name.partition(".")[0]]
        raise Lacking(f"lists need Debian packages: apt-get install {packages}") from fault


def pango() -> tuple[Any, Any, Any]:
    """Pango, its bridge to cairo, and cairo."""
    gi = module("gi")
    try:
        gi.require_version("Pango", "1.0")
        gi.require_version("PangoCairo", "1.0")
    except ValueError as fault:
        raise Lacking("lists need Debian packages: apt-get install gir1.2-pango-1.0") from fault
    return module("gi.repository.Pango"), module("gi.repository.PangoCairo"), module("cairo")


def shortened(words: str, most: int) -> str:
    return words if len(words) <= most else f"{words[:most]}…"


@dataclasses.dataclass
class Text:
    """A text that is shaped: its lines, the size of its letters, and its extents."""

    lines: list[Any]
    size: float
    width: float
    # Lines belong to their layout.
    layout: Any

    @property
    def height(self) -> float:
        return len(self.lines) * self.size * PITCH


@dataclasses.dataclass
class Block:
    """Texts and lines at places below a point, and how high they are together."""

    texts: list[tuple[float, float, Text]] = dataclasses.field(default_factory=list)
    # Each goes through these points.
    lines: list[list[tuple[float, float]]] = dataclasses.field(default_factory=list)
    # How wide a rule below it is.
    rule: float = 0
    height: float = 0

    def put(self, text: Text, x: float, y: float | None = None, right: bool = False) -> None:
        """Puts a text at x, or so that it ends at x."""
        top = self.height if y is None else y
        self.texts.append((x - text.width if right else x, top, text))

    def underline(self, x: float, end: float) -> None:
        """A line at the block's lower edge."""
        self.lines.append([(x, self.height), (end, self.height)])

    def box(self, x: float, y: float, side: float) -> None:
        self.lines.append([(x, y), (x + side, y), (x + side, y + side), (x, y + side), (x, y)])


class Pdf:
    """A PDF file that is being written, page by page."""

    def __init__(self, file: BinaryIO, title: str, paper: str) -> None:
        self.Pango, self.bridge, cairo = pango()
        self.width, self.height = PAPERS[paper]
        self.surface = cairo.PDFSurface(file, self.width, self.height)
        self.surface.set_metadata(cairo.PDFMetadata.TITLE, title)
        self.drawing = cairo.Context(self.surface)
        self.context = self.bridge.create_context(self.drawing)
        self.bridge.context_set_resolution(self.context, 72)
        self.context.set_round_glyph_positions(False)
        # No hyphen is put into a name where it is broken.
        self.as_they_are = self.Pango.AttrList()
        self.as_they_are.insert(self.Pango.attr_insert_hyphens_new(False))
        self.fonts = {style: self.font(*how) for style, how in STYLES.items()}
        self.shaped: dict[tuple[str, str, float], Text] = {}
        # The lines and the rules of the page, which are drawn when it ends.
        self.lines: list[list[tuple[float, float]]] = []
        self.rules: list[list[tuple[float, float]]] = []
        # Texts with signs that no font of this machine has.
        self.unknown: list[str] = []
        self.pages = 0

    def font(self, size: float, is_bold: bool) -> Any:
        font = self.Pango.FontDescription(FONTS)
        font.set_size(round(size * self.Pango.SCALE))
        if is_bold:
            font.set_weight(self.Pango.Weight.BOLD)
        return font

    def text(self, words: str, style: str, width: float = 0) -> Text:
        """The shaped text; on more lines if it is wider than this. Each is shaped once."""
        words = shortened(words, MOST_SIGNS)
        plain = self.shaped_once(words, style, 0)
        return self.shaped_once(words, style, width) if 0 < width < plain.width else plain

    def shaped_once(self, words: str, style: str, width: float) -> Text:
        key = words, style, width
        if key not in self.shaped:
            self.shaped[key] = self.shape(*key)
        return self.shaped[key]

    def shape(self, words: str, style: str, width: float) -> Text:
        layout = self.Pango.Layout(self.context)
        layout.set_single_paragraph_mode(True)
        layout.set_font_description(self.fonts[style])
        layout.set_text(words, -1)
        if width:
            layout.set_wrap(self.Pango.WrapMode.WORD_CHAR)
            layout.set_width(int(width * self.Pango.SCALE))
            layout.set_attributes(self.as_they_are)
        elif layout.get_unknown_glyphs_count():
            self.unknown.append(words)
        lines = [layout.get_line_readonly(place) for place in range(layout.get_line_count())]
        widest = max(line.get_extents()[1].width for line in lines) / self.Pango.SCALE
        return Text(lines, STYLES[style][0], widest, layout)

    def fitting(self, words: str, styles: Iterable[str], width: float, height: float) -> Text:
        """The text in the first of these styles in which it fits; in the last one, if in none."""
        for style in styles:
            text = self.text(words, style, width)
            if text.height <= height:
                break
        return text

    def draw(self, block: Block, x: float, y: float) -> None:
        """Draws a block with its left upper corner there."""
        move, show = self.drawing.move_to, self.bridge.show_layout_line
        for left, top, text in block.texts:
            for place, line in enumerate(text.lines):
                move(x + left, y + top + (ASCENT + PITCH * place) * text.size)
                show(self.drawing, line)
        self.lines += [[(x + left, y + top) for left, top in line] for line in block.lines]
        if block.rule:
            self.rules.append([(x, y + block.height), (x + block.rule, y + block.height)])

    def stroke(self, lines: list[list[tuple[float, float]]], width: float, grey: float) -> None:
        for start, *others in lines:
            self.drawing.move_to(*start)
            for point in others:
                self.drawing.line_to(*point)
        self.drawing.set_line_width(width)
        self.drawing.set_source_rgb(grey, grey, grey)
        self.drawing.stroke()
        lines.clear()

    def mark(self, words: str, parent: int = 0) -> int:
        """A bookmark of the page that is begun."""
        number: int = self.surface.add_outline(parent, words, f"page={self.pages + 1}", 0)
        return number

    def end_page(self) -> None:
        self.drawing.new_path()
        self.stroke(self.rules, *RULE)
        self.stroke(self.lines, *LINE)
        self.surface.show_page()
        self.pages += 1

    def end(self) -> None:
        self.surface.finish()
