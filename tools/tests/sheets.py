"""Sheets as rows of cells with looks, each written as .xlsx and as .ods: a rule for both is tested
once.
"""

from dataclasses import dataclass
from typing import Any, Callable, Collection, Sequence
from xml.sax.saxutils import escape

from workbooks import cell, ods, ods_cell, rows, xlsx


COLOURS = 'xmlns:fo="urn:oasis:names:tc:opendocument:xmlns:xsl-fo-compatible:1.0"'
FIRST_FORMAT = 164  # the number of the first one that a file of .xlsx has itself
HIDDEN = '<style:style style:name="ta2" style:family="table">'
HIDDEN += '<style:table-properties table:display="false"/></style:style>'


@dataclass(frozen=True)
class Look:
    """How letters look: their size in points, 0 for none of their own, and colours as RRGGBB."""

    is_struck: bool = False
    is_raised: bool = False
    size: int = 0
    colour: str = ""
    fill: str = ""

    def font(self) -> str:
        """The properties of a font of .xlsx."""
        struck = "<strike/>" if self.is_struck else ""
        raised = '<vertAlign val="superscript"/>' if self.is_raised else ""
        size = f'<sz val="{self.size}"/>' if self.size else ""
        colour = f'<color rgb="FF{self.colour}"/>' if self.colour else ""
        return f"{struck}{size}{colour}{raised}"

    def pattern(self) -> str:
        """The filling of a cell of .xlsx."""
        if not self.fill:
            return "<fill><patternFill/></fill>"
        colour = f'<fgColor rgb="FF{self.fill}"/>'
        return f'<fill><patternFill patternType="solid">{colour}</patternFill></fill>'

    @property
    def name(self) -> str:
        """The name of its style in .ods."""
        return f"s{self.is_struck:d}{self.is_raised:d}-{self.size}-{self.colour}-{self.fill}"

    def style(self, family: str) -> str:
        """A style of .ods."""
        struck = 'style:text-line-through-style="solid"' if self.is_struck else ""
        raised = 'style:text-position="super 58%"' if self.is_raised else ""
        size = f'fo:font-size="{self.size}pt"' if self.size else ""
        colour = f'fo:color="#{self.colour}"' if self.colour else ""
        fill = f'fo:background-color="#{self.fill}"' if self.fill else ""
        letters = f"<style:text-properties {COLOURS} {struck} {raised} {size} {colour}/>"
        ground = f"<style:table-cell-properties {COLOURS} {fill}/>" if fill else ""
        named = f'style:name="{self.name}" style:family="{family}"'
        return f"<style:style {named}>{letters}{ground}</style:style>"


@dataclass(frozen=True)
class Cell:
    """A text or a number, by the number format of .xlsx, and as .ods shows it; runs of letters may
    have looks of their own. `span` are the rows and columns that are merged.
    """

    value: object = None
    form: str = "General"
    shown: str = ""
    look: Look = Look()
    runs: tuple[tuple[str, Look | None], ...] = ()
    span: tuple[int, int] = (1, 1)

    @property
    def key(self) -> tuple[str, Look]:
        """What its style in .xlsx has."""
        return self.form, self.look


@dataclass(frozen=True)
class Sheet:
    """Rows of cells, or of their values; the numbers of those that are hidden, and of columns, from
    1.
    """

    lines: Sequence[Any]
    name: str = "Tabelle1"
    hidden: Collection[int] = ()
    is_visible: bool = True
    hidden_columns: Collection[int] = ()

    @property
    def cells(self) -> list[list[Cell]]:
        """Its rows of cells."""
        return [
            [value if isinstance(value, Cell) else Cell(value) for value in row]
            for row in self.lines
        ]


def merge(row: int, column: int, span: tuple[int, int]) -> str:
    """A cell of .xlsx that goes over rows and columns, of which the first is 0."""
    first, last = chr(ord("A") + column), chr(ord("A") + column + span[1] - 1)
    return f'<mergeCell ref="{first}{row}:{last}{row + span[0] - 1}"/>'


def of_xlsx(*sheets: Sheet) -> bytes:
    """A file of .xlsx, whose first sheet has a usual name and may have merged cells."""
    keys = list(
        dict.fromkeys(content.key for sheet in sheets for row in sheet.cells for content in row)
    )
    forms = [form for form, _ in keys]
    fonts = "".join(f"<font>{look.font()}</font>" for _, look in keys)
    fills = "".join(look.pattern() for _, look in keys)
    xfs = "".join(
        f'<xf numFmtId="{FIRST_FORMAT + number}" fontId="{number}" fillId="{number}"/>'
        for number in range(len(keys))
    )
    styles = f"<fonts>{fonts}</fonts><fills>{fills}</fills><cellXfs>{xfs}</cellXfs>"

    def text(content: Cell) -> str:
        style = 1 + len(keys) + keys.index(content.key)
        if not content.runs:
            return cell(content.value, style=style)
        found = ""
        for letters, look in content.runs:
            own = f"<rPr>{look.font()}</rPr>" if look else ""
            found += f"<r>{own}<t xml:space='preserve'>{escape(letters)}</t></r>"
        return f'<c s="{style}" t="inlineStr"><is>{found}</is></c>'

    texts: list[tuple[str, str, str]] = []
    for sheet in sheets:
        lines = rows(*([text(content) for content in row] for row in sheet.cells))
        for number in sheet.hidden:
            lines = lines.replace(f'<row r="{number}">', f'<row r="{number}" hidden="1">')
        hides = "veryHidden" if len(texts) % 2 else "hidden"
        texts.append((sheet.name, "visible" if sheet.is_visible else hides, lines))
    merges = "".join(
        merge(row, column, content.span)
        for row, line in enumerate(sheets[0].cells, 1)
        for column, content in enumerate(line)
        if content.span != (1, 1)
    )
    after = f"<mergeCells>{merges}</mergeCells>" if merges else ""
    hidden = "".join(
        f'<col min="{column}" max="{column}" hidden="1"/>' for column in sheets[0].hidden_columns
    )
    before = f"<cols>{hidden}</cols>" if hidden else ""
    return xlsx(texts[0][2], *texts[1:], formats=forms, styles=styles, before=before, after=after)


def ods_text(content: Cell) -> str:
    """A cell of .ods."""
    more = f'table:style-name="{content.look.name}"'
    if content.span != (1, 1):
        more += f' table:number-rows-spanned="{content.span[0]}"'
        more += f' table:number-columns-spanned="{content.span[1]}"'
    if content.runs:
        found = ""
        for letters, look in content.runs:
            own = f'text:style-name="{look.name}"' if look else ""
            found += f"<text:span {own}>{escape(letters)}</text:span>"
        return ods_cell(found, "string", more)
    if content.value is None:
        return f"<table:table-cell {more}/>"
    if isinstance(content.value, str):
        return ods_cell(escape(content.value), "string", more)
    return ods_cell(
        content.shown or str(content.value), "float", f'office:value="{content.value}" {more}'
    )


def of_ods(*sheets: Sheet) -> bytes:
    """A file of .ods."""
    texts = ""
    looks = set()
    for sheet in sheets:
        kind = 1 if sheet.is_visible else 2
        texts += f'<table:table table:name="{sheet.name}" table:style-name="ta{kind}">'
        for column in range(1, max(sheet.hidden_columns, default=0) + 1):
            seen = "collapse" if column in sheet.hidden_columns else "visible"
            texts += f'<table:table-column table:visibility="{seen}"/>'
        for number, row in enumerate(sheet.cells, 1):
            for content in row:
                looks |= {content.look, *(look for _, look in content.runs)}
            hides = "filter" if number % 2 else "collapse"
            hidden = f'table:visibility="{hides}"' if number in sheet.hidden else ""
            texts += f"<table:table-row {hidden}>{''.join(map(ods_text, row))}</table:table-row>"
        texts += "</table:table>"
    styles = (look.style(family) for look in looks if look for family in ("table-cell", "text"))
    return ods(texts, styles=HIDDEN + "".join(styles))


KINDS: tuple[Callable[..., bytes], ...] = (of_xlsx, of_ods)
