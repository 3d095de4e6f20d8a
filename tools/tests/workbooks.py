"""Spreadsheets' own files for tests, made part by part, so that each may be as a spreadsheet writes it
or as a hostile hand does.
"""

import io
import zipfile
from typing import Mapping, Sequence
from xml.sax.saxutils import escape, quoteattr

MAIN = "http://schemas.openxmlformats.org/spreadsheetml/2006/main"
KINDS = "http://schemas.openxmlformats.org/officeDocument/2006/relationships"
RELATIONS = "http://schemas.openxmlformats.org/package/2006/relationships"
XML = '<?xml version="1.0" encoding="UTF-8" standalone="yes"?>\n'
ODS_SPACES = " ".join(
    f'xmlns:{prefix}="urn:oasis:names:tc:opendocument:xmlns:{name}:1.0"'
    for prefix, name in (
        *(
            ("office", "office"),
            ("table", "table"),
            ("text", "text"),
            ("style", "style"),
            ("draw", "drawing"),
        ),
        ("calcext", "calcext"),
    )
)


def packed(parts: Mapping[str, str | bytes], method: int = zipfile.ZIP_DEFLATED) -> bytes:
    """A zip file of these parts."""
    stream = io.BytesIO()
    with zipfile.ZipFile(stream, "w", method) as archive:
        for name, text in parts.items():
            archive.writestr(zipfile.ZipInfo(name), text, method)  # of one date, not of now
    return stream.getvalue()


def cell(value: object, reference: str = "", style: int = 0, more: str = "") -> str:
    """A cell of .xlsx: a number, a text as it is inline, or nothing."""
    place = (f' r="{reference}"' if reference else "") + (f' s="{style}"' if style else "")
    if value is None:
        return f"<c{place}>{more}</c>"
    if isinstance(value, str):
        return f'<c{place} t="inlineStr"><is><t xml:space="preserve">{escape(value)}</t></is></c>'
    return f"<c{place}>{more}<v>{value}</v></c>"


def rows(*lines: Sequence[object]) -> str:
    """Rows of .xlsx, from 1 on; a cell is a value, or XML as it is."""
    texts = []
    for number, line in enumerate(lines, 1):
        cells = [text if str(text).startswith("<c") else cell(text) for text in line]
        texts.append(f'<row r="{number}">{"".join(map(str, cells))}</row>')
    return "".join(texts)


def xlsx(
    sheet: str,
    *others: tuple[str, str, str],
    formats: Sequence[str | int] = (),
    strings: str = "",
    before: str = "",
    after: str = "",
    date1904: bool = False,
    namespace: str = MAIN,
    styles: str = "",
    calculation: str = "",
) -> bytes:
    """An .xlsx file with a sheet of these rows, and others (name, state, rows); style 1 has the
    first of `formats`, and further ones are in `styles`.
    """
    names = [("Tabelle1", "visible", sheet), *others]
    listed = "".join(
        f'<sheet name={quoteattr(name)} sheetId="{number}" state="{state}" r:id="rId{number}"/>'
        for number, (name, state, _) in enumerate(names, 1)
    )
    targets = [
        (f"rId{number}", "worksheet", f"worksheets/sheet{number}.xml")
        for number in range(1, len(names) + 1)
    ]
    targets += [
        ("rIdS", "styles", "styles.xml"),
        ("rIdT", "sharedStrings", "/xl/sharedStrings.xml"),
    ]
    ids = [
        str(text) if isinstance(text, int) else str(164 + number)
        for number, text in enumerate(formats)
    ]
    codes = "".join(
        f'<numFmt numFmtId="{number}" formatCode={quoteattr(text)}/>'
        for number, text in zip(ids, formats)
        if isinstance(text, str)
    )
    own = "".join(f'<xf numFmtId="{number}"/>' for number in ["0", *ids])
    parts = {
        "[Content_Types].xml": XML + "<Types/>",
        "_rels/.rels": relations([("rId1", "officeDocument", "xl/workbook.xml")]),
        "xl/workbook.xml": (
            f'{XML}<workbook xmlns="{namespace}" xmlns:r="{KINDS}">'
            f'<workbookPr date1904="{int(date1904)}"/>'
            f"<sheets>{listed}</sheets>{calculation}</workbook>"
        ),
        "xl/_rels/workbook.xml.rels": relations(targets),
        "xl/styles.xml": (
            f'{XML}<styleSheet xmlns="{namespace}"><numFmts>{codes}</numFmts><cellStyleXfs><xf'
            f' numFmtId="9"/></cellStyleXfs><cellXfs>{own}</cellXfs>{styles}</styleSheet>'
        ),
        "xl/sharedStrings.xml": f'{XML}<sst xmlns="{namespace}">{strings}</sst>',
    }
    for number, (_, _, text) in enumerate(names, 1):
        data = f"<sheetData>{text}</sheetData>"
        if number == 1:
            data = f"{before}{data}{after}"
        sheet = f'{XML}<worksheet xmlns="{namespace}">{data}</worksheet>'
        parts[f"xl/worksheets/sheet{number}.xml"] = sheet
    return packed(parts)


def relations(targets: Sequence[tuple[str, str, str]]) -> str:
    """The part of .xlsx that says where other parts are."""
    listed = "".join(
        f'<Relationship Id="{name}" Type="{KINDS}/{kind}" Target="{path}"/>'
        for name, kind, path in targets
    )
    return f'{XML}<Relationships xmlns="{RELATIONS}">{listed}</Relationships>'


def ods(*sheets: str, styles: str = "", extra: dict[str, str] | None = None) -> bytes:
    """An .ods file with these tables."""
    body = f"<office:body><office:spreadsheet>{''.join(sheets)}</office:spreadsheet></office:body>"
    content = (
        f"{XML}<office:document-content"
        f" {ODS_SPACES}><office:automatic-styles>{styles}</office:automatic-styles>{body}"
    )
    parts = {"mimetype": "application/vnd.oasis.opendocument.spreadsheet"}
    return packed({**parts, "content.xml": f"{content}</office:document-content>", **(extra or {})})


def table(*lines: Sequence[str], name: str = "Tabelle1", style: str = "ta1", end: str = "") -> str:
    """A table of .ods; a cell is a text, or XML as it is."""
    texts = [
        text if text.startswith("<") else ods_cell(text) if text else "<table:table-cell/>"
        for line in lines
        for text in line
    ]
    found = iter(texts)
    data = "".join(
        f"<table:table-row>{''.join(next(found) for _ in line)}</table:table-row>" for line in lines
    )
    return f'<table:table table:name="{name}" table:style-name="{style}">{data}{end}</table:table>'


def ods_cell(text: str, kind: str = "string", more: str = "", before: str = "") -> str:
    """A cell of .ods with its type, and its text as shown."""
    lines = "".join(f"<text:p>{line}</text:p>" for line in text.split("\n"))
    return f'<table:table-cell office:value-type="{kind}" {more}>{before}{lines}</table:table-cell>'


def unpacked(data: bytes) -> dict[str, str]:
    """The parts of a zip file."""
    with zipfile.ZipFile(io.BytesIO(data)) as archive:
        return {name: archive.read(name).decode() for name in archive.namelist()}
