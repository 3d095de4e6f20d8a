"""The file between label-table and label-print, both ways: lines of labels(1), and what belongs to
each label.

    #{"labels":1,"table":"articles.xlsx"}
    #{"row":2,"title":"Pencil","text":{"Colour":"red"},"price":"0,80 €","copies":3}
    ean13 4006381333931
    #{"end":1,"lines":1,"left_out":[5],"left_out_count":1}

A remark that begins with `#{` is one JSON object. The first of a part has the version, the last
says that the part is whole, and each other one belongs to the next line. Lines without such remarks
are a part too. LF ends a line, and nothing else does.
"""

import json
import re
import sys
from dataclasses import dataclass, field, replace
from io import BytesIO
from itertools import count
from typing import Any, Iterable, NamedTuple, Sequence

from labeltools import VERSION
from labeltools.common.budget import LINE, LINES, too_much
from labeltools.common.messages import Origin, quoted, Talk, ToolError
from labeltools.common.text import NOTHING, Text
from labeltools.lines.engine import drawn, Modules
from labeltools.lines.escapes import escaped, unescaped
from labeltools.lines.reasons import Refused
from labeltools.lines.symbologies import check_digit, SYMBOLOGIES, Symbology

MOST_COPIES = 9999
MOST_LEFT_OUT = 20  # rows that the last remark names
MOST_NUMBER = 10**12  # of a row, or a count
OBJECT = b"#{"
FIRST = '#{"labels"'  # how the first remark begins
LAST = '#{"end"'  # and the last one
# the keys of the object before a line, and of all objects: a number, a text, a list of one of
# these, or `NAMED`, which is a list of texts, or an object of them by their names
NAMED = {str: str}
FIELDS: dict[str, Any] = {
    "row": int,
    "title": str,
    "text": NAMED,
    "price": str,
    "unit": str,
    "was": str,
    "copies": int,
}
KEYS: dict[str, Any] = {
    **FIELDS,
    "labels": int,
    "table": str,
    "end": int,
    "lines": int,
    "left_out": [int],
    "left_out_count": int,
    "empty": [str],
}
ONE_LINE = ("price", "unit", "was")
MAKE_AGAIN = Text("make it again")
# what Pango cuts a text at or takes for a line end: controls (but LF), separators of lines and
# paragraphs; surrogates; what turns the letters around it, so that another price is seen
UNPRINTABLE = re.compile("[\x00-\x09\x0b-\x1f\x7f-\x9f\u2028-\u202e\u2066-\u2069\ud800-\udfff]")
encode = json.JSONEncoder(ensure_ascii=False, separators=(",", ":")).encode
decode = json.JSONDecoder().decode


class Record(NamedTuple):
    """A label, from the table to the paper. Texts may have several lines; what is not there is
    empty.

    `row` is that of the table, 0 where it is not known; `price` is printed as it stands, `unit` is
    the unit price that belongs to it, and `was` the old price; `copies` is 1 where the table has no
    such column. `names` are the columns of the texts, one for each, or none at all.

    `number` is that of its line in the file, from 1, and `line` the line of labels(1) as it stands;
    `data` has the check digit, and no escapes any more; `table` is the name of its table, where
    that is known. `drawn` are the modules of its code, or why that is refused; `head` and `body`
    are the title and the text as they are printed.
    """

    row: int = 0
    title: str = ""
    text: tuple[str, ...] = ()
    price: str = ""
    unit: str = ""
    was: str = ""
    copies: int = 1
    names: tuple[str, ...] = ()
    number: int = 0
    line: bytes = b""
    symbology: str = ""
    data: bytes = b""
    table: str = ""
    drawn: Modules | Refused | None = None
    head: str = ""
    body: str = ""

    @property
    def printed_beside(self) -> tuple[str, tuple[str, ...], str, str, str]:
        """What is printed beside the code: its title, its text and its prices."""
        return self.title, self.text, self.price, self.unit, self.was

    @property
    def texts(self) -> tuple[str, ...]:
        """The texts that are printed."""
        return self.head, self.body, self.price, self.was, self.unit

    @property
    def is_cut(self) -> bool:
        """Whether a part of its title or text is left away, whatever the paper."""
        if len(self.head) < len(self.title):
            return True
        return bool(self.text) and len(self.body) < len("\n".join(self.text))

    @property
    def modules(self) -> Modules:
        """The modules of its code, which is drawn."""
        assert isinstance(self.drawn, Modules)
        return self.drawn

    @property
    def refused(self) -> Refused | None:
        """Why it has no code, where it is so."""
        return self.drawn if isinstance(self.drawn, Refused) else None

    @property
    def kind(self) -> Symbology:
        """The symbology of its code, which is drawn."""
        return SYMBOLOGIES[self.symbology]

    @property
    def key(self) -> tuple[str, bytes]:
        """The symbology and the data of its code; the bars of UPC-A are those of the EAN-13 with a
        zero before it.
        """
        if self.symbology == "upca":
            return "ean13", b"0" + self.data
        return self.symbology, self.data

    @property
    def code_line(self) -> str:
        """Its code on one line, with its symbology, as a journal has it."""
        symbology, data = self.key
        return f"{symbology} {escaped(data).decode()}"

    @property
    def origin(self) -> Origin:
        """What messages name: the row of the table, or else the line."""
        if self.row:
            return Origin(self.table, "row", self.row)
        return Origin("", "line", self.number)


@dataclass(frozen=True)
class LinesFile:
    """A whole file: its lines, the first rows that label-table left out, and how many it left out;
    the columns of texts that are empty in a whole table.
    """

    records: tuple[Record, ...]
    left_out: tuple[Origin, ...]
    left_out_count: int
    empty: frozenset[str] = frozenset()


def first_remark(table: str) -> str:
    """Returns the first line of a file, with the name of its table, if there is one."""
    named = {"table": table.encode(errors="replace").decode()} if table else {}
    return f"#{encode({'labels': VERSION, **named})}\n"


def record_lines(record: Record, line: str, has_copies: bool) -> str:
    """Returns the lines of a label: its remark, and the line of labels(1)."""
    found = [f'#{{"row":{record.row}']  # put together by hand, which takes a fifth of the time
    if record.title:
        found.append(f'"title":{encode(record.title)}')
    if record.names:
        found.append(f'"text":{encode(dict(zip(record.names, record.text)))}')
    elif record.text:
        found.append(f'"text":[{",".join(map(encode, record.text))}]')
    for name in ONE_LINE:
        if text := getattr(record, name):
            found.append(f'"{name}":{encode(text)}')
    if has_copies:
        found.append(f'"copies":{record.copies}')
    return f"{','.join(found)}}}\n{line}\n"


def last_remark(count: int, left_out: Sequence[int], empty: Sequence[str] = ()) -> str:
    """Returns the last line of a file of `count` lines, of whose table these rows were left out,
    and these columns of texts have none in the others.
    """
    rows = list(left_out[:MOST_LEFT_OUT])
    end: dict[str, Any] = {"end": VERSION, "lines": count}
    end |= {"left_out": rows, "left_out_count": len(left_out)}
    if empty:
        end["empty"] = empty
    return f"#{encode(end)}\n"


def read_lines(
    data: bytes, name: str, has_escapes: bool = False, numbers: Iterable[int] = ()
) -> LinesFile:
    """Returns the lines of a file; raises `ToolError` for one that is cut off, changed or not
    understood.

    `has_escapes` is whether labels(1) is given --escapes; `numbers` are those of the lines, where
    the first one is not 1.
    """
    reader = _Reader(name, has_escapes)
    is_own = data.startswith(OBJECT)
    longest = LINE.most(len(data))
    for number, ended in zip(numbers or count(1), BytesIO(data)):
        if len(ended) > longest:
            raise too_much(name, len(data), LINES, LINE)
        line = ended.removesuffix(b"\n")
        if is_own and line.endswith(b"\r"):
            what = Text(
                "{}: line {} ends in CR LF: a program of Windows has changed the file", name, number
            )
            raise ToolError(what, Text("take the file as label-table wrote it"))
        if line.startswith(OBJECT):
            reader.take_object(number, line)
        elif line and not line.startswith(b"#"):
            reader.take_line(number, line)
    return reader.whole(is_own and not data.endswith(b"\n"))


def drawn_lines(
    data: bytes, name: str, has_escapes: bool, talk: Talk, numbers: Iterable[int] = ()
) -> LinesFile:
    """Returns the lines of a file, each of them drawn; raises as `read_lines`, and what
    `talk.go_on` raises.
    """
    lines = read_lines(data, name, has_escapes, numbers)
    found = drawn((record.line for record in lines.records), has_escapes, talk)
    records = (record._replace(drawn=made) for record, made in zip(lines.records, found))
    return replace(lines, records=tuple(records))


@dataclass
class _Reader:
    """Reads a file line by line: the lines of a table, of which so many records were read before
    its first one, or those of no table (-1).
    """

    name: str
    has_escapes: bool
    table: str = ""
    first: int = -1
    waiting: dict[str, Any] = field(default_factory=dict)
    torn: Text = NOTHING
    records: list[Record] = field(default_factory=list)
    left_out: list[Origin] = field(default_factory=list)
    left_out_count: int = 0
    empty: set[str] = field(default_factory=set)

    def take_object(self, number: int, line: bytes) -> None:
        """Takes a remark that is an object."""
        found = object_of(line, self.name, number)
        is_in_table = self.first >= 0
        count = len(self.records) - self.first if is_in_table else -1
        is_early = "labels" in found and is_in_table
        is_short = "end" in found and found.get("lines", -2) != count
        if self.waiting or is_early or is_short:
            self.torn = self.torn or Text("before line {}", number)
        self.waiting = {}
        if "labels" in found:
            self.table, self.first = found.get("table", ""), len(self.records)
        elif "end" in found:
            self.left_out += [Origin(self.table, "row", row) for row in found.get("left_out", [])]
            self.left_out_count += found.get("left_out_count", 0)
            self.empty.update(found.get("empty", ()))
            self.table, self.first = "", -1
        else:
            self.waiting = found

    def take_line(self, number: int, line: bytes) -> None:
        """Takes a line of labels(1), to which the object before it belongs."""
        symbology, data = symbology_and_data(line, self.has_escapes)
        self.records.append(
            Record(
                number=number,
                line=line,
                symbology=symbology,
                data=data,
                table=self.table,
                **texts_of_object(self.waiting),
            )
        )
        self.waiting = {}

    def whole(self, is_cut: bool) -> LinesFile:
        """Returns what was read; raises `ToolError` where something is missing."""
        torn = self.torn
        if self.waiting or self.first >= 0 or is_cut:
            torn = torn or Text("at its end")
        if torn:
            what = Text(
                "{} is not whole: something is missing {}. Nothing is printed", self.name, torn
            )
            hint = Text(
                "to print it all the same, take out its lines that begin with {} and {}",
                FIRST,
                LAST,
            )
            raise ToolError(what, hint)
        found = tuple(self.records), tuple(self.left_out), self.left_out_count
        return LinesFile(*found, frozenset(self.empty))


def object_of(line: bytes, name: str, number: int) -> dict[str, Any]:
    """Returns the object of a remark, all of which is understood; raises `ToolError`."""
    try:
        found: dict[str, Any] = decode(line[1:].decode("utf-8", "surrogatepass"))
    except (ValueError, RecursionError) as error:
        where = Text("{}: line {}", name, number)
        raise ToolError(
            Text("{}: the remark is not a JSON object: the file is cut off or changed", where),
            MAKE_AGAIN,
        ) from error
    wrong = [key for key, value in found.items() if key not in KEYS or not is_of(value, KEYS[key])]
    wrong += [key for key in ONE_LINE if "\n" in str(found.get(key, ""))]
    is_known = found.get("labels", found.get("end", VERSION)) == VERSION
    is_right = bool(found) and not wrong and found.get("copies", 0) <= MOST_COPIES
    if is_known and is_right:
        return found
    where = Text("{}: line {}", name, number)
    if not is_known:
        what = Text("{}: the file is of another version of label-table", where)
        raise ToolError(what, MAKE_AGAIN)
    listed = ", ".join(map(quoted, wrong)) or quoted(line.decode("utf-8", "replace"))
    raise ToolError(Text("{}: not understood: {}", where, listed), MAKE_AGAIN)


def is_of(value: object, kind: Any) -> bool:
    """Returns whether a value is a whole number from 0, a text that can be printed, or a list of
    these.
    """
    if kind is NAMED:
        texts = [*value, *value.values()] if isinstance(value, dict) else value
        return is_of(texts, [str])
    if isinstance(kind, list):
        return isinstance(value, list) and all(is_of(part, kind[0]) for part in value)
    if isinstance(value, int):
        return type(value) is kind and 0 <= value <= MOST_NUMBER
    return type(value) is kind and not UNPRINTABLE.search(str(value))


def texts_of_object(found: dict[str, Any]) -> dict[str, Any]:
    """Returns the fields of a record that an object says, which is understood."""
    if not found:
        return {}
    texts = found.get("text", ())
    named = texts if isinstance(texts, dict) else {}
    values = named.values() if named else texts
    return {
        "row": found.get("row", 0),
        "title": found.get("title", "").strip(),
        "text": tuple(text.strip() for text in values if text.strip()),
        "price": sys.intern(found.get("price", "").strip()),  # many labels have the same price
        "unit": sys.intern(found.get("unit", "").strip()),
        "was": sys.intern(found.get("was", "").strip()),
        "copies": found.get("copies", 1),
        "names": tuple(sys.intern(name) for name, text in named.items() if text.strip()),
    }


def symbology_and_data(line: bytes, has_escapes: bool) -> tuple[str, bytes]:
    """Returns the symbology of a line of labels(1), and its data with the check digit and without
    escapes.
    """
    head, _, data = line.partition(b" ")
    symbology = sys.intern(head.partition(b",")[0].decode("ascii", "replace"))
    if has_escapes:
        data = unescaped(data)
    known = SYMBOLOGIES.get(symbology)
    if known and known.is_number and len(data) == known.digits - 1 and data.isdigit():
        data += check_digit(data.decode()).encode()
    return symbology, data
