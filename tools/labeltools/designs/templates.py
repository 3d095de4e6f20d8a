"""The built-in designs: templates, of which the one is taken that suits the labels of a file best.
Each makes places for the parts of labels, the same ones for all; these are then filled as those of
a drawing are.

A template is data, and one engine fills all of them: for each module, height of codes and size of
titles that may be, the other parts have the sizes that fit; what is worth most is taken. Lengths
are in dots, those of texts in sizes of their letters.
"""

import math
from typing import Any, Iterator, Mapping, NamedTuple, Sequence

from labeltools.layout.area import Area
from labeltools.layout.fitting import LEFT, MIDDLE, RIGHT
from labeltools.layout.joint_needs import CodeRoom, JointNeeds
from labeltools.layout.needs import HINTING, LEAST_TEXT, LINE, Needs, PRICE_STYLES
from labeltools.layout.place import Place
from labeltools.paper.box import Box

# millimetres: the smallest letters
LEAST_TITLE = 2.1
LEAST_PRICE = 2.1
UNIT_PRICE = 2.75  # with digits 2 mm high, which are read with ease
# as parts of letters of texts
TITLE = 2.4  # the largest ones of titles
DETAILS = 1.15  # those of details: an old price and a unit price, or a text beside these
LARGEST_DETAILS = 1.6  # the same where there is room
LARGEST_WAS = 1.3  # an old price beside the price, in letters of details
MOST_WAS = 0.5  # the same in letters of the price
TITLE_STEP = 1.1  # between two sizes of titles that are tried
TEXT_OF_TITLE = 0.6  # texts below titles without a price, as a part of these
PRICE_OF_TITLE = 6.0  # a larger price, in titles, is worth no more
TITLE_OF_PRICE = 0.4  # a larger title, in letters of the price, is worth no more
MOST_SIDE = 0.45  # of the width of a label: what QR takes beside words
SLACK = 0.2  # white at the sides of a text beside a code, in letters
TITLE_INK = 0.13  # where the ink of most letters begins in lines, in sizes of them
LEAST_LINE = 4  # the shortest line of a title beside a code, in letters
SQUARE = 1.2  # labels up to this width in heights have more lines for titles
LINES = 3  # the most lines of titles; one more on such labels
MOST_WHOLE = 0.85  # fewer titles that are whole are worth half
LEAST_WHOLE = 0.05  # as few are counted where none is
# to which power a part of what is aimed at counts beside the size of the price
WORTHS = {"title": 0.6, "whole": 4.0, "alike": 0.5, "unit": 1.5}
TILL = {"module": 2.0, "code": 1.25, "more": 0.3}
SHELF = {"module": 0.25, "code": 0.35, "more": 0.05}
QR = {"module": 0.0, "code": 0.75, "more": 0.3}

WORDS = frozenset({"title", "text"})
NUMBERS = frozenset({"price", "details"})


class Template(NamedTuple):
    """An arrangement: the parts over the whole width, one below another, and those at the right of
    the code, which is below the former; without the latter all have one middle. `details` are the
    parts that share a line if it takes them; an old price may be at the left of the price instead.
    """

    kind: str
    head: frozenset[str]
    side: frozenset[str]
    details: frozenset[str]

    def of(self, parts: frozenset[str]) -> "Template":
        """Returns the template for labels that have only some parts."""
        details = self.details & parts
        there = parts | ({"details"} if details else set())
        return Template(self.kind, self.head & there, self.side & there, details)

    def suits(self, demand: JointNeeds) -> bool:
        """Returns whether labels, for whose parts it is, have something for each of its rows: a
        text beside a price has one line, and a code has something beside it, but on labels that are
        higher than wide.
        """
        is_high = demand.area.width < demand.area.height
        if self.kind != "below" and (is_high or not self.side):
            return False
        if "was" in self.head and "price" not in self.head:
            return False
        return "text" not in self.details or (demand.lines == 1 and len(self.details) > 1)


def template(kind: str, head: str, side: str) -> Template:
    """Returns an arrangement of rows in their order: parts with a plus sign share a row."""
    rows = [row.split("+") for row in f"{head} {side}".split()]
    details = next(frozenset(row) for row in rows if "unit" in row)
    above, beside = (
        frozenset("details" if "unit" in row else row for row in several.split())
        for several in (head, side)
    )
    if "was+price" in above:
        above = above - {"was+price"} | {"was", "price"}
    return Template(kind, above, beside, details)


TEMPLATES = (
    template("foot", "title was+price", "unit text"),
    template("foot", "title price", "was+unit text"),
    template("foot", "title text was+price", "unit"),
    template("foot", "title text price", "was+unit"),
    template("split", "title text", "price was+unit"),
    template("split", "title", "price was+text+unit"),
    template("below", "title text price was+unit", ""),
    template("below", "title price was+text+unit", ""),
    template("below", "title text was+price unit", ""),
    template("beside", "", "title text price was+unit"),
    template("beside", "", "title price was+text+unit"),
)


class Filled(NamedTuple):
    """A template in which each part has its size: letters and lines of titles, letters of texts, of
    the price, which is in a style, of an old price beside it, and of details, with the lines of
    these; the height of the code, and the width beside it.
    """

    title: int
    title_lines: int
    text: int
    price: int = 0
    style: str = "price"
    was: int = 0
    details: int = 0
    details_lines: int = 0
    code: int = 0
    beside: int = 0


class Filling:
    """Fills a template with the parts of labels, beside or above codes in a room."""

    def __init__(self, demand: JointNeeds, template: Template, room: CodeRoom) -> None:
        self.demand = demand
        self.area = demand.area
        self.template = template
        self.room = room
        self.head, self.side = template.head, template.side
        self.is_foot = template.kind == "foot"
        self.whole = demand.area.width - 2 * demand.inset
        self.has_words_beside = not self.is_foot and bool(WORDS & self.side)
        self.words_room = self.beside(0) if self.has_words_beside else self.whole

    def beside(self, head: int) -> int:
        """Returns the room beside the code, below words of a height: QR is as wide as high."""
        demand, code = self.demand, self.room.width
        if self.side and not self.is_foot and not demand.bars:
            most = int(MOST_SIDE * self.area.width)
            code = max(code, min(self.area.height - head, demand.largest_square, most))
        return self.area.width - code - demand.gap - demand.inset

    def titles(self, sizes: Sequence[int]) -> Iterator[tuple[int, int, float]]:
        """Yields letters of titles, their lines, and what that is worth: the part of the titles
        that is whole so, and in the smallest letters. If few are, only the smallest ones are tried.
        """
        demand, room = self.demand, self.words_room
        if not demand.titles:
            yield from ((size, 0, 1.0) for size in sizes)
            return
        least = self.area.dots(LEAST_TITLE)
        most = LINES + (self.area.width < SQUARE * self.area.height)
        for size in sizes:
            before = -1.0
            for lines in range(1, most + 1):
                whole = demand.whole(lines, room / size)
                if whole > before and (whole >= MOST_WHOLE or size == sizes[-1]):
                    smallest = demand.whole(lines * size // least, room / least)
                    yield size, lines, worth_of_titles(whole, smallest)
                before = max(before, whole)

    def heights(self, found: Filled) -> dict[str, int]:
        """Returns the heights of its parts; hinted titles may be a dot higher than measured."""
        demand, is_hinted = self.demand, found.title_lines > 0
        has_text = "text" in self.head | self.side
        return {
            "title": math.ceil(found.title_lines * LINE * found.title) + is_hinted,
            "text": math.ceil(demand.lines * LINE * found.text) * has_text,
            "price": math.ceil(HINTING * found.price * demand.price_height),
            "details": math.ceil(found.details_lines * LINE * found.details),
        }

    def height(self, parts: frozenset[str], heights: Mapping[str, int]) -> int:
        """Returns the height of parts one below another, with the white between words and numbers,
        and over the whole width also below them.
        """
        words = sum(heights[part] for part in WORDS & parts)
        numbers = sum(heights[part] for part in NUMBERS & parts)
        is_head = parts is self.head
        gaps = (words > 0 and (is_head or numbers > 0)) + (is_head and bool(NUMBERS & parts))
        return words + numbers + gaps * self.demand.gap

    def with_words(self, title: int, lines: int) -> Filled | None:
        """Returns the template with a title of a size in some lines and with texts; None where
        these do not fit.
        """
        demand = self.demand
        text = demand.text_size
        if not demand.prices:
            text = max(text, round(TEXT_OF_TITLE * title))
        found = Filled(title, lines, text)
        if self.side:
            beside = self.beside(self.height(self.head, self.heights(found)))
            if beside < (LEAST_LINE * title if self.has_words_beside else 1):
                return None
            found = found._replace(beside=beside)
            if self.is_foot and "text" in self.side:
                text = min(text, math.floor(beside / (demand.text + SLACK)))
                found = found._replace(text=text)
        return found if text >= self.area.dots(LEAST_TEXT) else None

    def filled(self, words: Filled, details: int) -> Filled | None:
        """Returns a template that has its words with all else as large as there is room, details of
        a size or smaller; None where something does not fit.
        """
        found = self.with_details(words, details, self.area.height)
        if found.details_lines and found.details < self.area.dots(LEAST_TEXT):
            return None
        priced = self.with_price(found)
        return priced and self.with_code(priced)

    def with_details(self, found: Filled, size: int, high: int) -> Filled:
        """Returns what is filled with details on a line or on two, in letters of a size, or smaller
        ones for which there is room, but no smaller than before.
        """
        details = self.template.details
        if not details:
            return found
        room = found.beside if "details" in self.side else self.whole
        both, each = self.demand.width_of(*details), max(map(self.demand.width_of, details))
        may_be_parted = len(details) > 1 and "text" not in details
        lines = found.details_lines or 1 + (may_be_parted and both * size > room)
        wide = both if lines == 1 else each
        size = min(size, math.floor(room / wide), math.floor(high / (lines * LINE)))
        return found._replace(details=max(size, found.details), details_lines=lines)

    def with_price(self, found: Filled) -> Filled | None:
        """Returns what is filled with a price as large as there is room, and an old price beside
        it; None where one of them or the code has no room.
        """
        demand, area = self.demand, self.area
        heights = self.heights(found)
        row = area.height - self.height(self.head, heights)
        side = self.height(self.side, heights)
        low = max(self.room.low, side)
        if row < low:
            return None
        if not demand.prices:
            return found
        is_beside = "price" in self.side
        high = row - (side if is_beside else low)
        wide = found.beside if is_beside else self.whole
        style, size = demand.price_in(wide, high)
        if size < area.dots(LEAST_PRICE):
            return None
        found = found._replace(price=size, style=style)
        return self.with_old_price(found) if "was" in self.head else found

    def old_price_room(self, found: Filled) -> int:
        """Returns the room at the left of all prices."""
        taken = HINTING * self.demand.widest_prices[found.style] * found.price
        return math.floor(self.whole - taken - found.price / 4)

    def with_old_price(self, found: Filled) -> Filled | None:
        """Returns what is filled with an old price at the left of the price."""
        wished = max(LARGEST_WAS * DETAILS * self.demand.text_size, float(found.details))
        room = self.old_price_room(found) / self.demand.was / HINTING
        size = math.floor(min(room, wished, MOST_WAS * found.price))
        is_small = size < max(found.details, self.area.dots(LEAST_TEXT))
        return None if is_small else found._replace(was=size)

    def with_code(self, found: Filled) -> Filled:
        """Returns what is filled with the rest of the room for codes and details."""
        heights = self.heights(found)
        row = self.area.height - self.height(self.head, heights)
        side = self.height(self.side, heights)
        low = max(self.room.low, side)
        most = self.code_high(found._replace(code=row))
        found = found._replace(code=min(max(most, low), row))
        if found.details_lines:
            spare = (found.code if self.is_foot else row) - side
            if "details" in self.head:
                spare = row - found.code
            largest = round(LARGEST_DETAILS * self.demand.text_size)
            found = self.with_details(found, largest, heights["details"] + spare)
        return found

    def code_width(self, found: Filled) -> int:
        """Returns the width that codes have."""
        white = found.beside + self.demand.gap + self.demand.inset
        return self.area.width - (white if self.side else 0)

    def code_high(self, found: Filled) -> int:
        """Returns how high codes are in their room: QR is no higher than wide."""
        high = min(found.code, self.room.most)
        return high if self.demand.bars else min(high, self.code_width(found))

    def worth(self, found: Filled) -> float:
        """Returns what sizes are worth: those of the price and the title, or without a price of the
        title and the code, by what is nearer to its aim than to the floor.
        """
        demand, room = self.demand, self.room
        if demand.prices:
            price = found.price * PRICE_STYLES[found.style]
            title = min(found.title, TITLE_OF_PRICE * price)
            worth = min(price, PRICE_OF_TITLE * found.title) * math.pow(title, WORTHS["title"])
        else:
            is_below = self.template.kind == "below"
            worth = found.title + 0.1 * self.code_high(found) + demand.text_size * is_below
        code = (self.code_high(found) - room.digits) / max(1, room.aim - room.digits)
        power = QR
        if demand.bars:
            power = TILL if self.area.wishes.purpose.is_for_tills else SHELF
        details = found.details if found.details_lines else found.was
        if details:
            wished = max(self.area.dots(UNIT_PRICE), demand.text_size)
            worth *= math.pow(min(1.0, details / wished), WORTHS["unit"])
        shown = math.pow(code, power["code" if code < 1 else "more"])
        return worth * shown * math.pow(room.mean, power["module"])

    def places(self, found: Filled) -> tuple[Place, ...]:
        """Returns the places of what is filled."""
        is_middle = self.template.kind == "below"
        words, numbers = (MIDDLE, MIDDLE) if is_middle else (LEFT, RIGHT)
        price = RIGHT if found.was else numbers
        has_only_words_beside = self.has_words_beside and not NUMBERS & self.side
        block = 0.5 if has_only_words_beside else 0.0
        dot = self.area.dot
        how: dict[str, dict[str, Any]] = {
            "code": {"across": words, "module": self.room.module * dot, "size": 0},
            "title": {"across": words, "down": block, "is_bold": True, "least": LEAST_TITLE},
            "text": {"across": words, "down": block, "lines": 1, "follows": "title"},
            "price": {"across": price, "is_bold": True, "price_style": found.style},
            "was": {"across": LEFT, "size": found.was},
            "unit": {"across": numbers, "size": found.details, "lines": found.details_lines},
        }
        how["title"]["lines"] = found.title_lines
        how["unit"]["down"] = float(is_middle)
        if self.is_foot and "text" in self.side:
            how["text"] = {"across": RIGHT, "down": 1.0, "lines": 1}
        places = []
        for part, box in self.boxes(found).items():
            left, top, wide, high = (side * dot for side in box)
            wanted: dict[str, Any] = {"size": getattr(found, part, 0), **how[part]}
            wanted["size"] *= dot
            places.append(Place(part, left, top, wide, high, **wanted))
        return tuple(places)

    def boxes(self, found: Filled) -> dict[str, Box]:
        """Returns the boxes of parts: words above, the code below them or at their left, numbers in
        the middle of what is left; below numbers over the whole width a text is at the lower edge.
        """
        area, gap, heights = self.area, self.demand.gap, self.heights(found)
        right = area.width - self.demand.inset
        numbers_in = self.head if self.is_foot or not self.side else self.side
        words_in = WORDS - self.side if self.is_foot else WORDS
        words = sum(heights[part] for part in words_in)
        numbers = sum(heights[part] for part in NUMBERS & numbers_in)
        top, low = self.spread(found, words, numbers)
        start = top + words + gap * (words > 0)
        end = low - gap if numbers_in is self.head else area.height
        start += max(0, end - start - numbers) // 2
        wide = self.whole if numbers_in is self.head else found.beside
        left = self.words_left(found)
        title = Box(left, top, right - left, heights["title"])
        price = Box(right - wide, start, wide, heights["price"])
        high = min(found.code, self.room.most)
        below = found.code - high if self.is_foot else (found.code - high) // 2
        boxes = {
            "code": Box(0, low + below, self.code_width(found), high),
            "title": title,
            "text": title._replace(top=title.bottom, height=heights["text"]),
            "price": price,
            "was": price._replace(width=self.old_price_room(found) if found.was else 0),
            "unit": price._replace(top=price.bottom, height=heights["details"]),
        }
        if self.is_foot:
            foot = Box(right - found.beside, low, found.beside, heights["details"])
            boxes["unit"] = foot
            if "text" in self.side:
                high = heights["text"]
                boxes["text"] = foot._replace(top=low + found.code - high, height=high)
        return {part: box for part, box in boxes.items() if min(box.width, box.height) > 0}

    def words_left(self, found: Filled) -> int:
        """Returns where words begin: above a code at its ink, if as many titles are whole there,
        and texts have room.
        """
        demand, whole = self.demand, self.area.width - self.demand.inset
        left = whole - self.words_room
        if self.template.kind == "below" or self.has_words_beside:
            return left
        size = found.title or found.text
        edge = max(0, round(self.ink_of_codes(found) - TITLE_INK * size))
        room = whole - edge
        if self.words_room > room:
            lines = found.title_lines
            before = demand.titles and demand.whole(lines, self.words_room / size)
            if before and demand.whole(lines, room / size) < before:
                return left
            if "text" in self.head and HINTING * demand.width_of("text") * found.text > room:
                return left
        return edge

    def ink_of_codes(self, found: Filled) -> float:
        """Returns where the ink of codes begins, at the left edge of all."""
        demand = self.demand
        most = self.area.most_of_qr
        side = min(self.code_width(found), found.code)
        modules = (
            demand.module_of(need, self.room.module)
            if need.is_bars
            else min(most, side // need.width)
            for need in demand.codes
        )
        return min(need.ink * module for need, module in zip(demand.codes, modules))

    def spread(self, found: Filled, words: int, numbers: int) -> tuple[int, int]:
        """Returns where words and codes begin, with the white that is left around them."""
        high = self.area.height
        above = self.height(self.head, self.heights(found))
        low = high - found.code
        spare = low - above
        if self.side and not self.is_foot:
            return 0 if numbers else (high - words) // 2, above + spare // 2
        if not words:
            return 0, low - spare // (3 if numbers else 2)
        return (0, low) if numbers else (spare // 3, low - spare // 3)


def worth_of_titles(whole: float, smallest: float) -> float:
    """Returns what titles are worth of which a part is whole in the letters of most, and a part in
    the smallest ones.
    """
    worth = math.pow(max(whole, LEAST_WHOLE), WORTHS["alike"])
    worth *= math.pow(max(whole, smallest, LEAST_WHOLE), WORTHS["whole"])
    return worth if max(whole, smallest) >= MOST_WHOLE else worth / 2


def fillings(demand: JointNeeds) -> Iterator[Filling]:
    """Yields the templates that suit labels, for each room that their codes may have."""
    suiting = [template.of(demand.parts) for template in TEMPLATES]
    rooms = [*demand.rooms()]
    for template in dict.fromkeys(suiting):
        if template.suits(demand):
            yield from (Filling(demand, template, room) for room in rooms)


def sizes_of_titles(demand: JointNeeds) -> list[int]:
    """Returns the letters of titles that are tried, the largest first."""
    least = max(demand.area.dots(LEAST_TITLE), demand.text_size)
    size = max(float(least), TITLE * demand.text_size)
    sizes = []
    while size > least:
        sizes.append(round(size))
        size /= TITLE_STEP
    return [*sizes, least]


def sizes_of_details(demand: JointNeeds) -> list[int]:
    """Returns the letters of details that are tried, the largest first."""
    area = demand.area
    if not demand.parts & {"was", "unit"}:
        return [area.dots(UNIT_PRICE)]
    wished = area.dots(UNIT_PRICE), round(DETAILS * demand.text_size), area.dots(LEAST_TEXT)
    return sorted(set(wished), reverse=True)


def worded(demand: JointNeeds) -> Iterator[tuple[Filling, Filled, float]]:
    """Yields the templates with words that fit, and what part of the worth their titles leave."""
    sizes = sizes_of_titles(demand)
    for filling in fillings(demand):
        for title, lines, part in filling.titles(sizes):
            words = filling.with_words(title, lines)
            if words:
                yield filling, words, part


def best_places(area: Area, needs: Needs) -> tuple[Place, ...]:
    """Returns the places that suit labels best, of equal ones the first; none where they have no
    room together.
    """
    demand = JointNeeds(area, needs)
    details = sizes_of_details(demand)
    best = None
    most = 0.0
    for filling, words, part in worded(demand):
        for size in details:
            found = filling.filled(words, size)
            if found and part * filling.worth(found) > most:
                most = part * filling.worth(found)
                best = filling, found
    return best[0].places(best[1]) if best else ()


def has_places(area: Area, needs: Needs) -> bool:
    """Returns whether labels have room together."""
    demand = JointNeeds(area, needs)
    details = sizes_of_details(demand)
    return any(
        filling.filled(words, size) for filling, words, _ in worded(demand) for size in details
    )
