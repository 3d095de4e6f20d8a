"""What the file of a driver of CUPS (PPD) says: at which resolution it prints, and which of its
options leave pages as they are.
"""

import re
from collections.abc import Container, Iterator, Mapping, Sequence
from math import gcd
from typing import Any

from labeltools.sending.papers import FOOMATIC

DPI = re.compile(r"^(\d+)(?:x(\d+))?dpi")  # as drivers write it
TOLD = re.compile(r"HWResolution\s*\[\s*(\d+)\S*\s+(\d+)")  # in the code that drivers run
SECTIONS = range(6)  # of that code
SETS_DOTS = re.compile(r'^\*(\w+)\s+[^:\n]+:\s*"[^"]*HWResolution', re.MULTILINE)  # an option
LEAST_DPI = 180  # of a printer of labels
COMMAND_DOTS = re.compile(r"-r(\d+)(?:x(\d+))?")  # of a program that a driver runs
UNKNOWN = 0, 0
RESOLUTION = "Resolution"  # the options of drivers for it, and for paper
PAPER = ("PageSize", "PageRegion")
# what CUPS keeps as a queue has it, whatever a job asks for: how often each page is printed, for
# which CUPS has a place of its own where filters take 1 for a job that does not say it
UNASKED = ("copies", "mirrorprint")
INSTALLED = "InstallableOptions"  # the group of what a printer is made of
# What the keeper of a queue decides, and what is not on a page: its way through the printer, who
# may print, how dark and fine it is, and its colours. Found in the name of an option or its text.
KEPT = re.compile(
    r"slot|tray|source|feed|\bbins?\b|outputbin|media|\bcut|cutter|eject|tear|peel|rewind|ribbon|"
    r"thermal|sensor|tracking|print ?mode|"
    r"user|account|manage?ment|password|department|billing|access|\bpin\b|\bid\b|digit|job ?type|"
    r"hold|secure|"
    r"quality|resolution|densit|dark|speed|rate\b|toner|\binks?\b|econo|smooth|half ?ton|dither|"
    r"screen|contrast|bright|gamma|satur|sharp|image ?type|"
    r"colou?r|gr[ae]y|black|cmyk|rgb|profile|render|trap|intent",
    re.IGNORECASE,
)
# on a label printer also where labels lie, and how long they are
KEPT_ON_LABELS = re.compile(
    r"\btop\b|\bleft\b|offset|position|shift|align|margin|continuous|label|size|paper",
    re.IGNORECASE,
)
NOT_KEPT = re.compile(r"mark|overlay|stamp|separat|banner|cover|duplex|mirror", re.IGNORECASE)
# what changes pages, in the choice of an option that has none of which it is clear that it does
# nothing
CHANGES = re.compile(
    r"\dup|\d pages|booklet|zoom|\bfit|scal|enlarg|reduc|rotat|mirror|poster|tile|shrink|expand|"
    r"landscape|watermark",
    re.IGNORECASE,
)
# the choices of any other option that do nothing: the first of these that it has
NEUTRAL = (
    re.compile(r"(none|off|false|no|not? ?used|disabled?|without)[a-z]?", re.IGNORECASE),
    re.compile(r"no(t|n)?[A-Z_ ].*|.*(None|Off|False)", re.ASCII),
    re.compile(r"0(mm|pt|deg|dpi|%)?|1|1-?up|100%?|portrait|single.*|crop", re.IGNORECASE),
    re.compile(
        r"((use)?pri?nt?(er)?_?(s|def|set)|normal|default|standard|prompt).*|"
        r".*(normal|default|standard)",
        re.IGNORECASE,
    ),
)


def resolutions_of(driver: Any) -> Mapping[int, str]:
    """Returns the word of a driver for each resolution."""
    words = {}
    resolution = driver.findOption(RESOLUTION)
    for choice in reversed(resolution.choices if resolution else []):
        driver.markOption(RESOLUTION, choice["choice"])
        words[dpi_of(dots_of(driver))] = choice["choice"]
    words.pop(0, None)
    return words


def options_of(driver: Any) -> Iterator[Any]:
    """Yields the options of a driver, but for those of what a printer is made of."""
    for group in driver.optionGroups:
        if group.name != INSTALLED:
            yield from group.options
            for part in group.subgroups:
                yield from part.options


def page_options(
    driver: Any, set_dots: Container[str], is_office: bool
) -> tuple[Mapping[str, str], Mapping[str, str]]:
    """Returns the options of a driver that could change a page, each with its choice that does
    nothing, and those that set its dots, each as it is marked: the quality of a job, which a queue
    may have by another name, would change them. Returns also what is set to change pages, and for
    which no job can ask for such a choice: what it is called, and the choice that is marked.
    """
    plain, changing = {}, {}
    for option in options_of(driver):
        marked = marked_of(option)
        if option.keyword in (*PAPER, RESOLUTION):
            continue
        if option.keyword in set_dots:
            plain.update({option.keyword: choice["choice"] for choice in marked})
            continue
        if len(option.choices) < 2 or is_kept(option, is_office):
            continue
        is_asked_for = str(option.keyword).lower() not in UNASKED
        neutral = neutral_of([choice["choice"] for choice in option.choices])
        if is_asked_for:
            plain.update({option.keyword: name for name in neutral})
        for choice in marked:
            words = f"{spaced(choice['choice'])} {choice['text']}"
            is_other = not is_asked_for and choice["choice"] not in neutral
            if is_other if neutral else CHANGES.search(words):
                changing[option.text] = choice["text"]
    return plain, changing


def marked_of(option: Any) -> Sequence[Mapping[str, Any]]:
    """Returns the choice of an option that is marked, if it is one of its choices."""
    return [choice for choice in option.choices if choice.get("marked")]


def is_kept(option: Any, is_office: bool) -> bool:
    """Returns whether an option stays as a queue has it."""
    told = f"{spaced(option.keyword)} {option.keyword} {option.text}"
    if NOT_KEPT.search(told):
        return False
    return bool(KEPT.search(told)) or not is_office and bool(KEPT_ON_LABELS.search(told))


def spaced(name: str) -> str:
    """Returns a name of a driver with spaces between its words.

    >>> spaced("JCLPrintMode")
    'JCL Print Mode'
    """
    return re.sub(r"(?<=[a-z])(?=[A-Z])|(?<=[A-Z])(?=[A-Z][a-z])", " ", name)


def neutral_of(names: Sequence[str]) -> Sequence[str]:
    """Returns the choice of an option that does nothing, if one of them says so.

    >>> neutral_of(["On", "Off"]), neutral_of(["PrinterS", "TrueM", "FalseM"])
    (['Off'], ['FalseM'])
    >>> neutral_of(["0mm", "3mm"]), neutral_of(["KeepLeft", "KeepRight"])
    (['0mm'], [])
    """
    for pattern in NEUTRAL:
        found = [name for name in names if pattern.fullmatch(name)]
        if found:
            return found[:1]
    return []


def dpi_of(sides: tuple[int, int]) -> int:
    """Returns the fewer dots of those across and down; 0 if they are not known, or if one is no
    multiple of the other.

    >>> dpi_of((720, 360)), dpi_of((120, 72))
    (360, 0)
    """
    least, most = sorted(sides)
    return 0 if least == 0 or most % least else least


def common_dots(text: str) -> int:
    """Returns the dots an inch of which each resolution of a driver of foomatic is a multiple, by
    the programs that it runs; 0 if they are too few for labels, or not known. Labels of so many are
    exact at each of them.

    >>> common_dots('*cupsFilter: "foomatic-rip"\\n*X: "gs -r600 -sDEV&&\\nICE=x" "-r1500x900"')
    300
    """
    found = COMMAND_DOTS.findall(text.replace("&&\n", "")) if FOOMATIC.search(text) else []
    common = gcd(*(int(number) for pair in found for number in pair if number))
    return common if common >= LEAST_DPI else 0


def dots_of(driver: Any) -> tuple[int, int]:
    """Returns the dots an inch, across and down, that a driver prints with the options that are
    marked; 0 if it does not say them.

    The code of the options counts more than their names: an option for the quality often has the
    last word, and names such as Gutenprint's 361x360dpi are not what is printed.
    """
    code = "".join(driver.emitString(section, 0) or "" for section in SECTIONS)
    found = TOLD.findall(code) or DPI.findall(resolution_of(driver))
    if not found:
        return UNKNOWN
    across, down = found[-1]
    return int(across), int(down or across)


def resolution_of(driver: Any) -> str:
    """Returns the name of the resolution that is marked, or else the one that a driver says it has.
    Those of foomatic all say 600dpi there, whatever they print.
    """
    option = driver.findOption(RESOLUTION)
    marked = marked_of(option) if option else []
    default = driver.findAttr("DefaultResolution")
    if marked or driver.findAttr("FoomaticIDs") or not default:
        return "".join(choice["choice"] for choice in marked)
    return str(default.value)
