"""label-print and CUPS: the line to type, --print, and the edges of a page."""

import fcntl
import os
import re
import shlex
import signal
import socket
import subprocess
import tempfile
import time
import unittest
from concurrent.futures import ThreadPoolExecutor
from dataclasses import replace
from desk import unread
from pathlib import Path
from types import MappingProxyType
from typing import Any, Callable, Iterator, Mapping, Sequence
from unittest import mock

import cups
import numpy

import drivers
import jobs
import support
from drivers import Bars, bars_of, shift_of, with_end
from jobs import Dots, JobError
from labeltools.common.messages import ToolError
from labeltools.common.text import NOTHING
from labeltools.lines.symbologies import SYMBOLOGIES
from labeltools.printing.job import planned, PrintOptions
from labeltools.sending.cups import queues
from labeltools.sending.driver import dots_of, dpi_of
from labeltools.sending.job import JobState, PROCESSING, SentJob, UnknownJob
from labeltools.sending.papers import Papers, papers_of_driver
from labeltools.sending.queue import lp_line, media_of, Queue, queue_of
from laying import laid_out, look
from printers import Printer
from scheduler import raster_of, Scheduler

DPI = (203, 300, 360, 600)
Pages = Callable[[bytes], Iterator[Dots]]
# two rows of 16 dots
ROWS = numpy.array([[1, 0] * 8, [0] * 8 + [1] * 8], dtype=numpy.uint8)
LABELS = (
    ("ean13 400638133393", {"title": "Bleistift, weich, 2B", "price": "0,80 €", "text": ["rot"]}),
    ("ean8 7351353", {"title": "Kaugummi", "price": "0,30 €"}),
    (
        "upca 03600029145",
        {"title": "Seife aus Übersee", "price": "2,95 €", "unit": "1 l = 11,80 €"},
    ),
    ("code128 LOT 7", {"title": "Los"}),
    ("qr https://example.com/7", {"title": "Regal 7", "price": "1,20 €"}),
)
FIVE = support.file_of(LABELS)
LINES = support.file_of(
    [(f"ean13 {support.ean13(400638000000 + number)}", {"title": "Seife"}) for number in range(3)]
)

INCH = 25.4
# ISO 216, and the papers of North America.
PAPERS = {
    "A3": (297, 420),
    "A4": (210, 297),
    "A5": (148, 210),
    "A6": (105, 148),
    "Letter": (8.5 * INCH, 11 * INCH),
    "Legal": (8.5 * INCH, 14 * INCH),
}


def setUpModule() -> None:
    os.environ["LABELS"] = str(support.labels_program())


class Driver:
    """A driver whose options that are marked run this code, one section after the other."""

    def __init__(self, *code: str) -> None:
        self.code = code

    def emitString(self, section: int, least: float) -> str:
        return self.code[section] if section < len(self.code) else ""

    def findOption(self, name: str) -> None:
        return None

    def findAttr(self, name: str) -> None:
        return None


def told(across: int, down: int) -> str:
    """The code that sets a resolution."""
    return f"<</HWResolution[{across} {down}]>>setpagedevice\n"


class Drivers(unittest.TestCase):
    def test_papers(self) -> None:
        for name, (width, height) in PAPERS.items():
            self.assertEqual(media_of((width, height)), name)
            wide = media_of((width + 1, height))
            self.assertEqual(wide.split(".")[0], "Custom", name)

    def test_dots_of_a_sheet_and_of_a_roll(self) -> None:
        """A sheet has those of drawings, 600, if the driver can, and else those of the queue."""
        for own, others, of_sheet, of_roll in (
            (300, (300, 600), 600, 300),
            (300, (300, 1200), 600, 300),
            (203, (203, 300), 203, 203),
            (0, (300, 360), 360, 360),
            (0, (), 600, 0),
        ):
            queue = Queue("office", own, {dots: f"{dots}dpi" for dots in others})
            self.assertEqual((queue.dpi_for(True), queue.dpi_for(False)), (of_sheet, of_roll))

    def test_a_driver_that_has_several_and_tells_none(self) -> None:
        """Labels at what these are multiples of are exact at each: none has to be scanned."""
        job = planned(PrintOptions(stock="Avery L7160", dpi=300))
        for common, is_doubted in ((300, False), (600, False), (360, True), (0, True)):
            queue = Queue("office", 0, {}, common=common)
            self.assertEqual(bool(queue.resolution_doubt(job)), is_doubted, common)

    def test_dots_of_a_driver(self) -> None:
        """What is told last counts, the fewer of those across and down; none that do not fit."""
        for code, dots in (
            ([told(300, 300)], 300),
            ([told(600, 600), told(300, 300)], 300),
            ([told(1200, 600)], 600),
            ([told(300, 600)], 300),
            ([told(360, 600)], 0),
        ):
            self.assertEqual(dpi_of(dots_of(Driver(*code))), dots, code)


# label printers by the files of their drivers in Debian's packages printer-driver-ptouch and
# printer-driver-dymo: the widest paper that these name, in points, the bytes of a row and the dots
# an inch, if they say them; how wide labels may be in millimetres, and what is too wide
HEADS = (
    ("PT-1960", 51, 12, 180, 13, 18),
    ("PT-1500PC", 68, 14, 180, 15, 18),
    ("PT-1950VP", 51, 14, 180, 15, 18),
    ("PT-2300", 68, 16, 180, 18, 24),
    ("PT-P700", 68, 16, 180, 18, 24),
    ("PT-3600", 102, 48, 360, 27, 36),
    ("PT-9200DX", 102, 48, 360, 27, 36),
    ("PT-P900W", 102, 70, 360, 36, 40),
    ("QL-500", 176, 90, 300, 62, 66),
    ("QL-820NWB", 176, 90, 300, 62, 66),
    ("LabelManager 450", 68, 0, 180, 24, 25),
    ("LabelWriter 450", 175.44, 0, 300, 61, 63),
    ("LabelWriter 4XL", 307.68, 0, 300, 108, 110),
)


class Heads(unittest.TestCase):
    def papers(self, width: float, size: int, dpi: int) -> Papers:
        """The papers of a driver that takes paper of any size, and names some of 100 mm."""
        lines = [f'*PaperDimension {wide}: "{wide} 284"' for wide in (34, width)]
        lines.append('*CustomPageSize True: "pop"')
        lines += [
            f"*ParamCustomPageSize {side}: 1 points 16 100000" for side in ("Width", "Height")
        ]
        if size:
            lines.append(f'*FoomaticRIPOptionSetting Resolution={dpi}dpi: " -r{dpi}x{dpi}"')
            lines.append(f'*FoomaticRIPOptionSetting BytesPerLine={size}: " BytesPerLine={size} "')
        return papers_of_driver("\n".join([*lines, ""]))

    def test_labels_that_are_wider_than_the_head(self) -> None:
        """Whatever their length, and however long the papers are that a driver names."""
        for name, width, size, dpi, narrow, wide in HEADS:
            papers = self.papers(width, size, dpi)
            for length in (25.0, 100.2, 400.0):
                with self.subTest(printer=name, length=length):
                    self.assertAlmostEqual(papers.paper(name, (narrow, length)).size[0], narrow, 0)
                    with self.assertRaisesRegex(
                        ToolError, f"mm across, and this is {wide} mm wide"
                    ):
                        papers.paper(name, (wide, length))

    def test_a_head_that_is_narrower_than_each_tape(self) -> None:
        """The file of PT-PC has one of 3 bytes, which no printer of tapes has."""
        papers = self.papers(68, 3, 180)
        self.assertAlmostEqual(papers.paper("PT-PC", (20.0, 50.0)).size[0], 20.0)

    def test_what_is_beside_the_head_is_white(self) -> None:
        """A paper of 62 mm is printed on 60.96 of them: on which side is not known."""
        paper = self.papers(176, 90, 300).paper("QL-500", (62.0, 100.0))
        for side in (paper.white[0], paper.white[2]):
            self.assertAlmostEqual(side, paper.size[0] - 60.96, 2)


class Symbologies(unittest.TestCase):
    def test_numbers(self) -> None:
        """The others take any data, and their bars are as wide as there is room for."""
        found = {name for name, symbology in SYMBOLOGIES.items() if symbology.is_number}
        self.assertEqual(found, {"ean13", "ean8", "upca"})


class Lines(unittest.TestCase):
    """The line of lp(1) that prints what was written."""

    def words(self, **options: Any) -> str:
        return lp_line(planned(PrintOptions(**options)), "NAME")

    def test_each_form(self) -> None:
        end = "-o Resolution=203dpi -o print-scaling=none FILE.pdf"
        roll = {"paper": (60.0, 40.0), "dpi": 203}
        self.assertEqual(self.words(**roll), f"lp -d NAME -o media=Custom.60x40mm {end}")
        self.assertEqual(self.words(**roll, to="zpl"), "lp -d NAME -o raw FILE.zpl")
        self.assertEqual(self.words(**roll, to="escpos"), "lp -d NAME -o raw FILE.escpos")
        for form in ("png", "pbm"):
            self.assertEqual(self.words(**roll, to=form), "")
        grid = {"cell": (63.5, 38.1), "grid": (3, 7)}
        line = "lp -d NAME -o media=A4 -o Resolution=600dpi -o print-scaling=none FILE.pdf"
        self.assertEqual(self.words(**grid), line)
        self.assertIn("media=Letter", self.words(**grid, paper=(215.9, 279.4)))

    def test_what_is_for_queues_is_loaded_only_for_them(self) -> None:
        """A till waits for its first label, and the rest of these takes time."""
        words = ["/usr/bin/python3", "-X", "importtime", str(support.TOOLS / "label-print")]
        words += ["--paper", "60x40", "--dpi", "203", "--to", "zpl"]
        line = b"ean13 4006381333931\n"
        env = support.environment()
        done = subprocess.run(words, input=line, capture_output=True, env=env)
        self.assertTrue(done.stdout)
        self.assertIn(b"labeltools.sending.sender", done.stderr)
        for module in (b"sending.queue", b"sending.job", b"_hashlib"):
            self.assertNotIn(module, done.stderr)

    def test_it_is_said_by_summary(self) -> None:
        done = support.printed("--paper", "60x40", "--dpi", "203", "--summary", input=LINES)
        line = (
            "lp -d NAME -o media=Custom.60x40mm -o Resolution=203dpi -o print-scaling=none FILE.pdf"
        )
        self.assertEqual(
            support.messages(done),
            [f"label-print: 3 labels on 3 pages; print the file with: {line}"],
        )
        done = support.printed("--paper", "60x40", "--dpi", "203", input=LINES)
        self.assertEqual((done.returncode, done.stderr), (0, b""))

    def test_it_is_said_on_a_terminal(self) -> None:
        command = f"{support.TOOLS}/label-print --paper 60x40 --dpi 203 --to zpl FILE > /dev/null"
        with tempfile.NamedTemporaryFile() as file:
            Path(file.name).write_bytes(LINES)
            line = command.replace("FILE", file.name)
            shown = subprocess.run(
                ["script", "-qec", line, "/dev/null"],
                capture_output=True,
                env=support.environment(),
            )
        self.assertIn(b"3 labels; print the file with: lp -d NAME -o raw FILE.zpl", shown.stdout)


@support.slow
class Queues(unittest.TestCase):
    """Queues of a scheduler of this test's own, with the kinds of drivers that are in use."""

    scheduler: Scheduler
    labels: Printer
    # what each says: its own dots; those of labels on sheets, and on rolls; what is asked for
    SAID = {
        "both": (300, 600, 300, "600x600dpi"),
        "plain": (300, 600, 300, "600dpi"),
        "quality": (600, 600, 600, None),
        "hplip": (300, 300, 300, None),
        "name": (360, 360, 360, None),
        "overruled": (300, 300, 300, None),
        "fine": (1200, 600, 1200, None),
        "coarse": (203, 203, 203, None),
        "moved": (300, 300, 300, None),
        "needles": (0, 0, 0, None),
        "default": (600, 600, 600, None),
        "foomatic": (0, 0, 0, None),
        "silent": (0, 0, 0, None),
        "home": (600, 600, 600, None),
        "generpcl": (300, 600, 300, "600dpi"),
        "zebra": (203, 600, 203, "600dpi"),
        "raw": (0, 600, 0, None),
    }
    SHEET = ("--stock", "Avery L7160")
    ROLL = ("--paper", "60x40")
    # 6 mm at both ends are not printed
    DYMO = ("--paper", "35.63x88.9", "--turn", "yes", "--edge", "1.5,6,1.5,6")
    # drivers of CUPS: what they are tried with, and what turns their language back into pages
    LANGUAGES: dict[str, tuple[Sequence[str], Pages, Sequence[int]]] = {
        "zebra": (ROLL, drivers.pages_of_zpl, (203, 300, 600)),
        "zebraep2": (ROLL, drivers.pages_of_epl, (203, 300)),
        "dymo": (DYMO, drivers.pages_of_dymo, (300,)),
        "generpcl": (SHEET, drivers.pages_of_pcl, (300, 600)),
        "laserjet": (SHEET, drivers.pages_of_pcl, (600,)),
    }

    @classmethod
    def setUpClass(cls) -> None:
        support.needs_module("cups")
        cls.scheduler = Scheduler()
        cls.addClassCleanup(cls.scheduler.stop)
        cls.labels = Printer().start()
        cls.addClassCleanup(cls.labels.off)
        for name in cls.SAID:
            is_label_printer = name in ("raw", "zebra")
            device = cls.labels.name.replace("tcp", "socket") if is_label_printer else ""
            if name == "home":
                cls.scheduler.add_driverless(name)
            else:
                cls.scheduler.add(name, "" if name == "raw" else name, device)
        for name in cls.LANGUAGES:
            cls.scheduler.add(f"file-{name}", name)

    def printed(self, *arguments: str) -> "support.Finished[bytes]":
        """Runs label-print with five labels."""
        return support.printed(*arguments, input=FIVE)

    def test_what_each_kind_says(self) -> None:
        files = [f"file-{name}" for name in self.LANGUAGES]
        self.assertEqual(queues(), sorted([*self.SAID, *files]))
        sheet = planned(PrintOptions(stock="Avery L7160"))
        for name, (dpi, on_sheets, on_rolls, word) in self.SAID.items():
            queue = queue_of(name)
            found = queue.dpi, queue.dpi_for(True), queue.dpi_for(False)
            self.assertEqual(found, (dpi, on_sheets, on_rolls), name)
            if name == "needles":
                with self.assertRaisesRegex(ToolError, "prints 240 by 216 dots an inch"):
                    queue.options(sheet)
            elif on_sheets == 0:  # bars of other dots would be uneven
                with self.assertRaisesRegex(ToolError, "does not tell its resolution"):
                    queue.options(sheet)
            elif on_sheets == 600:
                self.assertEqual(queue.options(sheet).get("Resolution"), word, name)
                self.assertEqual(bool(queue.resolution_doubt(sheet)), not dpi, name)

    def test_what_is_chosen_for_a_job(self) -> None:
        self.assertEqual(queue_of("hplip", {"OutputMode": "Best"}).dpi, 600)
        self.assertEqual(queue_of("overruled", {"StpQuality": "High"}).dpi, 600)
        self.assertEqual(queue_of("generpcl", {"Resolution": "600dpi", "PageSize": "A4"}).dpi, 600)

    def test_labels_arrive_dot_for_dot(self) -> None:
        """But of queues of which nothing is known: what these print has a remark."""
        found = {dpi: [*bars_of([*self.SHEET, "--dpi", f"{dpi}"], FIVE)] for dpi in DPI}
        for name, (own, dpi, _, _) in self.SAID.items():
            if name in ("generpcl", "zebra", "raw", "needles"):
                continue
            with self.subTest(queue=name):
                words = () if dpi else ("--dpi", "600")
                done = self.printed(*self.SHEET, *words, "--print", name)
                (said,) = support.messages(done)
                dots = dpi or 600
                self.assertRegex(said, f"5 labels sent to {name}, at {dots} dpi: job [0-9]+")
                self.assertEqual("scan one label" in said, not own)
                (across, down), page = raster_of(self.scheduler.printed(name))
                if own:
                    self.assertEqual((across % dpi, down % dpi), (0, 0))
                    for bars in found[dpi]:
                        wanted = larger(bars, across // dpi, down // dpi)
                        self.assertIsNotNone(shift_of(page, wanted), bars.top)

    def test_each_language_has_all_bars(self) -> None:
        """At each resolution that a driver has; labels of another one are seen."""
        for name, (sheet, pages_of, resolutions) in self.LANGUAGES.items():
            for dpi in resolutions:
                with self.subTest(driver=name, dpi=dpi):
                    words = (*sheet, "--dpi", f"{dpi}")
                    self.assertEqual(self.printed(*words, "--print", f"file-{name}").returncode, 0)
                    job = self.scheduler.printed(f"file-{name}")
                    pages = [with_end(page) for page in pages_of(job)]
                    found = [shift_of(pages[bars.page], bars) for bars in bars_of(words, FIVE)]
                    self.assertEqual((len(found), found.count(None)), (5, 0), found)
        other = bars_of([*sheet, "--dpi", "300"], FIVE)
        self.assertEqual([shift_of(pages[0], bars) for bars in other], [None] * 5)

    def test_a_job_for_the_printer_itself(self) -> None:
        words = ("--paper", "60x40", "--to", "zpl")
        done = self.printed(*words, "--print", "zebra")
        self.assertIn(b"5 labels sent to zebra, at 203 dpi", done.stderr)
        self.labels.wait(5)
        plain = self.printed(*words, "--dpi", "203").stdout
        self.assertEqual(b"".join(self.labels.labels), plain)
        grid = ("--cell", "60x40", "--grid", "1x1", "--to", "zpl")
        done = self.printed(*grid, "--print", "zebra")
        self.assertIn(b"at 203 dpi", done.stderr)
        done = self.printed(*words, "--print", "raw")
        self.assertIn(b"choose the dots an inch of the printer", done.stderr)

    def test_a_queue_that_does_not_print_says_so(self) -> None:
        def printed(*command: str) -> str:
            subprocess.run([*command, "plain"], check=True)
            return self.printed(*self.SHEET, "--print", "plain").stderr.decode()

        waits = "job [0-9]+; it waits in the queue: plain: it is paused; let it go on"
        said = f"{waits} in the settings of printers, or by cupsenable plain\n$"
        self.assertRegex(printed("cupsdisable"), said)
        sent = sent_job(printed("cupsdisable"))
        self.assertEqual(str(sent.state().trouble), "plain: it is paused")
        subprocess.run(["cancel", "-a", "plain"], check=True)
        state = sent.state()
        self.assertEqual(
            (str(state.trouble), state.is_over), (f"job {sent.number} was cancelled", True)
        )
        self.assertNotIn("paused", printed("cupsenable"))
        self.assertIn('plain: Destination "plain" is not accepting jobs', printed("cupsreject"))
        subprocess.run(["cupsaccept", "plain"], check=True)

    def test_what_cannot_be_printed(self) -> None:
        roll = ("--paper", "60x40")
        for words, status, said in (
            ((*roll, "--dpi", "180", "--print", "zebra"), 2, "at 203 or 300 or 600 dpi, and the"),
            ((*roll, "--dpi", "101", "--to", "zpl", "--print", "zebra"), 2, "(--dpi "),
            ((*roll, "--print", "nobody"), 1, "there is no queue nobody: the queues are both, "),
            ((*roll, "--dpi", "203", "--to", "png", "--print", "zebra"), 2, "do not take png"),
            ((*roll, "--print", "zebra", "--each", "x/%d.pdf"), 2, "not allowed with"),
        ):
            done = self.printed(*words)
            self.assertEqual(done.returncode, status, words)
            self.assertIn(said, done.stderr.decode(), words)

    def add(self, *queue: str) -> None:
        """Adds a queue for this test alone."""
        self.scheduler.add(*queue)
        self.addCleanup(self.scheduler.remove, queue[0])

    DEFAULTS = (
        *("number-up-default=4", "mirror-default=true", "page-border-default=single"),
        *("fit-to-page-default=true", "print-scaling-default=fit", "copies-default=2"),
        *("orientation-requested-default=4", "sides-default=two-sided-long-edge"),
        *("job-sheets-default=standard,standard", "Duplex=DuplexNoTumble"),
        *("page-ranges-default=1", "page-label-default=SECRET", "position-default=top-left"),
        *("outputorder-default=reverse", "page-delivery-default=reverse-order-face-up"),
    )

    def test_the_defaults_of_a_queue_touch_no_label(self) -> None:
        """Its pages are those of a queue without any, and as many; so for a printer's language."""
        for name in ("as-it-is", "changed"):
            self.add(name, "edged")
        self.scheduler.change("changed", *self.DEFAULTS)
        for words in (self.SHEET, (*self.ROLL, "--edge", "4.3")):
            found = []
            for name in ("as-it-is", "changed"):
                done = self.printed(*words, "--print", name)
                self.assertIn(b"CUPS reports it as printed", done.stderr)
                found.append(self.scheduler.printed(name))
            self.assertEqual(*found)
        roll = (*self.ROLL, "--to", "zpl")
        plain = self.printed(*roll, "--dpi", "203").stdout
        label_printer = Printer().start()
        self.addCleanup(label_printer.off)
        self.add("banners", "zebra", label_printer.name.replace("tcp", "socket"))
        self.scheduler.change("banners", "job-sheets-default=standard,none", "copies-default=2")
        self.assertEqual(self.printed(*roll, "--print", "banners").returncode, 0)
        label_printer.wait(5)
        self.assertEqual(b"".join(label_printer.labels), plain)

    def jobs_of(self, kind: str, *changes: str) -> tuple[bytes, bytes]:
        """What arrives at a queue of a kind of driver, and at one with other defaults."""
        found = []
        for name, options in ((f"{kind}-as-it-is", ()), (f"{kind}-changed", changes)):
            self.add(name, kind)
            if options:
                self.scheduler.change(name, *options)
            done = self.printed(*self.SHEET, "--print", name)
            self.assertEqual(done.returncode, 0, done.stderr)
            found.append(self.scheduler.printed(name))
            self.doCleanups()
        return found[0], found[1]

    def test_words_of_vendors_and_qualities_touch_no_label(self) -> None:
        """Each option is asked for at what it has for nothing, whatever it is called; the quality
        leaves the dots.
        """
        turned = ("StpOrientation=Landscape", "NupPages=2up", "FXLayout=4up")
        added = ("QQWatermark=On", "QQShift=Small", "QQFrame=Double")
        for kind, changes in (
            ("vendor", (*turned, *added)),
            ("quality", ("print-quality-default=3",)),
            ("postscript", ("pdftops-renderer-default=pdftocairo",)),
        ):
            with self.subTest(kind=kind):
                before, after = map(without_comments, self.jobs_of(kind, *changes))
                self.assertEqual(before, after)

    def test_an_option_that_has_nothing_for_no_change(self) -> None:
        """A queue is refused by its name, until something else is set there."""
        self.add("four", "vendor")
        self.scheduler.change("four", "QQPlaces=4up")
        done = self.printed(*self.SHEET, "--print", "four")
        self.assertEqual(done.returncode, 2)
        said = "four is set to QQPlaces: 4up, which could change labels: choose something else"
        self.assertIn(said, done.stderr.decode().replace("; ", ": "))
        self.scheduler.change("four", "QQPlaces=TopLeft")
        self.assertEqual(self.printed(*self.SHEET, "--print", "four").returncode, 0)

    def test_a_driver_that_mirrors_each_page(self) -> None:
        """CUPS keeps that as a queue has it, whatever a job asks for."""
        self.add("mirrors", "mirror")
        self.scheduler.change("mirrors", "MirrorPrint=True")
        done = self.printed(*self.SHEET, "--print", "mirrors")
        self.assertEqual(done.returncode, 2)
        said = "mirrors is set to MirrorPrint: True, which could change labels"
        self.assertIn(said, done.stderr.decode())
        self.scheduler.change("mirrors", "MirrorPrint=False")
        self.assertEqual(self.printed(*self.SHEET, "--print", "mirrors").returncode, 0)

    def test_a_class_of_printers(self) -> None:
        """CUPS shows the driver of its first one, and prints on any."""
        for name, kind in (("first", "plain"), ("second", "tape")):
            self.add(name, kind)
            subprocess.run(["lpadmin", "-p", name, "-c", "office"], check=True)
        self.addCleanup(self.scheduler.remove, "office")
        subprocess.run(["cupsenable", "office"], check=True)
        subprocess.run(["cupsaccept", "office"], check=True)
        done = self.printed(*self.SHEET, "--print", "office")
        self.assertEqual(done.returncode, 2)
        said = "office is a class of printers, which may differ: choose one of them: first, second"
        self.assertIn(said, done.stderr.decode().replace("; ", ": "))

    def test_a_driver_that_prints_each_page_several_times(self) -> None:
        """No job can ask CUPS for another choice of that option."""
        self.add("often", "vendor")
        self.scheduler.change("often", "Copies=3")
        done = self.printed(*self.SHEET, "--print", "often")
        self.assertEqual(done.returncode, 2)
        self.assertIn("often is set to Copies: 3, which could change labels", done.stderr.decode())
        self.scheduler.change("often", "Copies=1")
        self.assertEqual(self.printed(*self.SHEET, "--print", "often").returncode, 0)

    def test_how_dark_a_queue_prints_stays(self) -> None:
        before, after = self.jobs_of("vendor", "QQDarkness=High")
        self.assertNotEqual(before, after)
        self.assertTrue(numpy.array_equal(raster_of(before)[1], raster_of(after)[1]))

    def test_where_a_label_printer_begins_stays(self) -> None:
        """Its keeper has set it up so that labels are where they have to be."""
        found = queue_of("zebra").plain
        self.assertNotIn("zeLabelTop", found)
        self.assertEqual(queue_of("generpcl").plain, {"Duplex": "None"})

    def test_the_resolution_of_a_queue_without_a_driver(self) -> None:
        """That is asked for, whatever the queue has for jobs that do not say it."""
        self.scheduler.add_driverless("other-dots")
        self.addCleanup(self.scheduler.remove, "other-dots")
        self.scheduler.change("other-dots", "printer-resolution-default=300dpi")
        done = self.printed(*self.SHEET, "--print", "other-dots")
        self.assertIn(b"at 600 dpi", done.stderr)
        self.assertEqual(raster_of(self.scheduler.printed("other-dots"))[0], (600, 600))

    def test_a_driver_whose_default_is_none_of_its_choices(self) -> None:
        self.add("outside", "plain")
        path = self.scheduler.folder / "ServerRoot/ppd/outside.ppd"
        text = path.read_text()
        self.assertIn("*DefaultResolution: 300dpi", text)
        path.write_text(text.replace("*DefaultResolution: 300dpi", "*DefaultResolution: 450dpi"))
        done = self.printed(*self.SHEET, "--print", "outside")
        self.assertEqual(done.returncode, 0, done.stderr)
        self.assertEqual(raster_of(self.scheduler.printed("outside"))[0], (600, 600))

    def test_paper_that_a_driver_does_not_know(self) -> None:
        """It is asked for: a general edge, a size below the least, the dots of a roll or a sheet."""
        self.add("any-size", "edged")
        self.add("general", "general")
        small = ("--paper", "60x24", "--edge", "4.3")
        given = "--paper-as-given"
        edges = "how near to the edge it prints: 5 labels may be cut; print on this paper (--paper-as-given"
        for queue, words, said in (
            ("general", self.ROLL, f"general does not say {edges}"),
            ("any-size", small, "below 25.4 by 25.4 mm: labels on sheets need the name of their"),
            ("any-size", small, "; a label printer needs a queue without"),
            (
                "any-size",
                (*self.ROLL, given),
                "would be cut; keep labels away from the edge (--edge 4.3,4.3,4.3,4.3",
            ),
            (
                "silent",
                self.ROLL,
                "resolution: look at its manual, and choose it; 203 dpi (--dpi 203) or 300 dpi",
            ),
            ("silent", self.SHEET, "silent does not tell its resolution: look at its manual"),
            ("zebra", (*self.ROLL, "--to", "zpl", given), "only for a PDF on a queue"),
        ):
            with self.subTest(queue=queue, words=words):
                done = self.printed(*words, "--print", queue)
                self.assertEqual(done.returncode, 2, done.stderr)
                self.assertIn(said, done.stderr.decode())
        for queue, words in (("general", self.ROLL), ("any-size", small)):
            done = self.printed(*words, given, "--print", queue)
            self.assertIn(b"CUPS reports it as printed", done.stderr)
            job = self.scheduler.printed(queue)
            is_picture = queue == "general"
            page = jobs.pictures_of_pbm(job)[0] if is_picture else raster_of(job)[1]
            bars = next(bars_of((*words, "--dpi", "300"), FIVE))
            self.assertIsNotNone(shift_of(page, bars), queue)

    def test_a_label_printer_with_the_driver_of_another(self) -> None:
        """The command that is said makes a queue on which it prints."""
        labels = Printer().start()
        self.addCleanup(labels.off)
        self.add("till", "plain", labels.name.replace("tcp", "socket"))
        roll = (*self.ROLL, "--to", "zpl", "--dpi", "203")
        said = self.printed(*roll, "--print", "till").stderr.decode()
        self.assertIn("a label printer needs a queue without a driver", said)
        self.assertIn(f"--print {labels.name}", said)
        self.assertIn(
            "a label printer needs a q", self.printed(*self.ROLL, "--print", "till").stderr.decode()
        )
        line = said[said.index("lpadmin") :].partition(" (--")[0]
        subprocess.run(shlex.split(line), check=True, capture_output=True)
        self.addCleanup(self.scheduler.remove, "till-labels")
        done = self.printed(*roll, "--print", "till-labels")
        told = "the printer took all of it: look whether it comes out; printed without the queue, "
        way = f"labels that get lost are named .--print {labels.name}.\n$"
        self.assertRegex(done.stderr.decode(), told + way)
        self.assertEqual(done.returncode, 0)
        labels.wait(5)
        self.assertEqual(b"".join(labels.labels), self.printed(*roll).stdout)

    def test_a_number_that_another_job_has(self) -> None:
        """CUPS counts again once it has forgotten all: the time of a job tells it from others."""
        sent = sent_job(self.printed(*self.SHEET, "--print", "plain").stderr.decode())
        self.assertTrue(sent.state().is_printed)
        others = replace(sent, queue="both"), replace(sent, created=1), replace(sent, number=9999)
        for job in others:
            with self.assertRaisesRegex(UnknownJob, "does not know job .* any more"):
                job.state()

    def test_paper_that_a_printer_has_not(self) -> None:
        self.add("any-size", "edged")
        self.add("tape", "tape")
        turned = ("--paper", "88.9x35.63")
        grid = ("--cell", "50x30", "--grid", "2x2", "--paper", "105x62")
        for queue, words, said in (
            (
                "plain",
                self.ROLL,
                "no paper of 60 by 40 mm: the nearest that it has is 209.9 by 297",
            ),
            ("plain", grid, "labels on sheets need the name of their sheet (--stock, --cell)"),
            ("file-dymo", self.SHEET, "prints 57.15 mm across, and this is 210 mm wide: take"),
            ("file-dymo", turned, "it has 35.63 by 88.9 mm: give the sides in this order"),
            ("any-size", ("--paper", "300x300"), "prints 209.9 mm across, and this is 300 mm"),
            ("tape", self.ROLL, "tape prints 23.99 mm across, and this is 60 mm wide"),
            (
                "any-size",
                self.ROLL,
                "5 labels would be cut; keep labels away from the edge (--edge 4.3,4.3,4.3,4.3",
            ),
            (
                "plain",
                (*self.ROLL, "--to", "zpl"),
                "prints zpl as letters: an office printer takes PDF",
            ),
        ):
            with self.subTest(queue=queue, words=words):
                done = self.printed(*words, "--print", queue)
                self.assertEqual(done.returncode, 2)
                self.assertIn(said, done.stderr.decode())
                self.assertNotIn(b"job", done.stderr)
        self.assertEqual(
            self.printed(*self.ROLL, "--edge", "4.3", "--print", "any-size").stdout, b""
        )
        words = (*self.ROLL, "--edge", "4.3", "--dpi", "300")
        (_, page) = raster_of(self.scheduler.printed("any-size"))
        bars = next(bars_of(words, FIVE))
        self.assertIsNotNone(shift_of(page, bars))

    def test_what_is_said_to_be_printed_was_printed(self) -> None:
        """A filter that fails, a printer that gives a job up, and a queue that holds its jobs."""
        self.add("broken", "broken")
        self.add("given-up", "zebra", "socket://127.0.0.1:1/?contimeout=1")
        self.scheduler.change("given-up", "printer-error-policy=abort-job")
        self.add("holds", "plain")
        self.scheduler.change("holds", "job-hold-until-default=indefinite")
        for name, status, said in (
            ("plain", 0, "CUPS reports it as printed"),
            ("broken", 1, "it waits in the queue: .*Filter failed"),
            ("given-up", 1, "some labels may be on paper: CUPS gave up job [0-9]+: The printer"),
            (
                "holds",
                1,
                "it waits in the queue: holds: job ([0-9]+) is held; let it go on .* -H resume",
            ),
        ):
            with self.subTest(queue=name):
                paper = self.ROLL if name == "given-up" else self.SHEET
                done = self.printed(*paper, "--print", name)
                self.assertRegex(done.stderr.decode(), f"5 labels sent to {name}, .*; ({said})")
                self.assertEqual(done.returncode, status)
                subprocess.run(["cancel", "-a", name], capture_output=True)

    def test_a_printer_that_gives_a_job_up(self) -> None:
        """CUPS has passed a job on, and says then that it was not printed."""
        sent = sent_job(self.printed(*self.SHEET, "--print", "home").stderr.decode())
        self.assertTrue(sent.state().is_printed)
        for reason in ("cups-remote-aborted", "cups-remote-canceled"):
            line = Connection({"printer-state-reasons": [reason]})
            with mock.patch("labeltools.sending.cups.connection", lambda line=line: line):
                state = sent.state()
            gave_up = f"some labels may be on paper: the printer gave up job {sent.number}"
            self.assertEqual((str(state.told), state.is_printed), (gave_up, False))

    def meanwhile(self, queue: str, act: Callable[[], object]) -> str:
        """What label-print says if something is done while CUPS tries to print."""
        shown = ("lpstat", "-p", queue)
        with ThreadPoolExecutor(1) as thread:
            done = thread.submit(self.printed, *self.ROLL, "--print", queue)
            self.scheduler.wait(
                lambda: b"now printing" in subprocess.run(shown, capture_output=True).stdout
            )
            time.sleep(0.5)  # the job is known, and is watched
            act()  # cupsd ends with the thread that has started it
        is_printed = b"reports it as printed" in done.result().stderr
        self.assertEqual(done.result().returncode, 0 if is_printed else 1)
        return done.result().stderr.decode()

    def test_cups_that_goes_away(self) -> None:
        """What was sent is said, and how it is looked for."""
        self.add("lost", "zebra", "socket://127.0.0.1:1")
        with mock.patch("labeltools.sending.job.AWAY", 0.5):
            said = self.meanwhile("lost", self.scheduler.leave)
        sent = "5 labels sent to lost, at 203 dpi: job ([0-9]+); CUPS does not answer any more: "
        self.assertRegex(said, f"{sent}labels may be on paper; look there; once CUPS answers, lpst")
        words = (*self.ROLL, "--print", "lost")
        self.assertIn(b"CUPS does not answer: install it", self.printed(*words).stderr)
        self.scheduler.come()

    def test_cups_that_goes_away_as_it_takes_a_job(self) -> None:
        """Nobody knows whether it has the job: that it is printed is not said, nor that it is not."""
        line = Connection(is_leaving=True)
        with mock.patch("labeltools.sending.cups.connection", lambda: line):
            done = self.printed(*self.SHEET, "--print", "plain")
        said = (
            "label-print: CUPS does not answer any more: labels may be on paper; look there; once"
        )
        self.assertIn(said, done.stderr.decode())
        self.assertEqual(done.returncode, 1)

    def test_cups_that_is_started_again(self) -> None:
        """The job is found again, and has begun twice; the next one has not."""
        with socket.create_server(("127.0.0.1", 0)) as free:
            port = free.getsockname()[1]
        self.add("restarted", "zebra", f"socket://127.0.0.1:{port}")

        def come_back() -> None:
            self.scheduler.leave()
            time.sleep(0.5)
            self.addCleanup(Printer(port=port).start().off)
            self.scheduler.come()

        said = self.meanwhile("restarted", come_back)
        twice = "CUPS has begun it twice: some labels may be there twice, look for them"
        self.assertRegex(said, f"5 labels sent to restarted, .*; {twice}")
        done = self.printed(*self.ROLL, "--print", "restarted")
        self.assertIn(b"CUPS reports it as printed", done.stderr)

    def test_a_printer_that_works_without_a_word(self) -> None:
        """CUPS says that it prints, and nothing else, for longer than another job may wait; its own
        words are in any language.
        """
        short = mock.patch.multiple("labeltools.sending.job", IDLE=0.05, LOOKS=(0.01, 0.01))
        for said in ("Waiting for printer to finish", "Warten auf den Drucker", ""):
            prints = JobState(NOTHING, said, False, marks=(PROCESSING, 0))
            states = [*[prints] * 20, JobState(NOTHING, "", True, True)]
            with short, mock.patch.object(SentJob, "state", side_effect=states):
                self.assertTrue(SentJob("plain", 1).follow(str).is_printed)

    def test_a_job_that_is_cancelled_and_a_queue_that_is_removed(self) -> None:
        """Of a job that was begun some labels may be on paper. CUPS begins it again, or not, before it
        removes its queue.
        """
        self.scheduler.add("removed", "zebra", "socket://127.0.0.1:1")
        said = self.meanwhile("removed", lambda: subprocess.run(["cancel", "-a", "removed"]))
        self.assertRegex(said, "; some labels may be on paper: job [0-9]+ was cancelled")
        said = self.meanwhile("removed", lambda: self.scheduler.remove("removed"))
        gone = "CUPS does not know job [0-9]+ of removed any more; look at the paper"
        twice = "CUPS has begun it twice: some labels may be there twice, look for them"
        told = f"(some labels may be on paper: job [0-9]+ was cancelled|{gone}|{twice})"
        self.assertRegex(said, f"5 labels sent to removed, .*; {told}")

    def test_a_signal_ends_only_the_watching(self) -> None:
        self.add("away", "zebra", "socket://127.0.0.1:1")
        words = (*self.ROLL, "--print", "away")
        with subprocess.Popen(
            [str(support.TOOLS / "label-print"), *words],
            stdin=subprocess.PIPE,
            stderr=subprocess.PIPE,
            env=support.environment(),
        ) as run:
            assert run.stdin and run.stderr
            run.stdin.write(FIVE)
            run.stdin.close()
            jobs = ("lpstat", "-p", "away")

            def found() -> bytes:
                return subprocess.run(jobs, capture_output=True).stdout

            self.scheduler.wait(lambda: b"now printing" in found())
            time.sleep(1)  # it has the number of the job
            run.send_signal(signal.SIGINT)
            said = run.stderr.read().decode()
        goes_on = "5 labels sent to away, .* job ([0-9]+); it goes on: cancel \\1 ends it"
        self.assertRegex(said, goes_on)
        self.assertEqual(run.returncode, -signal.SIGINT)
        self.assertIn(b"now printing", found())
        with mock.patch("labeltools.sending.job.IDLE", 0.5):
            done = self.printed(*words)
        self.assertRegex(done.stderr.decode(), "it waits in the queue")
        self.assertEqual(done.returncode, 1)
        subprocess.run(["cancel", "-a", "away"], check=True)

    def test_no_scheduler_and_no_library(self) -> None:
        words = ("--paper", "60x40", "--print", "zebra")
        done = support.run("label-print", *words, input=FIVE, CUPS_SERVER="127.0.0.1:1")
        self.assertEqual(done.returncode, 1)
        self.assertIn(b"CUPS does not answer", done.stderr)
        with tempfile.TemporaryDirectory() as folder:
            Path(folder, "cups.py").write_text("raise ImportError\n")
            path = f"{folder}{os.pathsep}{os.environ.get('PYTHONPATH', '')}"
            done = support.run("label-print", *words, input=FIVE, PYTHONPATH=path)
        self.assertEqual(done.returncode, 1)
        self.assertIn(b"apt-get install python3-cups", done.stderr)


class Connection:
    """A connection to CUPS that says something else of queues, or breaks off when it is given a
    file.
    """

    def __init__(
        self, attributes: Mapping[str, object] = MappingProxyType({}), is_leaving: bool = False
    ) -> None:
        self.attributes = attributes
        self.is_leaving = is_leaving
        self.line = cups.Connection()

    def __getattr__(self, name: str) -> Any:
        return getattr(self.line, name)

    def getPrinterAttributes(self, name: str) -> Mapping[str, object]:
        return {**self.line.getPrinterAttributes(name), **self.attributes}

    def printFile(self, *given: Any) -> int:
        if self.is_leaving:
            raise cups.IPPError(cups.IPP_SERVICE_UNAVAILABLE, "Service Unavailable")
        return int(self.line.printFile(*given))


def sent_job(said: str) -> SentJob:
    """The job of a message of label-print."""
    found = re.search("sent to ([^,]+), .* job ([0-9]+)", said)
    assert found
    return SentJob(found[1], int(found[2]))


def without_comments(job: bytes) -> bytes:
    """A job without the comments of PostScript, which have its time."""
    return re.sub(rb"(?m)^%%.*\n", b"", job) if job.startswith(b"%!PS") else job


def larger(bars: Bars, across: int, down: int) -> Bars:
    """Bars of which each dot is several of the printer's."""
    dots = bars.dots.repeat(across, axis=1).repeat(down, axis=0)
    return Bars(bars.page, bars.left * across, bars.top * down, dots)


class Devices(unittest.TestCase):
    """A printer on USB is a file of the system; here a file stands for it."""

    WORDS = ("--paper", "60x40", "--dpi", "203", "--to", "zpl")

    def test_it_gets_the_labels_one_by_one_and_none_twice(self) -> None:
        plain = support.printed(*self.WORDS, input=LINES).stdout
        with tempfile.TemporaryDirectory() as folder:
            device = Path(folder, "lp0")
            device.touch()
            words = (*self.WORDS, "--print", str(device))
            done = support.printed(*words, input=LINES)
            self.assertEqual(support.messages(done)[-1], f"label-print: 3 labels sent to {device}")
            self.assertEqual(device.read_bytes(), plain)
            for said in ("3 labels sent to", "nothing to print: 3 labels are in"):
                done = support.printed(*words, "--journal", f"{folder}/journal", input=LINES)
                self.assertIn(f"label-print: {said}", support.messages(done)[-1])
            self.assertEqual(device.read_bytes(), plain * 2)

    def test_it_is_let_go_at_the_end(self) -> None:
        """The window prints again, and the system gives the printer to one program at a time."""
        with tempfile.TemporaryDirectory() as folder:
            device = Path(folder, "lp0")
            os.mkfifo(device)
            reader = os.open(device, os.O_RDONLY | os.O_NONBLOCK)
            self.addCleanup(os.close, reader)
            done = support.printed(*self.WORDS, "--print", str(device), input=LINES)
            self.assertEqual(done.returncode, 0)
            self.assertTrue(os.read(reader, 1 << 20))
            self.assertEqual(os.read(reader, 1), b"")  # nobody has it open

    def begun(self, device: Path) -> "subprocess.Popen[bytes]":
        """Starts to print on a device; it ends with the test."""
        words = [str(support.TOOLS / "label-print"), *self.WORDS, "--print", str(device)]
        pipes: dict[str, Any] = {"stdin": subprocess.PIPE, "stderr": subprocess.PIPE}
        run = subprocess.Popen(words, env=support.environment(), **pipes)
        self.addCleanup(run.communicate)
        self.addCleanup(run.kill)
        assert run.stdin
        run.stdin.write(LINES)
        run.stdin.close()
        run.stdin = None
        return run

    def test_a_pipe_that_nobody_reads(self) -> None:
        with tempfile.TemporaryDirectory() as folder:
            device = Path(folder, "lp0")
            os.mkfifo(device)
            done = support.printed(*self.WORDS, "--print", str(device), input=LINES)
            self.assertEqual(done.returncode, 1)
            self.assertIn("lp0: no program reads it", done.stderr.decode())

    def test_a_printer_that_takes_nothing_is_waited_for(self) -> None:
        """For a minute, of which it is told; once somebody stops the work only for moments. The
        label that is on its way is in doubt.
        """
        with tempfile.TemporaryDirectory() as folder:
            device = Path(folder, "lp0")
            os.mkfifo(device)
            reader = os.open(device, os.O_RDONLY | os.O_NONBLOCK)
            self.addCleanup(os.close, reader)
            fcntl.fcntl(reader, fcntl.F_SETPIPE_SZ, 4096)
            with mock.patch("labeltools.sending.outlets.QUIET", 0.1), mock.patch(
                "labeltools.sending.outlets.Device.__init__.__defaults__", (0.5,)
            ):
                done = support.printed(*self.WORDS, "--print", str(device), input=LINES)
            said = done.stderr.decode()
            self.assertIn("lp0: the printer takes nothing: it is waited for; is it switched", said)
            self.assertIn(
                "has taken nothing for 0 seconds: it took 0 labels whole; row 2 may", said
            )
            self.assertEqual(done.returncode, 1)
            os.read(reader, 65536)
            run = self.begun(device)
            while not unread(reader):
                self.assertIsNone(run.poll())  # it is still to begin with a label
                time.sleep(0.01)
            run.terminate()
            _, error = run.communicate(timeout=support.SECONDS)
            self.assertIn("lp0: stopped while the printer took nothing", error.decode())
            self.assertIn("row 2 may be on paper", error.decode())
            self.assertEqual(run.returncode, -signal.SIGTERM)

    def test_what_is_not_there_or_full(self) -> None:
        with tempfile.TemporaryDirectory() as folder:
            for device, said in (
                (f"{folder}/lp0", "row 2 and what follows it were not sent; is it switched on"),
                ("/dev/full", "No space left on device: it took 0 labels whole"),
            ):
                done = support.printed(*self.WORDS, "--print", device, input=LINES)
                self.assertEqual(done.returncode, 1)
                self.assertIn(said, done.stderr.decode())
                self.assertNotIn(b"--after", done.stderr)
            self.assertEqual(os.listdir(folder), [])

    def test_a_full_disk_below_a_file(self) -> None:
        """No label is in doubt that is not there: what the disk took of it is taken back."""
        with tempfile.TemporaryDirectory() as folder:
            device = Path(folder, "lp0")
            device.touch()
            words = [str(support.TOOLS / "label-print"), *self.WORDS, "--print", str(device)]
            size = len(support.printed(*self.WORDS, "--only", "2", input=LINES).stdout)
            shell = f'trap "" XFSZ; ulimit -f {1 + size // 1024}; "$@"'
            done = subprocess.run(
                ["bash", "-c", shell, "sh", *words],
                input=LINES,
                capture_output=True,
                env=support.environment(),
            )
            self.assertIn("it took 1 label whole: row 3 and what follows", done.stderr.decode())
            self.assertNotIn("may be on paper", done.stderr.decode())
            self.assertEqual(len(device.read_bytes()), size)


class Languages(unittest.TestCase):
    """Jobs as the manuals of the printers describe them, written by hand."""

    def check(self, pages: Iterator[Dots]) -> None:
        (page,) = pages
        self.assertTrue(numpy.array_equal(page[:2, :16], ROWS), page)

    def test_zpl(self) -> None:
        self.check(drivers.pages_of_zpl(b"~DGR:CUPS.GRF,4,2,\nJA00!^XA^XZ\n"))
        job = b"~DGR:CUPS.GRF,6,2,\nAAAA00FF:^XA\n"
        (page,) = drivers.pages_of_zpl(job)
        self.assertTrue(numpy.array_equal(page[2], ROWS[1]))
        with self.assertRaises(JobError):
            list(drivers.pages_of_zpl(b"~DGR:CUPS.GRF,9,2,\nAAAA00FF^XA\n"))

    def test_epl(self) -> None:
        rows = b"GW0,0,2,1\n\x55\x55\nGW0,1,2,1\n\xff\x00\n"
        self.check(drivers.pages_of_epl(b"\nN\nq16\n" + rows + b"P1\n"))

    def test_dymo(self) -> None:
        rows = b"\x16\xaa\xaa\x16\x00\xff"
        self.check(
            drivers.pages_of_dymo(b"\x1b\x1b@\x1bL\x04\x1a\x1bD\x02\x1be\x1bq1" + rows + b"\x1bE")
        )
        (page,) = drivers.pages_of_dymo(b"\x1b@\x1bD\x02\x1bf\x01\x03" + rows + b"\x1bE")
        self.assertEqual((page.shape, int(page[:3].sum())), ((5, 16), 0))

    def test_pcl(self) -> None:
        rows = b"\x1b*b2W\xaa\xaa\x1b*b2W\x00\xff"
        self.check(drivers.pages_of_pcl(b"\x1bE\x1b*r16S\x1b*r1A" + rows + b"\x1b*r0B\x0c\x1bE"))
        (page,) = drivers.pages_of_pcl(b"\x1b*r16S\x1b*r1A\x1b*b4Y" + rows + b"\x1b*r0B")
        self.assertEqual((page.shape, int(page[:4].sum())), ((6, 16), 0))


class Shifts(unittest.TestCase):
    def test_one_dot_that_is_wrong(self) -> None:
        """Bars are found where they are, and no others."""
        generator = numpy.random.default_rng(7)
        bars = Bars(0, 20, 30, generator.integers(0, 2, (40, 60)).astype(numpy.uint8))
        page = numpy.zeros((200, 200), dtype=numpy.uint8)
        page[28:68, 25:85] = bars.dots
        self.assertEqual(shift_of(page, bars), (5, -2))
        page[50, 60] ^= 1
        self.assertIsNone(shift_of(page, bars))


class Edges(unittest.TestCase):
    def test_four_edges(self) -> None:
        """A Dymo prints nothing on 6 mm at one end and on 1.5 mm at the others."""
        roll = ("--paper", "89x36", "--dpi", "300", "--to", "pbm")
        data = support.file_of([("ean13 400638133393", {"title": "Seife", "price": "1,20 €"})])
        done = support.printed(*roll, "--edge", "6,1.5,1.5,4", input=data)
        self.assertEqual(done.returncode, 0, done.stderr)
        (dots,) = jobs.pictures_of_pbm(done.stdout)
        left, top, right, bottom = jobs.ink_of(dots)
        dot = 25.4 / 300
        self.assertGreaterEqual(left * dot, 6)
        self.assertGreaterEqual(top * dot, 1.5)
        self.assertLessEqual(right * dot, 87.5 + dot)
        self.assertLessEqual(bottom * dot, 32 + dot)
        other = support.printed(*roll, "--edge", "1.5,1.5,6,4", input=data)
        self.assertLess(jobs.ink_of(jobs.pictures_of_pbm(other.stdout)[0])[0], left)

    def test_an_edge_that_is_no_edge(self) -> None:
        for edge in ("1,2", "1,2,3", "1,2,3,4,5", "a", "1,2,3,-4"):
            done = support.printed("--paper", "89x36", "--edge", edge, input=LINES)
            self.assertEqual((done.returncode, done.stdout), (2, b""), edge)


class Hostile(unittest.TestCase):
    """Input and arguments that would take much memory or time, or another program's pictures."""

    def test_copies_are_numbers(self) -> None:
        labels = [("ean8 7351353", {"copies": 9999})] * 101
        done = support.printed("--paper", "60x40", input=support.file_of(labels))
        self.assertEqual((done.returncode, done.stdout), (1, b""))
        self.assertIn(b"1,009,899 labels with their copies: the maximum is 1,000,000", done.stderr)

    def test_ten_thousand_marks_on_a_letter(self) -> None:
        for title in ("a" + "\u0301" * 10_000, "x" * 30_000, "\n".join("abc" * 10_000)):
            laid = laid_out(support.file_of([("ean8 7351353", {"title": title})]), (60.0, 40.0))
            self.assertEqual(len(laid.labels), 1)
            look(self, laid, laid.labels[0])

    def test_pages_that_are_too_large(self) -> None:
        for page in (
            ("--paper", "9999x9999", "--dpi", "1200"),
            ("--paper", "60x40", "--dpi", "9999"),
        ):
            done = support.printed(*page, "--to", "pbm", input=LINES)
            self.assertNotEqual(done.returncode, 0)
            self.assertEqual(done.stdout, b"")
            self.assertTrue(done.stderr)

    def test_files_that_follow_a_link(self) -> None:
        """A name that another label has is no part of a file, and no link is followed."""
        data = support.file_of([("qr a.part", {}), ("qr a", {}), ("qr .1.part", {})])
        with tempfile.TemporaryDirectory() as folder:
            roll = ("--paper", "60x40", "--dpi", "203", "--each", f"{folder}/new/%s")
            done = support.printed(*roll, "--to", "png", input=data)
            self.assertEqual((done.returncode, done.stderr), (0, b""))
            found = sorted(os.listdir(f"{folder}/new"))
            self.assertEqual(found, ["_1.part", "a", "a.part"])

    def test_a_full_disk_names_its_file(self) -> None:
        with tempfile.TemporaryDirectory() as folder:
            shell = f'trap "" XFSZ; ulimit -f 1; "$@" --each "{folder}/new/%d.pbm"'
            words = [str(support.TOOLS / "label-print"), "--paper", "90x90", "--dpi", "300"]
            data = support.file_of([("ean8 7351353", {})])
            done = subprocess.run(
                ["bash", "-c", shell, "sh", *words],
                input=data,
                capture_output=True,
                env=support.environment(),
            )
            self.assertEqual(done.returncode, 1)
            self.assertIn(f"label-print: {folder}/new/1.pbm: File too large", done.stderr.decode())
            self.assertEqual(os.listdir(f"{folder}/new"), [])

    def test_arguments_that_are_no_text(self) -> None:
        for option in ("--stock", "--font", "--note", "--print"):
            sheet = ("--paper", "60x40", "--dpi", "203") if option != "--stock" else ()
            for text in ("\x1b[2J\u202e".encode(), b"\xff\xfe"):
                done = support.run("label-print", *sheet, option, text, input=LINES)
                self.assertNotEqual(done.returncode, 0, option)
                for sign in (b"\x1b", "\u202e".encode(), b"Traceback"):
                    self.assertNotIn(sign, done.stderr, option)

    def test_a_library_that_is_not_there(self) -> None:
        with tempfile.TemporaryDirectory() as folder:
            named = f"{folder}/liblabels.so.1"
            done = support.run("label-print", "--paper", "60x40", input=LINES, LABELS_LIBRARY=named)
            self.assertEqual((done.returncode, done.stdout), (1, b""))
            self.assertIn(f"the library liblabels cannot be loaded: {named}".encode(), done.stderr)

    def test_another_version_of_the_library(self) -> None:
        """Later ones of the same major version are taken."""
        from labeltools.lines import library

        module = library.labels_library()
        for version, is_taken in (("1.0.0", True), ("1.9.3", True), ("2.0.0", False)):
            library.labels_library.cache_clear()
            with mock.patch.object(module, "version", return_value=version):
                if is_taken:
                    self.assertIs(library.labels_library(), module)
                else:
                    with self.assertRaisesRegex(ToolError, "liblabels is version 2.0.0, and"):
                        library.labels_library()
        library.labels_library.cache_clear()


if __name__ == "__main__":
    unittest.main()
