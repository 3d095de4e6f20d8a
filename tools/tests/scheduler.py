"""A scheduler of CUPS for the tests: cupsd at a socket of its own, whose queues print into files,
and a driverless printer.

Its drivers stand for the kinds that are in use, each of which says its resolution in another way.
"""

import os
import socket
import subprocess
import tempfile
import time
from pathlib import Path
from typing import Any

import cups
import numpy

import support
from jobs import Dots

CUPSD = "/usr/sbin/cupsd"
PROGRAMS = Path("/usr/lib/cups")  # filters and the like
SAMPLES = "/usr/share/cups/drv/sample.drv"
SETTINGS = """Listen {socket}
DefaultAuthType None
WebInterface No
Browsing Off
<Location />
Allow all
</Location>
<Policy default>
<Limit All>
Allow all
</Limit>
</Policy>
"""
WITH_TEST = ("setpriv", "--pdeathsig", "KILL")  # ends a program with the one that started it
FILES = "ServerRoot RequestRoot CacheDir StateDir TempDir".split()
LOGS = "AccessLog ErrorLog PageLog".split()
DRIVER = """#include <font.defs>
#include <media.defs>
DriverType custom
Manufacturer "Test"
ModelName "{name}"
PCFileName "{name}.ppd"
Version 1.0
Font *
ColorDevice No
HWMargins 12 12 12 12
Filter application/vnd.cups-raster 100 -
ColorModel "Gray" k chunky 0
*MediaSize A4
"""
PAPER = "*MediaSize A4\n"
HEADER = 1796  # bytes of a page of CUPS raster before its rows


def option(name: str, **choices: str) -> str:
    """An option of a driver: its choices, the first of which is the default, and their dots."""
    lines = [f'Option "{name}/{name}" PickOne AnySetup 10']
    for choice, dots in choices.items():
        code = f"<</HWResolution[{dots}]>>setpagedevice" if dots else f"%% {choice}"
        lines.append(f'{"" if len(lines) > 1 else "*"}Choice "{choice.strip("_")}" "{code}"')
    return "\n".join(lines)


def own(name: str, *choices: str) -> str:
    """An option of a vendor, each choice of which is another number in the heads of pages."""
    lines = [f'Option "{name}/{name}" PickOne AnySetup 10']
    for number, choice in enumerate(choices):
        code = f"<</cupsInteger{len(name) % 8} {number}>>setpagedevice"
        lines.append(f'{"" if number else "*"}Choice "{choice}" "{code}"')
    return "\n".join([*lines, ""])


def default(resolution: str) -> str:
    """A driver's word that says its resolution, and no option for it."""
    return f'Attribute "DefaultResolution" "" "{resolution}"\n'


# by the names of queues
KINDS = {
    # PostScript printers and drivers of foomatic, whose words have both numbers
    "both": option("Resolution", _300x300dpi="300 300", _600x600dpi="600 600"),
    # drivers of CUPS, and of Brother
    "plain": option("Resolution", _300dpi="300 300", _600dpi="600 600"),
    # what CUPS makes of what a driverless printer says
    "quality": default("600dpi") + option("cupsPrintQuality", Normal="600 600", Draft="300 300"),
    # HP's own: no resolution, but modes
    "hplip": option("OutputMode", Normal="300 300", Best="600 600"),
    # Gutenprint: the name is not what is printed, and the quality has the last word
    "name": option("Resolution", _361x360dpi="720 360", _720dpi="720 720"),
    "overruled": option("Resolution", _300dpi="300 300", _600dpi="600 600").replace("10", "5")
    + "\n"
    + option("StpQuality", Standard="300 300", High="600 600"),
    "fine": option("Resolution", _1200dpi="1200 1200"),
    "coarse": option("Resolution", _203dpi="203 203"),
    # a printer of needles, whose dots are no squares
    "needles": option("Resolution", _240x216dpi="240 216"),
    # HP's for PostScript: only the default is said
    "default": default("600dpi") + option("InputSlot", Auto=""),
    # foomatic with modes: that default is not what is printed
    "foomatic": 'Attribute "FoomaticIDs" "" "HP-LaserJet hpijs"\n'
    + default("600dpi")
    + option("PrintoutMode", Normal=""),
    "silent": option("Quality", Normal=""),
    # one that takes paper of any size, but prints nothing on its edge of 4.2 mm, on both sides
    "edged": "VariablePaperSize Yes\nMinSize 72 72\nMaxSize 612 1008\nDuplex normal\n"
    + option("Resolution", _300dpi="300 300"),
    # foomatic where nobody told it the edges
    "general": "HWMargins 18 36 18 36\nVariablePaperSize Yes\nMinSize 36 36\nMaxSize 612 1008\n"
    + "Filter application/vnd.cups-pdf 0 foomatic-rip\n"
    + 'Attribute "FoomaticRIPCommandLine" "" "gs -q -dBATCH -dNOPAUSE -sDEVICE=pbmraw -r300 '
    + '-sOutputFile=- -"\n',
    # vendors' own words for what turns a page, or puts several on a sheet
    "vendor": own("StpOrientation", "Portrait", "Landscape")
    + own("NupPages", "1up", "2up")
    + own("FXLayout", "Off", "4up")
    + own("QQWatermark", "Off", "On")
    + own("QQShift", "None", "Small")
    + own("QQFrame", "PrinterDefault", "Double")
    + own("QQDarkness", "Default", "High")
    + own("QQPlaces", "TopLeft", "4up")
    + own("Copies", "1", "3")
    + option("Resolution", _300dpi="300 300"),
    # one that turns pages round if it is asked for
    "mirror": own("MirrorPrint", "False", "True") + option("Resolution", _300dpi="300 300"),
    # a tape of 24 mm, of any length
    "tape": "HWMargins 0 0 0 0\nVariablePaperSize Yes\nMinSize 36 36\nMaxSize 2000 2000\n"
    + '#media "Tape24/24 mm" 68 284\n*MediaSize Tape24\n'
    + option("Resolution", _180dpi="180 180"),
    # one whose A4 is wider than it is, so that CUPS moves a page by 1.51 dots
    "moved": '#media "Wide/A4" 596 842\n*MediaSize Wide\n'
    + option("Resolution", _300dpi="300 300"),
    # a printer that takes PostScript
    "postscript": "Filter application/vnd.cups-postscript 0 -\nHWMargins 0 0 0 0\n"
    + "VariablePaperSize Yes\nMinSize 36 36\nMaxSize 612 1008\n"
    + option("Resolution", _600dpi="600 600"),
    # one with two trays
    "trays": option("Resolution", _600dpi="600 600")
    + "\n"
    + option("InputSlot", Auto="", Manual=""),
    # a filter that fails
    "broken": "Filter application/vnd.cups-raster 50 /bin/false\n"
    + option("Resolution", _300dpi="300 300"),
    # a printer that takes PDF
    "pdf": "Filter application/pdf 0 gziptoany\n" + default("600dpi") + option("Tray", Auto=""),
}


class Scheduler:
    """A scheduler that runs, and its folder."""

    def __init__(self, has_own_programs: bool = False) -> None:
        """Starts it, with copies of CUPS's filters in its folder if it `has_own_programs`."""
        support.needs(CUPSD, "ppdc", "lpadmin")
        self.place = tempfile.TemporaryDirectory()
        self.folder = Path(self.place.name)
        self.folder.chmod(0o755)  # filters run as another user
        for name in (*FILES, "ServerRoot/ppd"):
            (self.folder / name).mkdir()
        (self.folder / "TempDir").chmod(0o1777)
        self.name = f"{self.folder}/socket"  # which nobody else can have, unlike a port
        (self.folder / "cupsd.conf").write_text(SETTINGS.format(socket=self.name))
        lines = [f"{name} {self.folder}/{name}" for name in (*FILES, *LOGS)]
        if has_own_programs:
            lines.append(f"ServerBin {self.own_programs()}")
        (self.folder / "cups-files.conf").write_text("\n".join([*lines, "FileDevice Yes", ""]))
        self.processes: list[Any] = []
        self.before = os.environ.get("CUPS_SERVER")
        os.environ["CUPS_SERVER"] = self.name
        cups.setServer(self.name)  # which GTK would not look up again
        self.come()

    def start(self, *words: str, **variables: str) -> Any:
        """Starts a program that ends with this one."""
        how: Any = {"env": {**os.environ, **variables}, "stderr": subprocess.DEVNULL}
        process = subprocess.Popen([*WITH_TEST, *words], stdout=subprocess.PIPE, **how)
        self.processes.append(process)
        return process

    def own_programs(self) -> Path:
        """Makes a folder of the programs of CUPS, whose filters may be replaced."""
        own = self.folder / "programs"
        (own / "filter").mkdir(parents=True)
        for path in PROGRAMS.iterdir():
            if path.name != "filter":
                (own / path.name).symlink_to(path)
        for path in (PROGRAMS / "filter").iterdir():
            (own / "filter" / path.name).symlink_to(path)
        return own

    def come(self) -> None:
        """Starts cupsd, which has the queues and jobs of before."""
        words = [CUPSD, "-f", "-c", f"{self.folder}/cupsd.conf"]
        self.start(*words, "-s", f"{self.folder}/cups-files.conf")
        self.processes.insert(0, self.processes.pop())
        self.wait(lambda: is_open(self.name))  # lpstat -r gives status 0 before, too

    def leave(self) -> None:
        """Ends cupsd, as a restart of the computer does."""
        process = self.processes.pop(0)
        process.terminate()
        process.wait()
        process.stdout.close()

    def wait(self, is_done: Any) -> None:
        """Waits until something is done."""
        end = time.monotonic() + support.SECONDS
        while not is_done():
            if time.monotonic() > end or self.processes[0].poll() is not None:
                raise TimeoutError((self.folder / "ErrorLog").read_text()[-2000:])
            time.sleep(0.05)

    def add(self, name: str, driver: str = "", device: str = "") -> None:
        """Adds a queue with a driver of KINDS or of the samples, or without one; by itself it
        prints into a file.
        """
        if not device:
            device = f"file://{self.folder}/{name}.out"
            Path(self.folder, f"{name}.out").touch()  # CUPS makes no file since deb12u10
        words = ["lpadmin", "-p", name, "-E", "-v", device]
        if not driver:
            subprocess.run([*words, "-m", "raw"], check=True, capture_output=True)
            return
        source = Path(SAMPLES)
        if driver in KINDS:
            source = self.folder / f"{driver}.drv"
            head = DRIVER if "MediaSize" not in KINDS[driver] else DRIVER.replace(PAPER, "")
            source.write_text(head.format(name=driver) + KINDS[driver] + "\n")
        ppdc = ["ppdc", "-d", str(self.folder), str(source)]
        subprocess.run(ppdc, check=True, capture_output=True)
        words += ["-P", f"{self.folder}/{driver}.ppd"]
        subprocess.run(words, check=True, capture_output=True)

    def change(self, name: str, *options: str) -> None:
        """Changes options of a queue, such as number-up-default=4."""
        words = [word for option in options for word in ("-o", option)]
        subprocess.run(["lpadmin", "-p", name, *words], check=True, capture_output=True)

    def remove(self, name: str) -> None:
        """Removes a queue, and its jobs."""
        subprocess.run(["lpadmin", "-x", name], check=True, capture_output=True)

    def add_driverless(self, name: str, command: str = "/bin/cat") -> str:
        """Adds a queue without a driver's file for a printer that takes PWG raster, and prints by a
        command; returns its address.
        """
        support.needs("ippeveprinter", "dbus-daemon")
        (self.folder / name).mkdir()
        bus = self.start("dbus-daemon", "--session", "--nofork", "--print-address")
        address = {"DBUS_SYSTEM_BUS_ADDRESS": bus.stdout.readline().decode().strip()}
        words = ["ippeveprinter", "-k", "-r", "off", "-n", "localhost", "-f", "image/pwg-raster"]
        # It writes what a command prints; without one it waits 5 to 15 seconds for each job.
        words += ["-c", command, "-d", f"{self.folder}/{name}", name, "-p"]
        while True:  # another program may take the port
            with socket.socket() as free:
                free.bind(("localhost", 0))
                port = free.getsockname()[1]
            printer = self.start(*words, str(port), **address)
            self.wait(lambda: printer.poll() is not None or is_open(("localhost", port)))
            if printer.poll() is None:
                break
        device = f"ipp://localhost:{port}/ipp/print"
        words = ["lpadmin", "-p", name, "-E", "-v", device, "-m", "everywhere"]
        subprocess.run(words, check=True, capture_output=True)
        return device

    def printed(self, name: str) -> bytes:
        """What arrived at a queue, once its jobs are done."""
        self.wait(lambda: not subprocess.run(["lpstat", "-o", name], capture_output=True).stdout)
        place = self.folder / name
        jobs = place.iterdir() if place.is_dir() else [place.with_suffix(".out")]
        last = max(jobs, key=os.path.getmtime)
        data = last.read_bytes()
        os.truncate(last, 0)  # nor does it empty one
        return data

    def stop(self) -> None:
        """Ends the scheduler."""
        for process in reversed(self.processes):
            process.kill()
            process.wait()
            process.stdout.close()
        self.place.cleanup()
        os.environ.pop("CUPS_SERVER")
        if self.before is not None:
            os.environ["CUPS_SERVER"] = self.before
        cups.setServer(self.before or "")


def is_open(address: str | tuple[str, int]) -> bool:
    """Whether a program listens at a socket's file, or at a port of a host."""
    kind = socket.AF_UNIX if isinstance(address, str) else socket.AF_INET
    with socket.socket(kind) as line:
        return line.connect_ex(address) == 0


def raster_of(job: bytes) -> tuple[tuple[int, int], Dots]:
    """The dots an inch across and down, and the dots of the first page: of CUPS raster with a bit
    for each dot, or of PWG raster with a byte for each, in which 0 is black.
    """
    is_pwg = job.startswith(b"RaS2")
    header = numpy.frombuffer(job, dtype=">u4" if is_pwg else "<u4", count=1 + HEADER // 4)[1:]
    across, down, width, height, size = (int(header[field]) for field in (69, 70, 93, 94, 98))
    if is_pwg:
        rows = unpacked(job[4 + HEADER :], size, height)
        return (across, down), (rows < 128).astype(numpy.uint8)
    packed = numpy.frombuffer(job, dtype=numpy.uint8, offset=4 + HEADER, count=size * height)
    return (across, down), numpy.unpackbits(packed.reshape(height, size), axis=1)[:, :width]


def unpacked(data: bytes, size: int, height: int) -> Dots:
    """The rows of PWG raster: each with how often it comes again, and runs of bytes."""
    rows = numpy.zeros((height, size), dtype=numpy.uint8)
    place = done = 0
    while done < height:
        again = data[place] + 1
        place += 1
        row = b""
        while len(row) < size:
            length = data[place]
            if length < 128:
                row += data[place + 1 : place + 2] * (length + 1)
                place += 2
            else:
                row += data[place + 1 : place + 258 - length]
                place += 258 - length
        rows[done : done + again] = numpy.frombuffer(row, dtype=numpy.uint8)
        done += again
    return rows
