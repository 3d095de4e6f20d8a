"""The window of the shop, by GTK 3: a table, what its columns are for, the pages as they are
printed, and the rows that are skipped. Its widgets are those of window.ui.
"""

import re
from collections.abc import Callable, Iterable, Mapping, Sequence
from contextlib import suppress
from functools import partial
from pathlib import Path
from types import SimpleNamespace
from typing import Any

from labeltools.common.language import _
from labeltools.common.messages import Remedy, ToolError
from labeltools.common.text import capitalized, Text, translated, whole_sentence
from labeltools.designs.svg_design import is_file
from labeltools.lines.symbologies import SYMBOLOGIES
from labeltools.paper.stock import size_text
from labeltools.printing.press import check_count
from labeltools.sending.outcomes import Unfinished
from labeltools.sending.queue import Queue
from labeltools.sheets.encoding import first_word
from labeltools.tables.money import ANY_TEXT
from labeltools.window import sheets
from labeltools.window.bar import Bar, ERROR, Event, INFO
from labeltools.window.choices import Choices, COLUMNS, kept_of, values_kept, values_with
from labeltools.window.designs import A_FILE, Designs, shipped
from labeltools.window.further import Further
from labeltools.window.gtk import (
    add_actions,
    Answers,
    ApplicationWindow,
    Caption,
    do_soon,
    Gdk,
    Gio,
    GLib,
    GObject,
    Gtk,
    show_rows,
    widen,
    widgets_within,
)
from labeltools.window.owners import OF_TABLE, Owners, READ_BY
from labeltools.window.presets import add_presets
from labeltools.window.printers import Printers
from labeltools.window.questions import ASKED_AT, in_sentences, Questions, WHICH
from labeltools.window.result import ShownLabels
from labeltools.window.sheet_dialog import SheetDialog
from labeltools.window.shop import MadeLabels, Table, WindowTalk
from labeltools.window.typed_label import ask_for_label
from labeltools.window.ways import WaysOut
from labeltools.window.work import STOPPED, Work

FILE = Path(__file__).with_name("window.ui")
# the controls by the fields of choices, and the property of each that has what is chosen
CONTROLS = {
    **dict.fromkeys((*COLUMNS, "symbology", "price_as", "design", "to", "dpi"), "value"),
    **dict.fromkeys(("stock", "for_table", "for_print", "edge", "note"), "text"),
    **dict.fromkeys(("given_table", "given_print"), "words"),
    **dict.fromkeys(("header_row", "first", "width", "height", "right", "down"), "value"),
    **dict.fromkeys(("sheet", "roll", "new_only"), "active"),
}
RANGES = {"header_row": (0, 1000), "first": (1, 10_000), "width": (5, 500), "height": (5, 500)}
RANGES |= {"right": (-50, 50), "down": (-50, 50)}
# what is shown of a value that is not in the list of usual ones; nothing if it is none
OTHERS: Mapping[str, Callable[[str], str]] = {
    "symbology": lambda kind: SYMBOLOGIES[kind].title if kind in SYMBOLOGIES else "",
    "price_as": str,
    "design": lambda path: Path(path).name if is_file(path) else "",
    "dpi": lambda dots: f"{dots} dpi" if dots.isdecimal() else "",
}
Pressed = Callable[[], object]  # what a button does with labels, such as Print
SYNC = GObject.BindingFlags.SYNC_CREATE
LISTED = 400  # milliseconds after a letter in which GTK shows the list of what fits


class Window(ApplicationWindow):
    """A window for one table. What `on_` and the like name in window.ui is a method."""

    __gtype_name__ = "LabelsWindow"
    path: Path | None = None
    table: Table | None = None  # once it is read
    further = Further()  # options by which the table is read
    header = 0  # the row of its names
    made: MadeLabels  # what was made last
    has_labels = False  # that are chosen
    is_new = False  # a table, whose labels were not shown yet
    before: Table | None = None  # the one that was open when another one was opened
    again: Table | None = None  # the one that is read again, by other words
    pressed: Pressed | None = None  # what is done with labels once they are made

    def __init__(self, **properties: Any) -> None:
        super().__init__(**properties)
        self.builder = Gtk.Builder()
        text = FILE.read_bytes()
        self.builder.extend_with_template(self, self.__gtype__, text.decode(), len(text))
        ids = re.findall(r' id="(\w+)"', text.decode())
        self.widgets: Any = SimpleNamespace(**{name: self.builder.get_object(name) for name in ids})
        self.controls = {name: getattr(self.widgets, name) for name in CONTROLS}
        self.events = Bar(self)
        self.questions = Questions(self.widgets)
        self.work = Work(self)
        self.ways = WaysOut(self)
        self.of_printers = Printers(self)
        self.owners = Owners(self)
        add_presets(self)
        self.own_sheets = SheetDialog(self)
        self.designs = Designs(self)
        self.result = ShownLabels(self.widgets)
        add_actions(
            self,
            {
                "open": self.ask_table,
                "save": partial(self.when_made, self.ways.ask_file),
                "print": partial(self.when_made, self.ways.ask_and_print),
                "command": partial(self.when_made, self.widgets.line.popup),
                "sheet": self.own_sheets.ask_for_sheet,
                "type": partial(ask_for_label, self),
            },
        )
        self.add_action(self.result.large)
        self.builder.connect_signals(self)
        self.let_out()
        self.set_up()

    def set_up(self) -> None:
        """Sets up what window.ui does not say."""
        for name, (lowest, highest) in RANGES.items():
            self.controls[name].set_range(lowest, highest)
        for name, shown_of in OTHERS.items():
            self.controls[name].shown_of = shown_of
        widgets = self.widgets
        dialogs = widgets.printing, widgets.adding, widgets.choosing, widgets.describing
        for dialog in (*dialogs, widgets.typing):
            dialog.get_header_bar().show_all()
            dialog.get_content_area().show_all()
        widgets.head.show_all()
        self.get_child().show_all()
        for part in (widgets.bar, widgets.notes_box, widgets.result, widgets.working):
            part.foreach(Gtk.Widget.show_all)  # but not the part itself
        # GTK leaves what is in a closed fold in the order of the Tab key, unless it is hidden
        for fold in (self.widgets.more_of_table, self.widgets.more_of_paper, self.widgets.fold):
            fold.bind_property("expanded", fold.get_child(), "visible", SYNC)
        self.names_width = Gtk.SizeGroup(mode=Gtk.SizeGroupMode.HORIZONTAL)
        for part in (*self.widgets.of_label.get_children(), *self.widgets.of_paper.get_children()):
            if isinstance(part, Caption):
                self.names_width.add_widget(part)
        self.connect_after("key-press-event", self.on_key)
        self.widgets.completion.set_match_func(lambda *_: True)  # the list has what fits
        self.drag_dest_set(Gtk.DestDefaults.ALL, [], Gdk.DragAction.COPY)
        self.drag_dest_add_uri_targets()

    def let_out(self) -> None:
        """Lets labels go out, those that are still made too; but not while something is asked, or
        while others go out: then nothing else is chosen.
        """
        is_asked = bool(self.questions.open)
        hint = _("First answer the question at the left") if is_asked else None
        self.widgets.print_button.set_tooltip_text(hint)
        is_idle = not self.work.talk.is_sending
        is_ready = (self.has_labels or self.work.talk.is_making) and is_idle and not is_asked
        self.widgets.stack.set_sensitive(is_idle)
        for name in ("open", "preset"):
            self.lookup_action(name).set_enabled(is_idle)
        for name in ("save", "print", "command"):
            self.lookup_action(name).set_enabled(is_ready)

    def offer_sheets(self, entry: Any) -> None:
        """Offers the sheets that label-print lists for what is typed, first those that begin so."""
        sheets.fill_with_sheets(self.widgets.sheets, entry.get_text().lower())
        GLib.timeout_add(LISTED, show_first)

    def show_problem(self, problem: ToolError) -> None:
        """Says why something cannot be done, and what helps: one thing by a button beside it,
        several as a question, below the control that they are about, or in place of the page if
        the table is not read.
        """
        remedies = self.remedies(problem.remedies)
        found = [*remedies, *self.ways_on(problem), *self.size_of_design()]
        found += self.own_sheets.answers_to(problem)
        places = [ASKED_AT.get(remedy.option) for remedy in problem.remedies if remedy.says]
        place = next(filter(None, places), None)
        if self.table is None and not remedies and self.before:
            self.go_back(self.before, problem)
            return
        if self.table is None and not remedies and not any(self.further):
            self.widgets.stack.set_visible_child_name("empty")
        if self.table is None and remedies:
            what, hint = map(whole_sentence, (problem.what, problem.hint))
            self.questions.ask_of_file(what, hint, found)
        elif len(found) > 1 and place:
            self.questions.below[place].ask(in_sentences(problem.problem), found)
        else:
            text = in_sentences(problem.problem)
            self.events.report(Event(ERROR, text, found[0] if found else None))

    def remedies(self, found: Iterable[Remedy]) -> Answers:
        """Returns remedies as answers, each once."""
        return [
            (capitalized(remedy.says), partial(self.take_remedy, remedy))
            for remedy in dict.fromkeys(found)
            if remedy.says and remedy.option != "after"
        ]

    def take_remedy(self, remedy: Remedy) -> None:
        """Takes a choice that helps."""
        self.take_values(**values_with(self.choices(), remedy))

    def ways_on(self, problem: ToolError) -> Answers:
        """Returns how labels go on that a printer took some of."""
        if not isinstance(problem, Unfinished):
            return []
        labels, _counts = self.ways.sending
        done = problem.done - labels.job.options.after
        text = _("Go on with label {number}").format(number=problem.done + 1)
        if not done and not problem.is_doubtful:
            text = _("Try again")
        is_some = done < len(labels.prints)
        return [(text, partial(self.ways.ask_to_go_on, problem))] if is_some else []

    def size_of_design(self) -> Answers:
        """Returns the answer that labels on a roll have the size that their design is drawn for."""
        chosen = self.choices()
        design = shipped().get(chosen.design or "")
        if design is None or not chosen.roll:
            return []
        if sorted(design.size) == sorted((chosen.width, chosen.height)):
            return []
        sides = dict(zip(("width", "height"), design.size))
        text = translated(Text("Labels of {}", size_text(design.size)))
        return [(text, partial(self.take_values, **sides))]

    def asked_in_dialog(self, text: str, answers: Mapping[bool, str]) -> bool | None:
        """Asks in a dialog; returns what was answered, None if it was closed."""
        dialog = Gtk.MessageDialog(
            transient_for=self, modal=True, message_type=Gtk.MessageType.QUESTION, text=text
        )
        for answer, shown in answers.items():
            dialog.add_button(shown, int(answer))
        found = dialog.run()
        dialog.destroy()
        return bool(found) if found in (0, 1) else None

    def on_key(self, _window: "Window", event: Any) -> bool:
        """Closes the bar by Escape, where nothing else takes that key."""
        return bool(event.keyval == Gdk.KEY_Escape and self.events.hide())

    def on_destroy(self, _window: "Window") -> None:
        """Ends work, of which nobody is told, and looks for no printers any more."""
        self.work.talk.stop()
        self.work.leave()
        self.of_printers.thread.shutdown(wait=False)

    def on_stop(self, _button: Any) -> None:
        """Ends work at the next label; of labels that are sent it is said later what came of them.
        Where a table was being read, another one can be opened.
        """
        self.work.talk.stop()
        if not self.work.talk.is_sending:
            self.work.leave()
            self.let_out()
            if self.table is None:
                self.path = None
                self.widgets.head.set_subtitle("")
                self.widgets.stack.set_visible_child_name("empty")
            self.events.report(Event(INFO, whole_sentence(STOPPED)))

    def open_table(self, path: Path, header: int | None = None, is_again: bool = False) -> None:
        """Reads a table, guesses its columns or takes those of the last time, and makes labels."""
        if not is_again:
            if self.work.talk.is_sending:
                return
            self.pressed = None
            self.before = self.table or self.before
        if self.table is not None or not is_again:
            self.again = self.table if is_again else None
        further = self.choices().further_of_table if path == self.path else None
        self.further = further or Further()
        self.path = path
        self.table = None
        self.has_labels = False
        self.header = self.header if header is None else header
        self.widgets.columns.clear()
        self.take_values(**dict(zip(READ_BY, self.further)))
        self.take_values(symbology=None, price_as=None)  # nothing is read yet
        for part in (self.widgets.new_only, self.widgets.result):
            part.hide()
        self.questions.clear()
        self.widgets.head.set_subtitle(path.name)
        self.widgets.stack.set_visible_child_name("work")
        doing = _("reading {file}…").format(file=path.name)
        self.work.begin_work(
            partial(Table, path, further, header), self.take_table, WindowTalk(doing)
        )

    def go_back(self, table: Table, problem: ToolError) -> None:
        """Shows the table again that was open before a file that is no table, and says what that
        one is.
        """
        self.again, self.path = table, table.path
        self.widgets.head.set_subtitle(table.path.name)
        self.take_table(table, problem)

    def take_table(self, table: Table, problem: ToolError | None = None) -> None:
        """Makes the labels of a table that was read."""
        self.fill_columns(table)
        self.is_new = self.again is None
        self.table, self.before = table, None
        Gtk.RecentManager.get_default().add_item(table.path.absolute().as_uri())
        self.make(problem=problem)

    def fill_columns(self, table: Table) -> None:
        """Fills the choices of columns for a table."""
        guess = table.guess
        self.widgets.columns.append([_("no column"), ""])
        for number, (name, example) in enumerate(zip(guess.names, guess.examples), 1):
            name = name or _("column {number}").format(number=number)
            self.widgets.columns.append([with_example(name, example), str(number)])
        columns = {field_of(kind): str(place + 1) for kind, place in guess.columns.items()}
        self.take_values(**{**dict.fromkeys(COLUMNS, ""), "code": "1", **columns})
        self.take_values(**dict.fromkeys(map(field_of, guess.doubts)))  # only the keeper knows
        again = self.again.chosen if self.again and guess.names == self.again.guess.names else None
        if again:  # it keeps what is chosen
            own = values_kept(kept_of(again), OF_TABLE)
        else:
            own = table.chosen_before
            self.owners.begin(table)
        self.owners.take_anew()
        self.widgets.given_table.word_by = partial(first_word, table.data)
        for name in COLUMNS:
            widen(self.controls[name], 0)
        self.further, self.header = table.further, guess.header
        values: dict[str, Any] = {**own, **dict(zip(READ_BY, self.further))}
        self.take_values(**{**values, "header_row": self.header})
        self.offer_new(table)

    def offer_new(self, table: Table) -> None:
        """Offers to print only what is new, if labels of such a table went out."""
        since = table.last_printed_on()
        text = _("Onl_y what is new or changed since {date}").format(date=since)
        self.widgets.new_only.set_label(text)
        self.widgets.new_only.get_child().set_line_wrap(True)  # of a label that is new, too
        self.widgets.new_only.set_visible(since)

    def take_values(self, **values: Any) -> None:
        """Takes values of choices by their fields, but for what somebody has written into the file
        of them.
        """
        if "printer" in values:
            self.of_printers.settle(values.pop("printer"))
        for name, value in values.items():
            with suppress(KeyError, TypeError, ValueError):
                self.controls[name].set_property(CONTROLS[name], value)

    def choices(self) -> Choices:
        """Returns what is chosen; while a file is asked for, the design before it."""
        found: dict[str, Any] = {
            name: self.controls[name].get_property(kind) for name, kind in CONTROLS.items()
        }
        found |= {name: int(found[name]) for name in ("header_row", "first")}
        if found["design"] == A_FILE:
            found["design"] = self.designs.last
        return Choices(**found, printer=self.of_printers.wanted)

    @property
    def are_made(self) -> bool:
        """Whether the labels that are chosen now are made."""
        return self.table is not None and self.has_labels and not self.are_others_chosen(self.table)

    def are_others_chosen(self, table: Table) -> bool:
        """Returns whether others are chosen than those that were made last, or may be, since the
        printer has not said yet what it has.
        """
        return self.of_printers.awaited is not None or self.settled() != table.chosen

    def when_made(self, act: Pressed) -> None:
        """Does something with the labels that are chosen, once they are made: a number or the name
        of a sheet may just have been typed.
        """
        for name in RANGES:
            self.controls[name].update()
        if self.are_made:
            act()
        else:
            self.pressed = act
            self.keep_up(True)

    def follow(self, *_control: Any) -> None:
        """Makes the labels that are chosen, once all is changed that is changed together: by the
        keeper, by an answer, or by a job that has ended.
        """
        self.act_soon(self.keep_up)

    def act_soon(self, act: Pressed) -> None:
        """Does something as soon as nothing else is under way, if the window is still there."""
        do_soon(lambda: self.get_visible() and act())

    def keep_up(self, is_wanted: bool = False) -> None:
        """Reads the table again if it is to be read by other words, or with names in another row;
        else makes its labels if others are chosen, or if they are wanted in any case.
        """
        chosen = self.choices()
        is_other_row = chosen.header_row != self.header
        if self.path and (is_other_row or chosen.further_of_table != self.further):
            header = chosen.header_row if is_other_row else None
            self.open_table(self.path, header, is_again=True)
        elif self.table and (is_wanted or self.are_others_chosen(self.table)):
            self.make()

    def make(self, _control: Any = None, problem: ToolError | None = None) -> None:
        """Makes the labels that are chosen, once the printer has said what it has, and then says
        what problem they are made for. If Print was pressed, and no labels went out yet, these do.
        While labels go out it waits for their end.
        """
        if self.table is not None and not self.work.talk.is_sending:
            self.has_labels = False
            doing = _("reading {file}…").format(file=self.table.path.name)
            talk = WindowTalk(doing, is_making=True)
            if awaited := self.of_printers.awaited:
                self.work.wait_for(awaited, partial(self.make_for, problem), talk)
                return
            chosen = self.table.chosen = self.settled()
            self.questions.clear()
            self.of_printers.ask_about_chosen()
            codes: Sequence[int] = [*self.table.guess.codes]
            doubts = {"code": codes, **self.table.guess.doubts}
            for kind, places in doubts.items():
                column = getattr(chosen, field_of(kind))
                if column is None or kind == "code" and not column:
                    self.ask_column(self.table, kind, places)
            if not chosen.code:
                self.let_out()
                self.questions.focus()
                return
            then = partial(self.show_labels, problem)
            self.work.begin_work(partial(self.table.made, chosen), then, talk)

    def make_for(self, problem: ToolError | None, answer: Queue | ToolError) -> None:
        """Makes the labels for a queue, whose driver is known now; for one that does not answer as
        if it had sheets.
        """
        self.make(problem=answer if isinstance(answer, ToolError) else problem)

    def settled(self) -> Choices:
        """Returns what is chosen, once each choice is that of its owner."""
        if self.of_printers.is_of_labels:
            self.take_values(roll=True)
        if self.table is not None:
            self.offer_patterns(self.table)
        self.owners.settle()
        has_sheets = not (self.widgets.roll.get_active() and self.of_printers.is_of_labels)
        for part in (self.widgets.kind, self.widgets.kind_caption):
            part.set_visible(has_sheets)
        self.of_printers.show_button()
        return self.choices()

    def ask_column(self, table: Table, kind: str, places: Sequence[int]) -> None:
        """Asks which of some columns has something: only the keeper knows."""
        guess = table.guess
        answers = [
            (
                with_example(guess.names[place] or str(place + 1), guess.examples[place]),
                partial(self.controls[field_of(kind)].set_active_id, str(place + 1)),
            )
            for place in places
        ]
        self.questions.below[kind].ask(translated(WHICH[kind]), answers)

    def offer_patterns(self, table: Table) -> None:
        """Offers how the prices of the column may be printed."""
        chosen = self.choices()
        example = table.guess.examples[int(chosen.price) - 1] if chosen.price else ""
        shown = {"": with_example(_("as in the table"), example)}
        if chosen.price:
            shown |= {pattern: price for price, pattern in table.price_patterns(chosen.price)}
        shown.setdefault(chosen.price_as or "", chosen.price_as or "")
        shown[ANY_TEXT.value] = _("any text")
        rows = [(text, pattern) for pattern, text in shown.items()]
        show_rows(self.widgets.price_as.get_model(), rows)
        self.take_values(price_as=chosen.price_as)

    def on_sheet(self, entry: Any, _event: Any = None) -> bool:
        """Makes the labels once a sheet is named as it is listed; else they are made when its name
        is left, or Enter is typed.
        """
        is_listed = any(row[0] == entry.get_text() for row in self.widgets.sheets)
        if is_listed or not entry.has_focus():
            self.follow()
        return False

    def show_labels(self, problem: ToolError | None, made: MadeLabels) -> None:
        """Shows the labels that were made, and what there is to say about them; then does what was
        pressed.
        """
        pressed, self.pressed = self.pressed, None
        self.made = made
        self.result.show(made, self.remedies(made.helps), self.is_new)
        if made.asked:
            asked = made.asked[0]
            problem_of_all = in_sentences(asked.problem)
            text = whole_sentence(asked.problem.hint) if asked.origin else problem_of_all
            self.questions.below["price"].ask(text, self.remedies(asked.problem.remedies))
        if self.choices().new_only and not made.lines.count:
            said = Text("nothing is new since {}", made.table.last_printed_on())
            self.events.report(Event(INFO, whole_sentence(said)))
        elif made.labels.prints or not made.asked:
            check_count(made.labels.job, made.labels.prints)
            self.has_labels = True
        self.let_out()
        self.do_when_shown(problem, pressed)

    def do_when_shown(self, problem: ToolError | None, pressed: Pressed | None) -> None:
        """Does what has to wait for labels, once they are shown."""
        if self.is_new:
            self.is_new = False
            self.questions.focus()
        if problem is not None:
            self.show_problem(problem)
        if self.table is not None:
            self.ways.look_back(self.table)
        if pressed is not None and self.widgets.print_button.get_sensitive():
            pressed()

    def ask_table(self) -> None:
        """Asks for a table, first where the last one was."""
        documents = GLib.get_user_special_dir(GLib.UserDirectory.DIRECTORY_DOCUMENTS)
        folder = self.path.absolute().parent if self.path else documents or Path.home()
        self.widgets.opener.set_current_folder(str(folder))
        if self.widgets.opener.run() == Gtk.ResponseType.ACCEPT:
            self.open_table(Path(self.widgets.opener.get_filename()))

    def on_drop(self, _widget: Any, *event: Any) -> None:
        """Opens a table that was dropped."""
        for uri in event[3].get_uris()[:1]:
            self.open_table(Path(Gio.File.new_for_uri(uri).get_path() or uri))

    def on_recent(self, recent: Any) -> None:
        """Opens a table that was opened before."""
        self.open_table(Path(recent.get_current_item().get_uri_display()))


def show_first() -> bool:
    """Shows the first rows of a list beside what is typed: GTK shows the last ones where the list
    is above it.
    """
    for toplevel in Gtk.Window.list_toplevels():
        if toplevel.get_type_hint() == Gdk.WindowTypeHint.COMBO and toplevel.get_visible():
            for part in widgets_within(toplevel):
                if isinstance(part, Gtk.TreeView):
                    part.scroll_to_point(-1, 0)
    return False


def field_of(kind: str) -> str:
    """Returns the field of choices that has the column of a kind."""
    return kind.replace("-", "_")


def with_example(name: str, example: str) -> str:
    """Returns a name for a choice, with an example after it if there is one."""
    return f"{name}  \u2013  {example}" if example else name
