"""A day of a crew at the page of a desk, gone through step by step, with what the crew was told (page_told.py).

A step has a name and two numbers, which choose a tab, a row, a field; it is nothing where it can't be done.
"""

import dataclasses
import math
import re
import shutil
import time

from checks import mmpkg
from browser_page import Away
from crew_page import STANDS, Gone
from page_told import FIELDS, Act, Row, Told, tag_of
from page_world import (
    CLOCK,
    KIND,
    KINDS,
    LEAST_FILE,
    STONES,
    SYSTEM,
    Package,
    Port,
    Tab,
    by,
    is_open,
    row_record,
    stone,
)
from stranger import ANSWERS

SETTLE_SECONDS = 90
ENDED = "the day is ended"
# What was typed is on the disk by then.
KEPT_SECONDS = 1
# Buttons by which the crew's own side is taken; by the others it is thrown away.
OWN_WISH = re.compile("Take mine|Make it again|Remove all the same|Send")


class Wrong(Exception):
    """A day that went wrong, and why."""


def kill_and_wait(process):
    """Kills a process, which is gone then: what is killed alone runs on for some milliseconds."""
    process.kill()
    process.wait()


class Day:
    """One day, gone through step by step."""

    def __init__(self, world):
        self.world, self.told = world, Told()
        folder = world.new_folder()
        self.package = Package(folder, world.first)
        self.port = Port(self.package.file)
        self.folder, self.tabs, self.kept, self.values = folder, [None, None], [], 100
        self.forms = []  # what was typed in forms, each with its act
        self.drafts = []  # the titles of forms that were open when their tab went, and weren't saved
        for number in range(1, STONES + 1):
            row = stone(number)
            self.told.acts.append(
                Act(tag_of(row.title), {it: getattr(row, it) for it in FIELDS}, None, row.title, crew=False)
            )

    def go(self, steps):
        """Goes through the steps, and answers what was wrong, None where nothing was."""
        try:
            self.open_tab(0)
            for number, (name, a, b) in enumerate(steps):
                self.step(name, a, b)
                self.look(f"behind step {number}, {name}")
            self.finish()
        except Wrong as wrong:
            return str(wrong)
        except (AssertionError, OSError, Away) as error:
            return f"the day can't be gone through: {type(error).__name__} {error}"
        finally:
            self.close()
        return None

    def step(self, name, a, b):
        """Does a step; it ends where the browser ends in it, or where the page has taken away what was to be
        pressed."""
        try:
            getattr(self, f"do_{name}")(a, b)
        except Gone:
            return
        except (AssertionError, OSError, Away) as error:
            if not self.world.has_ended():
                raise Wrong(f"the step {name} {a} {b} can't be done: {type(error).__name__} {error}") from error
            self.do_kill_browser(a, b)

    def close(self):
        self.port.close()
        if self.world.browser is not None:
            for tab in filter(None, self.tabs):
                try:
                    tab.page.close()
                except (AssertionError, OSError, Away, KeyError):
                    self.world.kill_browser()
                    break
        shutil.rmtree(self.folder)

    def another(self):
        """A number that no other value of the day has."""
        self.values += 1
        return self.values

    def tab(self, a, free=True):
        """A tab that shows the page, with no open form where that is asked for: one is saved, or the tab isn't free."""
        if self.port.is_open:
            self.come_back()
        there = [it for it in self.tabs if it and it.has_page() and it.is_there(2)]
        found = there[a % len(there)] if there else None
        if found is None:
            return None
        found.page.to_front()
        if found.form is None and found.has_form():
            self.take_up(found)
        if free and found.form is not None and a % 2:
            self.saved(found)
        return None if free and found.form is not None else found

    def come_back(self):
        """The crew opens the page where it has none, or one that didn't come."""
        if not any(self.tabs):
            self.open_tab(0)
        for tab in filter(None, self.tabs):
            if not tab.has_page():
                tab.page.go(f"{self.port.seat.address}/media/viewer/1")
                tab.is_there(5)

    def take_up(self, tab):
        """Goes on with a form that came back: it was typed in before, in this tab or another. Others are closed."""
        fields = tab.fields()
        act = next((act for typed, act in reversed(self.forms) if typed == fields), None)
        if act is None:
            tab.press_twice("leave")
            return
        photos = act.photos if tab.unsaved_photos() >= len(act.photos) else ()  # one may have been on its way
        tab.form, tab.since = dataclasses.replace(act, photos=photos), time.monotonic()
        if act.name in self.drafts:
            self.drafts.remove(act.name)

    def leave_behind(self, tab):
        """A tab goes, and what was typed in its form, and had the time to be kept, has to come back."""
        if tab and tab.form and time.monotonic() > tab.since + KEPT_SECONDS:
            self.drafts.append(tab.form.name)

    # What the crew does.

    def open_tab(self, at):
        self.tabs[at] = Tab(self.world.started(), self.port.seat.address)
        self.tabs[at].is_there(20 if self.port.is_open else 3)

    def do_open_tab(self, a, b):
        if None in self.tabs:
            self.open_tab(self.tabs.index(None))

    def do_close_tab(self, a, b):
        if None not in self.tabs:
            self.leave_behind(self.tabs[a % 2])
            self.tabs[a % 2].page.close()
            self.tabs[a % 2] = None

    def do_reload(self, a, b):
        tab = self.tabs[a % 2] or self.tabs[0]
        if tab:
            self.leave_behind(tab)
            tab.reload()
            tab.form = None
            tab.is_there(20 if self.port.is_open else 2)

    def keep_form(self, tab, act):
        """Keeps what was typed, and since when; all tabs have one storage, and of a full one nothing has to come
        back."""
        is_full = any(it.is_full for it in filter(None, self.tabs))
        tab.form, tab.since = act, math.inf if is_full else time.monotonic()
        self.forms.append((tab.fields(), act))

    def saved(self, tab):
        """Saves a tab's form, whose act is told as sure when the form is closed."""
        form, tab.form = tab.form, None
        act = dataclasses.replace(form, sure=False, by=tab.crew())
        self.told.acts.append(act)
        if tab.save():
            act.sure = True
        else:
            self.told.acts.pop()
            tab.form = form

    def type_new(self, tab, photos):
        """Types a new row, and answers its act, or None where a form came back instead."""
        tag = f"C{self.another():03}"
        row = Row(f"{tag} t{self.another()}", f"n{self.another()}", self.another())
        if not tab.open_fresh():
            return None
        for it in FIELDS:
            tab.write_field(it, str(getattr(row, it)))
        row.note += self.choose_kind(tab, row.amount, "")
        act = Act(tag, {it: getattr(row, it) for it in FIELDS}, None, row.title, self.add_photos(tab, photos))
        self.keep_form(tab, act)
        return act

    def choose_kind(self, tab, number, before):
        """Chooses a kind for two of three numbers, another than before, and answers the word that the note has then."""
        if number % 3 == 0:
            return before
        others = [it for it in KINDS if before != f" kind={it}"]
        chosen = others[number % len(others)]
        tab.choose_kind(chosen)
        return f" kind={chosen}"

    def add_photos(self, tab, count):
        """Puts photos into a form, or files of other kinds, and answers their sizes, which no others have."""
        numbers = [self.another() for _ in range(count)]
        sizes = tuple((it - 60, 30) if it % 3 else (0, LEAST_FILE + it) for it in numbers)
        if sizes:
            tab.page.choose_files(by("pictures"), [self.world.photo(it) for it in sizes])
        return sizes

    def do_new(self, a, b):
        tab = self.tab(a)
        if tab and self.type_new(tab, b % 3):
            self.saved(tab)

    def do_typed_place(self, a, b):
        """A place is typed while one map is shown, and saved while another is."""
        tab = self.tab(a)
        if not tab:
            return
        tab.choose_map("base")
        act = self.type_new(tab, 0)
        if act is None:
            return
        tab.write("east", "500400.5")
        tab.write("north", "5601000")
        act.new["note"] = f"@{SYSTEM}:500400.5/5601000 {act.new['note']}"
        tab.choose_map("plan")
        self.keep_form(tab, act)
        self.saved(tab)
        tab.choose_map("base")

    def type_change(self, tab, b):
        tags = list(dict.fromkeys(it.tag for it in self.told.acts))
        if not tab.open_row(tags[b % len(tags)]):
            return False
        base = tab.fields()
        if tab.text("which").startswith("Changed meanwhile"):  # and both sides are listed beside the form
            self.told.decided(base.title, self.package.rows()[0], True)
        act = Act(tag_of(base.title), {}, {it: getattr(base, it) for it in FIELDS}, base.title)
        self.type_field(tab, act, base, FIELDS[b // 7 % 3])
        act.photos = self.add_photos(tab, 1 if b % 5 == 0 else 0)
        self.keep_form(tab, act)
        return True

    def type_field(self, tab, act, base, field):
        number = self.another()
        place = base.note.split(" ")[0] + " " if base.note.startswith("@") else ""
        typed = {"title": f"{act.tag} t{number}", "note": f"n{number}", "amount": str(number)}[field]
        tab.write_field(field, typed)
        if field == "note":
            before = KIND.search(base.note)
            typed = f"{place}{typed}{self.choose_kind(tab, number, before[0] if before else '')}"
        act.new[field] = number if field == "amount" else typed
        act.name = act.new.get("title", base.title)

    def do_change(self, a, b):
        tab = self.tab(a)
        if tab and self.type_change(tab, b):
            self.saved(tab)

    def do_type(self, a, b):
        tab = self.tab(a)
        if tab:
            self.type_change(tab, b)

    def do_save(self, a, b):
        tab = self.tab(a, free=False)
        if tab and tab.form:
            self.saved(tab)

    def do_leave(self, a, b):
        tab = self.tab(a, free=False)
        if tab and tab.form:
            tab.form = None
            tab.press_twice("leave")

    def do_remove(self, a, b):
        tab = self.tab(a)
        tags = list(dict.fromkeys(it.tag for it in self.told.acts))
        if not tab or not tab.open_row(tags[b % len(tags)]):
            return
        base = tab.fields()
        act = Act(tag_of(base.title), None, {it: getattr(base, it) for it in FIELDS}, base.title, sure=False)
        if tab.page.value(f"{by('remove')}.hidden"):
            return tab.press_twice("leave")
        self.told.acts.append(act)
        act.sure = tab.press_twice("remove")

    def do_half_remove(self, a, b):
        """A removal is asked for once on one row, and once on another; of a hidden button the browser tells nothing."""
        tab = self.tab(a)
        if tab:
            tab.page.value("addEventListener('blur', it => it.isTrusted && it.stopImmediatePropagation(), true); 0")
        tags = list(dict.fromkeys(it.tag for it in self.told.acts))
        for at in (b, b + 1) if tab else ():
            if not tab.open_row(tags[at % len(tags)]):
                return
            if not tab.page.value(f"{by('remove')}.hidden"):
                tab.press("remove")
                time.sleep(0.2)
            if tab.has_form():
                tab.page.press("Escape")
                tab.within(lambda: not tab.has_form())

    def do_decide(self, a, b):
        """Presses a button of what was refused or changed meanwhile, as the crew wishes."""
        tab = self.tab(a)
        for at in range(len(tab.items()) if tab else 0):
            held = tab.hold(at, "!/^(Change|Open)/.test(it.innerText)", b)
            if held and is_open(held[0]):
                text, label = held
                self.told.decided(text, self.package.rows()[0], OWN_WISH.match(label) is not None)
                for _ in range(2):
                    tab.press_held()
                return

    def do_again(self, a, b):
        """A row that was refused, or changed meanwhile, is changed once more: its form has its photos, and one more."""
        tab = self.tab(a)
        for at in range(len(tab.items()) if tab else 0):
            text, _ = tab.hold(at, "it.innerText === 'Change'") or ("", "")
            if not text or not is_open(text):
                continue
            tab.press_held()
            if not tab.within(tab.has_form) or tab.came_back():
                return
            base = tab.fields()
            if "changed meanwhile" in text:
                self.told.decided(text, self.package.rows()[0], True)
            act = Act(tag_of(base.title), {}, {it: getattr(base, it) for it in FIELDS}, base.title)
            self.type_field(tab, act, base, FIELDS[b // 7 % 3])
            act.photos = self.add_photos(tab, b % 2)
            self.keep_form(tab, act)
            if b % 3:
                self.saved(tab)
            return

    def do_end(self, a, b):
        """The day is ended: where the page says so the program has closed the package well."""
        tab = self.tab(a)
        if not tab:
            return
        self.port.settle()
        was_open, was_ended = self.port.is_open, tab.state()[0].startswith(ENDED)
        tab.press("end")
        tab.press("end")
        if not tab.within(lambda: not tab.is_ending(), 60):
            raise Wrong(f"the end comes to nothing: the page says {tab.state()[0]!r}")
        if not was_ended and tab.within(lambda: tab.state()[0].startswith(ENDED), 2):
            program = self.port.seat.program
            if not was_open or not tab.within(lambda: program.poll() == 0, 60):
                raise Wrong(f"the page says {tab.state()[0]!r}, and the program's status is {program.poll()}")

    # What befalls it.

    def do_kill(self, a, b):
        self.port.kill()

    def do_kill_soon(self, a, b):
        self.port.soon(a % 900 / 1000, self.port.kill)

    def do_hang(self, a, b):
        self.port.hang(0.3 + a % 2000 / 1000)

    def do_start(self, a, b):
        self.port.settle()
        self.port.start()

    def do_stranger(self, a, b):
        if not self.port.is_open:
            before = self.shown()
            self.port.take(list(ANSWERS)[a % len(ANSWERS)])
            time.sleep(1)
            if missing := [title for title in before if title not in self.shown()]:
                raise Wrong(f"the list hasn't {missing} any more since a stranger has the port")

    def shown(self):
        """The titles that the tabs' lists show."""
        return [title for tab in filter(None, self.tabs) if tab.has_page() for title, _ in tab.titles()]

    def do_kill_browser(self, a, b):
        for tab in self.tabs:
            self.leave_behind(tab)
        self.world.kill_browser()
        self.tabs = [None, None]

    def do_kill_browser_soon(self, a, b):
        browser = self.world.browser
        if browser:
            self.port.soon(a % 900 / 1000, lambda: kill_and_wait(browser.process))

    def do_storage(self, a, b):
        """The browser's storage takes nothing, or does again."""
        tab = self.tab(a, free=False)
        if tab:
            tab.is_full = b % 2 == 0
            tab.page.fill_storage(tab.is_full)

    def do_name(self, a, b):
        """The crew tells its name, from then on in all tabs of the browser."""
        tab = self.tab(a, free=False)
        if tab:
            tab.name_crew(("Ada", "North 2")[b % 2])

    def do_switch(self, a, b):
        """A table is switched on the map, or off: nothing that was typed or saved goes with it."""
        tab = self.tab(a, free=False)
        if tab:
            tab.switch_table()

    def do_clock(self, a, b):
        tab = self.tab(a, free=False)
        self.told.is_timed = False
        if tab:
            tab.page.value(CLOCK % ((a % 41 - 20) * 10 ** (b % 11)))

    def do_pause(self, a, b):
        time.sleep(a % 1500 / 1000)

    # What an office does.

    def is_quiet(self):
        """Whether no tab is sending: an office that reads and writes in between would overwrite that itself."""

        def quiet():
            return all(not it.has_page() or it.is_settled() for it in filter(None, self.tabs))

        tabs = [it for it in self.tabs if it]
        return not self.port.is_open or not tabs or tabs[0].within(quiet, 3)

    def row_of_office(self, b):
        self.port.settle()
        rows, numbers = self.package.rows() if self.port.stranger is None and self.is_quiet() else ({}, {})
        tag = sorted(rows)[b % len(rows)] if rows else None
        return (tag, numbers[tag], rows[tag][0]) if tag else None

    def do_office_change(self, a, b):
        found = self.row_of_office(b)
        if found:
            tag, number, row = found
            field = FIELDS[b // 7 % 3]
            base, new = {it: getattr(row, it) for it in FIELDS}, self.another()
            value = {"title": f"{tag} t{new}", "note": f"n{new}", "amount": new}[field]
            self.told.unsigned.add(tag)  # as a client does that knows nothing of who saved a row
            self.office(
                Act(tag, {field: value}, base, row.title, crew=False), row_record(number, Row(**{**base, field: value}))
            )

    def do_office_new(self, a, b):
        if self.port.stranger is None:
            tag = f"O{self.another():03}"
            row = Row(f"{tag} t{self.another()}", f"n{self.another()}", self.another())
            self.office(
                Act(tag, {it: getattr(row, it) for it in FIELDS}, None, row.title, crew=False),
                row_record(5000 + self.another(), row),
            )

    def do_office_remove(self, a, b):
        found = self.row_of_office(b)
        if found:
            tag, number, row = found
            self.office(
                Act(tag, None, {it: getattr(row, it) for it in FIELDS}, row.title, crew=False),
                f"row-drop,spots,{number}\n",
            )

    def office(self, act, records):
        """Has an act of the office done, which counts where the program says that it was."""
        if self.port.send(records) == "1 ok\n":
            self.told.acts.append(act)

    def do_keep(self, a, b):
        """The office keeps a copy of the package, whose program has ended for that."""
        self.port.settle()
        was_open = self.port.is_open
        if self.port.stranger is None:
            self.port.kill()
            self.kept.append(self.package.kept())
            if was_open:
                self.port.start()

    def do_replace(self, a, b):
        """A copy that was kept takes the place of the package."""
        self.port.settle()
        if self.kept and self.port.stranger is None:
            self.port.kill()
            self.told.replaced(self.package.rows()[0])
            self.package.take(self.kept[a % len(self.kept)])

    # What is so.

    def look(self, when):
        """Where a tab tells that all is in the package, all is."""
        for tab in filter(None, self.tabs):
            try:
                wrong = self.wrong_of(tab)
                if wrong and tab.within(lambda tab=tab: not self.wrong_of(tab), 1.5):
                    wrong = []
            except (AssertionError, OSError, Away):
                continue  # the browser is about to end
            if wrong:
                raise Wrong(f"{when}, the page says {STANDS!r}: " + "; ".join(wrong))

    def wrong_of(self, tab):
        if not tab.has_page() or not tab.says_that_all_stands():
            return []
        return self.told.wrong(self.package.rows()[0], tab.listed())

    def finish(self):
        """All is mended, and what waits is sent: then nothing is missing."""
        self.port.settle()
        self.port.start()
        if self.world.has_ended(0):
            self.do_kill_browser(0, 0)
        if not any(self.tabs):
            self.open_tab(0)
        for tab in filter(None, self.tabs):
            tab.page.to_front()
            if tab.has_page():
                tab.page.fill_storage(False)
            self.do_reload(self.tabs.index(tab), 0)
            if not self.port.is_open:  # an end that a browser had asked for as it was killed has come meanwhile
                self.port.start()
                self.do_reload(self.tabs.index(tab), 0)
            if not tab.has_page():
                raise Wrong(f"the page doesn't come: {tab.page.value('document.body.innerText')[:300]!r}")
            if not tab.within(tab.is_settled, SETTLE_SECONDS):
                raise Wrong(f"in the end what waits isn't sent: {tab.state()}, {tab.listed()}")
        self.port.settle()
        self.compare()

    def compare(self):
        tab = next(it for it in self.tabs if it)
        tab.page.to_front()
        listed, titles, state = tab.listed(), tab.titles(), tab.state()[0]
        typed = [it.fields().title for it in filter(None, self.tabs) if it.has_form()] + tab.left()
        if missing := [name for name in self.drafts if not any(name in it for it in typed)]:
            raise Wrong(f"what was typed in the forms of {missing} came back in none, and isn't listed: {typed}")
        self.port.kill()
        said = mmpkg("check", self.package.file, status=None)
        if said != "package ok\n":
            raise Wrong(f"the check says {said!r}")
        package, _ = self.package.rows()
        wrong = self.told.wrong(package, listed)
        shown = {title for title, text in titles if "(waits)" not in text and "(refused)" not in text}
        there = {rows[0].title for rows in package.values()}
        if state.startswith(STANDS) and shown != there:
            wrong.append(f"the list shows {sorted(shown - there)} too, and not {sorted(there - shown)}")
        if wrong:
            raise Wrong(f"in the end the page says {state!r} and lists {listed}: " + "; ".join(wrong))
