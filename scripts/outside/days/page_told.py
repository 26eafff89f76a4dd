"""What a crew was told at the page of a desk, and what of it isn't so: a model beside random days (page_days.py).

A row has a tag, the first word of its title, which no act changes. Each act writes into each field that it changes a
value that no other act writes, and knows what its form had shown of the row. So a value that stands tells which acts
went before it; an act whose value isn't among them was overwritten by somebody who hadn't seen it.
"""

import dataclasses

FIELDS = ("title", "note", "amount")


@dataclasses.dataclass
class Row:
    """A row as the package has it, with the sizes of its photos and files, and who saved it; its note doesn't tell
    that."""

    title: str
    note: str
    amount: int
    photos: list = dataclasses.field(default_factory=list)
    by: str = ""


@dataclasses.dataclass
class Act:
    """What somebody saved of a row.

    `new` has the fields that it writes, and is None where it removes the row; `base` is what was seen of it before,
    None of a new row. `name` is what the page lists it by. One that isn't `sure` may have come to nothing: the browser
    ended before the page had closed the form. One that is `past` stood in a package that was put away for another. `by`
    is the crew's name, as the page showed it when it was saved; empty where it had none.
    """

    tag: str
    new: dict | None
    base: dict | None
    name: str
    photos: tuple = ()
    crew: bool = True
    sure: bool = True
    past: bool = False
    by: str = ""


def tag_of(title):
    return title.split(" ")[0]


class Told:
    """All that was saved, by the crew and by others."""

    def __init__(self):
        self.acts = []
        self.unclear = set()  # tags of rows of which the crew has decided, and nobody knows on which act
        self.past_photos = set()
        self.unsigned = set()  # tags of rows that an office wrote without telling who
        self.is_timed = True  # no clock was wrong: a row that is saved by one has neither a name nor a moment

    def of(self, tag):
        return [it for it in self.acts if it.tag == tag]

    def before(self, tag, field, value):
        """The values that a field had before it had this one, by what each act had seen; and this one."""
        found = set()
        while value not in found:
            found.add(value)
            act = next((it for it in self.of(tag) if it.new and it.new.get(field) == value), None)
            if act is None or act.base is None:
                break
            value = act.base[field]
        return found

    def values(self, tag, row):
        """By field, the values that were seen on the way to what stands; of a row that is gone, to its removals."""
        if row is not None:
            return {it: self.before(tag, it, getattr(row, it)) for it in FIELDS}
        removals = [it for it in self.of(tag) if it.new is None]
        return {it: set().union(*(self.before(tag, it, act.base[it]) for act in removals)) for it in FIELDS}

    def stands(self, act, row, values):
        """Whether an act is in what stands, or was in what somebody has seen and changed behind that."""
        if act.new is None:
            return row is None
        return all(value in values[it] for it, value in act.new.items())

    def replaced(self, package):
        """The package is put away for another copy: what stood in it needn't stand any more."""
        for act in self.acts:
            row = next(iter(package.get(act.tag, [])), None)
            act.past = act.past or self.stands(act, row, self.values(act.tag, row))
        self.past_photos |= {size for rows in package.values() for row in rows for size in row.photos}

    def decided(self, text, package, is_own):
        """The crew decides on the act that the page lists by a text: its own side is taken, or thrown away.

        Its own is taken over what stands then, which was shown beside it.
        """
        tags = {it.tag for it in self.acts if it.crew and it.name in text}
        for tag in tags:
            row = next(iter(package.get(tag, [])), None)
            values = self.values(tag, row)
            acts = [it for it in self.of(tag) if it.crew and not it.past and it.name in text]
            open_acts = [it for it in acts if not self.stands(it, row, values)]
            if len(tags) > 1 or len(open_acts) != 1:
                self.unclear.add(tag)
            elif not is_own:
                open_acts[0].past = True
            elif row is not None:
                open_acts[0].base = {it: getattr(row, it) for it in FIELDS}
            else:
                for it in self.of(tag):
                    it.past = it.past or it.new is None

    def wrong(self, package, listed):
        """What isn't as it was told, in words.

        `package` has the rows by tag, `listed` what the page lists as not in the package yet.
        """
        found = [f"{tag} is a row of nobody" for tag in package if not self.of(tag)]
        for tag in dict.fromkeys(it.tag for it in self.acts):
            found += self.wrong_of(tag, package.get(tag, []), listed)
        sizes = [size for rows in package.values() for row in rows for size in row.photos]
        return found + [
            f"the photo of {it[0]} x {it[1]} stands {sizes.count(it)} times"
            for it in sorted(set(sizes))
            if sizes.count(it) > 1
        ]

    def wrong_of(self, tag, rows, listed):
        if len(rows) > 1:
            return [f"{tag} stands {len(rows)} times"]
        row = rows[0] if rows else None
        if tag in self.unclear:
            return []
        values, found = self.values(tag, row), []
        if row is not None:
            known = {it: {act.new[it] for act in self.of(tag) if act.new and it in act.new} for it in FIELDS}
            found += [
                f"{tag}: nobody wrote its {it} {getattr(row, it)!r}"
                for it in FIELDS
                if getattr(row, it) not in known[it]
            ]
            found += self.wrong_name(tag, row, values)
        for act in self.of(tag):
            if not act.sure or act.past or (act.crew and any(act.name in it for it in listed)):
                continue
            if not self.stands(act, row, values):
                found.append(f"{self.words(act)} is neither in the package nor listed; there stands {row}")
            elif row is not None and act.new is not None:
                missing = [it for it in act.photos if it not in row.photos and it not in self.past_photos]
                found += [
                    f"the photo of {it[0]} x {it[1]} of {self.words(act)} is neither in the package nor listed"
                    for it in missing
                ]
        return found

    def wrong_name(self, tag, row, values):
        """Where who saved a row isn't as it has to be: an act that wrote its note has its crew's name, or a later
        one's."""
        acts = [it for it in self.of(tag) if it.crew and it.new]
        names = {it.by for it in acts}
        if row.by and row.by not in names:
            return [f"{tag} was saved by {row.by!r}, and {sorted(names)} have saved it"]
        wrote = any(it.new.get("note") == row.note and self.stands(it, row, values) for it in acts)
        if wrote and self.is_timed and tag not in self.unsigned and "" not in names and not row.by:
            return [f"{tag} tells nobody who saved it, and {sorted(names)} have"]
        return []

    def words(self, act):
        what = "the removal" if act.new is None else ", ".join(f"{field} {value!r}" for field, value in act.new.items())
        return f"{act.tag}: {what} of {'the crew' if act.crew else 'the office'}"
