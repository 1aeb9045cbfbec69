"""Call lists in which arithmetic lines and sheets begun with kept numbers stand between the other calls, drawn from a
seed: so it shows that none of these disturbs the controller, the last answer, the sheet or the sixteen numbers but as
it should.  The lists are in the form of tests/lists/entries.py.
"""

import itertools

from tests.lists.arithmetic import random_arguments
from tests.lists.entries import Entry, entries, switch_word
from tests.lists.kept_sheets import KeptSource
from tests.lists.line_errors import LINE_ERRORS
from tests.lists.line_forms import OTHER_FORMS, line_errors_of, other_forms_of
from tests.lists.scan_source import MODES_ASKED
from tests.lists.sheets import KEPT, LAST, LOOK, NEW, PV_ENDS, SheetSource
from tests.model.arithmetic import WORDS
from tests.model.kept_sheets import PLACES
from tests.model.lines import line_of
from tests.model.rights import WRITERS
from tests.model.sheet import MOST_SCANS
from tests.model.table import NAMES, NUMBER
from tests.model.words import MODES

NEW_WORDS = ("sheet-number", "sheet-kept", *WORDS)
MANY_SCANS = (1, 2, 3, 5, 1000, MOST_SCANS - 2, MOST_SCANS - 1, MOST_SCANS)  # of the sheets that are begun


class BetweenSource(SheetSource):
    """Draws calls that leave the controller between those that don't.

    Which numbers stand when the list begins isn't known.
    """

    def __init__(self, generator, number=0):
        super().__init__(generator, number)
        self.kept = KeptSource(generator, None)

    def arithmetic(self, word=None):
        word = word or self.generator.choice(WORDS)
        return (word, *random_arguments(self.generator, word))

    def begun(self):
        """A sheet with the numbers of another, most of them right."""
        yield from self.kept.kept(self.kept.drawn(self.generator.choice(MANY_SCANS)))

    def one_changed(self):
        """One number changed, so that most often no sheet can be begun until the numbers are given anew."""
        place = self.generator.randrange(PLACES)
        yield from self.kept.kept([number + (at == place) for at, number in enumerate(self.kept.given)])

    def new_call(self):
        """One of those that lists of other kinds don't have; a number is given again as it stands."""
        place = self.generator.randrange(PLACES)
        word = self.generator.choice(("sheet-number", "sheet-kept", "arithmetic"))
        return self.arithmetic() if word == "arithmetic" else KEPT if word == "sheet-kept" else (word, place, self.kept.given[place])

    def some(self):
        """Calls that leave the controller: alone, several in a row, with the sheet looked at before and after."""
        which = self.generator.choice((
            "", "", "new", "new", "new new", "look", "new look", "look new look", "fed new", "new fed", "new empty new",
            "empty look kept look", "numbers"))
        if which == "numbers":
            yield from self.generator.choice((self.begun, self.one_changed))()
        else:
            yield from (self.one(each) for each in which.split())

    def one(self, which):
        """A call by the name that it has above."""
        if which in ("look", "empty", "kept"):
            return {"look": LOOK, "empty": NEW, "kept": KEPT}[which]
        return self.fed(PV_ENDS, MODES) if which == "fed" else self.new_call()

    def between(self, calls):
        """The calls, and after each some that leave the controller, the answers of half of the scans entered."""
        generator = self.generator
        yield from self.begun()
        for call in calls:
            yield call
            if call[0] == "scan" and generator.random() < 0.5:
                yield from generator.choice(([LAST], [LAST], [self.new_call(), LAST], [LAST, self.new_call(), LAST]))
            yield from self.some()


# Kinds of list: the calls of the controller -----------------------------------

def calls_of_every_kind(source):
    """Scans in every mode, and every other call between them."""
    generator = source.generator
    for _ in range(40):
        yield from source.stretch(generator.choice(MODES_ASKED), generator.choice((1, 1, 3, 5)))
        yield from generator.choice((
            lambda: [source.refused_scan()], lambda: [("fresh", switch_word(generator))], source.another_state,
            lambda: [("restart", source.unacceptable())], source.writes, source.reads, lambda: [("save", 137)], lambda: [("clock",)],
            lambda: [("access", generator.choice(WRITERS), generator.randint(0, 33))],
            lambda: [("line", generator.choice(NAMES[16:]).encode("ascii"), 12)]))()


def automatic_scans(source):
    """Stretches of automatic scans, whose terms go by what earlier scans left, with PV, SP and OP read in some."""
    generator = source.generator
    for _ in range(8):
        yield from source.another_state()
        for call in source.stretch(generator.choice(("Auto", "Remote", "Fall-back")), 15):
            yield call
            if generator.random() < 0.1:
                yield from (("read", NUMBER[name]) for name in ("OP", "PV", "SP"))


# Each with its number of lists
KINDS = ((calls_of_every_kind, 48), (automatic_scans, 16))


def forms(source):
    """Each other form and each line error of each of these calls; what stands afterwards shows that nothing else has
    changed.
    """
    generator = source.generator
    kinds = [(word, kind) for word in NEW_WORDS for kind in (*line_errors_of(word), *other_forms_of(word))] * 6
    yield from (Entry(line_of(call), "call", call[0]) for call in source.begun())
    for word, kind in generator.sample(kinds, len(kinds)):
        place = generator.randrange(PLACES)
        call = {"sheet-number": (word, place, source.kept.given[place]), "sheet-kept": KEPT}.get(word) or source.arithmetic(word)
        yield Entry({**LINE_ERRORS, **OTHER_FORMS}[kind](generator, call), kind, word)
        if generator.random() < 0.3:
            yield Entry(*generator.choice((("sheet", "call", "sheet"), ("sheet-kept", "call", "sheet-kept"))))


def call_list(generator, kind, number):
    """One list: a sheet is begun, then comes a fresh start with a drawn switch word."""
    source = BetweenSource(generator, number)
    calls = source.following(itertools.chain([("fresh", switch_word(generator))], kind(source)))
    return list(entries(source, source.between(calls)))


def all_lists(generator):
    """Pairs of a list's kind and the list."""
    return [*(("forms", list(forms(BetweenSource(generator)))) for _ in range(4)),
            *((kind.__name__, call_list(generator, kind, number)) for kind, count in KINDS for number in range(count))]
