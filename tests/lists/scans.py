"""Lists of scans, drawn from a seed: every mode, switch, button, pin, refusal, open run, and lines that are no call."""

from tests.lists.entries import INVERSION, POWER_FAIL, RATIO, completed, entries, switch_word
from tests.lists.scan_source import HELD, LOWER, MODES_ASKED, RAISE, SP, A, M, Operator, R

# Kinds of list: the scans that follow a fresh start -------------------------

def mode_runs(operator):
    """Long runs in every mode, in any order."""
    for asked in operator.generator.sample(MODES_ASKED, len(MODES_ASKED)):
        yield from operator.stretch(asked, operator.generator.randint(30, 120))


def quick_changes(operator):
    """Another mode after every few scans; the output is often set outright."""
    for _ in range(100):
        yield from operator.stretch(operator.generator.choice(MODES_ASKED), operator.generator.randint(1, 4))


def open_run(operator):
    """80 to 90 consecutive open scans from any mode.

    Refused scans among them, a change of mode, Hold or Track about the 85th.
    """
    generator = operator.generator
    asked, last = (*MODES_ASKED, "Manual", "Remote")[operator.number % 8], generator.choice((*MODES_ASKED, "Remote", "Remote"))
    yield from operator.stretch("Track", generator.randint(1, 2))
    yield from operator.stretch(asked, generator.randint(1, 3))
    away, back = generator.choice((*[None] * 6, "Hold", "Track", *MODES_ASKED)), generator.choice((asked, *MODES_ASKED))
    leaving, interrupted = generator.choice((82, 83, 84, 85, 86)), generator.choice((0, 0, 0.05))
    returning = leaving + generator.choice((1, 2, 3, 50))
    if operator.number % 5 < 2:  # Hold or Track comes with the 85th, or ends with it
        away, leaving, returning = generator.choice(("Hold", "Track")), *((85, returning + 3), (84, 85))[operator.number % 5]
    length = generator.choice((80, 83, 84, 85, 86, 86, 87, 88, 88, 89, 90, 90, 110))
    for place in range(1, length + 1):
        if generator.random() < (max(interrupted, 0.3) if place == 85 else interrupted):
            yield operator.refused_scan()
        if away and place in (leaving, returning):
            asked = away if place == leaving else back
            yield operator.enter(asked, True)
        else:
            yield operator.stay(asked, generator.choice((0, *HELD, *((RAISE, LOWER) * 3 if place == 85 else ()))), True)
    yield from operator.released(last)
    yield from operator.stretch(last, generator.randint(2, 4))


def setpoints_in_use(operator):
    """SL moved in any mode, open or not.

    Then an automatic mode takes it for SP, and Remote shows it by the change of SP.
    """
    generator = operator.generator
    for _ in range(20):
        yield operator.enter("Track")
        asked, held = generator.choice(MODES_ASKED), generator.choice((SP | RAISE, SP | LOWER, *HELD))
        yield operator.enter(asked, held=held)
        for _ in range(generator.randint(0, 3)):
            yield operator.stay(asked, held, generator.random() < 0.4)
        for mode in (generator.choice(("Auto", "Fall-back")), "Remote", generator.choice(("Auto", "Fall-back"))):
            yield operator.enter(mode, held=generator.choice((0, 0, held)))


def ratios(operator):
    """Ratio with small samples of channel 2 while RS is moved to and fro, so that the quotients are small and many are
    halves.
    """
    generator = operator.generator
    for _ in range(6):
        yield operator.enter("Track", held=0)
        yield operator.enter("Remote", held=0)
        held = generator.choice((0, SP | LOWER, SP | LOWER, SP | RAISE))
        for _ in range(generator.randint(10, 40)):
            _, pins, first, _, third, buttons, sensors = operator.scan(operator.pins("Remote"), generator.choice((0, held)), False)
            yield ("scan", pins, first, generator.randint(0, 400), third, buttons, sensors)


def broken_open_run(operator):
    """A scan that isn't open begins the count anew: two runs, each about long enough by itself."""
    generator, asked = operator.generator, operator.generator.choice(MODES_ASKED)
    yield operator.enter("Track")
    yield operator.enter(asked)
    for length in (generator.randint(60, 84), generator.randint(83, 87)):
        for _ in range(length):
            yield operator.stay(asked, 0, True)
        yield operator.stay(asked, generator.choice(HELD))
    yield from operator.stretch(generator.choice(MODES_ASKED), 3)


def long_open_run(operator):
    """Far more than 85 open scans, and more than eight bits can count."""
    yield from operator.stretch("Auto", 3)
    for place in range(operator.generator.randint(260, 360)):
        asked = operator.generator.choice(MODES_ASKED) if place % 10 == 9 else "Auto"
        yield operator.stay(asked, operator.generator.choice(HELD), True)
    yield from operator.stretch("Auto", 3)


def every_button(operator):
    """All buttons, alone and together, in every mode."""
    for asked in MODES_ASKED:
        legal = [buttons for buttons in range(256) if not buttons & 0x30]
        for buttons in operator.generator.sample(legal, len(legal)):
            yield operator.enter(asked, held=0)
            yield operator.scan(operator.pins(asked), buttons, False)


def every_pin(operator):
    """Each single pin at 1, each single pin at 0, and every pin byte."""
    single = [1 << place for place in range(8)]
    for pins in (*single, *(255 - pin for pin in single), *operator.generator.sample(range(256), 256)):
        yield operator.scan(pins, operator.generator.choice((0, 0, M, A, R)) | operator.generator.choice(HELD), False)


def refusals(operator):
    """Each refusal and several together, among scans that aren't refused."""
    for _ in range(40):
        yield from operator.stretch(operator.generator.choice(MODES_ASKED), operator.generator.randint(1, 2))
        for _ in range(operator.generator.randint(1, 4)):
            yield operator.refused_scan()


def to_the_ends(operator):
    """Output, RS and SL moved by the buttons until they stand at their limits, and beyond."""
    asked, held = (("Manual", 0), ("Remote", SP))[operator.number & 1]
    first, second = (RAISE, LOWER) if operator.number < 2 else (LOWER, RAISE)
    for button, times in ((first, 850), (second, 850), (first, 50)):
        yield operator.enter(asked, held=0)
        for _ in range(times):
            yield operator.scan(operator.pins(asked), held | button, False)
    for sample, button in ((10000, RAISE), (0, LOWER)):
        _, pins, first, _, third, buttons, sensors = operator.enter("Remote", held=0)
        yield ("scan", pins, first, sample, third, buttons, sensors)
        for _ in range(5):
            yield operator.scan(operator.pins("Fall-back"), SP | button, False)
        yield operator.enter("Remote", held=0)


def anything(operator):
    """Pins, buttons and sensors without any order."""
    generator = operator.generator
    for _ in range(200):
        pins = (generator.getrandbits(8) | generator.choice((0, 0x80, 0x80))) & ~generator.choice((0, 0x40, 0x40))
        buttons = generator.getrandbits(8) & generator.getrandbits(8) & 0xCF
        yield operator.scan(pins, buttons, generator.random() < 0.1)


# Each with its number of lists
KINDS = ((mode_runs, 58), (quick_changes, 90), (open_run, 320), (setpoints_in_use, 40), (ratios, 16), (broken_open_run, 20),
         (long_open_run, 4),
         (every_button, 6), (every_pin, 8), (refusals, 24), (to_the_ends, 4), (anything, 60))


# Whole lists ----------------------------------------------------------------

def call_list(generator, kind, number):
    """One list, with a drawn switch word.

    Open runs take S2.5 and S2.2 each way, with each of the modes they are entered from; in Ratio RS moves to its ends.
    """
    SW = switch_word(generator)
    if kind is open_run:
        SW = SW & ~(POWER_FAIL | INVERSION) | (POWER_FAIL if number & 8 else 0) | (INVERSION if number & 16 else 0)
    if kind is ratios or kind is to_the_ends and number & 1:
        SW |= RATIO
    operator = Operator(generator, number)
    return list(entries(operator, completed(operator, [("fresh", SW), *kind(operator)])))


def all_lists(generator):
    """Pairs of a list's kind and the list, in any order."""
    lists = [(kind.__name__, call_list(generator, kind, number)) for kind, count in KINDS for number in range(count)]
    generator.shuffle(lists)
    return lists


def first_list(generator):
    """A list for the beginning of an input, where the controller is fresh with SW 0 without any fresh start."""
    operator = Operator(generator)
    return "first_list", list(entries(operator, completed(operator, quick_changes(operator))))
