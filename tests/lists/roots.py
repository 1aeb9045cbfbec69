"""Call lists for the square root of channel 1, IC 1: every sample from 0 to 10000, once with a range in which each root
scales to a PV of its own, and once with a drawn range.  The lists are in the form of tests/lists/entries.py.
"""

from tests.lists.entries import completed, entries, switch_word
from tests.lists.parameters import draw_parameters, writes_of
from tests.lists.scan_source import HELD, MODES_ASKED, Operator

SAMPLES = 10001
LISTS = 20                    # half of them with the widest range
STRETCHES = (1, 2, 5, 20)     # so many scans in one mode


def scans_of(operator, samples):
    """A scan with each of these samples on channel 1, in changing modes, none of them open."""
    generator, asked, left, held = operator.generator, None, 0, 0
    for sample in samples:
        if left == 0:
            asked, left, held = generator.choice(MODES_ASKED), generator.choice(STRETCHES), generator.choice(HELD)
            scan = operator.enter(asked, held=held)
        else:
            scan = operator.stay(asked, held)
        left -= 1
        word, pins, _, *others = scan
        yield (word, pins, sample, *others)


def parameters_of(generator, is_widest):
    """Drawn ones with IC 1."""
    parameters = draw_parameters(generator)._replace(IC=1)
    return parameters._replace(channel_1H=9999, channel_1L=-9999) if is_widest else parameters


def all_lists(generator):
    """Pairs of a list's kind and the list: for each half of the lists all samples, in drawn order, shared out."""
    lists = []
    for is_widest in (True, False):
        samples = generator.sample(range(SAMPLES), SAMPLES)
        for number in range(LISTS // 2):
            operator = Operator(generator, number)
            writes = writes_of(parameters_of(generator, is_widest), "M", 0, False, number)
            calls = [("fresh", switch_word(generator)), *writes, *scans_of(operator, samples[number::LISTS // 2])]
            lists.append(("roots", list(entries(operator, completed(operator, calls)))))
    return lists
