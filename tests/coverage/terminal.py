"""What the lists for the hand-held terminal have met, and how often each thing must be met at least."""

from tests.coverage.coverage import SWITCHES, Coverage, on
from tests.lists.clock import EDGES
from tests.lists.line_forms import line_errors_of, other_forms_of
from tests.model import loop
from tests.model.state import Stored
from tests.model.table import NAMES, NUMBER, PAIR_OF, READ_ONLY
from tests.model.terminal import DECIMAL, HEXADECIMAL, NUMBER_OF, WORDS
from tests.model.words import AUTOMATIC, MODES, mode_of
from tests.model.writes import refusals

DECIMAL_PARAMETERS, READ_ONLY_NAMES = NAMES[:NUMBER["IC"]], NAMES[READ_ONLY[0] - 1:]
NON_AUTOMATIC = [mode for mode in MODES if mode not in AUTOMATIC]
# What must have stood behind every mnemonic: nothing, each number of digits of either sort, each sign, each wrong end
FORMS = ("", ">", ">>1", ">0", ">5", ">25", ">100", ">9999", ">99999", ">100000", ">0000005", ">00", ">007", ">00500", ">000500", ">-0",
         ">-00000", ">-000000", ">-", ">--1", ">-1", ">-9999", ">-99999", ">-100000", ">+1", ">+0100", ">1-", ">FFF", ">FFFF", ">0FFFF",
         ">1A2B", ">1a2b", ">1A2b", ">ffff", ">000G", ">G000", ">/000", ">:000", ">@000", ">`000", ">1000", ">2000", ">0001", ">-001",
         ">1000h", ">0x10", ">1.00", "> 1", ">1 ", " >1", " ", "\r", "\n", "\0", ">1\r", ">1\n", ">1\0", ">1000\r", ">1000\n", ">1000\0",
         ">1\t", "1", "1000", "=1", ">1>", ">\xb2", ">\xff")
CHANGED = (b"XP>100", b"MD>1000", b"1H>-999")
TYPED_OF_XP, TYPED_OF_RB = range(100000), range(-9999, 10000)
# Refusals that apply at once, in the order in which they are tested
TOGETHER = ("17 18", "17 15", "17 18 15", "18 15", *(f"15 {number}" for number in range(5, 12)), "15 6 7", "15 6 8", "15 9 10", "15 9 11",
            "15 10 11", "6 7", "6 8", "9 10", "9 11", "10 11", "9 10 11")
OUTCOMES = ("decimal read", "word read", "decimal written", "word written", *(f"refused {number}" for number in (17, 18, *range(5, 12))))
ENOUGH = 20  # of what is computed for the count alone, in each run of the program


def variants():
    """The lines with a byte changed for each of 256, or with one put at each place."""
    every = [bytes((byte,)) for byte in range(256)]
    for base in CHANGED:
        for place in range(len(base) + 1):
            for byte in every:
                yield base[:place] + byte + base[place + 1:]
                yield base[:place] + byte + base[place:]


VARIANTS = frozenset(variants())
ALL_FORMS = frozenset(mnemonic + form.encode("latin-1") for mnemonic in NUMBER_OF for form in FORMS)
# How many different ones there must be of each of these
DIFFERENT = {"two bytes": 1 << 16, "words of MD": 1 << 16, "words of DS": 1 << 16, "decimals of XP": len(TYPED_OF_XP),
             "decimals of RB": len(TYPED_OF_RB), "bytes changed": len(VARIANTS), "forms": len(ALL_FORMS)}


def least_counts():
    """The least count of each thing, by name."""
    least = {"lines": 300000, "reply": 100000, **{f"different {name}": count for name, count in DIFFERENT.items()}}
    least.update({f"refused {number}": 300 for number in (15, 17, 18, *range(5, 12))})
    least.update({"engineer written": 30000, "operator written": 6000, "computer written": 2500, "operator refused 20": 1000,
                  "computer refused 19": 1500, "computer refused 20": 300})
    least.update({f"{name} read": 100 for name in NAMES})
    least.update({f"{name} read in {mode}": 2 for name in NAMES for mode in MODES})
    least.update({f"{name} written": 80 for name in NAMES[:READ_ONLY[0] - 1]})
    least.update({f"{name} refused 5": 60 for name in READ_ONLY_NAMES})
    least.update({f"{name} refused 5, beyond every range": 4 for name in READ_ONLY_NAMES if name not in ("SW", "II")})
    least.update({f"{name} refused 6": 30 for name in DECIMAL_PARAMETERS})
    least.update({f"{name} refused 7": 10 for name in PAIR_OF})
    least.update({f"{name} {kind}": 10 for name in DECIMAL_PARAMETERS for kind in ("with zeros before", "sent back")})
    least.update({f"zeros before in {count} digits": 100 for count in range(2, 6)})
    least.update({"minus zero": 100, "below zero": 5000})
    least.update({f"refusals {several}": 10 for several in TOGETHER})
    least.update({f"buffer of {length}, {outcome}": 4 for length in range(13) for outcome in OUTCOMES})
    least.update({f"line of {length} bytes": 6 for length in range(301)})
    least.update({f"reply of {length} bytes": 60 for length in range(4, 10)})
    least.update({"reply of 9 bytes into 9": 5, "reply of 9 bytes into fewer": 20})
    least.update(least_counts_by_mode())
    least.update({f"{name} written by a line shows in the next scan": 5 for name in DECIMAL_PARAMETERS})
    least.update({f"{name} written by a line between automatic scans": 10 for name in DECIMAL_PARAMETERS})
    least.update({"sent back behind an image": 200, "image behind what was sent back": 200, "image behind a refused line": 400,
                  "SL sent back, refused 8": 20, "clock asked behind a line": 60, "clock asked behind a refused line": 60})
    least.update({f"{distance} ms behind {what}": 20 for distance in EDGES for what in ("a line", "a refused line")})
    least.update({f"line: {kind} of line": 60 for kind in (*line_errors_of("line"), *other_forms_of("line"))})
    return least


def least_counts_by_mode():
    """What is written, refused and sent back in each mode."""
    for mode in MODES:
        yield from ((f"{what} in {mode}", 40) for what in ("sent back", "refused 5", "refused 6", "refused 7", "refused 9"))
        yield f"decimal written in {mode}", 300
        yield f"MD written in {mode}", 300
        yield f"MD written in {mode}, another word present", 100
        yield f"DS written in {mode}, another word present", 10 if mode == "Forced Manual" else 300
        if mode not in ("Remote", "Ratio"):
            yield f"refused 10 in {mode}", 20
        if mode in ("Hold", "Track", "Forced Manual"):
            yield f"refused 11 in {mode}", 20
        for switch in ("ON", "OFF"):
            is_refused = mode in ("Remote", "Ratio") or switch == "ON" and mode in NON_AUTOMATIC
            yield f"SL {'refused 8' if is_refused else 'written'} in {mode}, S2.6 {switch}", 5


def value_in(text):
    """The value that a line has behind a mnemonic or behind other bytes: None for nothing, False for no right value."""
    rest, is_word = text[2:], text[:2] in WORDS
    if not rest:
        return None
    found = (HEXADECIMAL if is_word else DECIMAL).fullmatch(rest) or text[:2] not in NUMBER_OF and HEXADECIMAL.fullmatch(rest)
    return int(found[1], 16 if is_word else 10) if found and text[:2] in NUMBER_OF else bool(found)


class TerminalCoverage(Coverage):
    title, least_counts = "the terminal", staticmethod(least_counts)

    def __init__(self):
        """What is known so far: the different things met; the last reply, sent back or not, and whether an image was
        asked for behind it; what lines changed since the last scan, and the controller before the last one that did.
        """
        super().__init__()
        self.seen = {name: set() for name in DIFFERENT}
        self.reply, self.was_saved, self.previous = None, False, ""
        self.changed, self.unwritten = set(), None

    def join(self, other):
        super().join(other)
        for name, found in self.seen.items():
            found |= other.seen[name]
            self.counts[f"different {name}"] = len(found)

    def call(self, call, before, after, answer, pair):
        if call[0] == "line":
            self.line(call, before[0], after[0], answer)
            return
        if call[0] == "save":
            self.count(f"image behind {self.previous}")
            self.was_saved = True
        elif call[0] != "read":
            self.reply = None
        if call == ("clock",):
            self.count(f"clock asked behind {self.previous}")
            return
        if call[0] == "scan" and before[0].clock is not None and call[-1] - before[0].clock in EDGES:
            self.count(f"{call[-1] - before[0].clock} ms behind {self.previous}")
        if answer[0] == "scan":
            self.scanned(call, before[0], after[0], answer)
        if call[0] != "read":
            self.previous = call[0]
        if call[0] not in ("read", "save"):
            self.unwritten = None

    def line(self, call, before, after, answer):
        _, writer, text, length = call
        number, value, is_refused = NUMBER_OF.get(text[:2]), value_in(text), answer[0] == "refused"
        tests = [*self.tests(writer, number, value, before)]
        kind, way = "word" if text[:2] in WORDS else "decimal", "read" if value is None else "written"
        outcome = f"refused {tests[0]}" if tests else f"{kind} {way}"
        names = ["lines", f"line of {len(text)} bytes", f"refused {answer[1]}" if is_refused else "reply"]
        names += [f"buffer of {length}, {outcome}"] if length < 13 else []
        if length < 9:
            place = sum(each in (17, 18) for each in tests)
            tests[place:place] = [15]
        names += [f"refusals {' '.join(map(str, tests))}"] if len(tests) > 1 else []
        if number and tests[:1] not in ([18], [15]):
            names += self.named(NAMES[number - 1], text, value, before, answer, mode_of(before))
            names += [f"{writer} {f'refused {answer[1]}' if is_refused else 'written'}"] if value is not None else []
        if not is_refused:
            names += replied(answer, length, value, mode_of(before))
            self.written(NAMES[number - 1], before, after)
        names += ["reply of 9 bytes into fewer"] if tests == [15] and text == b"ER" and before.ER < -9999 else []
        self.count(*names)
        self.differ(text, value)
        self.previous = "a refused line" if is_refused else "what was sent back" if text == self.reply else "a line"
        self.reply, self.was_saved = (self.reply, self.was_saved) if is_refused else (answer[2], False)

    @staticmethod
    def tests(writer, number, value, controller):
        """The refusals that apply but for 15, in the order in which they are tested."""
        if number is None:
            yield 17
        if value is False:
            yield 18
        elif number and value is not None:
            yield from refusals(controller, writer, number, value)

    def differ(self, text, value):
        """Lines of which each different one counts."""
        seen = self.seen
        if len(text) == 2:
            seen["two bytes"].add(text)
        if value is not None and value is not False:
            if text[:2] in (b"MD", b"DS"):
                seen["words of MD" if text[:2] == b"MD" else "words of DS"].add(value)
            elif text[:2] in (b"XP", b"RB") and text[3:] == b"%d" % value:
                kind, values = ("decimals of XP", TYPED_OF_XP) if text[:2] == b"XP" else ("decimals of RB", TYPED_OF_RB)
                seen[kind].update([value] if value in values else [])
        seen["bytes changed"].update([text] if text in VARIANTS else [])
        seen["forms"].update([text] if text in ALL_FORMS else [])

    def named(self, name, text, value, before, answer, mode):
        """What is met by a line with a mnemonic, a right form and a buffer long enough."""
        if value is None:
            return [f"{name} read", f"{name} read in {mode}"]
        outcome = f"refused {answer[1]}" if answer[0] == "refused" else "written"
        names = [f"{name} {outcome}", f"{outcome} in {mode}", *([f"MD {outcome} in {mode}"] if name == "MD" else [])]
        if name == "SL":
            names.append(f"SL {outcome} in {mode}, S2.6 {'ON' if on(before.SW, SWITCHES['S2.6']) else 'OFF'}")
        if name in READ_ONLY_NAMES:
            names += [f"{name} refused 5, beyond every range"] if abs(value) > 65535 else []
        elif outcome == "written" and name in DECIMAL_PARAMETERS:
            names += decimal_forms(name, text[3:], value)
        if text == self.reply and name in DECIMAL_PARAMETERS and outcome not in ("refused 19", "refused 20"):
            names += [f"{name} sent back", f"sent back in {mode}", *(["sent back behind an image"] if self.was_saved else [])]
            names += ["SL sent back, refused 8"] if name == "SL" and answer == ("refused", 8) else []
        return names

    def written(self, name, before, after):
        """A line that wrote something else than was there: the next scan may show it."""
        if after is not before and after != before:
            self.changed.add(name)
            self.unwritten = name, before

    def scanned(self, call, before, after, answer):
        """Whether an accepted scan stands between automatic ones, and whether it would be answered otherwise, or leave
        another SP or MP, without the last line; looked into until it is known often enough.
        """
        if mode_of(before) in AUTOMATIC and mode_of(after) in AUTOMATIC:
            self.count(*(f"{name} written by a line between automatic scans" for name in self.changed))
        if self.unwritten:
            name, controller = self.unwritten
            counted = f"{name} written by a line shows in the next scan"
            if self.counts[counted] < ENOUGH:
                other, answered = loop.make(controller, call, Stored)
                self.count(*([counted] if (answered, other.SP, other.MP) != (answer, after.SP, after.MP) else []))
        self.changed = set()


def decimal_forms(name, digits, value):
    """The forms of a decimal that was accepted."""
    names = ["below zero"] if value < 0 else []
    names += ["minus zero"] if value == 0 and digits[:1] == b"-" else []
    if digits.lstrip(b"-") != b"%d" % abs(value):
        names += [f"{name} with zeros before", f"zeros before in {len(digits.lstrip(b'-'))} digits"]
    return names


def replied(answer, length, value, mode):
    """What is met by a reply: its length, and whether a word sent isn't the one present."""
    _, size, reply = answer
    names = [f"reply of {size} bytes", *(["reply of 9 bytes into 9"] if size == length == 9 else [])]
    if value is not None:
        is_word = reply[:2] in WORDS
        names += [f"{'word' if is_word else 'decimal'} written in {mode}"]
        if is_word and int(reply[3:], 16) != value:
            names.append(f"{reply[:2].decode('ascii')} written in {mode}, another word present")
    return names
