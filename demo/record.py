"""Records two sessions: a leading dryer, and a following one whose channel 2 is fed with the leading dryer's PV.

Usage: python3 -B -m demo.record [--check]

The dryers are simple drums, not measured ones; the answers that move them are the model's of tests/. With --check
nothing is written, and the test fails if the two files aren't what is recorded here; its last line is then 'N passed, M
failed'.
"""

import pathlib
import sys

from tests.gate import tally
from tests.model import loop
from tests.model.lines import line_of
from tests.model.state import Stored
from tests.model.table import NUMBER

HERE = pathlib.Path(__file__).resolve().parent
LEADING, FOLLOWING = HERE / "leading.txt", HERE / "following.txt"
HEADS = {
    LEADING: """\
# The leading dryer, call by call: what the console is given. Text behind a # is a comment. Made with a simple drum, not
# measured. PV is in tenths of a degree; that of each scan's answer feeds channel 2 of the following dryer, in
# following.txt. A scan is PINS S1 S2 S3 BUTTONS SENSORS MS; pins: 128 Hold at 15 V, 64 Track, 1 unit address; buttons:
# 2 A; MS: the host's milliseconds, 36 from scan to scan. A write names its writer: the engineer sets the dryer up, the
# operator writes the setpoint. Parameters: 1 1H, 2 1L, 9 HS, 17 XP, 18 TI, 20 SL, 29 SP.
""",
    FOLLOWING: """\
# The following dryer, call by call: what the console is given. Text behind a # is a comment. Made with a simple drum,
# not measured. Sample 2 of each scan is the sample that gives the PV of the leading dryer, leading.txt, in the same
# scan. Sample 3 is the preset in Track, else the trim: with 3H 100 and 3L -100 sample 5750 is 15. Pins: 128 Hold at 15
# V, 64 Track, 32 Remote, 2 unit address; buttons: 64 Raise, 8 SP, 4 R. The last number is that of another host's
# milliseconds, 36 from scan to scan too. A write names its writer. Parameters: 1 1H, 3 2H, 5 3H, 6 3L, 7 HR, 8 LR, 9
# HS, 17 XP, 18 TI, 20 SL, 21 RS, 22 RB, 29 SP.
"""}
SCANS, DISPLAY_EVERY, APART = 120, 6, 36  # the last in milliseconds
RANGE = 1200            # 0 to 120.0 degrees on channels 1 and 2
TRACK, REMOTE, NO_REMOTE = 0xC0, 0xA2, 0x82
A_BUTTON, R_BUTTON, SP_AND_RAISE = 0x02, 0x04, 0x48


class Dryer:
    """A drum and its controller.

    The drum's temperature, in sample units, goes toward what its burner gives, the slower the greater its lag.  The
    milliseconds are those that the host's clock has shown last.
    """

    def __init__(self, temperature, lag, milliseconds):
        self.temperature, self.lag, self.milliseconds = temperature, lag, milliseconds
        self.lines, self.controller, self.OP = [], None, 0

    def call(self, *call, note=""):
        """Makes the call and notes its line down; its answer."""
        self.controller, answer = loop.make(self.controller, call, Stored)
        self.lines.append(line_of(call) + (f"   # {note}" if note else ""))
        return answer

    def write(self, **parameters):
        for name, value in parameters.items():
            self.call("write", "engineer", NUMBER[name], value)

    def read(self, name):
        self.call("read", NUMBER[name])

    def scan(self, pins, second=0, third=0, buttons=0, note=""):
        """The PV that the scan answers; its OP moves the temperature."""
        self.milliseconds += APART
        _, _, _, self.OP, _, _, PV = self.call("scan", pins, round(self.temperature), second, third, buttons, 0, self.milliseconds,
                                               note=note)
        self.temperature += (2000 + 0.75 * self.OP - self.temperature) / self.lag
        return PV

    def show(self, number, others):
        """SP and SL are read where the player is to show a line: every few scans and at the numbers given."""
        if number % DISPLAY_EVERY == 0 or number in others:
            for name in ("SP", "SL"):
                self.read(name)


# What happens before a scan, by its number; each as a note and the writes.
LEADING_WRITES = {34: ("The setpoint is written: 75 degrees", {"SL": 750}), 70: ("The setpoint is written: 55 degrees", {"SL": 550}),
                  100: ("The setpoint is written: 68 degrees", {"SL": 680})}
# The parts of the following dryer's session: its first scan, SW, note, sample 3 and parameters.
TRIM, TRIM_RANGE = 5750, {"channel_3L": -100, "channel_3H": 100}  # a trim of 15
PARTS = {1: (0x0000, "Remote: S2.1 is OFF; the setpoint is the leading dryer's PV and a trim of 1.5 degrees on channel 3", TRIM,
             {**TRIM_RANGE, "SL": 430}),
         45: (0x8000, "Ratio: started fresh with S2.1 ON; the setpoint is 100 x PV / (RS + trim) + RB, RS and the trim, 0.15, "
              "in hundredths", TRIM, {**TRIM_RANGE, "SL": 520, "RS": 110, "RB": -20}),
         85: (0xA000, "Inverse ratio: started fresh with S2.3 ON too, no trim; the setpoint is PV x RS / 100 + RB", 0,
              {"SL": 560, "RS": 80, "RB": 30})}
WITHOUT_REMOTE = {**dict.fromkeys(range(22, 31), "Remote"), **dict.fromkeys(range(72, 79), "Ratio"),
                  **dict.fromkeys(range(106, 113), "Ratio")}
# What is noted where the Remote pin goes to 0 V, by the first scan without it
DROPPED_OUT = {22: "Fall-back; the setpoint stays, though SL is 1.5 degrees lower, without the trim",
               72: "Fall-back, which has no trim with S2.1 ON; the setpoint stays",
               106: "Fall-back, the setpoint stays"}
RAISED, RS_WRITTEN, SL_REFUSED, SL_WRITTEN = (56, 57), 64, 60, 74
DISPLAYED = {1, 3, 4, 5, 21, 22, 30, 31, 45, 46, 47, 55, 56, 57, 60, 64, 71, 72, 74, 78, 79, 85, 86, 87, 105, 106, 112, 113}


def lead(dryer, number):
    """One scan of the leading dryer and what comes before it; the PV that it answers."""
    if number == 1:
        dryer.call("fresh", 0, note="Started fresh; a range of 0 to 120.0 degrees, "
                   "setpoints up to 100.0, XP 25.0 percent, TI 0.4 s, SL 60.0 degrees")
        dryer.write(channel_1H=RANGE, HS=1000, XP=250, TI=4, SL=600)
        for name in ("channel_1H", "channel_1L"):
            dryer.read(name)
    if number in LEADING_WRITES:
        note, parameters = LEADING_WRITES[number]
        (name, value), = parameters.items()
        dryer.call("write", "operator", NUMBER[name], value, note=note)
    if number <= 3:
        PV = dryer.scan(TRACK | 1, third=4500, note="Track: the output follows the preset on channel 3" if number == 1 else "")
    else:
        PV = dryer.scan(0x81, buttons=A_BUTTON if number == 4 else 0, note="A is pressed: Auto" if number == 4 else "")
    dryer.show(number, DISPLAYED)
    return PV


def before_scan(dryer, number):
    """The following dryer's writes: a fresh start and the parameters of a part, and some between scans."""
    if number in PARTS:
        SW, note, _, parameters = PARTS[number]
        dryer.call("fresh", SW, note=note)
        dryer.write(channel_1H=RANGE, channel_2H=RANGE, HS=900, XP=250, TI=4, LR=50, HR=200, **parameters)
    if number == SL_REFUSED:
        dryer.call("write", "operator", NUMBER["SL"], 500, note="SL can't be written in Ratio")
    if number == SL_WRITTEN:
        dryer.call("write", "operator", NUMBER["SL"], 480, note="SL can be written in Fall-back: 48 degrees")
    if number == RS_WRITTEN:
        dryer.call("write", "operator", NUMBER["RS"], 95, note="RS is written: 0.95")
        dryer.read("RS")


def follow(dryer, number, sample):
    """One scan of the following dryer, with the leading dryer's PV as channel 2."""
    before_scan(dryer, number)
    first = max(start for start in PARTS if start <= number)
    trim = PARTS[first][2]
    if number == first:
        dryer.scan(TRACK | NO_REMOTE, sample, dryer.OP or 3000, note="Track: the output is taken over where it stands")
    elif number == first + 1:
        dryer.scan(REMOTE, sample, trim, R_BUTTON, "R is pressed, the Remote pin is at 15 V: " + ("Remote" if first == 1 else "Ratio"))
    elif number in WITHOUT_REMOTE:
        dropped_out = DROPPED_OUT.get(number)
        dryer.scan(NO_REMOTE, sample, trim, note=f"Remote pin at 0 V: {dropped_out}" if dropped_out else "")
    else:
        back = WITHOUT_REMOTE.get(number - 1)
        raised = "SP and Raise are held: RS goes up by 12 a scan" if number == RAISED[0] else ""
        dryer.scan(REMOTE, sample, trim, SP_AND_RAISE if number in RAISED else 0,
                   f"The Remote pin is at 15 V again: {back}" if back else raised)
    dryer.show(number, DISPLAYED)


def recorded():
    """The text of each file."""
    leading, following = Dryer(3500, 16, 7_200_000), Dryer(3000, 11, 90_000)
    for number in range(1, SCANS + 1):
        PV = lead(leading, number)
        follow(following, number, round(PV * 10000 / RANGE))
    return {path: HEADS[path] + "".join(line + "\n" for line in dryer.lines)
            for path, dryer in ((LEADING, leading), (FOLLOWING, following))}


def main():
    texts = recorded()
    if "--check" in sys.argv:
        faults = [f"{path.name} isn't what demo/record.py records"
                  for path, text in texts.items() if path.read_text(encoding="utf-8") != text]
        return tally.report(faults, len(texts), "both sessions are as recorded")
    for path, text in texts.items():
        path.write_text(text, encoding="utf-8")
    return 0


if __name__ == "__main__":
    sys.exit(main())
