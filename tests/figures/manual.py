"""Figures of the 6360's own manual, document 004, as lines for the console with the answers expected.

Each answer expected is the manual's figure, put as document 01 has it: a rejected word is "refused 9", numbers of
parameters and refusals are 01's.  A line whose answer is no figure has None.
"""

from tests.figures.images import image
from tests.model.table import NUMBER


def write(name, value, answer=None):
    return f"write engineer {NUMBER[name]} {value}", answer


def read(name, value):
    return f"read {NUMBER[name]}", f"value {value}"


def scan(pins=0x80, first=0, second=0, third=0, buttons=0):
    return f"scan {pins} {first} {second} {third} {buttons} 0", None


def restart(sumcheck, **values):
    return f"restart {image(sumcheck, **values).hex().upper()}", "ok"


A_BUTTON, R_BUTTON, SP_AND_RAISE = 0x02, 0x04, 0x48
OPEN_SCANS = [("scan 128 0 0 0 0 1", None)] * 85
# An image with HO 30.00 and LO 20.00 percent, OP 25.00 percent and the request Auto; its sumcheck is A280h
LIMITS = {"HO": 3000, "LO": 2000, "OP": 2500, "request": 1}
AUTO_WITH_POWER = (write("MD", 0x1010), read("MD", 0x1010))

FIGURES = (
    # "the Controller will accept MD parameter values of: 0800, 1000 or 2000 but will reject MD parameter values of:
    # 0000, 1800, 2800, 3000 or 3800"
    *((f"4.3.6: MD {word:04X}", (scan(0xA0), write("MD", word, "ok"))) for word in (0x0800, 0x1000, 0x2000)),
    *((f"4.3.6: MD {word:04X}", (scan(0xA0), write("MD", word, "refused 9"))) for word in (0x0000, 0x1800, 0x2800, 0x3000, 0x3800)),
    # "MD>1010"; "entering 2010 via the hand-held terminal which will reply with: MD>2010"; "the same result could have
    # been obtained by entering 6010, A010 or E010, but F010 would be rejected and the Controller would stay in AUTO"
    *((f"4.3.6: MD {word:04X} from Auto", (*AUTO_WITH_POWER, write("MD", word, "ok"), read("MD", 0x2010)))
      for word in (0x2010, 0x6010, 0xA010, 0xE010)),
    ("4.3.6: MD F010 from Auto", (*AUTO_WITH_POWER, write("MD", 0xF010, "refused 9"), read("MD", 0x1010))),
    # "unless it is at logic 1 it will not be possible to set the Controller into REMOTE AUTO or RATIO modes"
    ("4.3.6: MD 0800 with the Remote pin 0", (scan(0x80), write("MD", 0x0800, "refused 10"))),
    # "They may both be set ON by entering FFFF ... the same result could have been obtained by entering 00C0"; DS
    # before is document 01's 913Fh
    *((f"4.3.5: DS {word:04X}", (scan(0x91, buttons=A_BUTTON), read("DS", 0x913F), write("DS", word, "ok"), read("DS", 0x913F | 0x00C0)))
      for word in (0xFFFF, 0x00C0)),
    # "SL = +5000 (PV range 1L to 1H = 0 to 9999)", 3H and 3L, and the resultant setpoints at 0 V, 5 V and 10 V
    *((f"3.11.1: trim of {low} to {high}", (
        write("channel_1H", 9999), write("HS", 9999), write("SL", 5000, "ok"), write("channel_3H", high, "ok"),
        write("channel_3L", low, "ok"),
        *(each for sample, setpoint in zip((0, 5000, 10000), setpoints)
          for each in (scan(third=sample), read("SP", setpoint), read("SL", 5000)))))
      for low, high, setpoints in ((-500, 500, (4500, 5000, 5500)), (-500, 1000, (4500, 5250, 6000)), (500, 1000, (5500, 5750, 6000)))),
    # The square root of 0, 0.4, 1.6 and 10 V is 0, 2, 4 and 10 V: with a range of 0 to 1000, tenths of these in parts
    # of a thousand
    ("4.3.3: roots", (write("IC", 1, "ok"), *(each for sample, reading in ((0, 0), (400, 200), (1600, 400), (10000, 1000))
                                              for each in (scan(first=sample), read("PV", reading))))),
    # 100.0 percent: an error of 0.1 percent of the range moves the output 0.1 percent, which is 10 units; 5.0 percent:
    # twenty times as much
    *((f"4.6.3: XP {band}", (write("XP", band, "ok"), scan(0xC0, first=20, third=5000, buttons=A_BUTTON), scan(first=10),
                             read("OP", 5000 + units)))
      for band, units in ((1000, 10), (50, 200))),
    # 30 s for the span: 833 scans of 36 ms and a part of one
    ("3.7.3: RS over its span", (("fresh 32768", "ok"), write("RS", 1), scan(0xA0, buttons=R_BUTTON),
                                 *[scan(0xA0, buttons=SP_AND_RAISE)] * 833,
                                 read("RS", 9997), scan(0xA0, buttons=SP_AND_RAISE), read("RS", 9999))),
    # "HO, is set to 99.99%"; "LO, is set to zero"; "OP, is set to either LO or HO, whichever causes the controller
    # electrical output to go to a minimum"; "pin 32, will be set to 0V"; FORCED MANUAL; "bit 2 .. of the "DS" status
    # word to logic zero"; "bit 8, will be set to logic one"
    *((f"2.6.2: sumcheck failure, S2.2 {position}", (
        (f"fresh {SW}", "ok"), restart(0x0000, **LIMITS), read("HO", 9999), read("LO", 0), read("OP", OP), read("MD", 0x2100),
        read("DS", 0x801B),
        ("scan 128 0 0 0 2 0", f"scan {0x2102} {0x801B} {OP} 0 forced 0")))
      for position, SW, OP in (("OFF", 0, 0), ("ON", 0x4000, 9999))),
    # "writing a logic zero to bit 8": bit 8 "will reset to logic zero"; "revert to the normal MANUAL operating mode";
    # bit 2 of DS "will reset to logic "1""; "Any other operating modes can be selected"
    ("2.6.2: released", (restart(0x0000), write("MD", 0x2000, "ok"), read("MD", 0x2000), read("DS", 0x801F), write("MD", 0x1000, "ok"),
                         read("MD", 0x1000))),
    # S2 no. 5 OFF: "resumes operation in the mode in which it was operating"; ON: "MANUAL mode with the controller
    # electrical output (pin 32) set to the Low Limit", which is LO, or HO with inversion
    *((f"2.3.2: power failure, switch word {SW:04X}", (
        (f"fresh {SW}", "ok"), restart(0xA280, **LIMITS), read("MD", MD), read("OP", OP), read("HO", 3000), read("LO", 2000)))
      for SW, MD, OP in ((0x0000, 0x1000, 2500), (0x4000, 0x1000, 2500), (0x0800, 0x2000, 2000), (0x4800, 0x2000, 3000))),
    # Table 2.4: bits 9 and 8 of MD, and the hardware alarm, which is bit 2 of DS
    ("2.4: no alarm", (read("MD", 0x2000), read("DS", 0x801F))),
    ("2.4: sumcheck failure", (restart(0xAC43, fault=1), read("MD", 0x2100), read("DS", 0x801B))),
    ("2.4: open circuit", (*OPEN_SCANS, read("MD", 0x2200), read("DS", 0x801B))),
    ("2.4: both", (restart(0xAC43, fault=1), *OPEN_SCANS, read("MD", 0x2300), read("DS", 0x801B))),
    ("4.3.1, amended: II", (read("II", 0x3608),)),
)
