"""Drop-outs worked by hand for each sentence of document 02, request 7; in the forms of tests/figures/scans.py and
tests/figures/manual.py.

With 3H 100 and 3L 0 sample 1500 of channel 3 is a trim of 15, with 3H 0 and 3L -100 sample 8500 is one of -15.  With
the default range sample 5000 of channel 2 is 500.  Before the request SL took SP, so that the first pair gave 530.
"""

from tests.figures.images import image
from tests.figures.manual import read, write
from tests.figures.scans import LOWER, RAISE, S2_1, S2_3, S2_6, SP, A, Case, M, R, scan

UP, DOWN = {"channel_3H": 100}, {"channel_3H": 0, "channel_3L": -100}
ABOVE, BELOW = {"channel_1H": 2000}, {"channel_1L": -1000}  # channel 2 beyond HS 1000, and beyond LS 0
POWER = {"measured_power": True}


def remote(second, third=1500, buttons=R, sensors=0):
    return scan(0xA0, 0, second, third, buttons, sensors)


def pair(name, set_before, calls, setpoints, SW=0, modes=("Remote", "Fall-back")):
    """Two cases: SP and SL behind the first call, and behind the second."""
    return tuple(Case(f"drop-out, {name}: {mode}", SW, set_before, calls[:place], {"SP": now, "SL": local, "mode": mode})
                 for place, (mode, (now, local)) in enumerate(zip(modes, setpoints, strict=True), 1))


def trimmed(name, second, in_remote, in_fall_back, set_before=UP, third=1500, **given):
    """The same channel 3 in both, and nothing pressed in the second but what is given."""
    return pair(name, set_before, [remote(second, third), scan(third=third, **given)], (in_remote, in_fall_back))


CASES = (
    # "A dryer in Remote with trim 15": 500 + 15, and SL takes 515 less 15
    *trimmed("trim 15", 5000, (515, 500), (515, 500)),
    *trimmed("trim -15", 5000, (485, 500), (485, 500), DOWN, 8500),
    *trimmed("no trim", 5000, (500, 500), (500, 500), third=0),
    *trimmed("trim 1, by the default range", 5000, (501, 500), (501, 500), {}, 5000),
    # "limited to LS..HS": at the ends SP stays, one beyond it moves by 1, ten beyond by 10
    *trimmed("SP less trim at HS", 5000, (985, 1000), (985, 1000), {**ABOVE, **DOWN}, 8500),
    *trimmed("SP less trim one above HS", 5005, (986, 1000), (985, 1000), {**ABOVE, **DOWN}, 8500),
    *trimmed("SP less trim ten above HS", 5050, (995, 1000), (985, 1000), {**ABOVE, **DOWN}, 8500),
    *trimmed("SP less trim at LS", 5000, (15, 0), (15, 0), {**BELOW, **UP}),
    *trimmed("SP less trim one below LS", 4995, (14, 0), (15, 0), {**BELOW, **UP}),
    *trimmed("SP less trim ten below LS", 4950, (5, 0), (15, 0), {**BELOW, **UP}),
    # SP itself is limited first: 1000 + 15 to HS 1000, less 15; 5 - 15 to LS 0, less -15
    *trimmed("SP limited to HS", 10000, (1000, 985), (1000, 985)),
    *trimmed("SP limited to LS", 50, (0, 15), (0, 15), DOWN, 8500),
    *trimmed("SP limited to HS, less trim above it", 10000, (1000, 1000), (985, 1000), {**ABOVE, **DOWN}, 8500),
    *trimmed("SP limited to LS, less trim below it", 0, (0, 0), (15, 0), {**BELOW, **UP}),
    *trimmed("one setpoint alone", 5000, (500, 500), (500, 500), {**UP, "LS": 500, "HS": 500, "SL": 500}),
    # "channel 3 is the same", or another; the trim goes, and SP is what SL was
    *pair("channel 3 at 20", UP, [remote(5000), scan(third=2000)], ((515, 500), (520, 500))),
    *pair("channel 3 at 0", UP, [remote(5000), scan()], ((515, 500), (500, 500))),
    *pair("SP limited to HS, then channel 3 at 0", UP, [remote(10000), scan()], ((1000, 985), (985, 985))),
    *pair("the next sample reads the same", UP, [remote(5000), scan(third=1501)], ((515, 500), (515, 500))),
    # "neither Raise nor Lower is pressed": SP held with one of them moves SL by 1
    *trimmed("SP held", 5000, (515, 500), (515, 500), buttons=SP),
    *trimmed("R pressed again", 5000, (515, 500), (515, 500), buttons=R),
    *trimmed("SP and Raise", 5000, (515, 500), (516, 501), buttons=SP | RAISE),
    *trimmed("SP and Lower", 5000, (515, 500), (514, 499), buttons=SP | LOWER),
    *trimmed("Raise alone", 5000, (515, 500), (515, 500), buttons=RAISE),
    *pair("SP and Raise in Remote", UP, [remote(5000, buttons=R | SP | RAISE), scan(third=1500)], ((515, 500), (515, 500))),
    # Trim is 0 with MD bit 4; open scans are as others
    *trimmed("MD bit 4", 5000, (500, 500), (500, 500), {**UP, **POWER}),
    *pair("the first open", UP, [remote(5000, sensors=1), scan(third=1500)], ((515, 500), (515, 500))),
    *pair("both open", UP, [remote(5000, sensors=1), scan(third=1500, sensors=1)], ((515, 500), (515, 500))),
    *pair("S2.6 ON", UP, [remote(5000), scan(first=700, third=1500)], ((515, 500), (515, 500)), S2_6),
    # "Ratio keeps SL equal to SP": s is 100 + 15, q 230; S2.3 ON, q 200; Fall-back has no trim with S2.1 ON
    *pair("100 x 230 / 115", UP, [remote(2300), scan(third=1500)], ((200, 200), (200, 200)), S2_1, ("Ratio", "Fall-back")),
    *pair("200 x 115 / 100", UP, [remote(2000), scan(third=1500)], ((230, 230), (230, 230)), S2_1 | S2_3, ("Ratio", "Fall-back")),
    *pair("100 x 170 / 85", DOWN, [remote(1700, 8500), scan(third=8500)], ((200, 200), (200, 200)), S2_1, ("Ratio", "Fall-back")),
    *pair("open", UP, [remote(2300, sensors=1), scan(third=1500)], ((200, 200), (200, 200)), S2_1, ("Ratio", "Fall-back")),
    # Other modes: Auto, Manual and Hold have the trim, Track has none; with S2.6 ON SL becomes PV in Manual
    *(case for mode, SW, call, setpoints in (
        ("Auto", 0, scan(0xA0, 0, 0, 1500, A), (515, 500)), ("Manual", 0, scan(0xA0, 0, 0, 1500, M), (515, 500)),
        ("Hold", 0, scan(0x20, 0, 0, 1500), (515, 500)), ("Track", 0, scan(0xE0, 0, 0, 1500), (500, 500)),
        ("Manual", S2_6, scan(0xA0, 700, 0, 1500, M), (85, 70)))
      for case in pair(f"to {mode}, SW {SW:04X}", UP, [remote(5000), call], ((515, 500), setpoints), SW, ("Remote", mode))),
)

REMOTE, FALL_BACK = ("scan 160 0 5000 1500 4 0", {5: "Remote"}), ("scan 128 0 0 1500 0 0", {5: "Fall-back"})
IN_REMOTE = (write("channel_3H", 100, "ok"), REMOTE, read("SP", 515), read("SL", 500))
# 3H 100 for 1, SL 500 for 0 and request 2 for 0: 601 more than AC42h
IMAGE = image(0xAE9B, channel_3H=100, SL=500, request=2).hex().upper()


def falls_back(name, calls, setpoint, local):
    """Behind the Remote scan these calls, and then the Fall-back scan."""
    return f"drop-out, {name}", (*IN_REMOTE, *calls, FALL_BACK, read("SP", setpoint), read("SL", local))


FIGURES = (
    falls_back("nothing between but reads", (), 515, 500),
    falls_back("Fall-back for longer, Remote, Fall-back", (*[FALL_BACK, read("SP", 515), read("SL", 500)] * 3, REMOTE, read("SP", 515),
                                                           read("SL", 500)), 515, 500),
    # What changes nothing may come between
    falls_back("refused calls and questions between", (
        ("scan 128 0 0 10001 0 0", "refused 1"), write("SL", 5, "refused 8"), write("HS", -1, "refused 7"), ("restart -", "refused 12"),
        ("clock", None), ("access operator 20", "ok"), ("save 136", "refused 15"), ("save 137", f"image {IMAGE}")), 515, 500),
    # A write between: the limits move SL and SP, MD bit 4 takes the trim away, another 3H changes it
    falls_back("HS 505", (write("HS", 505, "ok"),), 505, 500),
    falls_back("HS 490", (write("HS", 490, "ok"), read("SL", 490)), 490, 490),
    falls_back("LS 510", (write("LS", 510, "ok"), read("SL", 510)), 525, 510),
    falls_back("3H 200", (write("channel_3H", 200, "ok"),), 530, 500),
    falls_back("MD bit 4 set", (write("MD", 0x0810, "ok"),), 500, 500),
    falls_back("MD bit 4 set and cleared", (write("MD", 0x0810, "ok"), write("MD", 0x0800, "ok")), 515, 500),
    falls_back("SL 600 in Auto", (write("MD", 0x1000, "ok"), write("SL", 600, "ok"), ("scan 128 0 0 1500 4 0", {5: "Fall-back"})),
               615, 600),
    # The image of a dryer in Remote has SL, and a restart makes it SP; the trim comes with the scan
    falls_back("restarted", (("save 137", f"image {IMAGE}"), (f"restart {IMAGE}", "ok"), read("SP", 500), read("SL", 500)), 515, 500),
)
