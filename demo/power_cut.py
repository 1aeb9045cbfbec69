"""Plays power cuts through the console: with what it saved before a cut it is restarted afterwards.

Usage: python3 -B -m demo.power_cut CONSOLE

A dryer runs and saves an image of its settings, runs on and saves a newer one; its drying sheet is shown; then the
console is ended, as a power cut would end it, and started anew. It is given the newer image, the same with the
power-fail switch ON, and every mixture of the two that a cut in the midst of saving would leave. Scans are 36 ms apart;
after the cut the host's clock begins anew, and the first scan is taken at any reading. Ends with status 1 if a setting
doesn't come back or a mixture gives settings that are neither image's.
"""

import collections
import sys

from demo.console import Console, scan_answer
from demo.sheet import show as show_sheet

POWER_FAIL = 0x0800  # S2.5
NAMES = {1: "1H", 2: "1L", 9: "HS", 15: "HO", 16: "LO", 17: "XP", 18: "TI", 19: "TD", 20: "SL"}
SETTINGS = {1: 1200, 9: 1100, 15: 8500, 16: 500, 17: 400, 18: 900, 19: 20, 20: 650}
MD, OP, SL, XP, TI = 24, 28, 20, 17, 18
MEMORY_FAULT, MANUAL = 0x0100, 0x2000
IMAGE_BYTES = 137
A_BUTTON, PINS = 0x02, 0x81
APART, BEFORE, AFTER = 36, 86_400_000, 250  # milliseconds between scans, and those that the host shows before and after the cut


class Dryer(Console):
    """A dryer behind the program; ending it is the power cut."""

    def __init__(self, program, switches, milliseconds=AFTER):
        super().__init__(program)
        self.milliseconds = milliseconds
        self.ask(f"fresh {switches}")

    def read(self, number):
        return int(self.ask(f"read {number}").split()[1])

    def scan(self, sample, buttons=0):
        self.milliseconds += APART
        return scan_answer(self.call(f"scan {PINS} {sample} 0 0 {buttons} 0 {self.milliseconds}"))

    def save(self):
        return self.ask(f"save {IMAGE_BYTES}").split()[1]


def standing(console):
    """The settings and what a restart shows of them."""
    return {**{NAMES[number]: console.read(number) for number in SETTINGS}, "MD": f"{console.read(MD):04X}h", "OP": console.read(OP)}


def show(title, values):
    print(f"  {title:<34}" + "  ".join(f"{name} {value}" for name, value in values.items()))


def dry(console, samples):
    """Scans with these samples; the last one's answer."""
    return [console.scan(sample) for sample in samples][-1]


def before_the_cut(program):
    """A dryer in Auto with its own settings; an older and a newer image, what stood when each was saved, and the
    sheet.
    """
    console = Dryer(program, 0, BEFORE)
    for number, value in SETTINGS.items():
        console.ask(f"write engineer {number} {value}")
    console.scan(4800, A_BUTTON)
    dry(console, range(4800, 5200, 10))
    older = standing(console), console.save()
    console.ask(f"write operator {SL} 700")
    console.ask(f"write engineer {XP} 350")
    console.ask(f"write engineer {TI} 1200")
    dry(console, range(5200, 5600, 10))
    newer, sheet = (standing(console), console.save()), console.sheet()
    console.end()
    return older, newer, sheet


def after_the_cut(program, switches, image):
    """A console started anew, and its answer to the image."""
    console = Dryer(program, switches)
    return console, console.ask(f"restart {image or '-'}")


def mixed(program, older, newer):
    """What becomes of each mixture, the first bytes of the newer image over the older one.

    A state is told by the image that it saves to.
    """
    console, counts, faulty = Dryer(program, 0), collections.Counter(), None
    states = {}
    for name, image in (("the older image's settings", older), ("the newer image's settings", newer)):
        console.ask(f"restart {image}")
        states[console.save()] = name
    for cut in range(IMAGE_BYTES + 1):
        console.ask("fresh 0")
        mixture = newer[:2 * cut] + older[2 * cut:]
        answer = console.ask(f"restart {mixture}")
        is_fault = answer == "ok" and console.read(MD) & MEMORY_FAULT
        if answer == "ok" and not is_fault:
            counts[states.get(console.save(), "UNSEEN by the sumcheck")] += 1
        else:
            counts["the memory fault" if is_fault else "refused"] += 1
            faulty = faulty or (is_fault and mixture)
    console.end()
    return counts, faulty


def main():
    program = sys.argv[1]
    (_, older), (newer_standing, newer), sheet = before_the_cut(program)
    show_sheet("The drying sheet of a lot that a power cut ends", {"the console's numbers": sheet}, "degrees")
    print(f"\nA power cut\n\n  saved: {newer[:40]}.. ({len(newer) // 2} bytes)")
    show("before the cut", newer_standing)
    console = Dryer(program, 0)
    show("started anew, before the restart", standing(console))
    answer = console.ask(f"restart {newer}")
    show(f"restarted: {answer}", standing(console))
    survived = answer == "ok" and standing(console) == newer_standing and dry(console, [5600]).mode == "Auto"
    print("  every setting is back, and the next scan is in Auto" if survived else "  NOT AS BEFORE")
    print(f"  the host's clock stood beyond {BEFORE} ms before the cut; after it the console answers: {console.ask('clock')}")
    console, answer = after_the_cut(program, POWER_FAIL, newer)
    show(f"power-fail switch ON: {answer}", standing(console))
    counts, mixture = mixed(program, older, newer)
    print(f"\nThe power fails while the newer image is written over the older one: {IMAGE_BYTES + 1} mixtures\n")
    print("\n".join(f"  {count:4}  {name}" for name, count in counts.items()))
    console, answer = after_the_cut(program, 0, mixture)
    show(f"one with the fault: {answer}", standing(console))
    console.ask(f"write operator {MD} {MANUAL}")
    show("the operator writes MD 2000h", standing(console))
    return 0 if survived and not counts["UNSEEN by the sumcheck"] else 1


if __name__ == "__main__":
    sys.exit(main())
