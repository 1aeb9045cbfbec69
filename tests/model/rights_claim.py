"""What the claim has on writers (document 02, request 6): "a write by someone without the right changes nothing".

Who may write what is told here again from the paper's words, by number, and the pins from the list alone: those of the
last accepted scan, 80h behind a start or an accepted restart.  Nothing of the rules is called.
"""

FIRST, LAST, FIRST_READ_ONLY = 1, 32, 26
# 20 SL, 21 RS, 22 RB, 24 MD, 25 DS; the engineer has all
OTHERS_NUMBERS = {"operator": {20, 21, 24, 25}, "computer": {20, 21, 22, 24, 25}}
PINS_AFTER_START, COMPUTER_BIT = 0x80, 4


class RightsClaim:
    """Follows the pins as the list tells them."""

    def __init__(self):
        self.pins = PINS_AFTER_START

    def follow(self, call, answer):
        """The exact controller's answer tells whether a scan or a restart was accepted."""
        if call[0] == "fresh" or call[0] == "restart" and answer == ("ok",):
            self.pins = PINS_AFTER_START
        elif call[0] == "scan" and answer[0] == "scan":
            self.pins = call[1]

    def lacking(self, writer, number):
        """4, 19 or 20 if it refuses a write by someone without the right, or of no parameter; else None."""
        if not FIRST <= number <= LAST:
            return 4
        if writer == "computer" and not self.pins >> COMPUTER_BIT & 1:
            return 19
        return None if writer == "engineer" or number in OTHERS_NUMBERS[writer] else 20

    def broken(self, call, before, after, answers):
        """What a write, or the question whether one may write, has broken of the rights."""
        if call[0] not in ("write", "access"):
            return
        writer, number = call[1:3]
        lacking, answer = self.lacking(writer, number), answers[0]
        if call[0] == "access":
            refusal = lacking or (5 if number >= FIRST_READ_ONLY else None)
            if answer != (("ok",) if refusal is None else ("refused", refusal)):
                yield f"{call} is answered {answer} with pins {self.pins:02X}h"
        elif lacking is not None and answer != ("refused", lacking):
            yield f"{call} is answered {answer}, not refused with {lacking}, with pins {self.pins:02X}h"
        elif lacking is None and answer in (("refused", 4), ("refused", 19), ("refused", 20)):
            yield f"{call} is answered {answer} with pins {self.pins:02X}h"
        if (lacking is not None or call[0] == "access") and after != before:
            yield f"{call} has changed a controller"
