"""What the claim has on a Remote that drops out (document 02, request 7).

SP and SL behind an accepted Remote scan are told here again, in whole numbers, from the call, its answer and the
parameters before it: "in Remote, SL takes SP less the trim, limited to LS..HS"; and "Ratio keeps SL equal to SP".  The
promise is: "If SP less trim lies within the limits, no call comes between, channel 3 is the same and neither Raise nor
Lower is pressed, then a Fall-back scan straight after a Remote one has its SP".  It must hold too where what comes
between changes nothing: refused calls, and those that only ask.  Channel 3 is the same if it reads the same, as it
always does with the same sample.  Nothing of the rules is called.
"""

RAISE_OR_LOWER, MEASURED_POWER_BIT = 0xC0, 4


def reading(low, high, sample):
    """A channel's: the quotient nearest, halves up."""
    return low + (2 * sample * (high - low) + 10000) // 20000


def within(parameters, number):
    """Limited to LS..HS."""
    return parameters.LS if number < parameters.LS else parameters.HS if number > parameters.HS else number


class DropOutClaim:
    """Follows the SP that a Fall-back scan straight after must have, with the reading of channel 3 that it is promised
    for; None where nothing is promised.
    """

    def __init__(self):
        self.promised = None

    def broken(self, call, before, after, answers):
        """What an accepted scan has broken, of either controller; the exact one's answer tells what was accepted."""
        word, answer = call[0], answers[1]
        if word == "scan" and answer[0] == "scan":
            yield from self.broken_scan(call, before, after, answer)
        elif word == "fresh" or word in ("write", "restart") and answer == ("ok",):
            self.promised = None

    def broken_scan(self, call, before, after, answer):
        """Of an accepted scan: the promise made before it, SP and SL; and the promise that it makes itself."""
        mode, parameters = answer[5], before[1].parameters
        third = reading(parameters.channel_3L, parameters.channel_3H, call[4])
        trim = 0 if answer[1] >> MEASURED_POWER_BIT & 1 else third
        if mode == "Fall-back" and self.promised and self.promised[0] == third and not call[5] & RAISE_OR_LOWER:
            for each, SP in zip(after, self.promised[1], strict=True):
                if each.SP != SP:
                    yield f"SP is {each.SP} in Fall-back, straight after a Remote scan with {SP}"
        self.promised = None
        if mode == "Ratio":
            yield from (f"SL is {each.parameters.SL} in Ratio, SP {each.SP}" for each in after if each.parameters.SL != each.SP)
        elif mode == "Remote":
            yield from broken_remote(call, before, after, trim)
            self.promise(before, after, third, trim)

    def promise(self, before, after, third, trim):
        """"If SP less trim lies within the limits"."""
        if all(within(earlier.parameters, each.SP - trim) == each.SP - trim for earlier, each in zip(before, after, strict=True)):
            self.promised = third, [each.SP for each in after]


def broken_remote(call, before, after, trim):
    """Of each controller: SP is "channel 2 scaled by 1L, 1H, plus trim", limited; "SL takes SP less the trim, limited
    to LS..HS".
    """
    for earlier, each in zip(before, after, strict=True):
        parameters = earlier.parameters
        SP = within(parameters, reading(parameters.channel_1L, parameters.channel_1H, call[3]) + trim)
        SL = within(parameters, SP - trim)
        if (each.SP, each.parameters.SL) != (SP, SL):
            yield f"SP and SL are {each.SP} and {each.parameters.SL} in Remote, told from the scan {SP} and {SL}; the trim is {trim}"
