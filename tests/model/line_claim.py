"""What the claim has on lines of the hand-held terminal (document 02, request 4).

A line is a read or a write and nothing else: which one is told here again from the paper's words, byte by byte, and the
rest of the claim takes it for that read or write.  Replies aren't made here but read.  Nothing of the rules is called.
"""

MNEMONICS = ("1H", "1L", "2H", "2L", "3H", "3L", "HR", "LR", "HS", "LS", "HA", "LA", "HD", "LD", "HO", "LO", "XP", "TI", "TD", "SL", "RS",
             "RB", "IC", "MD", "DS", "SW", "II", "OP", "SP", "PV", "ER", "MP")
WORDS = ("MD", "DS", "SW", "II")
DIGITS, CAPITALS = set("0123456789"), set("0123456789ABCDEF")
STEPS_IN_A_UNIT = 65536
LAST_DECIMAL = 23  # of the parameters that may be written


def is_value(mnemonic, value):
    """Four hexadecimal digits in capitals, or one to five digits and perhaps a minus before them."""
    if mnemonic in WORDS:
        return len(value) == 4 and CAPITALS.issuperset(value)
    digits = value[1:] if value[:1] == "-" else value
    return 0 < len(digits) < 6 and DIGITS.issuperset(digits)


def number_in(mnemonic, value):
    return int(value, 16 if mnemonic in WORDS else 10)


def named_by(writer, line, length):
    """The read or write that a writer's line names, with a buffer of so many bytes, or the refusal: 17, 18 or 15."""
    text = line.decode("latin-1")
    mnemonic, sign, value = text[:2], text[2:3], text[3:]
    if mnemonic not in MNEMONICS:
        return 17
    if sign and not (sign == ">" and is_value(mnemonic, value)):
        return 18
    if length < 9:
        return 15
    number = MNEMONICS.index(mnemonic) + 1
    return ("write", writer, number, number_in(mnemonic, value)) if sign else ("read", number)


def value_in(answer):
    """The value that a reply carries, or None if it isn't a reply of the right form."""
    _, length, reply = answer
    text = reply.decode("latin-1")
    mnemonic, sign, value = text[:2], text[2:3], text[3:]
    if length != len(reply) or mnemonic not in MNEMONICS or sign != ">":
        return None
    if mnemonic in WORDS:
        return number_in(mnemonic, value) if is_value(mnemonic, value) else None
    digits = value.removeprefix("-")
    is_shortest = DIGITS.issuperset(digits) and digits[:1] not in ("", "0") or value == "0"
    return int(value) if is_shortest else None


def item_of(controller, mnemonic):
    """The value of a state item by its mnemonic; None of MD and DS, which are made of several."""
    number = MNEMONICS.index(mnemonic)
    if number < LAST_DECIMAL:
        return controller.parameters[number]
    if mnemonic == "OP":
        return controller.output // STEPS_IN_A_UNIT  # "those of our own stored output"
    return {"II": 0x3608, "MD": None, "DS": None}.get(mnemonic) if mnemonic in ("II", "MD", "DS") else getattr(controller, mnemonic)


class LineClaim:
    """Follows the last reply, and the controllers that it left: it may be sent back, or the same may be read again."""

    def __init__(self):
        self.reply, self.controllers = None, None

    def taken_for(self, call, before, after, answers, lacking):
        """The call that a line is taken for, with its answers, and what is broken by the line as such.

        Lacking tells the refusal of a write by a writer who hasn't the right to a number, or None.
        """
        _, writer, line, length = call
        named, broken = named_by(writer, line, length), []
        if isinstance(named, int):
            broken = [] if answers[0] == ("refused", named) else [f"{line!r} is answered {answers[0]}, not refused with {named}"]
            named = "read", 0
        elif answers[0][0] == "refused":
            is_possible = named[0] == "write" and answers[0][1] in (19, 20, *range(5, 12))
            broken = [] if is_possible else [f"{line!r} is refused with {answers[0][1]}"]
        else:
            broken = [*self.broken_reply(line, length, named, after, answers)]
        if named[0] == "read" or lacking(*named[1:3]) is None:
            broken += self.broken_sending_back(line, named, before, after, answers[0])
        if answers[0][0] == answers[1][0] == "reply":
            self.reply, self.controllers = answers[0][2], after
            answers = (("ok",), ("ok",)) if named[0] == "write" else tuple(("value", value_in(answer)) for answer in answers)
        return named, answers, broken

    def broken_reply(self, line, length, named, after, answers):
        """"The reply is the mnemonic, > and the present value"; after a write the two controllers' replies are one."""
        if answers[0][0] != "reply" or answers[1][0] != "reply":
            yield f"{line!r} is answered {answers}"
            return
        value, item = value_in(answers[0]), item_of(after[0], line[:2].decode("latin-1"))
        if answers[0][2][:2] != line[:2] or value is None or item is not None and value != item or answers[0][1] > length:
            yield f"the reply to {line!r} is {answers[0]}, present is {item}"
        if named[0] == "write" and answers[0] != answers[1]:
            yield f"the reply to {line!r} is {answers[0]}, the exact controller's {answers[1]}"
        if named[0] == "write" and named[2] <= LAST_DECIMAL and value != named[3]:
            yield f"the reply to {line!r} is {answers[0]}"

    def broken_sending_back(self, line, named, before, after, answer):
        """"A mechanic who may write a parameter and sends its decimal reply back must get the same reply while nothing
        comes between, unless it is SL and refusal 8 applies"; one who may not isn't asked for here.

        Nor has "the present value" changed where nothing comes between, of MD and DS either: a read gives it again.
        """
        if self.reply is None or line[:2] != self.reply[:2] or before != self.controllers:
            return
        if named[0] == "read" and named[1] and answer != ("reply", len(self.reply), self.reply):
            yield f"the reply to {line!r} is {answer}, {self.reply!r} came just before"
        if line != self.reply or named[0] != "write" or named[2] > LAST_DECIMAL:
            return
        if (answer != ("reply", len(line), line) and not (line[:2] == b"SL" and answer == ("refused", 8))) or after != before:
            yield f"the reply {line!r}, sent back, is answered {answer}, or has changed a controller"
