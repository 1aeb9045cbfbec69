"""Document 02, request 6, "Who may turn what": who may write which parameter, and when.

Made from the paper's words and never from the code, so that a comparison of the two is a comparison with the paper.
"""

from tests.model.table import NAMES, READ_ONLY
from tests.model.words import COMPUTER_PIN

# "Each write names its writer: operator, engineer or computer"
WRITERS = ("operator", "engineer", "computer")
MAY_WRITE = {
    "operator": ("SL", "RS", "MD", "DS"),       # "The operator may write SL, RS, MD and DS"
    "engineer": NAMES,                          # "The engineer has every parameter, read-only ones still giving 5"
    "computer": ("SL", "RS", "RB", "MD", "DS"),  # "The computer may write SL, RS, RB, MD and DS"
}


def refusals_of_access(controller, writer, number):
    """Every refusal that applies whatever the value is, the first tested first.

    "19 when the computer writes with its pin at 0, right after 4.  20 when the writer hasn't that parameter, right
    after 19, and both before 5".  The pin is that of "the stored pin byte", the last accepted scan's.
    """
    if not 1 <= number <= len(NAMES):
        yield 4
        return
    if writer == "computer" and not controller.pins & COMPUTER_PIN:
        yield 19
    if NAMES[number - 1] not in MAY_WRITE[writer]:
        yield 20
    if number in READ_ONLY:
        yield 5


def access(controller, writer, number, arithmetic):
    """What a host asks before it offers a field for editing; nothing changes."""
    refusal = next(refusals_of_access(controller, writer, number), None)
    return controller, ("ok",) if refusal is None else ("refused", refusal)
