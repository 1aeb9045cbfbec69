"""Our stored controller and the exact one, fed the same calls, with the claim checked after each."""

from tests.model import loop
from tests.model.claim import Claim
from tests.model.lines import call_of, line_of
from tests.model.session import SESSION_CALLS, Session
from tests.model.state import Exact, Stored
from tests.model.words import mode_of
from tests.model.writes import write_of_before


class Pair:
    """The pair begins as the program does: "fresh with SW 0"; beside it goes the session with its sheet and numbers."""

    def __init__(self):
        self.claim, self.session = Claim(), Session()
        self.controllers = loop.fresh(0, Stored), loop.fresh(0, Exact)

    def make(self, call):
        """Makes the call; our answer and the parts of the claim that were broken."""
        if call[0] in SESSION_CALLS:
            return self.session.make(call), []
        before = self.controllers
        stored, answer = loop.make(before[0], call, Stored)
        exact, exact_answer = loop.make(before[1], call, Exact)
        self.controllers = stored, exact
        self.session.follow(answer)
        broken = self.claim.broken(call, before, self.controllers, (answer, exact_answer), mode_of)
        return answer, [*otherwise_than_before(call, before[0], stored, answer), *broken] if call[0] == "write" else broken


def otherwise_than_before(call, before, after, answer):
    """An engineer's write does what a write did before writers were named, and so does each that isn't refused with 19
    or 20.
    """
    if call[1] == "engineer" or answer not in (("refused", 19), ("refused", 20)):
        if (after, answer) != write_of_before(before, *call[2:], Stored):
            yield f"{call} is answered {answer}, or leaves another controller, than before writers were named"


def answers_of(lines):
    """The model's answers to the lines, from the controller that is fresh with SW 0 and the session's beginning."""
    controller, session, answers = loop.fresh(0, Stored), Session(), []
    for line in lines:
        call = call_of(line)
        if call and call[0] in SESSION_CALLS:
            answer = session.make(call)
        elif call:
            controller, answer = loop.make(controller, call, Stored)
            session.follow(answer)
        answers.append(line_of(answer) if call else "error")
    return answers
