"""What the mixtures of two images came to, and how often each outcome must be met at least."""

from tests.coverage.coverage import Coverage
from tests.lists.image_source import values_in, with_right_sum
from tests.lists.power_cuts import mixture
from tests.model.images import IMAGE_BYTES, refusals, restart
from tests.model.state import Stored


def least_counts():
    """The least count of each thing, by name."""
    least = {"pairs": 97, "mixtures": 13000, "as the older": 200, "as the newer": 97, "refused": 20, "memory fault": 200,
             "unseen by the sum": 10}
    least.update({"bytes of the older": 97, "bytes of the newer": 97})
    return {**least, **{f"cut at {cut}": 80 for cut in range(IMAGE_BYTES + 1)}}


class PowerCutCoverage(Coverage):
    title, least_counts = "power cuts", staticmethod(least_counts)

    def __init__(self):
        super().__init__()
        self.pair, self.cut = [], 0

    def call(self, call, before, after, answer, pair):
        if call[0] == "fresh":
            self.pair, self.cut = [], -2  # the two images come first
        elif call == ("save", IMAGE_BYTES):
            self.pair.append(answer[1])
            self.counts["pairs"] += len(self.pair) == 2
        elif call[0] == "restart" and len(self.pair) == 2:
            if self.cut >= 0:
                assert call[1] == mixture(*self.pair, self.cut)
                self.counts.update(("mixtures", f"cut at {self.cut}", *self.came_to(call[1], before[0], after[0], answer)))
            self.cut += 1

    def came_to(self, image, before, after, answer):
        """What it came to; and whether the mixture has the bytes of one of the two."""
        yield from (name for name, each in zip(("bytes of the older", "bytes of the newer"), self.pair, strict=True) if image == each)
        by_older, by_newer = (restart(before, each, Stored)[0] for each in self.pair)
        if answer[0] == "refused":
            yield "refused"
        elif after in (by_older, by_newer):
            yield "as the older" if after == by_older else "as the newer"
        elif after.memory_fault:
            yield "memory fault"
        else:
            assert image not in self.pair and not list(refusals(image))
            assert with_right_sum(image) == image and values_in(image)["fault"] == 0
            yield "unseen by the sum"
