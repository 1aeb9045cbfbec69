"""What the lists for roots have met: every sample, each where its PV tells its root from every other."""

from tests.coverage.coverage import Coverage
from tests.lists.roots import SAMPLES
from tests.model.words import MODES, mode_of


def least_counts():
    """The least count of each thing, by name."""
    least = {"scans with IC 1": 2 * SAMPLES, "PV tells the root": SAMPLES, "other ranges": SAMPLES // 2}
    least.update({f"mode {mode}": 500 for mode in MODES if mode != "Forced Manual"})
    least.update({f"sample {sample}, PV tells the root": 1 for sample in range(SAMPLES)})
    return least


class RootCoverage(Coverage):
    title, least_counts = "roots", staticmethod(least_counts)

    def call(self, call, before, after, answer, pair):
        stored = after[0]
        if call[0] != "scan" or answer[0] == "refused" or not stored.parameters.IC or stored.open_count:
            return
        self.count("scans with IC 1", f"mode {mode_of(stored)}")
        if stored.parameters.channel_1H - stored.parameters.channel_1L >= 10000:  # no two roots scale to one PV
            self.count("PV tells the root", f"sample {call[2]}, PV tells the root")
        else:
            self.count("other ranges")
