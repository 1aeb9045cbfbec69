"""The console, asked line by line, with a drying sheet of the scans that it accepts."""

import subprocess
from typing import NamedTuple

# The modes by the console's words for them
MODES = {"hold": "Hold", "track": "Track", "forced": "Forced Manual", "manual": "Manual", "auto": "Auto", "remote": "Remote",
         "ratio": "Ratio", "fallback": "Fall-back"}


class ScanAnswer(NamedTuple):
    MD: int
    DS: int
    OP: int
    electrical: int
    mode: str
    PV: int


def scan_answer(line):
    """The words of a scan's answer."""
    _, MD, DS, OP, electrical, mode, PV = line.split()
    return ScanAnswer(int(MD), int(DS), int(OP), int(electrical), MODES[mode], int(PV))


class Console:
    """The program; a sheet is begun with it, and the answer of each accepted scan is entered."""

    def __init__(self, program):
        self.process = subprocess.Popen([program], stdin=subprocess.PIPE, stdout=subprocess.PIPE, text=True)
        self.ask("sheet-new")

    def ask(self, line):
        self.process.stdin.write(line + "\n")
        self.process.stdin.flush()
        return self.process.stdout.readline().rstrip("\n")

    def call(self, line):
        """The answer to a call; that of an accepted scan goes into the sheet."""
        answer = self.ask(line)
        if answer.startswith("scan "):
            entered = self.ask("sheet-last")
            assert entered == "ok", entered
        return answer

    def sheet(self):
        return self.ask("sheet")

    def end(self):
        self.process.kill()
        self.process.communicate()


def play(lines, program):
    """The console's answers to the lines of a session, and the sheet of its scans."""
    console = Console(program)
    answers, sheet = [console.call(line) for line in lines], console.sheet()
    console.end()
    return answers, sheet
