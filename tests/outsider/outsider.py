"""A program outside the library has no controller and no sheet but those that their calls give, and just their types.

Usage: python3 -B -m tests.outsider.outsider

A program over the library is accepted; with any one line of `LINES` in it the compiler refuses it, at that line and for
the cause that stands beside it; the functions that such a line names are there. A second program, `TYPES`, is accepted
only if each number that a call takes or gives has its type. All of them are crates of one temporary repository, beside
copies of the crates that they use, and `rt ci` judges it: what it has kept of the same crates isn't proved again. The
last line printed is 'N passed, M failed', one count for each program and for each line.
"""

import pathlib
import re
import subprocess
import sys
import tempfile

from tests import ROOT
from tests.gate import tally
from tests.outsider.repository import repository

# A controller and a sheet are made; whatever else the program is given, it can put nothing of it into them
PROGRAM = """#![tactic(auto)]

use controller::{Controller, Core};
use parameters::{Parameters, Values};
use sheet::{Sheet, SheetValues};

pub fn forged(
    mut core: Core,
    mut parameters: Parameters,
    output: i64,
    illegal: Values,
    values: SheetValues,
    reading: Option<u64>,
) -> Controller {
    let mut controller = Controller::fresh(0);
    let mut sheet = Sheet::empty();
    LINE
    controller
}
"""
# No number is turned into another type by itself, so each of these functions compiles with just these types
TYPES = """#![tactic(auto)]

use answers::ScanValues;
use controller::{CallResult, Controller};
use modes::Mode;
use rights::Writer;
use signals::{Input, Refusal};

pub fn started(sw: u16) -> Controller {
    Controller::fresh(sw)
}

pub fn input(pins: u8, samples: [u16; 3], buttons: u8, sensors: u8, milliseconds: u64) -> Input {
    Input {
        pins,
        sample1: samples[0],
        sample2: samples[1],
        sample3: samples[2],
        buttons,
        sensors,
        milliseconds,
    }
}

pub fn values(words: [u16; 4], mode: Mode, pv: i32) -> ScanValues {
    ScanValues {
        md: words[0],
        ds: words[1],
        op: words[2],
        electrical: words[3],
        mode,
        pv,
    }
}

pub fn written(writer: Writer, number: u64, value: i32) -> CallResult {
    Controller::fresh(0).write(writer, number, value)
}

pub fn read(number: u64) -> Result<i32, Refusal> {
    Controller::fresh(0).read(number)
}

pub fn last_reading(controller: Controller) -> Option<u64> {
    controller.last_reading()
}

pub fn number(refusal: Refusal) -> u8 {
    u8::from(refusal)
}
"""
# The line and the compiler's word for its cause
LINES = (
    ("controller.output = output;", "private-field"),
    ("controller.core = core;", "private-field"),
    ("controller = Controller { core, output };", "private-field"),
    ("let Controller { core, output } = controller;", "private-field"),
    ("core.parameters = parameters;", "private-field"),
    ("core.clock = reading;", "private-field"),
    ("parameters.values = illegal;", "private-field"),
    ("parameters = Parameters { values: illegal };", "private-field"),
    ("sheet.values = values;", "private-field"),
    ("sheet = Sheet { values };", "private-field"),
    ("controller = controller.written(1, output);", "unknown-method"),
    ("core = core.parameter_written(1, output);", "unknown-method"),
    ("let legal = controller::repaired::are_legal(parameters);", "unknown-name"),
)
UNKNOWN = ("unknown-method", "unknown-name")  # so the compiler calls what isn't public, and what isn't there too
CALLED = re.compile(r"(\w+)\(")
ERROR = re.compile(r"lib\.rt:(\d+):\d+: error\[([\w-]+)\]")
NUMBER = PROGRAM.split("\n").index("    LINE") + 1  # of the line's beginning
USED = ("signals", "modes", "answers", "parameters", "rights", "controller", "sheet")
ACCEPTED = {"outsider": PROGRAM.replace("    LINE\n", ""), "outsider_types": TYPES}
REFUSED = {f"outsider_{place}": (line, cause) for place, (line, cause) in enumerate(LINES)}
# What `rt ci` says of a crate, and what stands above that
VERDICT = re.compile(r"^rt: (\w+) (proved|is kept|NOT PROVED)\b", re.MULTILINE)
SECTION = r"^== {}\n(.*?)^rt: {} NOT PROVED"


def outsiders(folder):
    """A folder with the outsiders and the crates that they use, as the repository has them."""
    programs = ACCEPTED | {name: PROGRAM.replace("LINE", line) for name, (line, _) in REFUSED.items()}
    for name, program in programs.items():
        source = folder / "crates" / name / "src" / "lib.rt"
        source.parent.mkdir(parents=True)
        source.write_text(program, encoding="utf-8")
    repository(folder, USED, programs)


def is_there(line):
    """Whether the library has the function that the line calls."""
    texts = [path.read_text(encoding="utf-8") for path in (ROOT / "crates" / "controller" / "src").glob("*.rt")]
    return all(any(f"fn {name}(" in text for text in texts) for name in CALLED.findall(line))


def errors_of(name, printed):
    """Line and cause of each error of a crate that is refused, and all that is told of it."""
    found = re.search(SECTION.format(name, name), printed, re.MULTILINE | re.DOTALL)
    return (set(ERROR.findall(found.group(1))), found.group(1)) if found else (set(), "nothing is told of it\n")


def main():
    faults = []
    with tempfile.TemporaryDirectory() as folder:
        outsiders(pathlib.Path(folder))
        run = subprocess.run(["rt", "ci"], cwd=folder, stdin=subprocess.DEVNULL, stdout=subprocess.PIPE, stderr=subprocess.STDOUT,
                             text=True, errors="replace", check=False)
    verdicts = dict(VERDICT.findall(run.stdout))
    for name in ACCEPTED:
        if verdicts.get(name) not in ("proved", "is kept"):  # kept by an earlier run of this test
            faults.append(f"{name} is refused:\n{errors_of(name, run.stdout)[1]}")
    for name, (line, cause) in REFUSED.items():
        errors, told = errors_of(name, run.stdout)
        print(f"{line} {sorted(errors)}")
        places = {str(NUMBER + place) for place in range(line.count("\n") + 1)}
        is_refused = verdicts.get(name) == "NOT PROVED" and errors and errors <= {(place, cause) for place in places}
        if not is_refused:
            faults.append(f"{line} isn't refused for {cause} alone:\n{told}")
        elif cause in UNKNOWN and not is_there(line):
            faults.append(f"{line} calls a function that isn't there")
    if len(faults) == len(ACCEPTED) + len(REFUSED):
        print(run.stdout)  # what is wrong is wrong for all
    fine = "controllers and sheets come from the calls alone, and numbers have their types"
    return tally.report(faults, len(ACCEPTED) + len(REFUSED), fine)


if __name__ == "__main__":
    sys.exit(main())
