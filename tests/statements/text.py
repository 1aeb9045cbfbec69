"""How accepted calls of the model, writes by the engineer, are written down as statements about the rules."""

from tests.model import loop
from tests.model.state import Stored

FILL = 0xA5  # what each byte of a buffer is before a save
# The modes by the names that the rules have for them
MODES = {"Hold": "Hold", "Track": "Track", "Forced Manual": "Forced", "Manual": "Manual", "Auto": "Auto", "Remote": "Remote",
         "Ratio": "Ratio", "Fall-back": "Fallback"}
HEAD = '''-- Calls of a reference model that was made apart from the rules, stated of the rules; proofs/ModelCalls.antt proves
-- them. Made by tests/statements/calls.py, which the gate compares with this file.
use Rattle.std.specs.Prelude.{Bool, true, false, List, [], ◌∷◌, ◌≡◌, ℕ, ℤ, pos, neg_ℤ, replicate, None, Some}
use Rattle.signals.specs.Clock.{ClockReading}
use Rattle.signals.specs.Refusals.{refused_by}
use Rattle.signals.specs.declared.Input.{Input}
use Rattle.fields.specs.Fields.{save_tests, saved_in}
use Rattle.modes.specs.declared.Mode.TheVariants.{Hold, Track, Forced, Remote, Ratio, Fallback}
use Rattle.modes.specs.declared.Request.{Request}
use Rattle.modes.specs.declared.Request.TheVariants as request
use Rattle.rights.specs.declared.Writer.TheVariants.{Engineer}
use Rattle.setpoints.specs.declared.Readings.{Readings}
use Rattle.outputs.specs.declared.History.{History}
use Rattle.outputs.specs.declared.History.TheVariants.{Nothing, One, Two}
use Rattle.controller.specs.Answers.{Reply, words, acceptance, reply_by}
use Rattle.controller.specs.Restart.{restart}
use Rattle.controller.specs.Save.{saved_image}
use Rattle.controller.specs.Scan.{scan}
use Rattle.controller.specs.Write.{write}
use Rattle.controller.specs.declared.Controller.{Controller}

abbrev pub readings : ℤ → ℤ → ℤ → ℤ → Readings
readings pv sp er mp = record { pv = pv; sp = sp; er = er; mp = mp }

-- SW, parameters, request, memory fault, user bits 1 and 2, MD bit 4, open count, pins, readings, buttons, battery low,
-- low alarm, high alarm, history, clock, output
abbrev pub state :
    ℕ → List ℤ → Request → Bool → Bool → Bool → Bool → ℕ → ℕ → Readings → ℕ → Bool → Bool → Bool → History → ClockReading → ℤ → Controller
state sw numbers requested fault user1 user2 power opencount pins latest buttons battery low high history clock output =
    record {
      core = record {
        sw = sw;
        parameters = record { values = pos 0 ∷ numbers };
        conditions = record { request = requested; fault = fault; opencount = opencount; pins = pins };
        userbits = record { user1 = user1; user2 = user2; measuredpower = power };
        readings = latest;
        indications = record { buttons = buttons; batterylow = battery; lowalarm = low; highalarm = high };
        history = history;
        clock = clock;
      };
      output = output;
    }

abbrev pub input : ℕ → ℕ → ℕ → ℕ → ℕ → ℕ → ℕ → Input
input pins sample1 sample2 sample3 buttons sensors milliseconds =
    record {
      pins = pins;
      sample1 = sample1;
      sample2 = sample2;
      sample3 = sample3;
      buttons = buttons;
      sensors = sensors;
      milliseconds = milliseconds;
    }

-- a scan, an engineer's write, a restart of the state before it leaves the state after it, and this answer
abbrev pub Scans : Controller → Input → Controller → Reply → Type 0
Scans before i after answer = scan before i ≡ record { next = after; answer = answer }

abbrev pub Writes : Controller → ℕ → ℤ → Controller → Reply → Type 0
Writes before n v after answer = write before Engineer n v ≡ record { next = after; answer = answer }

abbrev pub Restarts : Controller → List ℕ → Controller → Reply → Type 0
Restarts before image after answer = restart before image ≡ record { next = after; answer = answer }

-- a save into so many bytes of 165 gives this answer, and these bytes
abbrev pub Saves : Controller → ℕ → Reply → List ℕ → Type 0
Saves before size answer bytes =
    let buffer = replicate {A = ℕ} size 165 in
    (reply_by (refused_by (save_tests buffer)) ≡ answer) × (saved_in (saved_image before) buffer ≡ bytes)
'''


def number_text(value):
    return f"pos {value}" if value >= 0 else f"neg_ℤ (pos {-value})"


def argument(value):
    return f"({number_text(value)})"


def flags_text(*flags):
    return " ".join(str(bool(flag)).lower() for flag in flags)


def list_text(texts):
    return f"({' ∷ '.join([*texts, '[]'])})"


def history_text(controller):
    if controller.previous_PV is None:
        return "Nothing"
    known = [controller.previous_PV, controller.previous_SP, controller.PV_before_previous]
    return " ".join(["One" if known[2] is None else "Two", *(argument(value) for value in known if value is not None)])


def clock_text(controller):
    return "None" if controller.clock is None else f"(Some {controller.clock})"


def state_text(controller):
    request = {"M": "request.Manual", "A": "request.Auto", "R": "request.Remote"}[controller.request]
    flags = flags_text(controller.memory_fault, controller.user_bits & 1, controller.user_bits & 2, controller.measured_power)
    readings = " ".join(map(argument, (controller.PV, controller.SP, controller.ER, controller.MP)))
    alarms = flags_text(controller.battery_low, controller.low_alarm, controller.high_alarm)
    return (f"(state {controller.SW} {list_text(map(number_text, controller.parameters))} {request} {flags} {controller.open_count} "
            f"{controller.pins} (readings {readings}) {controller.buttons} {alarms} ({history_text(controller)}) "
            f"{clock_text(controller)} {argument(controller.output)})")


def answer_text(answer):
    if answer[0] == "scan":
        *words, mode, PV = answer[1:]
        return f"(words {' '.join(map(str, words))} {MODES[mode]} {argument(PV)})"
    return {"ok": "acceptance", "image": "acceptance"}[answer[0]]


def statement(before, call):
    """What the model gives for the call, stated of the rules."""
    after, answer = loop.make(before, call, Stored)
    word, given, state, next_state, reply = call[0], call[1:], state_text(before), state_text(after), answer_text(answer)
    if word == "scan":
        return f"Scans {state} (input {' '.join(map(str, given))}) {next_state} {reply}"
    if word == "write":
        _, number, value = given
        return f"Writes {state} {number} {argument(value)} {next_state} {reply}"
    if word == "restart":
        return f"Restarts {state} {list_text(map(str, given[0]))} {next_state} {reply}"
    return f"Saves {state} {given[0]} {reply} {list_text(map(str, answer[1].ljust(given[0], bytes([FILL]))))}"
