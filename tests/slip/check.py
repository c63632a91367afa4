"""How a slip may be handled, asked of the compiler itself.

A slip is made by a draw and spent by take or leave, and in no other way. Each sample below is a small
program over a crate that has slips, `loans` or `controller`. The first spends its slip, and builds. Each other
one must not build, for the one error that is named. Nothing is proved here: `rt try` compiles a sample, and
runs it where it builds.
"""
import pathlib
import shutil
import subprocess
import sys
import tempfile

ROOT = pathlib.Path(__file__).resolve().parents[2]

# a cabinet takes no slip but a cabinet's, whoever is named on it
FOREIGN = (
    "made by loans that stand by themselves",
    """        if let Ok(other) = loans::table::Loans::new().draw(0, 1, 0) {
            match cabinet.take(other) {
                Ok(()) => {}
                Err(_) => unreachable(),
            }
        }
        match cabinet.leave(slip) {
            Ok(()) => {}
            Err(_) => unreachable(),
        }""",
    "error[mismatched-types]: expected `Slip`, found `Slip`: `Slip` is `controller::slip::Slip` in the first and `loans::slip::Slip` in the second",
)

# by the crate that has the slip: every crate that the samples need, each behind those that it needs itself; what takes
# a slip; the samples' program; and samples of this crate's slip alone
KINDS = {
    "loans": (
        ["faults", "numbered", "loans"],
        "loans",
        """use loans::slip::Slip;
use loans::table::Loans;

fn main() {
    let mut loans = Loans::new();
    if let Ok(slip) = loans.draw(0, 1, 0) {
%s
    }
}
""",
        [],
    ),
    "controller": (
        [
            "faults", "states", "numbered", "grants", "conditions", "sheets", "places", "register", "loans", "chains", "paths",
            "search",
            "plain", "call_checks", "ledger", "controller",
        ],
        "cabinet",
        """use controller::cabinet::Cabinet;
use controller::slip::Slip;
use sheets::sheet::Sheet;
use states::report::Report;

fn main() {
    let mut cabinet = Cabinet::new(Sheet::new());
    let _ = cabinet.fit(&[1; 32], 0);
    let report = Report::default();
    let mut chain = [0; 8];
    if let Ok(slip) = cabinet.draw(1, 0, &report, &mut chain) {
%s
    }
}
""",
        [FOREIGN],
    ),
}
PERSON = """
fn person(slip: &Slip) -> u8 {
    slip.person()
}
"""
TAKE = """        match TAKER.take(slip) {
            Ok(()) => {}
            Err(_) => unreachable(),
        }"""

# the name of the sample, what it does with its slip, and the compiler's error (none: it builds)
SAMPLES = [
    ("taken", TAKE, None),
    ("let go unspent", "        let _ = person(&slip);", "error[linear-value-let-go]: `slip`"),
    ("taken twice", TAKE + "\n" + TAKE, "error[borrow-e0382]: use of moved value: `slip`"),
    ("forgotten", "        std::mem::forget(slip);", "error[unsatisfied-bound]: the trait bound `Slip: Drop` is not satisfied"),
    ("taken apart", "        let Slip { hook: _, person: _, length: _ } = slip;", "error[private-field]"),
    ("forged", TAKE + "\n        let slip = Slip { hook: 0, person: 1, length: 0 };\n" + TAKE, "error[private-field]"),
]


def repository(folder, libraries):
    """A repository of these crates, as they stand here, and of one program."""
    for name in libraries:
        shutil.copytree(ROOT / "crates" / name, folder / "crates" / name, ignore=shutil.ignore_patterns("out", "must-fail"))
    listed = [line for line in (ROOT / "crates.txt").read_text(encoding="utf-8").split("\n") if line.split(":")[0] in libraries]
    (folder / "crates.txt").write_text("\n".join(listed) + f"\nvisit: {' '.join(libraries)}\n", encoding="utf-8")
    (folder / "crates/visit/src").mkdir(parents=True)
    return folder / "crates/visit"


def is_as_it_must_be(said, error):
    errors = [line for line in said.split("\n") if "error[" in line]
    if error is None:
        return "run=ended status=0" in said and not errors
    return "run=none" in said and bool(errors) and all(error in line for line in errors)


def main():
    failed = 0
    for kind, (libraries, taker, program, more) in KINDS.items():
        with tempfile.TemporaryDirectory() as folder:
            visit = repository(pathlib.Path(folder), libraries)
            for name, handling, error in SAMPLES + more:
                text = program % handling.replace("TAKER", taker) + PERSON
                (visit / "src/main.rt").write_text(text, encoding="utf-8")
                run = subprocess.run(["rt", "try"], cwd=visit, capture_output=True, text=True)
                said = run.stdout + run.stderr
                good = is_as_it_must_be(said, error)
                verdict = "builds" if error is None else f"does not build: {error}"
                print(f"slip of {kind}, {name}: {verdict if good else 'NOT AS IT MUST BE'}", flush=True)
                if not good:
                    print(said[-3000:])
                    failed += 1
    return 1 if failed else 0


if __name__ == "__main__":
    sys.exit(main())
