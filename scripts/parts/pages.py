"""Runs scripts/definitions in a repository of two small crates, and compares its pages and its check with what has to come, which is written here. Prints a line for each case."""
import pathlib
import re
import shutil
import subprocess
import tempfile

TOP = pathlib.Path(__file__).resolve().parent.parent.parent

FILES = {
    "crates.txt": "# lowest first\next_low:\next_high: ext_low\nprogram: ext_high\n",
    "crates/ext_low/src/lib.rt": "//! Low.\nmod counts;\n\npub use counts::{Counts, most};\n",
    "crates/ext_low/src/counts.rt": """\
//! Counts.
ghost use Rattle.ext_low.specs.Limits.{IsLimit, bound, limit};

/// Some counts.
pub struct Counts {
    items: u32,
}

impl Model for Counts {
    ghost use Rattle.ext_low.specs.Views.{CountsView};

    ghost Value = { CountsView };
}

/// The most that there may be. It is small.
pub fn most() -> u32
    ensures { IsLimit result }
{
    10
}

impl Counts {
    /// How many there are.
    pub fn count(&self) -> u32
        ensures few { result ≡ bound 3 }
    {
        self.items
    }

    fn hidden(&self) -> u32
        ensures { result ≡ limit }
    {
        self.items
    }
}
""",
    "crates/ext_low/specs/Lib.antt": "pub mod Limits\npub mod Views\npub mod InnerSteps\n",
    "crates/ext_low/specs/Limits.antt": """\
-- Limits.
use Rattle.std.specs.Prelude.{ℕ, ◌≤◌}

-- The limit.
abbrev pub limit : ℕ
limit = 10

-- A number within the limit.
abbrev pub IsLimit : ℕ → Type 0
IsLimit number = number ≤ limit

-- Its parameter has the name of a definition.
abbrev pub bound : ℕ → ℕ
bound limit = limit
""",
    "crates/ext_low/specs/Views.antt": """\
-- Views.
use Rattle.std.specs.Prelude.{ℕ}

-- What is seen of counts.
pub record CountsView : Type 0 where
  pub limit : ℕ

-- What only a program's function names.
abbrev pub unseen : ℕ
unseen = 1
""",
    "crates/ext_low/specs/InnerSteps.antt": """\
-- Steps.
use Rattle.std.specs.Prelude.{ℕ}

-- A step.
abbrev pub step : ℕ
step = 1
""",
    "crates/ext_high/src/lib.rt": "//! High.\nmod rounds;\n\npub use rounds::round;\n",
    "crates/ext_high/src/rounds.rt": """\
//! Rounds.
ghost use Rattle.ext_high.specs.Rounds as rounds;

/// Goes round.
pub fn round(times: u32) -> u32
    requires { rounds.IsFew times }
    ensures { rounds.Goes 2 times result }
{
    times
}
""",
    "crates/ext_high/specs/Lib.antt": "pub mod Rounds\n",
    "crates/ext_high/specs/Rounds.antt": """\
-- Rounds.
use Rattle.std.specs.Prelude.{ℕ, ◌≡◌}
use Rattle.ext_low.specs.Limits as limits
use Rattle.ext_low.specs.Limits.{IsLimit}

-- Few.
abbrev pub IsFew : ℕ → Type 0
IsFew times = IsLimit times

module _ (size : ℕ) where
  -- It goes so far.
  abbrev pub Goes : ℕ → ℕ → Type 0
  Goes times far = far ≡ limits.limit

  -- It goes nowhere.
  abbrev pub Stays : ℕ → Type 0
  Stays far = far ≡ size
""",
    "crates/program/src/main.rt": "//! A program.\n",
}


def made(folder, changes=()):
    """Makes the repository, with these texts of a file changed."""
    for name, text in FILES.items():
        path = folder / name
        path.parent.mkdir(parents=True, exist_ok=True)
        for _, old, new in (it for it in changes if it[0] == name):
            text = text.replace(old, new)
        path.write_text(text, encoding="utf-8")
    (folder / "scripts").mkdir(exist_ok=True)
    shutil.copy(TOP / "scripts" / "definitions", folder / "scripts" / "definitions")


def said(*words, changes=(), moves=()):
    """What the script says in the repository, and its exit status."""
    with tempfile.TemporaryDirectory(prefix="pages-") as name:
        folder = pathlib.Path(name)
        made(folder, changes)
        for old, new in moves:
            (folder / old).rename(folder / new)
        ran = subprocess.run([folder / "scripts" / "definitions", *words], capture_output=True, text=True)
    return ran.stdout + ran.stderr, ran.returncode


def blocks(*words, **changed):
    """The definitions of a page, with the file in which they stand."""
    page, status = said(*words, **changed)
    return status or {file: text for file, text in re.findall(r"^## (\S+)\n\n```\n(.*?)```$", page, re.M | re.S)}


def part(name, *heads):
    """The texts of a file's definitions that begin with these lines, with the comments above them."""
    found = [it for it in FILES[name].split("\n\n") if any(f"\n{head}" in f"\n{it}" for head in heads)]
    return "\n\n".join(it.rstrip("\n") for it in found) + "\n"


def cases():
    """What is looked at, and whether it is right."""
    limits, views, high = (f"crates/{it}.antt" for it in ("ext_low/specs/Limits", "ext_low/specs/Views", "ext_high/specs/Rounds"))
    limit, within = "abbrev pub limit", "abbrev pub IsLimit"
    yield "the public calls, in the order of lib.rt", said("ext_low") == ("Counts::count\nmost\n", 0)
    yield "a clause's definitions and what these name", blocks("ext_low", "most") == {"ext_low/specs/Limits.antt": part(limits, limit, within)}
    bound = blocks("ext_low", "Counts::count")
    yield "no definition by the name of a parameter or a field", bound == {
        "ext_low/specs/Limits.antt": part(limits, "abbrev pub bound"), "ext_low/specs/Views.antt": part(views, "pub record CountsView"),
    }  # fmt: skip
    round_page = blocks("ext_high", "round")
    yield "by an alias, and of another crate", round_page != 1 and round_page.get("ext_low/specs/Limits.antt") == part(limits, limit, within)
    own = FILES[high].partition("\n-- Few.")[2]
    yield "in a group, without others of it", round_page != 1 and round_page.get("ext_high/specs/Rounds.antt") == "-- Few." + own.partition("\n\n  -- It goes nowhere.")[0] + "\n"
    after = blocks("--after", "ext_low::most", "ext_high", "round")
    yield "less those of a call before", after != 1 and set(after) == {"ext_high/specs/Rounds.antt"}
    yield "a file that nothing reaches is called Inner..", said("--check")[1] == 0
    steps = "crates/ext_low/specs/{}Steps.antt"
    moved = {"changes": [("crates/ext_low/specs/Lib.antt", "InnerSteps", "Steps")], "moves": [(steps.format("Inner"), steps.format(""))]}
    yield "and one of another name is told", said("--check", **moved)[1] == 1
    counts, imported = "crates/ext_low/src/counts.rt", "ghost use Rattle.ext_low.specs.InnerSteps.{step};\nghost use Rattle.ext_low.specs.Limits"
    changes = [(counts, "ghost use Rattle.ext_low.specs.Limits", imported), (counts, "ensures few { result ≡ bound 3 }", "ensures few { result ≡ step }")]
    reached = said("--check", changes=changes)
    yield "one that a contract reaches is not", reached[1] == 1 and "InnerSteps.antt is called Inner.., and a public contract reaches step" in reached[0]
    yield "which definitions no contract reaches", said("--unreached") == (
        "crates/ext_low/specs/InnerSteps.antt: none of its 1: step\ncrates/ext_low/specs/Views.antt: not reached, 1 of 2: unseen\ncrates/ext_high/specs/Rounds.antt: not reached, 1 of 3: Stays\n", 0,
    )  # fmt: skip
    yield "no page of a call that is not public", said("ext_low", "hidden")[1] == 1


def main(_program, _words):
    passed = failed = 0
    for name, right in cases():
        passed, failed = passed + right, failed + (not right)
        print(f"pages: {name}: " + ("as it has to be" if right else "NOT as it has to be"))
    return passed, failed
