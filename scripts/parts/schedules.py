"""Makes random plans of few nodes, half of them as plans usually are, asks the program what their races are (`check --races`), and goes through all schedules of each
plan by a model. A plan that is told to be free has to have one report in all of them, which is that of its plain run: wholly, or but for `computed` and `found` where
that is told. As a check of the model each fifth plan is run, plain and on 4 and 16 lanes: its reports have to be the model's. Plans with more states than are gone
through are replaced by others. Then come the plans of examples/cases/races_told, whose first line says what is told of them, and what all their schedules come to.
Prints each plan that is not as it has to be, and how many random plans are free, and how many race though they have one report.

words:
  --plans N  how many random plans are made, 300 without the word
  --seed N   other plans for each N, 1 without the word
"""
import argparse
import collections
import pathlib
import random
import subprocess

from . import schedule_model as model

TOP = pathlib.Path(__file__).resolve().parent.parent.parent
TOLD = TOP / "examples/cases/races_told"
MOST_STATES = 2000
RUNS = (["--store", "plain"], ["--lanes", "4"], ["--lanes", "16"])
# What is told of a plan without races.
ONE, NEAR = "no races: one report", "no races: one report but for computed and found"
# The words of a plan's steps: all, or those of tests that mostly look up what is computed, put or removed.
WORDS = [
    ["put", "put", "put!", "want", "want", "want", "none", "remove", "compute", "compute", "compute!", "compute!", "computefail"],
    ["put", "put", "put!", "want", "want", "want", "none", "remove", "compute", "compute", "compute!", "compute!", "computefail"],
    ["compute!", "compute!", "want", "want", "none", "put"],
    ["put", "want", "remove", "want", "compute"],
    ["put", "put", "want", "none"],
    ["compute", "want", "want", "remove"],
]
# The words of usual plans, by where they stand: each key has one text, and what tests look up is mostly stored before.
USUAL_WORDS = {
    "before_all": ["put", "compute"],
    "before_each": ["put", "compute", "want"],
    "after_each": ["want", "remove"],
    "after_all": ["want", "remove"],
    "test": ["want", "want", "want", "want", "compute", "compute", "put", "remove"],
}
LOCKS = ['locks = ["READ_WRITE db"]', 'locks = ["READ_WRITE db"]', 'locks = ["READ db"]', "isolated = true"]
CALLBACKS = [("before_all", 0.55, (1, 1, 2)), ("after_all", 0.2, (1,)), ("before_each", 0.2, (1,)), ("after_each", 0.15, (1,))]


class Maker:
    """Makes a plan: one class with two or three tests, or two concurrent classes with one or two each; one or two keys, and one or two texts."""

    def __init__(self, chance):
        self.chance = chance
        self.keys = chance.choice([["a"], ["a"], ["a", "b"]])
        self.texts = chance.choice([["x"], ["x"], ["x", "y"], ["x", "bad1", "bad2"]])
        self.words = chance.choice(WORDS)
        self.is_locked = chance.random() < 0.25

    def steps(self, place, depth, count):
        return [self.step(place, depth) for _ in range(count)]

    def step(self, place, depth):
        """A step of a test or of callbacks of this kind, by a node of this depth."""
        word, key, text = self.chance.choice(self.words), self.chance.choice(self.keys), self.chance.choice(self.texts)
        up = min(self.chance.choice([0, 1, 1, 2]), depth)
        return joined(word, key, text, up)

    def node(self, node_id, is_test=False, is_concurrent=False):
        """The lines of a node."""
        depth = node_id.count("/")
        lines = ["[[node]]", f'id = "{node_id}"'] + (['mode = "concurrent"'] if is_concurrent else [])
        if is_test:
            lines += [self.chance.choice(LOCKS)] if self.is_locked and self.chance.random() < 0.8 else []
            return [*lines, f"test = {self.steps('test', depth, self.chance.choice([0, 1, 1, 2, 2, 3]))}"]
        for kind, often, counts in CALLBACKS:
            if self.chance.random() < often:
                lines.append(f"{kind} = {[self.steps(kind, depth, self.chance.choice(counts))]}")
        return lines

    def plan(self):
        """The text of the plan."""
        chance = self.chance
        lines = ["keep_faults = true"] if chance.random() < 0.1 else []
        lines += self.node("[e:x]")
        classes = chance.choice(["A", "AB"])
        for name in classes:
            lines += self.node(f"[e:x]/[c:{name}]", is_concurrent=len(classes) > 1)
            for number in range(chance.choice([1, 1, 2] if len(classes) > 1 else [2, 2, 3])):
                lines += self.node(f"[e:x]/[c:{name}]/[t:{number}]", is_test=True, is_concurrent=len(classes) == 1 or chance.random() < 0.5)
        return ("\n".join(lines) + "\n").replace("'", '"')


class UsualMaker(Maker):
    """Makes a plan as it is usual: each key has one text and one kind of value, mostly in the context of the engine, or in that of a class."""

    def __init__(self, chance):
        super().__init__(chance)
        self.marks = {key: chance.choice(["", "!"]) for key in self.keys}
        self.level = chance.choice([0, 1, 1])

    def step(self, place, depth):
        word, key = self.chance.choice(USUAL_WORDS[place]), self.chance.choice(self.keys)
        depth = 2 if place in ("before_each", "after_each") else depth
        acts_at = depth if word == "want" else self.chance.choice([self.level, self.level, self.level, 2])
        return joined(word + (self.marks[key] if word in ("put", "compute") else ""), key, f"x{key}", max(depth - acts_at, 0))


def joined(word, key, text, up):
    """The text of a step."""
    return " ".join([word, key] + ([] if word in ("none", "remove") else [text]) + ([f"up {up}"] if up else []))


def ran(program, text, *words):
    """The status and the lines of the program."""
    end = subprocess.run([program, *words], input=text.encode(), capture_output=True, timeout=120)
    return end.returncode, (end.stdout + end.stderr).decode().splitlines()


def verdict_of(text, told):
    """What is told of a plan, and whether all schedules of the model have one report; and what is wrong with that, if anything."""
    plan = model.Plan(text)
    reports, plain = model.reports_of(plan, MOST_STATES)
    near = {model.but_for_computed_and_found(report) for report in reports}
    is_wrong = plain not in reports or (told == ONE and len(reports) > 1) or (told == NEAR and len(near) > 1)
    if told in (ONE, NEAR):
        return ("free" if told == ONE else "free but for computed and found"), reports, is_wrong
    if len(reports) == 1:
        return "race, though one report", reports, is_wrong
    return ("race, though one report but for computed and found" if len(near) == 1 else "race"), reports, is_wrong


def runs_of(program, text):
    """The reports of a few runs in JSON, without their totals."""
    return {tuple(ran(program, text, "run", "--report", "json", *words)[1][:-1]) for words in RUNS}


class Checked:
    """The plans that were checked: how many had each verdict, and how many were not as they have to be."""

    def __init__(self, program):
        self.program, self.verdicts, self.failed = program, collections.Counter(), 0

    def check(self, text, runs=False, wanted=None):
        """Checks a plan: what is told of it, its runs if asked, and the verdict that it has to have, if any. Says whether all is as it has to be."""
        status, told = ran(self.program, text, "check", "--races")
        verdict, reports, is_wrong = verdict_of(text, told[0])
        self.verdicts[verdict] += 1
        lines = {tuple(model.json_of(model.Plan(text), report)) for report in reports} if runs else set()
        faults = [
            (status != (0 if told[0] in (ONE, NEAR) else 1), f"check --races ended with {status}"),
            (is_wrong, f"it has {len(reports)} reports"),
            (runs and not runs_of(self.program, text) <= lines, "a run has a report that the model has not"),
            (wanted not in (None, verdict), f"it has to be: {wanted}"),
        ]
        wrong = [why for is_so, why in faults if is_so]
        self.failed += bool(wrong)
        if wrong:
            print(f"{verdict}, by {told[0]}: {'; '.join(wrong)}\n{text}")
        return not wrong

    def counts(self):
        return "; ".join(f"{count} {verdict}" for verdict, count in self.verdicts.most_common())


def check_random(program, count, chance):
    """Checks so many random plans. Some have to be free, wholly and but for two counts, and some have to have several reports."""
    checked, made = Checked(program), 0
    while made < count:
        try:
            checked.check(chance.choice([Maker, UsualMaker])(chance).plan(), runs=made % 5 == 0)
            made += 1
        except model.TooManyStates:
            continue
    missing = [it for it in ("free", "free but for computed and found", "race") if not checked.verdicts[it]]
    right = not checked.failed and not missing
    print(f"{checked.counts()}{''.join(f'; none is: {it}' for it in missing)}\nrandom plans: {'as they have to be' if right else 'NOT as they have to be'}")
    return made - checked.failed, checked.failed + len(missing)


def check_told(program):
    """Checks the plans of examples/cases/races_told."""
    checked = Checked(program)
    files = sorted(TOLD.glob("*.toml"))
    for file in files:
        text = file.read_text()
        right = checked.check(text, runs=True, wanted=text.partition(": ")[0].removeprefix("# "))
        print(f"{TOLD.name}/{file.stem}: {'as it has to be' if right else 'NOT as it has to be'}")
    return len(files) - checked.failed, checked.failed


def main(program, words):
    parser = argparse.ArgumentParser(usage=__doc__)
    parser.add_argument("--plans", type=int, default=300)
    parser.add_argument("--seed", type=int, default=1)
    asked = parser.parse_args(words)
    passed, failed = check_random(program, asked.plans, random.Random(asked.seed))
    told_passed, told_failed = check_told(program)
    return passed + told_passed, failed + told_failed
