"""Makes random plans, asks the proved program which of them are free of races (`check --races`), and runs each. A plan that is free has to have one report: that of
the plain run, on 4 and on 16 lanes, each time: as JSON, or where one is told but for two counts, as text. In some of them tests beside one another fail alike. Of those
that race some have to show two. Prints a line for each plan that is not as it has to be.

words:
  --plans N   how many plans are made, 60 without the word
  --times N   how often each is run on 4 lanes, and as often on 16: 5 without the word
  --seed N    other plans for each N, 1 without the word
  --racing    those that race are run too
"""
import argparse
import pathlib
import random
import subprocess

TOP = pathlib.Path(__file__).resolve().parent.parent.parent
KEYS = ["a", "b"]
TEXTS = ["x", "y", "bad1", "bad2"]
WORDS = ["put", "put!", "want", "want", "none", "none", "remove", "compute", "compute", "compute!", "computefail"]
# Of a plan whose classes start what their tests look up.
LOOKS = ["want", "want", "want", "none", "compute", "put"]
# What all tests of a plan have, each in its class or in the root.
ALIKE = ["computefail c x up 1", "computefail c x up 2"]


def step_of(chance, depth, words):
    """A step with one of these words that goes up at most so far."""
    word, key, text = chance.choice(words), chance.choice(KEYS), chance.choice(TEXTS)
    up = chance.randint(0, depth)
    parts = [word, key] + ([] if word in ("none", "remove") else [text]) + ([f"up {up}"] if up else [])
    return " ".join(parts)


def steps_of(chance, depth, most, words):
    """So many steps at most."""
    return [step_of(chance, depth, words) for _ in range(chance.randint(0, most))]


def node_of(chance, node_id, depth, is_test, starts=(), alike=()):
    """The lines of a node. If there are steps that start something, a class makes them before all its tests, which mostly look it up. A test makes those alike first, and others mostly for itself."""
    words = LOOKS if starts else WORDS
    most_up = 0 if alike and chance.random() < 0.9 else depth
    lines = ["[[node]]", f'id = "{node_id}"']
    if depth and (alike or chance.random() < 0.85):
        lines.append('mode = "concurrent"')
    if chance.random() < 0.1:
        lines.append("isolated = true")
    if chance.random() < 0.2:
        lines.append(f'locks = ["{chance.choice(["READ", "READ_WRITE"])} db"]')
    if chance.random() < 0.25:
        lines.append(f"before_each = {[steps_of(chance, most_up, 1, words)]}")
    if chance.random() < 0.15:
        lines.append(f"after_each = {[steps_of(chance, most_up, 1, words)]}")
    if is_test:
        lines.append(f"test = {[*alike, *steps_of(chance, most_up, 1 if alike else 2, words)]}")
        if chance.random() < 0.2:
            lines.append(f"repeat = {chance.randint(1, 3)}")
    elif depth and starts and chance.random() < 0.8:
        lines.append(f"before_all = {[[chance.choice(starts)]]}")
    elif chance.random() < 0.4:
        lines.append(f"before_all = {[steps_of(chance, most_up, 2, words)]}")
    return lines


def plan_of(chance):
    """The text of a plan: a root, classes and tests. In every third one classes start what their tests look up, and in every third all tests fail alike."""
    starts, fails = chance.choice([((), False), (("compute a x up 1", "compute a x up 1", "compute! a x", "compute b y"), False), ((), True)])
    alike = [chance.choice(ALIKE)] if fails else []
    lines = [] if chance.random() < (0.5 if fails else 0.7) else ["keep_faults = true"]
    lines += node_of(chance, "[engine:x]", 0, False, starts, alike)
    for number in range(chance.randint(2, 3)):
        at = f"[engine:x]/[class:{number}]"
        lines += node_of(chance, at, 1, False, starts, alike)
        for test in range(2 if fails else chance.randint(1, 2)):
            lines += node_of(chance, f"{at}/[test:{test}]", 2, True, starts, alike)
    return ("\n".join(lines) + "\n").replace("'", '"').encode()


def fails_alike(plan):
    """Whether all tests of the plan have one of the steps that fail alike."""
    return any(plan.decode().count(step) > 1 for step in ALIKE)


def ran(program, plan, *words):
    """The status and the output of the program."""
    end = subprocess.run([program, *words], input=plan, capture_output=True, timeout=120)
    return end.returncode, end.stdout + end.stderr


def reports_of(program, plan, times, form):
    """The different reports of so many runs, in this form."""
    found = {ran(program, plan, "run", "--report", form, "--store", "plain")}
    for lanes in ("4", "16"):
        found.update(ran(program, plan, "run", "--report", form, "--lanes", lanes) for _ in range(times))
    return found


def main(program, words):
    parser = argparse.ArgumentParser(usage=__doc__)
    parser.add_argument("--plans", type=int, default=60)
    parser.add_argument("--times", type=int, default=5)
    parser.add_argument("--seed", type=int, default=1)
    parser.add_argument("--racing", action="store_true")
    asked = parser.parse_args(words)
    chance = random.Random(asked.seed)
    free = racing = several = failed = 0
    alike = {True: 0, False: 0}
    for number in range(asked.plans):
        plan = plan_of(chance)
        status, told = ran(program, plan, "check", "--races")
        if status not in (0, 1) or (status == 0) != told.startswith(b"no races"):
            failed += 1
            print(f"plan {number}: check --races ended with {status}: {told[:200]}\n{plan.decode()}")
            continue
        free, racing = free + (status == 0), racing + (status == 1)
        if status == 1 and not asked.racing:
            continue
        if status == 0 and fails_alike(plan):
            alike[b"keep_faults" in plan] += 1
        found = reports_of(program, plan, asked.times, "json" if told == b"no races: one report\n" else "text")
        several += status == 1 and len(found) > 1
        if status == 0 and len(found) > 1:
            failed += 1
            print(f"plan {number} is free and has {len(found)} reports\n{plan.decode()}")
    if racing and asked.racing and not several:
        failed += 1
        print("no plan that races showed two reports")
    shown = "" if not asked.racing else f", of which {several} showed two reports"
    print(f"{free} plans are free of races and have one report each, {alike[True]} with kept faults and {alike[False]} without whose tests fail alike; {racing} race{shown}")
    if free == 0 or not any(alike.values()):
        failed += 1
        print("no plan is free of races, or none whose tests fail alike")
    return max(asked.plans - failed, 0), failed
