"""Runs the program with `--failures --report json` on each plan of examples/cases/rows and examples/cases/outside and on a few others, as a plain run, and reads what it writes
with Python's own JSON parser. The objects of faults have to be the lines that the same run has as text, one by one, and the faults of each node as many as its
object in the report counts, with the one that it tells. Prints a line for each plan.
"""
import json
import pathlib
import subprocess

TOP = pathlib.Path(__file__).resolve().parent.parent.parent

MEMBERS = ["id", "fault", "call", "index", "of", "step"]

# What stands in each place: the call's name, whether it is a callback, and whether its line tells which node registered it.
CALLS = {"before_all": (True, False), "before_each": (True, True), "test": (False, False), "after_each": (True, True), "after_all": (True, False), "close": (False, False)}


def ran(program, plan, form):
    """What a run of the plan says on its two outputs."""
    done = subprocess.run([program, "run", "--store", "plain", "--brief", "--failures", "--report", form], input=plan, capture_output=True, timeout=120)
    return done.stdout.decode(), done.stderr.decode()


def line_of(told):
    """The line of this fault."""
    if list(told) != MEMBERS:
        raise ValueError(f"a fault has the members {list(told)}")
    is_callback, has_node = CALLS[told["call"]]
    if (told["index"] is not None, told["of"] is not None, told["step"] is not None) != (is_callback, is_callback, told["call"] != "close"):
        raise ValueError(f"null stands where it may not, or a value where null has to: {told}")
    if is_callback and not has_node and told["of"] != told["id"]:
        raise ValueError(f"a callback of a container is of another node: {told}")
    place = told["call"] + (f" {told['index']}" if is_callback else "") + (f" of {told['of']}" if has_node else "")
    return f"{told['id']}: {told['fault']} ({place}" + ("" if told["step"] is None else f", step {told['step']}") + ")\n"


def check(program, plan):
    """Compares the faults in JSON with the lines and with the report, and says how many there are."""
    report, errors = ran(program, plan, "json")
    faults = [json.loads(line) for line in errors.split("\n")[:-1]]
    lines, found = ran(program, plan, "text")[1], "".join(map(line_of, faults))
    if found != lines:
        raise ValueError(f"the faults are {found!r} and not {lines!r}")
    for node in [json.loads(line) for line in report.split("\n")[:-2]]:
        own = [fault["fault"] for fault in faults if fault["id"] == node["id"]]
        if len(own) != node["more"] + (node["fault"] is not None) or (own and node["fault"] not in own):
            raise ValueError(f"the faults of {node['id']} are {own}, and its object is {node}")
    return len(faults)


def main(program, _words):
    others = [TOP / f"examples/{name}.toml" for name in ("callbacks", "closes", "cases/failures", "cases/failures_json", "cases/json", "server")]
    right = []
    for file in [*others, *sorted((TOP / "examples/cases/rows").glob("*.toml")), *sorted((TOP / "examples/cases/outside").glob("*.toml"))]:
        try:
            print(f"{file.parent.name}/{file.stem}: {check(program, file.read_bytes())} faults")
            right.append(True)
        except ValueError as fault:
            print(f"{file.parent.name}/{file.stem}: NOT as it has to be: {fault}")
            right.append(False)
    return sum(right), len(right) - sum(right)
