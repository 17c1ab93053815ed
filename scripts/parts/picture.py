"""Compares the two pictures of docs/ARCHITECTURE.md with crates.txt: each crate stands in them once, and each library above all crates that it names. The second
picture, of the plans, stands on the first.

A line of a picture that begins with two spaces begins with a crate, and one that begins with none is the name of a group; below 'Examples', 'Tests' and 'Tools' a crate
names those that it calls.
"""
import pathlib
import re

TOP = pathlib.Path(__file__).resolve().parent.parent.parent
ABOVE_ALL = ["Examples", "Tests", "Tools"]


def crates_in(drawn):
    """The crates of a picture in its order, each with the name of its group."""
    group, crates = None, []
    for line in drawn.splitlines():
        found = re.match(r"(  )?(\S[^ ]*)", line)
        if found and found[1]:
            crates.append((found[2], group))
        elif found:
            group = line
    return crates


def pictures():
    """The crates of the first picture and those of the second."""
    text = (TOP / "docs" / "ARCHITECTURE.md").read_text(encoding="utf-8")
    return [crates_in(it) for it in text.split("```")[1:4:2]]


def needs():
    """The crates of crates.txt, each with what it names."""
    lines = (TOP / "crates.txt").read_text(encoding="utf-8").splitlines()
    parts = [it.partition(":") for it in lines if ":" in it and not it.startswith("#")]
    return {name.split()[0]: names.split() for name, _, names in parts}


def main(_program, _words):
    store, plans = pictures()
    shown, named = plans + store, needs()
    order = [it for it, _ in shown]
    wrong = [f"the picture has {it} {order.count(it)} times" for it in sorted(set(order) | set(named)) if order.count(it) != 1 or it not in named]
    for crate, group in shown:
        above = [] if group in ABOVE_ALL else order[: order.index(crate)]
        wrong += [f"{crate} stands below {it}, which it names" for it in named.get(crate, []) if it in above]
    for fault in wrong:
        print(f"picture: {fault}")
    if not wrong:
        print(f"picture: all {len(order)} crates stand in it, the libraries above those that they name")
    return (0, 1) if wrong else (1, 0)
