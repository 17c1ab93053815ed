"""Puts many wrong bodies into one copy of the repository, each behind a switch: the program built of it has the body whose number its environment says."""
import re
import sys

VARIABLE = "WRONG_BODY"
FUNCTION = re.compile(r"^( *)(?:pub(?:\(crate\))? )?(?:const |unsafe )*(?:extern \"C\" )?fn \w+")
MODULE = 'unsafe extern "C" {\n    pub(crate) safe fn wrong_body() -> u32;\n}\n'
# What a program of such a copy is linked with. (`rt try` hands no environment on, and compiles it for each run.)
SWITCH = f"""\
#include <stdlib.h>
unsigned wrong_body(void) {{
#ifdef {VARIABLE}
    return {VARIABLE};
#else
    static int number = -1;
    if (number < 0) {{
        const char *word = getenv("{VARIABLE}");
        number = word ? atoi(word) : 0;
    }}
    return (unsigned)number;
#endif
}}
"""


def blocks(lines):
    """The first line within each function's block, and the one that ends it, by the layout of `rt fmt`."""
    found, at = [], 0
    while at < len(lines):
        head = FUNCTION.match(lines[at])
        if not head:
            at += 1
            continue
        ends, begins = re.compile(rf".*;$|{head[1]}\S.*}}$"), re.compile(rf"{head[1]}(?:\S.*)?{{$")
        while not ends.match(lines[at]) and not begins.match(lines[at]):
            at += 1
        if begins.match(lines[at]):
            last = lines.index(head[1] + "}", at)
            found.append((at + 1, last))
            at = last
        at += 1
    return found


def between(lines, places):
    """What stands between these blocks."""
    return [lines[last:first] for (_, last), (first, _) in zip([(0, 0), *places], [*places, (len(lines), 0)])]


def switched(text, bodies):
    """A file's text with these wrong bodies of it, each with its number, beside the block that it changes."""
    lines = text.split("\n")
    places = blocks(lines)
    wrong = [[] for _ in places]
    for number, body in bodies:
        changed = text.replace(body.old, body.new).split("\n")
        matches = blocks(changed)
        if between(lines, places) != between(changed, matches):
            sys.exit(f"{body.name} changes something that stands in no function")
        for into, (first, last), (begin, end) in zip(wrong, places, matches):
            if lines[first:last] != changed[begin:end]:
                into += [f"if crate::wrong_bodies::wrong_body() == {number} {{", *changed[begin:end], "} else "]
    for (first, last), before in reversed([*zip(places, wrong)]):
        if before:
            lines[first:last] = [*before, "{", *lines[first:last], "}"]
    return "\n".join(lines)


def put_in_place(copy, bodies):
    """Puts the bodies, numbered from 1 in this order, into a copy of the repository."""
    by_file = {}
    for number, body in enumerate(bodies, 1):
        body.text_in(copy)
        by_file.setdefault(body.file, []).append((number, body))
    for name, here in by_file.items():
        file = copy / "crates" / name
        file.write_text(switched(file.read_text(encoding="utf-8"), here), encoding="utf-8")
    for crate in {it.partition("/")[0] for it in by_file}:
        source = copy / "crates" / crate / "src"
        root = next(it for it in (source / "lib.rt", source / "main.rt") if it.is_file())
        root.write_text(root.read_text(encoding="utf-8") + "\nmod wrong_bodies;\n", encoding="utf-8")
        (source / "wrong_bodies.rt").write_text(MODULE, encoding="utf-8")
