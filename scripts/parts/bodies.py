"""The wrong bodies, and what says when each was last seen refused."""
import hashlib
import pathlib
import re
import sys
import typing

from parts.statuses import example_of

TOP = pathlib.Path(__file__).resolve().parent.parent.parent
FORM = re.compile(r"(# claim: .*\n)?# test: (\w+) (.*)\n(?:# seen: (\w+) .*\n)?file: (.*)\nold:\n((?s:.*))\nnew:\n((?s:.*))\n")
SEEN = re.compile(r"^# seen: .*\n", re.M)
COMMENT = re.compile(r"^\s*(//|--|# ).*$", re.M)
TEST = re.compile(r"^( *)#\[test\]\n(?: *#\[.*\n)* *fn (\w+)(?s:.*?)^\1\}\n", re.M)


def read(path):
    return path.read_text(encoding="utf-8") if path.is_file() else ""


class WrongBody(typing.NamedTuple):
    """A wrong body: its file, its claim, the crate and the name of its test, the hash with which it was seen, the file that it changes, and the texts."""

    path: pathlib.Path
    claim: str | None
    crate: str
    test: str
    seen: str | None
    file: str
    old: str
    new: str

    @classmethod
    def read(cls, path):
        found = FORM.fullmatch(path.read_text(encoding="utf-8"))
        if not found:
            sys.exit(f"{path.relative_to(TOP)} has not the form that scripts/wrong-bodies tells")
        claim, crate, test, seen, file, old, new = found.groups()
        return cls(path, claim, crate, test, seen, f"{path.parts[-3]}/{file}", old, new)

    @property
    def name(self):
        return self.path.stem

    def text_in(self, top):
        """The file's text, in which the old text stands once."""
        text = (top / "crates" / self.file).read_text(encoding="utf-8")
        if text.count(self.old) != 1:
            sys.exit(f"{self.name}: in {self.file} its old text stands {text.count(self.old)} times")
        return text

    def is_current(self):
        return self.seen == basis(self)

    def keep(self, seen, refused_by):
        """Writes down that it was seen refused by this, as its files stood when they had this basis."""
        text = SEEN.sub("", read(self.path)).replace("\nfile: ", f"\n# seen: {seen} by {refused_by}\nfile: ", 1)
        self.path.write_text(text, encoding="utf-8")


def wrong_bodies():
    return [WrongBody.read(it) for it in sorted(TOP.glob("crates/*/must-fail-test/*.edit"))]


def code_of(text):
    """A text without its comments and its layout."""
    return " ".join(COMMENT.sub("", text).split())


def with_named(file):
    """A file of a crate, and what it names there: modules and specifications."""
    crate = TOP / "crates" / file.relative_to(TOP / "crates").parts[0]
    text, files = read(file), {file}
    for path in re.findall(r"\bcrate((?:::\w+)+)", text):
        parts = path.split("::")[1:]
        files |= {crate / "src" / f"{'/'.join(parts[:count])}.rt" for count in range(1, len(parts) + 1)}
    for path in re.findall(rf"\bRattle\.{crate.name}\.specs((?:\.\w+)+)", text):
        files.add(crate / "specs" / f"{path[1:].replace('.', '/')}.antt")
    return {it for it in files if it.is_file()}


def is_part(crate, test):
    """Whether the test is a case of a part of scripts/examples."""
    return crate in ("examples", "demo_engine") or crate == "trial_engine" and not test[0].isdigit()


def files_of_test(body):
    """The files that say what the test of a body does."""
    folder = TOP / "crates" / body.crate
    if is_part(body.crate, body.test):
        return {TOP / "scripts" / "parts" / f"{body.test.split()[0]}.py"}
    if body.crate == "bindings":
        return {TOP / "bindings" / "c" / "test.c"}
    if body.crate == "tool_refused_allocations":
        return {*folder.glob("src/**/*.rt"), TOP / "scripts" / "refused-allocations"}
    if body.crate == "extrun":
        name = body.test.split()[0]
        row = TOP / "examples" / "cases" / "rows" / name
        example = row if row.with_suffix(".report").is_file() else example_of(TOP, name)
        return {it for it in example.parent.glob(f"{example.name}.*") if it.stem == example.name}
    module = folder / "src" / f"{'/'.join(body.test.split('::')[:-1])}.rt"
    if module.is_file():
        return with_named(module)
    return {it for it in (*folder.glob("src/**/*.rt"), folder / body.test) if it.is_file()}


def basis(body):
    """A hash of what the verdict on a body rests on: its texts, the file that it changes with what that names, and its test without others beside it."""
    name = body.test.split("::")[-1]
    texts = [str(it) for it in (body.claim, body.crate, body.test, body.file, body.old, body.new)]
    changed, tested = with_named(TOP / "crates" / body.file), files_of_test(body)
    texts += [code_of(read(it)) for it in sorted(changed)]
    texts += [code_of(TEST.sub(lambda it: it[0] if it[2] == name else "", read(it))) for it in sorted(tested - changed)]
    return hashlib.sha256("\0".join(texts).encode()).hexdigest()[:16]
