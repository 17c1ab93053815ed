"""What scripts/examples and scripts/documents run: each part has a `main` that is handed the program and further words, and answers how many passed and failed."""
import importlib
import pathlib
import sys

TOP = pathlib.Path(__file__).resolve().parent.parent.parent


def run(about, names, words):
    """Runs the part that the words name, or all of them, and prints how many passed and failed."""
    program = str(TOP / "crates/extrun/out/extrun")
    if "--program" in words[:-1]:
        at = words.index("--program")
        program = words[at + 1]
        words = words[:at] + words[at + 2 :]
    if words and words[0] not in names:
        sys.exit(about)
    passed = failed = 0
    for name in words[:1] or names:
        good, bad = importlib.import_module(f"parts.{name}").main(program, words[1:])
        passed, failed = passed + good, failed + bad + (good + bad == 0)
    print(f"{passed} passed, {failed} failed")
    return failed != 0
