"""Texts that the processes of a run share, each made once: files in a folder of the run, under the locks of the system (flock), as crate ext_shared has them."""
import contextlib
import fcntl
import os
import pathlib
import re
import sys
import time

ORDER = "texts.order"  # lists what a folder holds: NAME.lock before that file is made, NAME before a text stands. Who owns the folder has its lock


@contextlib.contextmanager
def held(path, kind, flags=os.O_RDONLY):
    """A file or folder under a lock, which the system gives back where this process dies."""
    lock = os.open(path, flags, 0o666)
    try:
        fcntl.flock(lock, kind)
        if not os.path.samestat(os.fstat(lock), os.stat(path)):
            raise FileNotFoundError(f"{path} was made anew meanwhile")
        yield
    finally:
        os.close(lock)


def shared_text(folder, name, make):
    """The text of a name. Whichever process comes first makes it while the others wait; if that one is killed, the next does."""
    if not re.fullmatch("[a-zA-Z0-9_-]{1,64}", name):
        raise ValueError(f"no name of a shared text: {name!r}")
    value = pathlib.Path(folder, name)
    if not value.exists():
        with held(folder, fcntl.LOCK_SH):
            add_line(folder, f"{name}.lock")
            with held(f"{value}.lock", fcntl.LOCK_EX, os.O_WRONLY | os.O_CREAT):
                if not value.exists():
                    pathlib.Path(f"{value}.part").write_text(make())
                    add_line(folder, name)
                    os.rename(f"{value}.part", value)  # all of it stands there, or nothing
    return value.read_text()


def add_line(folder, line):
    with open(pathlib.Path(folder, ORDER), "a") as order:
        order.write(f"\n{line}\n")  # the line before may be cut off


@contextlib.contextmanager
def run(root, close_text):
    """The folder of a run that begins, whose texts are closed in the end. Runs that died are closed first."""
    root = pathlib.Path(root).resolve()
    with contextlib.ExitStack() as holding:
        folder = begin(root, holding)
        sweep(root, close_text)
        try:
            yield folder
        finally:
            with held(folder, fcntl.LOCK_EX):  # waits for texts that are being made
                close(folder, close_text)


def begin(root, holding):
    """Makes the folder of a run, which is named so once it is held."""
    for _ in range(100):
        name = f"{os.getpid()}-{time.time_ns()}"
        new, folder = root / f"new-{name}", root / f"run-{name}"
        with contextlib.suppress(FileNotFoundError, FileExistsError):  # another run removed it
            new.mkdir(parents=True)
            holding.enter_context(held(new / ORDER, fcntl.LOCK_EX, os.O_WRONLY | os.O_CREAT))
            new.rename(folder)
            return folder
    raise FileNotFoundError(f"no folder of a run can be made in {root}")


def sweep(root, close_text):
    """Closes what runs left that died."""
    for other in [*root.glob("run-*"), *root.glob("new-*")]:
        try:
            with held(other / ORDER, fcntl.LOCK_EX | fcntl.LOCK_NB), held(other, fcntl.LOCK_EX | fcntl.LOCK_NB):
                close(other, close_text)
        except BlockingIOError:  # its run lives, or makes a text still
            pass
        except (FileNotFoundError, NotADirectoryError):  # none of a run, unless it is the empty rest of one
            with contextlib.suppress(OSError):
                other.rmdir()
        except OSError as why:
            print(f"{other} was not closed: {why}", file=sys.stderr)


def close(folder, close_text):
    """Closes what stands, the latest first, and removes what the run wrote. If it is killed, the next run closes what still stands: so close_text may come twice for one text."""
    lines = (folder / ORDER).read_text().split()
    for name in dict.fromkeys(reversed(lines)):
        value = folder / name
        if "." not in name and value.exists():
            try:
                close_text(name, value.read_text())
            except Exception as why:
                print(f"the shared text {name} was not closed: {why!r}", file=sys.stderr)
            value.unlink()
    for name in {it.removesuffix(".lock") for it in lines}:
        for beside in (".part", ".lock"):
            (folder / f"{name}{beside}").unlink(missing_ok=True)
    (folder / ORDER).unlink()
    folder.rmdir()
