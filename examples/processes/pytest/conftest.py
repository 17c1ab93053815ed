"""A server that all workers of pytest-xdist share: started once, at its first use, and stopped once, by the process that outlives the workers."""
import contextlib
import os
import pathlib
import signal
import subprocess

import pytest
import shared


def start():
    return named(subprocess.Popen(["sleep", "300"]).pid)  # the server


def named(process):
    """The number of a process and when it started: the number alone may be another's by then."""
    return f"{process} {pathlib.Path(f'/proc/{process}/stat').read_text().rpartition(')')[2].split()[19]}"


def stop(_name, text):
    process = text.split()[0]
    with contextlib.suppress(FileNotFoundError, ProcessLookupError):  # it may come twice
        if named(process) == text:
            os.kill(int(process), signal.SIGTERM)


def pytest_configure(config):
    if not hasattr(config, "workerinput"):  # no worker
        config.running = contextlib.ExitStack()
        config.shared = config.running.enter_context(shared.run(".pytest-runs", stop))


@pytest.hookimpl(optionalhook=True)
def pytest_configure_node(node):  # xdist: a worker is told the folder
    node.workerinput["shared"] = str(node.config.shared)


def pytest_unconfigure(config):
    if hasattr(config, "running"):
        config.running.close()


@pytest.fixture(scope="session")
def server(request):
    folder = getattr(request.config, "workerinput", None) or {"shared": request.config.shared}
    return int(shared.shared_text(folder["shared"], "server", start).split()[0])
