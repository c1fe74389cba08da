"""Faults that are made: limits of the system, and libraries that refuse memory or calls on files."""

import pathlib
import resource
import signal
import subprocess

HERE = pathlib.Path(__file__).resolve().parent


def file_size(limit):
    """What has a process write files of so many bytes at most, and be told of it by the failed write."""

    def limited():
        if limit is not None:
            signal.signal(signal.SIGXFSZ, signal.SIG_IGN)
            resource.setrlimit(resource.RLIMIT_FSIZE, (limit, resource.getrlimit(resource.RLIMIT_FSIZE)[1]))

    return limited


def library(name, folder):
    """A library for LD_PRELOAD, which `cc` makes of a file beside this one: `refuse`, `refuse_disk`."""
    to = pathlib.Path(folder) / f"{name}.so"
    subprocess.run(["cc", "-O2", "-shared", "-fPIC", "-o", to, HERE / f"{name}.c", "-ldl"], check=True)
    return str(to)
