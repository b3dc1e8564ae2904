"""Runs a command within limits, and leaves no process and no file of it."""

import contextlib
import os
import select
import shutil
import signal
import subprocess
import tempfile
from typing import BinaryIO, NamedTuple, Optional

from case import EXPECTED

# The largest file that a program may write, including its output, in blocks of 512 bytes: 16 MiB, since others use the disk, too.
MOST_FILE_BLOCKS = 32768
# The shell of a command sets what it may use, and becomes the command.
SHELL = ("/bin/sh", "-c", 'ulimit -c 0; ulimit -f "$1"; [ -z "$2" ] || ulimit -v "$2" || exit 126; shift 2; exec "$@"', "sh")


class Came(NamedTuple):
    """The result of a command. The status is 128 and the signal if a signal ended it, and None if it did not end in time."""

    status: Optional[int]
    output: BinaryIO
    notes: BinaryIO


class Runner:
    """Runs a command over cases, several at once where several threads ask for it, until it is stopped. An owner, a user and a group, gets the files."""

    def __init__(self, command, seconds, memory_kib, owner=None):
        self.command = [*SHELL, str(MOST_FILE_BLOCKS), str(memory_kib or ""), *command]
        self.seconds, self.owner = seconds, owner
        self.stopped, self._stopping = os.pipe()

    def stop(self):
        """Ends each command that runs, and each later one at its start."""
        os.close(self._stopping)

    @contextlib.contextmanager
    def run(self, case):
        """The result of the command with the arguments of a case, in a copy of its folder without the expected results."""
        folder = tempfile.mkdtemp(prefix="conformance-")
        # These have no name, so that no program takes them away or puts others in their place.
        with tempfile.TemporaryFile() as output, tempfile.TemporaryFile() as notes:
            try:
                files, given = os.path.join(folder, "files"), os.path.join(folder, "input")
                copy(case.folder, files, EXPECTED)
                copy_input(os.path.join(case.folder, "input"), given)
                if self.owner:
                    give(files, self.owner)
                    os.chmod(folder, 0o711)
                status = self._status(self.command + case.words, files, given, output, notes)
            finally:
                remove(folder)
            yield Came(status, output, notes)

    def _status(self, command, folder, given, output, notes):
        source = os.open(given, os.O_RDONLY)
        try:
            process = subprocess.Popen(
                command, cwd=folder, stdin=source, stdout=output, stderr=notes, start_new_session=True)
        finally:
            os.close(source)
        ended = os.pidfd_open(process.pid)
        either = select.poll()
        for event in (ended, self.stopped):
            either.register(event, select.POLLIN)
        came = [event for event, _ in either.poll(self.seconds * 1000)]
        # Its group keeps this number until it is waited for.
        os.killpg(process.pid, signal.SIGKILL)
        status = process.wait()
        os.close(ended)
        if ended not in came:
            return None
        return status if status >= 0 else 128 - status


def copy(source, target, left_out=()):
    """Copies a folder, without the names that are left out. What is made can be changed, whether or not its model can."""
    os.mkdir(target)
    for entry in os.scandir(source):
        name = os.path.join(target, entry.name)
        if entry.name in left_out:
            continue
        if entry.is_dir():
            copy(entry.path, name)
        else:
            shutil.copyfile(entry.path, name)


def give(folder, owner):
    """Gives a folder that nobody else can reach yet, with all that is in it, to a user."""
    for path, _, names in os.walk(folder):
        for name in ("", *names):
            os.chown(os.path.join(path, name), *owner)


def copy_input(source, target):
    """Copies the input of a case: a file, an empty one if the case has none, or a folder, which cannot be read."""
    if os.path.isdir(source):
        os.mkdir(target)
    elif os.path.exists(source):
        shutil.copyfile(source, target)
    else:
        open(target, "xb").close()


def remove(folder):
    """Removes a folder, even if a program removed the permission, or nested more folders than Python can walk."""
    try:
        shutil.rmtree(folder)
    except (OSError, RecursionError):
        subprocess.run(["chmod", "-R", "u+rwx", "--", folder], stderr=subprocess.DEVNULL, check=False)
        subprocess.run(["rm", "-rf", "--", folder], stderr=subprocess.DEVNULL, check=False)
