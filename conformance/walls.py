"""Isolates a compiler that is not trusted: it runs in the sandbox, as another user, or without isolation."""

import os
import pwd
import subprocess
import tempfile

from call import HERE, Refusal

TOP = os.path.dirname(HERE)
# What must hold of two folders for a user: it ends with 3 where the first does not, and with 4 where the second does not.
REACHED = '[ ! -x "$1" ] || exit 3; [ -x "$2" ] || exit 4'
# And of the folder of a table and the path of a compiler.
CALLED = '[ ! -w "$1" ] || exit 3; [ -x "$2" ] && [ ! -d "$2" ] || exit 4'
# Our programs, by the names that releases and `install` give them, where a compiler could call one: it would pass every case in its place.
OURS = r"""find /usr /opt -regex '.*/cool\(_editor\|_explain\)?\(-linux-arm64\|\.exe\|\.cjs\)?' -type f -size +50k -readable -print -quit 2>/dev/null
exit 0"""


class Wall:
    """How compilers are called: as a user, who is none where it is '', with so many processes at once; or without a wall."""

    def __init__(self, user, is_trusted, processes):
        self.user, self.is_trusted, self.processes = user, is_trusted, str(processes)
        self.script = os.path.join(HERE, "as-user" if user else "sandbox")
        self.options = (["--as", user] if user else []) + ["--processes", self.processes]
        self.owner = None
        if user:
            self._check_user()
        elif not is_trusted:
            self._check("the sandbox does not work", "/usr/bin/true")
        if not is_trusted:
            self._check_sight()

    def _call(self, wrong, *command):
        """The result of a command in this isolation. If it cannot be called, that is an error, so that no compiler seems to refuse programs."""
        with tempfile.TemporaryDirectory() as empty:
            tried = subprocess.run([self.script, *self.options, *command], cwd=empty, stdout=subprocess.PIPE, stderr=subprocess.PIPE, check=False)
        if tried.returncode not in (0, 3, 4):
            raise Refusal(f"{wrong}: {os.fsdecode(tried.stderr).strip() or f'status {tried.returncode}'}")
        return tried

    def _check(self, wrong, *command):
        return self._call(wrong, *command).returncode

    def _check_sight(self):
        """No compiler may call our program, wherever that was installed."""
        found = os.fsdecode(self._call("the search for installed programs failed", "/bin/sh", "-c", OURS).stdout).removesuffix("\n")
        if found:
            raise Refusal(f"a compiler could call the program of this repository: uninstall {found}, or move it out of /usr and /opt")

    def _check_user(self):
        try:
            found = pwd.getpwnam(self.user)
        except KeyError:
            raise Refusal(f"there is no user {self.user}: make one with useradd {self.user}") from None
        came = self._check(f"cannot run programs as {self.user}", "/bin/sh", "-c", REACHED, "sh", TOP, tempfile.gettempdir())
        if came == 3:
            raise Refusal(f"{self.user} can read the cases: forbid it with chmod go-rwx {TOP}")
        if came == 4:
            raise Refusal(f"{self.user} cannot enter {tempfile.gettempdir()}: set TMPDIR to another folder")
        self.owner = found.pw_uid, found.pw_gid

    def command(self, folder, program):
        """How the compiler of a folder is called, or None where it may not be (`why_not`); `program` runs the assembly that a coolc writes."""
        if self._is_seen(folder):
            return None
        return self._called(os.path.join(folder, "compiler")) or self._assembled(os.path.join(folder, "coolc"), program)

    def phase(self, folder, phase, program):
        """How a phase of the compiler of a folder is called, or None where it may not be (`why_not`); `program` runs the assembly that a cgen writes."""
        path = os.path.join(folder, phase)
        if self._is_seen(folder):
            return None
        return self._assembled(path, program) if phase == "cgen" else self._called(path)

    def _called(self, path):
        if not self._runs(path):
            return None
        return [path] if self.is_trusted else [self.script, *self.options, path]

    def _assembled(self, path, program):
        options = ["--trusted"] if self.is_trusted else self.options
        return [os.path.join(HERE, "assembled"), program, *options, path] if self._runs(path) else None

    def why_not(self, folder, phase=""):
        """Why a folder has no compiler, or no program for a phase, that may be called."""
        if self._is_seen(folder):
            return "a folder in /usr is not graded, since every compiler can read it"
        return f"no executable file {phase or 'compiler or coolc'}"

    def _is_seen(self, folder):
        return not self.is_trusted and os.path.realpath(folder).startswith("/usr/")

    def _runs(self, path):
        if not self.user:
            return os.access(path, os.X_OK) and not os.path.isdir(path)
        beside = os.path.dirname(os.path.dirname(path))
        came = self._check(f"cannot run programs as {self.user}", "/bin/sh", "-c", CALLED, "sh", beside, path)
        if came == 3:
            raise Refusal(f"{self.user} can write to the folder of the table: forbid it with chmod go-w {beside}")
        return came == 0

    def end(self):
        """Ends processes that a compiler left running. The sandbox ends them by itself."""
        if self.user:
            self._check("the processes of the compiler could not be ended", "/bin/sh", "-c", "kill -KILL -1; exit 0")
