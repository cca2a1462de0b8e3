"""Runs a proved program case after case, each as a process of its own, with the refusals that the case names."""
import ctypes
import os
import shutil
import struct
import subprocess
import tempfile
from pathlib import Path

HERE = Path(__file__).resolve().parent
FIELDS = ("words", "bytes", "seconds", "growth", "growth_lasts", "read", "read_error", "read_size", "write", "write_error",
          "write_size", "start", "start_error", "open", "open_error", "change", "change_error", "kill", "kill_after", "meddle", "meddle_at", "meddle_to")
COUNTS = ("growths", "growths_refused", "reads", "reads_refused", "writes", "writes_refused", "starts", "starts_refused",
          "opens", "opens_refused", "changes", "changes_refused", "change_kind", "kills", "live", "peak")
CHANGES = ("", "create", "sync", "sync of a folder", "lock", "lock of a folder", "rename", "unlink", "mkdir", "mode", "owner")
CASE = struct.Struct(f"={len(FIELDS)}q")
ANSWER = struct.Struct(f"={3 + len(COUNTS)}q")


def shim(folder):
    """Compiles shim.c into the folder, and answers its path."""
    kit = Path(os.path.realpath(shutil.which("rt") or "/")).parent.parent / "toolchain/bin/clang"
    compiler = shutil.which("cc") or shutil.which("clang") or str(kit)
    path = Path(folder) / "shim.so"
    subprocess.run([compiler, "-O2", "-shared", "-fPIC", "-o", path, HERE / "shim.c", "-ldl"], check=True)
    return path


class Outcome:
    """What one case gave: its exit status (negative: the signal that ended it), what it printed, and what it met."""

    def __init__(self, status, printed, errors, resident, counts):
        self.status = -os.WTERMSIG(status) if os.WIFSIGNALED(status) else os.WEXITSTATUS(status)
        self.printed, self.errors, self.resident = printed, errors, resident
        self.__dict__.update(zip(COUNTS, counts))

    @property
    def refused(self):
        """How many calls were refused."""
        return (self.growths_refused + self.reads_refused + self.writes_refused + self.starts_refused + self.opens_refused
                + self.changes_refused)

    @property
    def change(self):
        """The kind of the call that changes files and was refused."""
        return CHANGES[self.change_kind]

    def told(self):
        """Status, output and error output, to be compared and shown."""
        return self.status, self.printed, self.errors

    def __repr__(self):
        return f"{self.told()}"


class Program:
    """A program that runs case after case in a folder of its own (`folder`) below `room`, which is gone at the end."""

    def __init__(self, path, preload, room):
        self.preload, self.room = preload, room
        self.folder = Path(tempfile.mkdtemp(dir=room))
        self.output, self.errors = os.memfd_create("output"), os.memfd_create("errors")
        self.server = subprocess.Popen(
            [path], stdin=subprocess.PIPE, stdout=subprocess.PIPE, pass_fds=(self.output, self.errors), bufsize=0,
            env={"LD_PRELOAD": str(preload), "IX_FAULTS": f"{self.output} {self.errors}"})
        self.name = os.fsencode(path)

    def run(self, *words, stdin="/dev/null", **refusals):
        """Runs the program on these words in the folder, with these refusals (see struct Case of shim.c)."""
        words = [os.fsencode(stdin), os.fsencode(self.folder), self.name] + [os.fsencode(w) for w in words]
        text = b"".join(w + b"\0" for w in words)
        case = dict.fromkeys(FIELDS, 0) | {"seconds": 20} | refusals | {"words": len(words), "bytes": len(text)}
        self.server.stdin.write(CASE.pack(*(case[f] for f in FIELDS)) + text)
        answer = b""
        while len(answer) < ANSWER.size:
            piece = self.server.stdout.read(ANSWER.size - len(answer))
            if not piece:
                raise RuntimeError(f"the server is gone at {words}")
            answer += piece
        status, _, resident, *counts = ANSWER.unpack(answer)
        return Outcome(status, self.whole(self.output), self.whole(self.errors), resident, counts)

    @staticmethod
    def whole(file):
        size = os.fstat(file).st_size
        return os.pread(file, size, 0) if size else b""

    def write(self, name, content):
        (self.folder / name).write_bytes(content)

    def read(self, name):
        """The bytes of a file of the folder. None: there is none."""
        try:
            return (self.folder / name).read_bytes()
        except FileNotFoundError:
            return None

    def drafts(self):
        """The new files that were left, which had not yet taken the place of another."""
        return sorted(name for name in os.listdir(self.folder) if name.startswith(".") and ".ix-" in name)

    def remove(self, name):
        (self.folder / name).unlink(missing_ok=True)

    def close(self):
        self.server.stdin.close()
        self.server.wait()
        self.server.stdout.close()
        os.close(self.output)
        os.close(self.errors)
        shutil.rmtree(self.folder)

    def __enter__(self):
        return self

    def __exit__(self, *_):
        self.close()


def die_with_parent():
    """Ends this process when its parent ends."""
    ctypes.CDLL(None).prctl(1, 9)
