"""A copy of the repository and a stand-in for the kit, in which ./pc runs; for checks/set-up."""
import contextlib
import fcntl
import os
import pty
import shutil
import signal
import subprocess
import sys
import termios
import time

TOP = os.path.dirname(os.path.dirname(os.path.realpath(__file__)))
PROGRAM = os.environ.get("PC_PROGRAM", os.path.join(TOP, "crates", "pc_cli", "out", "pc_cli"))
# What makes the C library, and what it is installed as.
LIBRARY_TOOLS = ["cc", "ld", "ar", "objcopy"]
# How the stand-in is to behave: seconds for each crate, and the crate that it does not prove.
STAND_IN = r'''#!/usr/bin/env python3
import os, shutil, sys, time, types, zlib

KIT = os.path.dirname(os.path.dirname(os.path.realpath(__file__)))

class Crate:
    allowed, cuts_libraries = (), False
    def __init__(self, name, top):
        self.name, self.folder, self.deps, self.out = name, f"{top}/crates/{name}", [], sys.stdout
        self.rlib = f"{self.folder}/out/rlib/{name}.rlib"
        self.is_static = name == "pc_c"
    def makes_rlib(self):
        return self.name not in ("pc_cli", "pc_c")
    def below(self):
        found = []
        for dep in self.deps:
            found += [it for it in [*dep.below(), dep] if it not in found]
        return found
    def count(self, pattern):
        return 100
    def stamp(self):
        with open(f"{self.folder}/src/{'main' if self.name == 'pc_cli' else 'lib'}.rt", "rb") as it:
            return str(zlib.crc32(it.read()))
    def is_built(self):
        return os.path.exists(f"{self.folder}/out/rlib/stamp")
    def words(self, flags, keeps):
        return flags
    def prove(self, words):
        print("proving", self.name, file=self.out, flush=True)
        time.sleep(float(os.environ.get("STAND_IN_SECONDS", "0")))
        if self.name == os.environ.get("STAND_IN_FAILS"):
            print("a goal is open", file=self.out)
            return 1
        shutil.copy(f"{KIT}/libpc_c.a" if self.is_static else __file__, words[-1])
        return 0
    def build_rlib(self, flags, anew):
        shutil.rmtree(f"{self.folder}/out/rlib", ignore_errors=True)
        os.makedirs(self.rlib)
        return self.prove([*flags, f"{self.rlib}/format"])
    def link(self, made, program):
        shutil.copy(os.environ["STAND_IN_PROGRAM"], program)
        return 0

def crates_below(folder):
    top, rows = os.path.dirname(os.path.dirname(folder)), {}
    for line in open(f"{top}/crates.txt"):
        name, _, uses = line.partition("#")[0].partition(":")
        if name.strip():
            rows[name.split()[0]] = uses.split()
    made = {name: Crate(name, top) for name in rows}
    for name, crate in made.items():
        crate.deps = [made[it] for it in rows[name] if it in made]
    last = made[os.path.basename(folder)]
    return [*last.below(), last]

rtlib = types.SimpleNamespace(guarded=lambda: None, crates_below=crates_below, lock=lambda crates: [])

def handles_of(folder):
    return ()

if __name__ == "__main__":
    if sys.argv[1] == "version":
        print(open(f"{KIT}/KIT-ID").read().strip())
    elif sys.argv[1] == "run":
        shutil.copy(os.environ["STAND_IN_PROGRAM"], "out/pc_cli")
    elif sys.argv[1] == "lib":
        shutil.copy(f"{KIT}/libpc_c.a", "out")
'''


# The first process on a terminal, as a shell is. It writes what it started and how that ended, and stays: with it the system
# would end what else works on the terminal.
SHELL = """
import signal, subprocess, sys, time
signal.signal(signal.SIGINT, signal.SIG_IGN)
own = lambda: signal.signal(signal.SIGINT, signal.SIG_DFL)
started = subprocess.Popen(sys.argv[2:], preexec_fn=own)
with open(sys.argv[1], "w") as it:
    print(started.pid, file=it, flush=True)
    print(started.wait(), file=it, flush=True)
time.sleep(100)
"""


class Started:
    """./pc on a terminal of its own, begun by a shell."""

    def __init__(self, room, words, env):
        self.note = os.path.join(room.kit, "started")
        if os.path.exists(self.note):
            os.remove(self.note)
        self.ours, theirs = pty.openpty()
        own = lambda: fcntl.ioctl(0, termios.TIOCSCTTY, 0)
        how = {"stdin": theirs, "stdout": theirs, "stderr": theirs, "start_new_session": True, "preexec_fn": own}
        shell = [sys.executable, "-c", SHELL, self.note, room.pc, *words]
        self.shell = subprocess.Popen(shell, env={**room.env, **env}, cwd="/", **how)
        os.close(theirs)
        os.set_blocking(self.ours, False)
        self.said, self.ended = b"", time.monotonic() + 60

    def wait_for(self, is_so):
        """Reads what it writes until that is so, or a minute has gone."""
        while not is_so() and time.monotonic() < self.ended:
            self.said += self.read()
            time.sleep(0.05)
        self.said += self.read()

    def noted(self):
        with open(self.note, encoding="utf-8") as it:
            return [int(line) for line in it.read().splitlines()]

    def send(self, sent):
        with contextlib.suppress(ProcessLookupError):
            os.write(self.ours, b"\x03") if sent == "^C" else os.kill(self.noted()[0], sent)

    def end(self, left=lambda: []):
        """Its status, or None where it does not end, what it wrote, and what was left once it had ended."""
        self.wait_for(lambda: os.path.exists(self.note) and len(self.noted()) == 2)
        found = left()
        os.killpg(self.shell.pid, signal.SIGKILL)
        self.shell.wait()
        os.close(self.ours)
        return [*self.noted(), None][1], self.said, found

    def read(self):
        said = b""
        try:
            while True:
                part = os.read(self.ours, 65536)
                if not part:
                    break
                said += part
        except OSError:
            pass
        return said.replace(b"\r\n", b"\n")


class Room:
    """A copy of the repository's scripts and sources, and the stand-in, under an odd name."""

    def __init__(self, folder):
        self.top, self.kit = os.path.join(folder, "o d'd [x] * \"", "repository"), os.path.join(folder, "kit")
        shutil.copytree(TOP, self.top, ignore=shutil.ignore_patterns("out", ".git", "must-fail", "proofs"))
        os.makedirs(f"{self.kit}/bin")
        self.write(f"{self.kit}/KIT-ID", "kit-one logic 1\n")
        self.write(f"{self.kit}/bin/rt", STAND_IN, 0o755)
        os.makedirs(f"{self.kit}/c")
        if all(map(shutil.which, LIBRARY_TOOLS)):
            self.archive("libpc_c", "unsigned char voidosier_run(void) { return 0; }\n")
            self.archive("c/liblibc_c", "int nothing_of_c;\n")
        self.remember(64_000_000)
        self.pc = os.path.join(self.top, "pc")
        self.env = {**os.environ, "PATH": f"{self.kit}/bin:{os.environ['PATH']}", "STAND_IN_PROGRAM": PROGRAM,
                    "PC_MEMINFO": f"{self.kit}/meminfo", "PC_CGROUP": f"{self.kit}/group", "HOME": os.path.join(folder, "home")}

    def write(self, path, text, mode=0o644):
        with open(path, "w", encoding="utf-8") as it:
            it.write(text)
        os.chmod(path, mode)

    def archive(self, name, text):
        """Makes an archive of the kit's from a C text."""
        place = f"{self.kit}/{name}"
        self.write(f"{place}.c", text)
        subprocess.run(["cc", "-c", "-fPIC", "-o", f"{place}.o", f"{place}.c"], check=True)
        subprocess.run(["ar", "rcs", f"{place}.a", f"{place}.o"], check=True)

    def path_without(self, name):
        """A path on which each program is but that."""
        folder = f"{self.kit}/without-{name}"
        os.makedirs(folder)
        for at in reversed(self.env["PATH"].split(":")):
            for it in os.listdir(at) if os.path.isdir(at) else ():
                with contextlib.suppress(FileNotFoundError):
                    os.remove(f"{folder}/{it}")
                if it != name:
                    os.symlink(os.path.join(at, it), f"{folder}/{it}")
        return folder

    def remember(self, free):
        """Has so many KB of memory be free."""
        self.write(f"{self.kit}/meminfo", f"MemAvailable: {free} kB\nSwapFree: 0 kB\n")

    @contextlib.contextmanager
    def grouped(self, files):
        """Has a control group be the one of these files, by their places, for a while."""
        folder = self.env["PC_CGROUP"]
        for place, text in files.items():
            os.makedirs(os.path.dirname(f"{folder}/{place}"), exist_ok=True)
            self.write(f"{folder}/{place}", f"{text}\n")
        yield
        shutil.rmtree(folder)

    def forget(self):
        for name in os.listdir(f"{self.top}/crates"):
            shutil.rmtree(f"{self.top}/crates/{name}/out", ignore_errors=True)

    def run(self, *words, command=None, env=None, **how):
        how = {"stdin": subprocess.DEVNULL, "stdout": subprocess.PIPE, "stderr": subprocess.PIPE, "timeout": 100, **how}
        ended = subprocess.run([command or self.pc, *words], env={**self.env, **(env or {})}, **{"cwd": "/", **how})
        return ended.returncode, ended.stdout, ended.stderr

    def on_terminal(self, *words, env=None):
        return Started(self, words, env or {}).end()[:2]

    def is_proved(self, name):
        return os.path.exists(f"{self.top}/crates/{name}/out/rlib/proved")

    def logged(self, text):
        with open(f"{self.top}/out/build.log", "rb") as it:
            return text in it.read()

    def left(self):
        """The processes that still work in this room."""
        found = []
        for number in filter(str.isdigit, os.listdir("/proc")):
            try:
                if os.readlink(f"/proc/{number}/cwd").startswith(self.top) or os.readlink(f"/proc/{number}/exe").startswith(self.top):
                    with open(f"/proc/{number}/cmdline", "rb") as it:
                        found.append(it.read().replace(b"\0", b" ")[:300])
            except OSError:
                pass
        return found
