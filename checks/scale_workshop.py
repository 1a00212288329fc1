"""What checks/scale looks with: the counts of what agrees, and a folder with a copy of the program in which scripts run."""
import contextlib
import os
import shutil
import subprocess
import time
from concurrent.futures import ThreadPoolExecutor

TOP = os.path.dirname(os.path.dirname(os.path.realpath(__file__)))
BUILT = os.environ.get("PC_PROGRAM", os.path.join(TOP, "crates", "pc_cli", "out", "pc_cli"))
SCRIPTS = os.path.join(TOP, "scripts")

# What the scripts need where GNU parallel isn't.
TOOLS = """awk base64 bash cat cut dirname find flock head ln ls mkdir mktemp nproc printf readlink rm sed seq sleep sort tail tee
    tr wc xargs""".split()


class Checks:
    def __init__(self):
        self.passed = self.failed = 0

    def same(self, what, found, wanted):
        if found == wanted:
            self.passed += 1
        else:
            self.failed += 1
            print(f"{what}:\n    {short(found)}\n    beside {short(wanted)}", flush=True)


def short(it):
    text = repr(it)
    return text if len(text) < 1000 else text[:500] + " .. " + text[-500:]


class Workshop:
    """A folder with a copy of the program, by which its runs are known, and what the scripts are run in."""

    def __init__(self, folder):
        self.folder = folder
        self.program = self.file("pc_cli")
        shutil.copy(BUILT, self.program)
        self.tools = self.file("tools")
        os.mkdir(self.tools)
        for tool in TOOLS:
            found = tool == "awk" and shutil.which("mawk") or shutil.which(tool)  # which awk it is may not matter
            if found:
                os.symlink(found, os.path.join(self.tools, tool))
        self.temporary = self.file("temporary")
        os.mkdir(self.temporary)
        version = subprocess.run(["parallel", "--version"], stdout=subprocess.PIPE, stderr=subprocess.DEVNULL) if shutil.which("parallel") else None
        self.engines = (["parallel"] if version and version.stdout.startswith(b"GNU parallel") else []) + ["xargs"]

    def file(self, name, text=None):
        path = os.path.join(self.folder, name)
        if text is not None:
            with open(path, "w", encoding="utf-8") as file:
                file.write(text)
        return path

    def stand_in(self, name, text):
        """A program that does what the text says, with `program` for the real one."""
        path = self.file(name, f"#!{shutil.which('bash')}\nprogram='{self.program}'\n{text}\nexec \"$program\" \"$@\"\n")
        os.chmod(path, 0o755)
        return path

    def surroundings(self, engine, program=None, **more):
        found = {**os.environ, "PC": program or self.program, "TMPDIR": self.temporary, **more}
        if engine == "xargs":
            found["PATH"] = self.tools
        return found

    def run(self, engine, script, *words, given="", program=None, jobs="3", options=(), environment=None, **streams):
        if "stdin" not in streams:
            streams["input"] = given.encode()
        before = [words[0]] if script == "study" else []
        behind = words[1:] if script == "study" else words
        done = subprocess.run([os.path.join(SCRIPTS, script), *before, "--jobs", jobs, *options, "--", *behind],
                              env=self.surroundings(engine, program, **(environment or {})),
                              **{"stdout": subprocess.PIPE, "stderr": subprocess.PIPE, "timeout": 120, **streams})
        return done.returncode, done.stdout, done.stderr

    def one(self, *words, given="", **streams):
        if "stdin" not in streams:
            streams["input"] = given.encode()
        done = subprocess.run([self.program, *words], **{"stdout": subprocess.PIPE, "stderr": subprocess.PIPE, "timeout": 120, **streams})
        return done.returncode, done.stdout, done.stderr

    def running(self):
        """The runs of the program, of this copy alone."""
        found = []
        for number in filter(str.isdigit, os.listdir("/proc")):
            with contextlib.suppress(OSError):
                if os.readlink(f"/proc/{number}/exe") == self.program:
                    found.append(int(number))
        return found

    def left(self):
        """What is left after a second of grace: runs, and files of the scripts."""
        end = time.time() + 5
        while time.time() < end and (self.running() or self.files()):
            time.sleep(0.05)
        return self.running(), self.files()

    def files(self):
        return [it for it in os.listdir(self.temporary) if it.startswith("tmp.")]


def each(workshop, asked):
    with ThreadPoolExecutor(4) as pool:
        yield from pool.map(lambda it: it(), asked)


def signalled(workshop, engine, script, words, number, options=(), environment=None, least=2):
    """Ends a script in the middle, once some runs of the program are there; its status, and what is left."""
    before = [words[0]] if script == "study" else []
    behind = words[1:] if script == "study" else words
    run = subprocess.Popen([os.path.join(SCRIPTS, script), *before, "--jobs", "3", *options, "--", *behind], env=workshop.surroundings(engine, **(environment or {})),
                           stdin=subprocess.DEVNULL, stdout=subprocess.DEVNULL, stderr=subprocess.DEVNULL)
    end = time.time() + 30
    while len(workshop.running()) < least and run.poll() is None and time.time() < end:
        time.sleep(0.02)
    run.send_signal(number)
    return run.wait(timeout=30), *workshop.left()
