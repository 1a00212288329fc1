"""Two machines by ssh: this one by two names, with a server of its own."""
import contextlib
import getpass
import os
import shutil
import signal
import socket
import subprocess
import tempfile
import time

from scale_questions import AFTER, OPENER, SLOW
from scale_studies import STUDY
from scale_workshop import each, signalled


def configured(folder):
    """Makes keys in the folder, and the configurations of a server and of those that ask it."""
    key, host_key = os.path.join(folder, "key"), os.path.join(folder, "host_key")
    for it in (key, host_key):
        subprocess.run(["ssh-keygen", "-q", "-t", "ed25519", "-N", "", "-f", it], check=True)
    with socket.socket() as free:
        free.bind(("127.0.0.1", 0))
        port = free.getsockname()[1]
    served, asking = os.path.join(folder, "sshd_config"), os.path.join(folder, "ssh_config")
    with open(served, "w", encoding="utf-8") as file:
        file.write(f"""Port {port}
ListenAddress 127.0.0.1
HostKey {host_key}
AuthorizedKeysFile {key}.pub
PasswordAuthentication no
KbdInteractiveAuthentication no
PermitRootLogin prohibit-password
UsePAM no
StrictModes no
PidFile none
MaxStartups 100
""")
    with open(asking, "w", encoding="utf-8") as file:
        file.write(f"""Host gone
    Port 1
Host one two gone
    HostName 127.0.0.1
    Port {port}
    User {getpass.getuser()}
    IdentityFile {key}
    IdentitiesOnly yes
    BatchMode yes
    StrictHostKeyChecking no
    UserKnownHostsFile {folder}/known
    LogLevel ERROR
""")
    return served, asking


@contextlib.contextmanager
def machines(workshop):
    """A server of ssh on the loopback address, with a key and a port of its own, by the names one and two; its configuration."""
    folder = tempfile.mkdtemp(prefix="scale-ssh-")  # without a blank, which PARALLEL_SSH can't name
    served, asking = configured(folder)
    made = os.geteuid() == 0 and not os.path.exists("/run/sshd")
    if made:
        os.mkdir("/run/sshd", 0o755)
    server = subprocess.Popen([shutil.which("sshd", path=os.environ["PATH"] + ":/usr/sbin"), "-D", "-e", "-f", served], stderr=open(workshop.file("sshd.log"), "wb"))
    try:
        for _ in range(100):
            if subprocess.run(["ssh", "-F", asking, "one", "true"], stdin=subprocess.DEVNULL, stderr=subprocess.DEVNULL).returncode == 0:
                yield asking
                break
            time.sleep(0.1)
        else:
            print("two machines: the server takes no key here; left out")
            yield None
    finally:
        server.terminate()
        server.wait()
        shutil.rmtree(folder)
        if made:
            os.rmdir("/run/sshd")


def two_machines(checks, workshop):
    missing = [it for it in ("parallel", "ssh", "ssh-keygen", "sshd") if not shutil.which(it, path=os.environ["PATH"] + ":/usr/sbin")]
    if missing or "parallel" not in workshop.engines:
        print(f"two machines: {' '.join(missing)} not installed; left out")
        return
    with machines(workshop) as asking:
        if not asking:
            return
        environment = {"PARALLEL_SSH": f"ssh -F {asking}"}
        far = ["--sshlogin", "2/one,2/two", "--program", workshop.program]
        log = workshop.file("joblog")

        def compared(command, *words):
            found = workshop.run("parallel", f"{command}-parts", *words, options=far, environment=environment)
            return f"two machines: {command} {words}", found, workshop.one(command, *words)

        asked = [lambda it=it: compared("percent", *OPENER, "--patterns", it, "--failed", "9") for it in ["*p4", "[tsz]p3", "t , [SZ]p2", "*p4\n"]]
        asked += [lambda it=it: compared("path", *OPENER, "--patterns", "*p4", *it) for it in ([], ["--limit", "20", "--format", "fumen"], ["--after", AFTER[1], "--keys", "yes"])]
        for what, found, wanted in each(workshop, asked):
            checks.same(what, found, wanted)
        found = workshop.run("parallel", "study", STUDY, "percent", "--patterns", "*p4", options=[*far, "--joblog", log], environment=environment)
        checks.same("two machines: a study", found[:2], (0, open(os.path.splitext(STUDY)[0] + ".table", "rb").read()))
        checks.same("two machines: both have worked", {it.split("\t")[1] for it in open(log)} >= {"one", "two"}, True)
        checks.same("two machines: a signal", signalled(workshop, "parallel", "percent-parts", SLOW, signal.SIGTERM, far, environment), (128 + signal.SIGTERM, [], []))
        status, out, err = workshop.run("parallel", "percent-parts", *OPENER, "--patterns", "*p4", options=["--sshlogin", "1/gone"], environment=environment)
        checks.same("a machine that is gone", (status, out, b"part " in err), (1, b"", True))
        status, out, err = workshop.run("parallel", "percent-parts", *OPENER, "--patterns", "*p4", options=["--sshlogin", "1/one", "--program", "/nonexistent"], environment=environment)
        checks.same("a machine without the program", (status, out, b"nonexistent" in err), (1, b"", True))
