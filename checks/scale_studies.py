"""Studies: fields of all kinds, studies that are stopped and go on, and the study that the documents show."""
import os
import signal
import subprocess
import time

from scale_questions import FUMEN, LINK, MARKED, OPENER
from scale_workshop import SCRIPTS, TOP

STUDY = os.path.join(TOP, "studies", "openers.txt")
ROWS = "XXXXXX____/XXXXXX____/XXXXXX____/XXXXXX____"


def studies(checks, workshop):
    text = f"""# Fields of all kinds.
{FUMEN}   # first's "note" & more
\t{LINK[1]}
{MARKED[1]}

{ROWS} --held T --failed 2\t# the box
XXXXXXXXXX
{FUMEN}
 v115@9gD8 DeF8CeG8BeH8CeC8JeAgH --hold avoid
{FUMEN} --patterns [tsz]p3
{FUMEN} --limit 3
{FUMEN} --held
v115@
-
$(touch {workshop.folder}/made) `touch {workshop.folder}/made`; '\\' {{1}} {{}}"""
    file = workshop.file("kinds.txt", text)
    wanted = [
        "field\tgood\tqueues\trate\tnote", f"{FUMEN}\t514\t840\t6119\tfirst's \"note\" & more", f"{LINK[1]}\t514\t840\t6119\t", f"{MARKED[1]}\t514\t840\t6119\t",
        f"{ROWS} --held T --failed 2\t744\t840\t8857\tthe box", "XXXXXXXXXX\t-\t-\t-\t", f"{FUMEN}\t514\t840\t6119\t", "v115@9gD8 DeF8CeG8BeH8CeC8JeAgH --hold avoid\t?\t840\t?\t",
        f"{FUMEN} --patterns [tsz]p3\t?\t6\t?\t", f"{FUMEN} --limit 3\t-\t-\t-\t", f"{FUMEN} --held\t-\t-\t-\t", "v115@\t-\t-\t-\t", "-\t-\t-\t-\t",
        f"$(touch {workshop.folder}/made) `touch {workshop.folder}/made`; '\\' {{1}} {{}}\t-\t-\t-\t"]
    for at, words in ((7, [*OPENER, "--patterns", "*p4", "--hold", "avoid"]), (8, [*OPENER, "--patterns", "[tsz]p3"])):
        for line in workshop.one("percent", *words)[1].decode().split("\n")[-4:-1]:
            name, figure = line.split()
            if name != "queues":
                wanted[at] = wanted[at].replace("?", figure, 1)
    reasons = ["line 7: status 2: input: FullRow 0", "line 11: status 2: input: Words.UnknownOption", "line 12: status 2: input: Words.MissingValue",
               "line 13: status 2: input: NoPage 1 0", "line 14: status 2: input: Rows.BadRowChar 0", "line 15: status 2: input: Rows.BadRowChar 0"]
    for engine in workshop.engines:
        status, out, err = workshop.run(engine, "study", file, "percent", "--patterns", "*p4")
        said = err.decode().splitlines()
        checks.same(f"study {engine}", (status, out.decode().splitlines()), (1, wanted))
        checks.same(f"study {engine}: what failed", (said[:1], [it for it, reason in zip(said[1:], reasons) if not it.startswith(reason)], len(said)),
                    (["study: 6 of 13 fields have no answer"], [], 7))
        status, out, err = workshop.run(engine, "study", file, "percent", "--patern", "*p4")
        checks.same(f"study {engine}: words with a fault", (status, out, err), (2, b"", b"input: Words.UnknownOption 1\n"))
    checks.same("a field is no command", os.path.exists(workshop.file("made")), False)


def resumed(checks, workshop):
    """A study of which a part has failed, and that is stopped, goes on with what has no answer, and asks no field twice."""
    fields = workshop.file("many.txt", "".join(f"{FUMEN} --failed {it % 40}\n" for it in range(60)))
    wanted = workshop.run(workshop.engines[0], "study", fields, "percent", "--patterns", "*p4")
    checks.same("a study", (wanted[0], wanted[1].count(b"\t514\t840\t6119\t\n"), wanted[2]), (0, 60, b""))
    for engine in workshop.engines:
        log, answers = workshop.file(f"log-{engine}"), workshop.file(f"answers-{engine}")
        # (files of others stay)
        os.makedirs(os.path.join(answers, "mine"))
        for name in ("mine.seq", "mine/1.seq"):
            open(os.path.join(answers, name), "w").close()
        # Notes what it is asked, fails once, and hangs from the tenth question on, until it goes on.
        slow = workshop.stand_in(f"slow-{engine}", f"""
case "$*" in
*"--rows "*) ;;
*)
    echo "$*" >>"{log}"
    if [ ! -e "{log}.on" ]; then
        case "$*" in *" --failed 3") exit 5 ;; esac
        [ "$(wc -l <"{log}")" -lt 10 ] || sleep 60
    fi
    ;;
esac""")
        run = subprocess.Popen([os.path.join(SCRIPTS, "study"), fields, "--jobs", "3", "--answers", answers, "--", "percent", "--patterns", "*p4"],
                               env=workshop.surroundings(engine, slow), stdin=subprocess.DEVNULL, stdout=subprocess.DEVNULL, stderr=subprocess.DEVNULL)
        end = time.time() + 30
        while run.poll() is None and time.time() < end and not (os.path.exists(log) and len(open(log).readlines()) > 9):
            time.sleep(0.02)
        time.sleep(1)
        busy = workshop.run(engine, "study", fields, "percent", "--patterns", "*p4", options=["--answers", answers], program=slow)
        run.send_signal(signal.SIGTERM)
        checks.same(f"{engine}: a study that is stopped", (run.wait(timeout=30), *workshop.left()), (143, [], []))
        checks.same(f"{engine}: another one in the same folder", (busy[0], busy[1], b"another run" in busy[2]), (2, b"", True))
        first = open(log).read().splitlines()
        open(log + ".on", "w").close()
        checks.same(f"{engine}: a study that goes on", workshop.run(engine, "study", fields, "percent", "--patterns", "*p4", options=["--answers", answers, "--resume-failed"], program=slow), wanted)
        whole = open(log).read().splitlines()
        checks.same(f"{engine}: questions asked again", (len(set(whole)), 0 < len(whole) - len(set(whole)) <= 4, 9 < len(first) < 13), (40, True, True))
        record = open(os.path.join(answers, "1"), encoding="utf-8").read().splitlines()
        checks.same(f"{engine}: a record", (record[0], record[-1]), (f"question percent,--tetfu,{FUMEN},--patterns,%2Ap4,--failed,0", "status 0"))
        checks.same(f"{engine}: nothing else is in the folder", sorted(it for it in os.listdir(answers) if not it.isdigit()), ["lock", "mine", "mine.seq"])
        checks.same(f"{engine}: files of others", os.listdir(os.path.join(answers, "mine")), ["1.seq"])
        words = [*OPENER, "--patterns", "*p4", "--failed", "11"]
        for _ in range(2):
            checks.same(f"{engine}: parts that keep their answers", workshop.run(engine, "percent-parts", *words, options=["--answers", answers]), workshop.one("percent", *words))


def shown_study(checks, workshop):
    table = open(os.path.splitext(STUDY)[0] + ".table", "rb").read()
    for engine in workshop.engines:
        checks.same(f"{engine}: studies/openers.txt", workshop.run(engine, "study", STUDY, "percent", "--patterns", "*p4"), (0, table, b""))
