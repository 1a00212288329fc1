"""The questions that checks/scale asks in parts and in one run."""

FUMEN = "v115@9gD8DeF8CeG8BeH8CeC8JeAgH"
OPENER = ["--tetfu", FUMEN]
LINK = ["--tetfu", f"https://fumen.example/?a=1&d={FUMEN}&mode='edit'!"]
MARKED = ["--tetfu", "v115@9gD8?DeF8CeG8BeH8?CeC8JeAgH"]
BAR = ["--rows", "XXX_____XX/XXX____XXX/XXX___XXXX/XXX____XXX", "--held", "I"]
TWO = ["--rows", "XXXXXX____/XXXXXX____", "--clear-line", "2"]
SOURCE = ["--tetfu", "-"]
PAGES = f"v115@vhAAgH{FUMEN[5:]}"
NO_KICKS = ["--kicks", "LR:0,0/0,0/0,0/0,0/0,0;LL:0,0/0,0/0,0/0,0/0,0"]

ODD_PATTERNS = [
    "[^TT]p4", "[ILOZTJSI]p7", "*p7,*p7", "*p4,*p9", "*p8", "*p0", "* p4", "*p4,", " ,*p4", "\t*p4", "*p4\n", "*p4 'T'", '"*p4"', "$(T)*p3",
    "`T`", "T;*p3", "T&*p3", "T|*p3", "*p4#", "%2Ap4", "\\*p4", "-*p4", "ä*p4", "", ",", "[]p1", "[^ILOZTJS]", "[TSZ", "*p4]", "{1}*p4", "{}",
]
PATTERNS = ["*p4", "*!", "[tsz]p3", "t,[sz]!", "T [SZ]p2", "[T]!,*p3", "[^]p3", "[^i]p4", "IIII", "TSZ", "[sz],[SZ]p1 , *", "T,\t[SZ]p2", "*,*,*", "[TSZ]!"]

PERCENT = (
    [[*OPENER, "--patterns", it, "--failed", "9"] for it in PATTERNS + ODD_PATTERNS]
    + [[*OPENER, "--patterns", "*p4", "--failed", it] for it in ("0", "1", "200", "10000000", "0000000007", "x", "-1", "")]
    + [[*it, "--patterns", "*p4", "--failed", "3"] for it in (LINK, MARKED, BAR, [*BAR, "--hold", "avoid"], [*BAR, "--drop", "hard"])]
    + [[*TWO, "--patterns", "[LJ]p2", "--failed", "3", *NO_KICKS], [*TWO, "--patterns", "*p3", "--kicks", "LR:0"],
       ["--rows", "XXXXX_____", "--clear-line", "1", "--patterns", "*p3"], ["--rows", "XXXXXXX___", "--clear-line", "1", "--patterns", "*p2"],
       ["--rows", "X" * 10, "--patterns", "*p4"], ["--rows", "", "--patterns", "*p4"], ["--rows", "X", "--patterns", "*p4"],
       ["--patterns", "*p4"], ["--rows"], ["--rows", "", "--failed"], [], ["--help", "x"], ["--rows", "", "--patterns", "*p4", "--limit", "3"],
       [*OPENER, "--patterns", "*p4", "--patterns", "*p4"], [*OPENER, "--rows", "", "--patterns", "*p4"], [*OPENER, "--patterns", "*p4", "--page", "2"]])

LAST = "TR:4,1 S0:6,2 JL:7,0"
AFTER = ["I0:5,3 O0:4,0 J2:5,1", "TR:4,1:CH O0:5,0:RH I0:5,0:RH", "I0:0,0 I0:0,0 I0:0,0", "SL:9,22 SL:9,22 SL:9,22", "", "I0:5,3", "I0:5,3 O0:4,0 J2:5,1 ",
         "I0:5,3 O0:4,0 J2:5,1\n", "I0:5,3 O0:4,0 J2:5,1x", "i0:5,3 O0:4,0 J2:5,1", "end 3", "'", "I0:5,3 O0:4,0 J2:5,"]

PATH = (
    [[*OPENER, "--patterns", it] for it in ("*p4", "TSZ", "IIII", "[ILOZTJSI]p7", "*p4\n", "{1}*p4", "[tsz]p3", "")]
    + [[*OPENER, "--patterns", "*p4", "--limit", it] for it in ("1", "2", "12", "38", "39", "40", "0000000038", "0", "x")]
    + [[*OPENER, "--patterns", "*p4", "--after", it] for it in AFTER]
    + [[*OPENER, "--patterns", "*p4", "--after", AFTER[0], "--limit", "20", "--format", it, "--keys", keys]
       for it in ("text", "fumen", "grid", "html") for keys in ("yes", "no")]
    + [[*it, "--patterns", "*p4"] for it in (LINK, MARKED, BAR, [*BAR, "--hold", "avoid"], [*BAR, "--drop", "hard", "--keys", "yes"])]
    + [["--rows", "", "--clear-line", "2", "--patterns", "*,*,*,*,*", "--format", it, "--limit", "2000"] for it in ("text", "fumen", "grid")]
    + [["--rows", "XXXX____xt/XXXX____I./XXXX.___sx/XXXX____XX", "--patterns", "*p5", "--stats", "no", "--format", it] for it in ("text", "fumen")]
    + [[*TWO, "--patterns", "LL", *NO_KICKS], [*TWO, "--patterns", "SS"], ["--rows", "XXXXXX____", "--clear-line", "1", "--patterns", "*"],
       ["--rows", "XXXXXXX___", "--clear-line", "1", "--patterns", "*"], ["--rows", "XXXXX_____", "--clear-line", "1", "--patterns", "*p2"],
       ["--rows", "XXXXXX____", "--clear-line", "1", "--patterns", "I", "--keys", "yes", "--format", "fumen"],
       ["--rows", "", "--limit"], ["--rows", "", "--patterns", "*p4", "--failed", "3"]])

# Questions with a source.
READING = [
    (["percent", *SOURCE, "--patterns", "*p4", "--failed", "2"], FUMEN), (["percent", *SOURCE, "--patterns", "*p4"], ""),
    (["percent", *SOURCE, "--patterns", "*p4", "--page", "0000000002"], PAGES), (["percent", *SOURCE, "--patterns", "*p4", "--page", "3"], PAGES),
    (["percent", *SOURCE, "--patterns", "*p4"], LINK[1] + "\n"), (["percent", *SOURCE, "--patterns", "*p9"], FUMEN), (["percent", *SOURCE, "--patterns", "*p4"], "v115@" + "A" * 4194304),
    (["path", *SOURCE, "--patterns", "*p4", "--format", "fumen", "--limit", "30"], FUMEN), (["path", *SOURCE, "--patterns", "*p4", "--after", AFTER[1]], FUMEN),
    (["path", *SOURCE, "--patterns", "*p4", "--after", "x"], FUMEN), (["path", *SOURCE, "--patterns", "*p4"], "v115@"),
]

# Questions that take long.
SLOW = ["--tetfu", "v115@vhAAgH", "--patterns", "*p7,*p4"]
