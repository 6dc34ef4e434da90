"""Tries the scripts at the top of the repository, ./serve, ./play, ./build, ./plant, ./refuse,
./release, ./hostile and ./test, with a stub of `rt`: so it takes seconds, and shows what the scripts
do themselves.

    tools/python tools.quick.top

The last line is 'top: N passed, M failed', and the status 1 where one failed. `./test --quick` runs it.
"""
import itertools
import os
import re
import shutil
import signal
import stat
import subprocess
import sys
import tempfile
import time

from tools import repository
from tools.checks import Checks

SCRIPTS = ("serve", "play", "build", "plant", "refuse", "release", "hostile", "test")
PROGRAMS = ("craq_lab", "craqd", "craq")
PATIENCE = 30
# The bound on passes that ./serve sets.
LEAP = "--most-leap 4294967295"
NO_RT = "needs Rattle's command rt on the path"
DIGITS = "in decimal digits without leading zeros"
ADDRESS = "an address is HOST:PORT, as 127.0.0.1:7000"

# The stub of rt: it notes its words, and runs the file of the command's name beside it.
RT = """#!/usr/bin/env bash
here=$(dirname "$0")
echo "$(basename "$PWD"): $*" >>"$here/words"
[ ! -f "$here/do-$1" ] || . "$here/do-$1"
"""

# A stub of tools/unproved.py: it notes its words, and makes a program of this text, or fails if there
# is none.
BUILDS = """import os, sys
with open({words!r}, "a", encoding="utf-8") as it:
    it.write("unproved: " + " ".join(sys.argv[1:]) + "\\n")
text = {text!r}
if not text:
    sys.exit("no program")
with open(sys.argv[-1], "w", encoding="utf-8", opener=lambda path, flags: os.open(path, flags, 0o700)) as it:
    it.write("#!/usr/bin/env bash\\n" + text)
"""
# A stub of craqd: it prints that it listens and what it was given, and ends in order with its standard
# input.
SERVES = 'echo "listening 7123"; echo "$*" >&2; cat >/dev/null; echo "audit merged 0"; exit 3\n'


class Clone:
    """A copy of the files that the scripts need, with a stub of rt."""

    def __init__(self, room):
        self.top, self.bin = os.path.join(room, "clone"), os.path.join(room, "bin")
        os.makedirs(self.bin)
        for name in SCRIPTS:
            self.copy(name)
        for folder in "tools", "examples":
            shutil.copytree(repository.path(folder), os.path.join(self.top, folder),
                            ignore=shutil.ignore_patterns("__pycache__"))
        self.write("crates.txt", "craq_names:\ncraq_lab: craq_names\ncraqd: craq_names\ncraq: "
                   "craq_names\ncraq_part_tests: craq_names\n")
        self.copy("HANDLES")
        self.write("crates/craq_names/src/lib.rt", "//! A library.\n")
        self.write("crates/craq_names/wrong/never.edit", "file: src/lib.rt\nold: A\nnew: B\n")
        for name in (*PROGRAMS, "craq_part_tests"):
            self.write(f"crates/{name}/src/main.rt", "//! A program.\n")
        self.write("crates/craq_lab/stdin", "put 1 1 1 k a\n")
        self.write("crates/craq_cli/src/lib.rt", 'pub const VERSION: &str = "7.1.0";\n')
        self.executable(os.path.join(self.bin, "rt"), RT)

    def copy(self, name):
        os.makedirs(self.top, exist_ok=True)
        shutil.copy2(repository.path(name), self.top)

    def write(self, name, text):
        file = os.path.join(self.top, name)
        os.makedirs(os.path.dirname(file), exist_ok=True)
        with open(file, "w", encoding="utf-8") as it:
            it.write(text)
        return file

    def executable(self, file, text):
        os.makedirs(os.path.dirname(file), exist_ok=True)
        with open(file, "w", encoding="utf-8") as it:
            it.write(text)
        os.chmod(file, os.stat(file).st_mode | stat.S_IXUSR)

    def rt_does(self, command, text):
        """Sets, as bash, what the stub does at this command of rt; the text gets all words."""
        self.write(os.path.join(self.bin, f"do-{command}"), text)

    def words(self):
        """Returns the commands that the stub got since the last call, a line each after its folder."""
        file = os.path.join(self.bin, "words")
        try:
            with open(file, encoding="utf-8") as it:
                found = it.read().splitlines()
            os.remove(file)
        except FileNotFoundError:
            found = []
        return found

    def builds_unproved(self, text):
        """Sets the program that tools/unproved.py makes: one of this bash text, or none if it is empty."""
        self.write("tools/unproved.py", BUILDS.format(words=os.path.join(self.bin, "words"), text=text))

    def built(self, name, text):
        """Makes a program that ./build would have made of the present sources."""
        self.executable(os.path.join(self.top, f"crates/{name}/out/{name}"), "#!/usr/bin/env bash\n" + text)
        sum_of = subprocess.run(["tools/sources", "."], cwd=self.top, check=True, capture_output=True,
                                text=True).stdout
        self.write(f"crates/{name}/out/{name}.of", sum_of)

    def started(self, *words, has_rt=True, alone=False, given=subprocess.DEVNULL):
        """A script that runs, from another folder than its own; alone: in a group of processes of
        its own. SIGINT is ignored in what a shell runs in the background, and bash cannot trap what
        was ignored before it began."""
        path = (self.bin + ":" if has_rt else "") + "/usr/bin:/bin"
        return subprocess.Popen([os.path.join(self.top, words[0]), *words[1:]], cwd=self.bin,
                                env={**os.environ, "PATH": path},
                                stdin=given, stdout=subprocess.PIPE, stderr=subprocess.PIPE,
                                text=True, start_new_session=alone,
                                preexec_fn=lambda: signal.signal(signal.SIGINT, signal.SIG_DFL))

    def ran(self, *words, has_rt=True):
        """Runs a script, and returns its status and its output."""
        it = self.started(*words, has_rt=has_rt)
        out, err = it.communicate(timeout=PATIENCE)
        return it.returncode, out, err


def has_no_rt(checks, clone):
    """Without rt each script that needs it says so."""
    for name in "serve", "play", "build", "plant", "test":
        status, _, err = clone.ran(name, has_rt=False)
        told = re.split("[,\n]", err.partition(": ")[2])[0]
        checks.same(f"./{name} without rt", (status, told), (1, NO_RT))


def loops():
    """Returns the number of event loops that ./serve asks for."""
    return max(1, len(os.sched_getaffinity(0)) // 2)


def defaults():
    """Returns the options that ./serve adds."""
    return f"--threads {loops()} {LEAP}"


def told(clone, connect="--connect 127.0.0.1:7123 "):
    """Returns the commands that ./serve prints while no craq is built."""
    python = f"  python3 {clone.top}/clients/python/jilsdau {connect}"
    return ["Ask it from another terminal, as by:",
            *(python + it for it in ("set colour blue", "get colour", "health"))]


def valued_options():
    """Returns the options of craqd that take a value, of docs/use/SERVER.md."""
    with open(repository.path("docs/use/SERVER.md"), encoding="utf-8") as it:
        return re.findall(r"\[(--[a-z-]+) [A-Z]+\]", it.read())


def serve_unproved(checks, clone):
    """./serve on a fresh clone builds the server without proofs, says so, keeps it until the sources
    change, and ends it in order."""
    plan, words = os.path.join(clone.top, "examples", "plan.toml"), []
    for text, built in (SERVES, True), ("never", False):
        clone.builds_unproved(text)
        it = clone.started("serve")
        try:
            lines = [it.stdout.readline().rstrip("\n") for _ in range(5)]
            checks.same("what ./serve tells", lines, ["listening 7123", *told(clone)])
            words = clone.words()
            checks.same("whether it builds", len(words), int(built))
            it.send_signal(signal.SIGTERM)
            out, err = it.communicate(timeout=PATIENCE)
            checks.same("how it ends", (out, it.returncode), ("audit merged 0\n", 3))
            checks.same("how often it says that it is not proved", err.count("WITHOUT its proofs"), 1 + built)
            checks.that(f"--until-input-ends {defaults()} {plan} 127.0.0.1:7000\n" in err,
                        f"what the server is given: {err}")
        finally:
            it.kill()
        if built:
            built_as = f"unproved: --one {clone.top}/crates/craqd {clone.top}/out/"
            checks.that(words and words[0].startswith(built_as), f"what is built: {words}")
    clone.write("crates/craq_names/src/lib.rt", "//! A library that was changed.\n")
    clone.builds_unproved("")
    status, out, err = clone.ran("serve")
    checks.same("sources that do not build", (status, out, err.splitlines()[-1], len(clone.words())),
                (1, "", "no program", 1))
    checks.same("what is left of the build", sorted(os.listdir(os.path.join(clone.top, "out"))),
                ["craqd", "craqd.of"])
    clone.builds_unproved("exit 4\n")
    status, out, err = clone.ran("serve", plan, "127.0.0.1:7001")
    checks.same("a server that cannot listen", (status, out), (4, ""))
    checks.that(err.endswith("serve: with 127.0.0.1:0 the system chooses a free port\n"),
                f"what it tells: {err}")


def serve_build_ended(checks, clone):
    """./serve ends a build at SIGTERM and SIGINT, and leaves nothing of it."""
    for ending, status in (signal.SIGTERM, 143), (signal.SIGINT, 130):
        clone.write("tools/unproved.py", "import time\nwhile True:\n    time.sleep(1)\n")
        it = clone.started("serve", alone=True)
        until = time.time() + PATIENCE
        while not os.path.isdir(os.path.join(clone.top, "out")) and time.time() < until:
            time.sleep(0.05)
        time.sleep(0.5)
        it.send_signal(ending)
        it.communicate(timeout=PATIENCE)
        checks.same(f"a build at {ending.name}", (it.returncode, os.listdir(os.path.join(clone.top, "out"))),
                    (status, []))
        os.rmdir(os.path.join(clone.top, "out"))


def serve_proved(checks, clone):
    """./serve starts the program that ./build made of the present sources, and no other."""
    clone.builds_unproved("")
    clone.built("craqd", 'echo "listening 7123"; echo "audit merged 1" >&2; echo "$#: $*"\n')
    plan = os.path.join(clone.top, "examples", "plan.toml")
    clone.words()
    status, out, _ = clone.ran("serve", plan, "127.0.0.1:7123")
    lines = out.splitlines()
    checks.same("the proved server", (status, lines[0], lines[-1]),
                (0, "listening 7123", f"7: --until-input-ends {defaults()} {plan} 127.0.0.1:7123"))
    checks.same("its commands", lines[1:5], told(clone))
    clone.built("craqd", 'echo "listening 7000"\n')
    _, out, _ = clone.ran("serve")
    checks.same("commands at the default address", out.splitlines()[1:], told(clone, ""))
    clone.built("craq", "exit 0\n")
    _, out, _ = clone.ran("serve", plan)
    checks.that("crates/craq/out/craq set colour blue\n" in out,
                f"it tells of craq once that is built: {out}")
    status, out, _ = clone.ran("serve", "--help")
    checks.that(status == 0 and out.startswith("Serves a store") and "OPTION" in out, f"its help: {out}")
    for word, reason in (("nowhere.toml", "there is no such file"), (clone.top, "it is a folder"),
                         ("127.0.0.1:7005", "the plan stands before the address, as "
                                            "./serve examples/plan.toml 127.0.0.1:7005")):
        status, out, err = clone.ran("serve", word)
        lines = err.splitlines()
        checks.that((status, out) == (2, "") and lines[0].startswith("cannot read /"),
                    f"./serve {word}: {status} {err}")
        checks.same(f"./serve {word}: the reason", lines[1:], [f"serve: {reason}"])
    for word in "--version", "-V":
        checks.same(f"./serve {word}", clone.ran("serve", word), (0, "craqd 7.1.0\n", ""))
    checks.same("nothing is built", clone.words(), [])
    source = clone.write("crates/craqd/src/main.rt", "//! A program that was changed.\n")
    checks.same("after a change of the sources", clone.ran("serve")[0], 1)
    checks.that(clone.words() != [], "it builds after a change of the sources")
    clone.write(source, "//! A program.\n")


def serve_words(checks, clone):
    """./serve passes options of craqd on, wherever they stand, and refuses other words."""
    clone.built("craqd", 'echo "listening 7123"; echo "$#: $*"\n')
    plan = os.path.join(clone.top, "examples", "plan.toml")
    clone.words()
    for words, given in (
            (["--journal", "--until-input-ends", "--most", "9", plan],
             f"10: --until-input-ends --journal --most 9 {defaults()} {plan} 127.0.0.1:7000"),
            (["--threads", "0", plan, "127.0.0.1:0"],
             f"7: --until-input-ends --threads 0 {LEAP} {plan} 127.0.0.1:0"),
            ([plan, "--threads=2", "127.0.0.1:0", "--log"],
             f"8: --until-input-ends --threads 2 --log {LEAP} {plan} 127.0.0.1:0"),
            (["--most-leap", "0", "--", plan],
             f"7: --until-input-ends --most-leap 0 --threads {loops()} {plan} 127.0.0.1:7000")):
        checks.same(f"./serve {' '.join(words)}", clone.ran("serve", *words)[1].splitlines()[-1], given)
    for option in valued_options():
        value = "127.0.0.1:7" if option == "--metrics" else "7"
        for words in [option, value], [f"{option}={value}"]:
            _, out, _ = clone.ran("serve", *words, plan)
            last = out.splitlines()[-1]
            checks.that(last.count(f" {option} ") == 1 and f" {option} {value} " in last,
                        f"./serve {words} PLAN: {out}")
    for words, fault in (
            (["--thread", "2"], "there is no option --thread"), (["-x"], "there is no option -x"),
            (["--journal=yes"], "there is no option --journal=yes"),
            ([plan, "127.0.0.1:0", "more"], "expected a plan and an address at most, and found 'more' too"),
            ([plan, "--most"], "--most takes a value"),
            (["--threads", "65"], f"--threads takes a number from 0 to 64 {DIGITS}"),
            (["--idle=007"], f"--idle takes a number from 0 to 4294967295 {DIGITS}"),
            ([plan, "7000"], f"{ADDRESS}, and not '7000'"),
            (["--metrics", "[::1]:65536", plan], f"{ADDRESS}, and not '[::1]:65536'")):
        checks.same(f"./serve {' '.join(words)}", clone.ran("serve", *words),
                    (2, "", f"serve: {fault}; see ./serve --help\n"))
    checks.same("nothing is built for these words", clone.words(), [])


def serve_control(checks, clone):
    """./serve --control passes lines on to the server, whose end in order is a signal's as ever."""
    clone.built("craqd", 'echo "listening 7123"; while read -r line; do echo "got $line"; done; exit 3\n')
    it = clone.started("serve", "--control", alone=True, given=subprocess.PIPE)
    it.stdin.write("stop a/1\nremove a/1\n")
    it.stdin.flush()
    lines = [it.stdout.readline().rstrip("\n") for _ in range(8)]
    checks.same("what ./serve passes on", sorted(lines),
                sorted(["listening 7123", "got stop a/1", "got remove a/1", *told(clone),
                        "Type help here for the lines that stop, remove and join nodes."]))
    it.terminate()
    out, _ = it.communicate(timeout=PATIENCE)
    checks.same("./serve --control at its end", (out, it.returncode), ("", 3))


def serve_ends(checks, clone):
    """./serve ends the proved server in order: at SIGTERM or SIGINT its standard input ends, and
    what it then prints is passed on. Where they come to the server too, as by a terminal's Ctrl-C
    or by timeout, it goes on. Another signal, a second later, ends it at once."""
    for ending, send in itertools.product((signal.SIGTERM, signal.SIGINT), (os.kill, os.killpg)):
        clone.built("craqd", 'echo "listening 7123"; cat >/dev/null; echo "audit merged 0"; exit 3\n')
        it = clone.started("serve", "--journal", alone=True)
        first = it.stdout.readline()
        time.sleep(0.3)
        send(it.pid, ending)
        out, _ = it.communicate(timeout=PATIENCE)
        checks.same(f"./serve at {ending.name} by {send.__name__}",
                    (first, out.splitlines()[-1], it.returncode), ("listening 7123\n", "audit merged 0", 3))
    clone.built("craqd", 'echo "listening 7123"; exec sleep 1000\n')
    it = clone.started("serve", alone=True)
    it.stdout.readline()
    for _ in range(2):
        time.sleep(2.1)
        checks.that(it.poll() is None, "./serve waits for a server that is to end")
        it.terminate()
    checks.same("./serve at another signal", it.wait(PATIENCE), 128 + signal.SIGKILL)


def play(checks, clone):
    """./play plays the sample or a script, by the proved program where it is there, and passes its
    status on."""
    clone.rt_does("try",
                  'echo "played"; echo "checked: ended status=2" >&2; echo "script line 1" >&2; exit 2\n')
    clone.words()
    status, out, err = clone.ran("play")
    checks.same("the sample without proofs", (status, out, err.splitlines()[1:]),
                (2, "played\n", ["script line 1"]))
    script = clone.write("some.script", "put\n")
    clone.ran("play", "--nodes", "2", script)
    sample = os.path.join(clone.top, "crates/craq_lab/stdin")
    checks.same("what rt is asked", clone.words(),
                [f"craq_lab: try --data script={sample} -- play script",
                 f"craq_lab: try --data script={script} -- play --nodes 2 script"])
    clone.built("craq_lab", 'echo "$*"; exit 3\n')
    for has_rt in True, False:
        checks.same("the proved program", clone.ran("play", "--core", "plain", script, has_rt=has_rt),
                    (3, f"play --core plain {script}\n", ""))
    clone.words()
    status, out, _ = clone.ran("play", "--help")
    checks.that(status == 0 and out.startswith("Plays a script") and clone.words() == [],
                f"its help: {status} {out}")


def build(checks, clone):
    """./build proves and then marks each program with its sources; where a proof fails it says so
    and marks none."""
    for name in PROGRAMS:
        shutil.rmtree(os.path.join(clone.top, f"crates/{name}/out"), ignore_errors=True)
    clone.words()
    status, out, _ = clone.ran("build", "--help")
    checks.that(status == 0 and out.startswith("Proves every crate") and clone.words() == [],
                f"its help: {status} {out}")
    clone.rt_does("all", "")
    clone.rt_does("run", 'mkdir -p out; cp /bin/true "out/$(basename "$PWD")"\n')
    clone.words()
    status, out, _ = clone.ran("build")
    checks.that(status == 0
                and out.startswith("build: every crate is proved and craq_lab craqd craq are built"),
                f"./build: {status} {out}")
    asked = clone.words()
    checks.that(asked[:1] and asked[0].startswith("clone: all check --jobs "), f"it proves first: {asked}")
    checks.same("then it builds", asked[1:], [f"{name}: run -- --help" for name in PROGRAMS])
    sum_of = subprocess.run(["tools/sources", "."], cwd=clone.top, capture_output=True, text=True).stdout
    marks = [open(os.path.join(clone.top, f"crates/{name}/out/{name}.of"), encoding="utf-8").read()
             for name in PROGRAMS]
    checks.same("each program's mark", marks, [sum_of] * 3)
    clone.rt_does("all", "echo 'craq_names: not proved'; exit 1\n")
    status, out, err = clone.ran("build")
    checks.same("a proof that fails", (status, out, err), (1, "", "craq_names: not proved\n"))
    left = [name for name in PROGRAMS
            if os.path.exists(os.path.join(clone.top, f"crates/{name}/out/{name}.of"))]
    checks.same("programs that are marked after it", left, [])


def plant(checks, clone):
    """./plant prints what the contracts let through, of every crate but those of tests, or of the
    named ones."""
    clone.rt_does("plant", "echo '  proves  f: returns its argument'; echo '  refused g'; echo 'plant: "
                  "proves=1 refused=1'\n")
    clone.words()
    status, out, _ = clone.ran("plant", "craq_names")
    checks.same("one crate", (status, out),
                (0, "craq_names: proves  f: returns its argument\ncraq_names: plant: proves=1 refused=1\n"))
    checks.same("what rt is asked", clone.words(), ["craq_names: plant --max 1000 --minutes 60"])
    clone.ran("plant")
    checks.same("all crates", [it.partition(":")[0] for it in clone.words()],
                ["craq_names", "craq_lab", "craqd", "craq"])
    clone.rt_does("plant", "echo 'not proved'; exit 2\n")
    checks.same("a crate that is not proved", clone.ran("plant", "craq_names")[:2],
                (2, "craq_names: rt plant judged nothing: not proved\n"))
    checks.same("a crate that there is not", clone.ran("plant", "no_such_crate")[0], 2)
    clone.words()
    status, out, _ = clone.ran("plant", "--help")
    checks.that(status == 0 and out.startswith("Tries mutants") and clone.words() == [],
                f"its help: {status} {out}")


def refuse(checks, clone):
    """./refuse has `rt ci NAME..`, or `rt must-fail` where that takes no names, try the edits of
    wrong/ in a copy, and counts those that are refused."""
    for help, verb in ("  rt ci [NAME..]  the gate", "ci"), ("  rt ci           the gate", "must-fail"):
        clone.rt_does("--help", f"echo '{help}' >&2\n")
        for said, wanted in (("refused, as it must be", (0, "1 refused, 0 not")),
                             ("NOT REFUSED", (1, "0 refused, 1 not"))):
            clone.rt_does(verb, f"test -e crates/craq_names/must-fail/never.edit || exit 3\necho 'rt: "
                          f"must-fail craq_names/never.edit: {said}'\n")
            clone.words()
            status, out, err = clone.ran("refuse")
            checks.same(f"an edit that is {said}", (status, out.splitlines()[-1], err),
                        (*wanted, f"refuse: rt {verb} tries the edits\n"))
            checks.that(out.startswith(f"craq_names/never: {said}\n"), f"its line: {out}")
            checks.that(clone.words()[-1].endswith(f": {verb} craq_names"), f"rt is asked to {verb}")
    status, out, err = clone.ran("refuse", "craq_lab")
    checks.same("a crate without wrong/", (status, out, err),
                (2, "", "refuse: craq_lab is no crate with a folder wrong/; there are craq_names\n"))


def release(checks, clone):
    """./release packs the proved programs of the present sources alone; with options it builds
    programs or takes those of a folder."""
    clone.write("tools/release/pack.py", "import os, sys\nprint(sys.argv[1], "
                "sorted(os.listdir(sys.argv[2])), sys.argv[3], os.path.isdir(sys.argv[3]))\n")
    status, out, err = clone.ran("release")
    checks.that((status, out) == (1, "") and "craqd is not proved and built" in err,
                f"without programs: {status} {out} {err}")
    for name in PROGRAMS:
        clone.built(name, "exit 0\n")
    names, folder = sorted(PROGRAMS), os.path.join(clone.top, "some", "folder")
    checks.same("the proved programs", clone.ran("release", folder),
                (0, f"proved {names} {folder} True\n", ""))
    checks.same("the folder by default", clone.ran("release"),
                (0, f"proved {names} {clone.top}/out True\n", ""))
    clone.builds_unproved("exit 0\n")
    clone.words()
    checks.same("programs without proofs", clone.ran("release", "--unproved")[:2],
                (0, f"unproved {names} {clone.top}/out True\n"))
    checks.same("what is built", [it.split()[2] for it in clone.words()],
                [f"{clone.top}/crates/{name}" for name in ("craqd", "craq", "craq_lab")])
    built = os.path.join(clone.top, "built")
    for name in PROGRAMS:
        clone.write(os.path.join(built, name), "")
    checks.same("programs of a folder", clone.ran("release", "--programs", built, folder)[:2],
                (0, f"unproved {names} {folder} True\n"))
    clone.builds_unproved("")
    checks.that(clone.ran("release", "--unproved")[0] != 0, "a program that cannot be built")
    clone.write("crates/craq_lab/src/main.rt", "//! A program that was changed.\n")
    checks.same("after a change of the sources", clone.ran("release")[:2], (1, ""))
    checks.same("an option that there is not", clone.ran("release", "--some")[0], 2)
    status, out, _ = clone.ran("release", "--help")
    checks.that(status == 0 and out.startswith("Makes an archive"), f"its help: {status} {out}")


def hostile(checks, clone):
    """./hostile needs programs, and gives them to tools/hostile/run with all words."""
    shutil.rmtree(os.path.join(clone.top, "crates/craqd/out"), ignore_errors=True)
    checks.same("./hostile without programs", clone.ran("hostile"),
                (1, "", "hostile: there are no programs yet: ./build makes them\n"))
    clone.executable(os.path.join(clone.top, "tools/hostile/run"), '#!/usr/bin/env bash\necho "$*"\n')
    checks.same("its help, without programs", clone.ran("hostile", "--help"), (0, "--help\n", ""))
    checks.same("its programs of a folder", clone.ran("hostile", "--programs", "/some", "--only", "stops"),
                (0, "--only stops /some/craq_lab /some/craqd\n", ""))
    for name in "craq_lab", "craqd":
        clone.built(name, "exit 0\n")
    outs = " ".join(os.path.join(clone.top, f"crates/{name}/out/{name}") for name in ("craq_lab", "craqd"))
    checks.same("its programs of ./build", clone.ran("hostile", "--minutes", "2"),
                (0, f"--minutes 2 {outs}\n", ""))


def test(checks, clone):
    """./test checks texts first, then runs the gate and tries programs, and ends with the gate's
    last line and status."""
    run_before = ["pages/check", "lint", "style"]
    run_after = ["rows/run", "end_to_end/run", "end_to_end/run", "clients/run", "release/try",
                 "pages/try", "hostile/run"]
    for tool in *run_before, *run_after, "quick/run":
        clone.executable(os.path.join(clone.top, "tools", tool), f"#!/usr/bin/env bash\necho {tool} \"$@\"\n")
    clone.rt_does("ci", "echo 'gate'; echo 'rt: craq_names proved'; echo '5 passed, 0 failed'\n")
    anew = ["--anew"]
    for words, help, asked in ([], "", "ci"), (anew, "rt ci [--anew]", "ci --anew"), (anew, "rt ci", "ci"):
        clone.rt_does("--help", f"echo '{help}'\n")
        clone.words()
        status, out, _ = clone.ran("test", *words)
        checks.same(f"./test {words}", (status, out.splitlines()[-1], clone.words()[-1]),
                    (0, "5 passed, 0 failed", f"clone: {asked}"))
        ran = [it.split()[0] for it in out.splitlines()
               if it.partition(" ")[0] in [*run_before, "gate", *run_after]]
        checks.same("the order of what runs", ran, [*run_before, "gate", *run_after])
    test_without_cc(checks, clone)
    clone.executable(os.path.join(clone.top, "tools/pages/try"),
                     "#!/usr/bin/env bash\necho 'pages: 0 passed, 1 failed'\nexit 1\n")
    status, out, _ = clone.ran("test")
    checks.same("a script after the gate that fails", (status, out.splitlines()[-1]),
                (1, "pages: 0 passed, 1 failed"))
    clone.rt_does("ci", "echo '4 passed, 1 failed'; exit 1\n")
    status, out, _ = clone.ran("test")
    checks.same("a gate that fails", (status, out.splitlines()[-1], "rows/run" in out),
                (1, "4 passed, 1 failed", False))
    for tool in reversed(run_before):
        clone.executable(os.path.join(clone.top, "tools", tool),
                         f"#!/usr/bin/env bash\necho {tool}: 1 fault\nexit 1\n")
        clone.words()
        status, out, _ = clone.ran("test")
        checks.same(f"tools/{tool} that fails", (status, f"{tool}: 1 fault" in out, clone.words()),
                    (1, True, []))
    checks.same("./test --quick", clone.ran("test", "--quick")[:2], (0, "quick/run\n"))
    checks.same("a word that there is not", clone.ran("test", "--some")[0], 2)
    checks.same("a crate that there is not", clone.ran("test", "no_such_crate"),
                (2, "", "test: crates.txt has no crate no_such_crate\n"))


def test_without_cc(checks, clone):
    """./test does not start on a machine without a C compiler."""
    here = os.path.join(os.path.dirname(clone.bin), "without-cc")
    os.makedirs(here)
    for name in "rt", "python3", "env", "bash", "dirname", "realpath":
        os.symlink(os.path.join(clone.bin, "rt") if name == "rt" else shutil.which(name),
                   os.path.join(here, name))
    clone.words()
    ran = subprocess.run([sys.executable, os.path.join(clone.top, "test")], env={"PATH": here},
                         capture_output=True, text=True)
    checks.same("without cc", (ran.returncode, "needs a C compiler cc" in ran.stderr, clone.words()),
                (1, True, []))


def main():
    checks = Checks("top")
    serving = (has_no_rt, serve_unproved, serve_build_ended, serve_proved, serve_words, serve_control,
               serve_ends)
    for part in *serving, play, build, plant, refuse, release, hostile, test:
        with tempfile.TemporaryDirectory(prefix="top-") as room:
            checks.part(part.__doc__, part, Clone(os.path.realpath(room)))
    print(f"top: {checks.passed} passed, {checks.failed} failed")
    return 1 if checks.failed else 0


if __name__ == "__main__":
    sys.exit(main())
