"""dp_server at the top, the script around the program, in a tree of its own whose `rt` builds nothing. Each
tells what went wrong, a line each."""

import contextlib
import os
import shutil
import subprocess
import tempfile
import time

from cases import TOP

# What stands for the kit's command: it notes where it was called, and its program tells its own words.
RT = """\
#!/bin/sh
echo "$(basename "$PWD") $*" >> "$CALLS"
[ "$(basename "$PWD")" != "$REFUSED" ] || { echo "a goal is open"; exit 1; }
[ "$1" != run ] || { mkdir -p out; cp "$PROGRAM" out/dp_server; chmod +x out/dp_server; }
"""
PROGRAM = """\
#!/bin/sh
case "$1" in
    show) cat; echo "$$ $*"; exit 3 ;;
    *) echo "dp_server: bad words" >&2; exit 2 ;;
esac
"""
CRATES = """\
# What uses what, in any order.
top: low dp_server
dp_server: high thiserror low
c_lib staticlib: low
high: low uuid # a comment
low: uuid
beside: low
"""
FORMS = (
    "dp_server: the forms are: show MOMENT | pipe [--app NAME] [--no-auto] | --help | --version\n"
)
BUILT = """\
dp_server: proving and building the program, 3 crates; the first time takes minutes
dp_server: low is proved, 2 left
dp_server: high is proved, 1 left
dp_server: dp_server is proved, 0 left
"""
CALLED = "low lib\nhigh lib\ndp_server run -- show 0\n"


class Tree:
    """A copy of the script over crates without code."""

    def __init__(self, folder):
        self.folder = folder
        self.write("crates.txt", CRATES)
        self.write("bin/rt", RT)
        self.write("program", PROGRAM)
        for name in ("top", "dp_server", "c_lib", "high", "low", "beside"):
            self.write(f"crates/{name}/src/lib.rt", "")
            self.write(f"crates/{name}/specs/Lib.antt", "")
        shutil.copy(os.path.join(TOP, "dp_server"), folder)
        os.chmod(self.path("bin/rt"), 0o755)
        self.refused = ""

    def path(self, name):
        return os.path.join(self.folder, *name.split("/"))

    def write(self, name, text):
        os.makedirs(os.path.dirname(self.path(name)), exist_ok=True)
        with open(self.path(name), "w") as it:
            it.write(text)

    def touch(self, name):
        """Makes a file newer than what was built."""
        later = time.time() + 5
        os.utime(self.path(name), (later, later))

    def called(self):
        """Which calls of rt were made since it was asked last."""
        with contextlib.suppress(FileNotFoundError):
            with open(self.path("calls")) as it:
                text = it.read()
            os.remove(self.path("calls"))
            return text
        return ""

    def run(self, *words, has_kit=True):
        """The status, output and standard error of the script, and what it called."""
        path = os.environ["PATH"]
        if has_kit:
            path = f"{self.path('bin')}:{path}"
        else:
            kit = os.path.dirname(shutil.which("rt") or "/none/rt")
            path = ":".join(it for it in path.split(":") if os.path.realpath(it) != os.path.realpath(kit))
        names = {"CALLS": self.path("calls"), "PROGRAM": self.path("program"), "REFUSED": self.refused}
        process = subprocess.Popen(
            [self.path("dp_server"), *words],
            stdin=subprocess.PIPE,
            stdout=subprocess.PIPE,
            stderr=subprocess.PIPE,
            env={**os.environ, **names, "PATH": path},
            universal_newlines=True,
        )
        output, error = process.communicate("given ")
        return process.returncode, output.replace(str(process.pid), "PID"), error, self.called()


def tree(work):
    """A case in a tree."""

    def case(_):
        with tempfile.TemporaryDirectory() as folder:
            return work(Tree(folder))

    return case


def differences(*pairs):
    return [f"{got!r} and not {wanted!r}" for got, wanted in pairs if got != wanted]


def unbuilt(it):
    """Words that the script answers itself."""
    status, output, error, called = it.run("--help")
    faults = differences((status, 0), (error, ""), (called, ""))
    faults += [] if "dp_server pipe [--app NAME] [--no-auto]" in output else [output]
    status, output, error, called = it.run("--version")
    faults += differences((status, 0), (output, "dp_server 0.1.0\n"), (error, ""), (called, ""))
    return faults + differences((it.run(), (2, "", f"dp_server: bad words\n{FORMS}", "")))


SHOWN = "given PID show 0\n"


def built(it):
    """The program is built once, with a line for each crate, and takes the place of the script."""
    first = it.run("show", "0")
    again = it.run("show", "0")
    return differences((first, (3, SHOWN, BUILT, CALLED)), (again, (3, SHOWN, "", "")))


def bad_words(it):
    """Words that the program refuses."""
    it.run("show", "0")
    wanted = (2, "", f"dp_server: bad words\n{FORMS}", "")
    return differences(*[(it.run(*words), wanted) for words in (["none"], ["--help", "x"], [""])])


def needless(it):
    """What the program doesn't stand on starts no build."""
    it.run("show", "0")
    for name in ("top", "c_lib", "beside"):
        it.touch(f"crates/{name}/src/lib.rt")
        it.touch(f"crates/{name}/specs/Lib.antt")
    it.write("crates.txt", f"# Another head.\nfurther: high\n{CRATES}")
    it.touch("crates.txt")
    return differences((it.run("show", "0"), (3, SHOWN, "", "")))


def needed(it):
    """What it stands on does."""
    it.run("show", "0")
    faults = []
    for name in ("low/src/lib.rt", "high/specs/Lib.antt", "dp_server/src/lib.rt"):
        it.touch(f"crates/{name}")
        faults += differences((it.run("show", "0")[2:], (BUILT, CALLED)))
        # Older than the next build, as time would have it.
        os.utime(it.path(f"crates/{name}"), (1, 1))
    os.remove(it.path("crates/low/src/lib.rt"))
    it.touch("crates/low/src")
    faults += differences((it.run("show", "0")[3], CALLED))
    os.utime(it.path("crates/low/src"), (1, 1))
    it.write("crates.txt", CRATES.replace("low: uuid", "low: uuid sha2"))
    return faults + differences((it.run("show", "0")[3], CALLED))


def refused(it):
    """A crate that isn't proved: what rt printed is shown, and no program is run."""
    it.refused = "high"
    status, output, error, called = it.run("show", "0")
    lines = error.splitlines()[1:]
    told = ["a goal is open", "dp_server: the program was not built: high was refused"]
    return differences(
        (status, 1), (output, ""), (lines, ["dp_server: low is proved, 2 left", *told]), (called, CALLED[:17])
    )


def no_kit(it):
    """Without the kit nothing can be built."""
    status, output, error, _ = it.run("show", "0", has_kit=False)
    told = "dp_server: the program has to be built, and the kit's command rt is not on PATH\n"
    return differences(((status, output, error), (1, "", told)))


def all_script():
    """Each case with its name."""
    cases = [unbuilt, built, bad_words, needless, needed, refused, no_kit]
    return [(f"the script: {case.__doc__}", tree(case)) for case in cases]
