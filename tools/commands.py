"""What the tools share: commands with time limits, none of which outlives its tool; what passed in earlier runs; proofs and programs. Run
by tools/run_proved, by Python 3.8 or later, it proves and builds one. A tool that reads this with `--help` alone only prints its head."""

import fcntl
import functools
import hashlib
import os
import re
import shutil
import signal
import subprocess
import sys
import tempfile
import time
from collections import namedtuple
from concurrent.futures import FIRST_COMPLETED, ThreadPoolExecutor, wait
from contextlib import suppress
from difflib import unified_diff
from glob import glob
from pathlib import Path

TOP = os.path.dirname(os.path.dirname(os.path.realpath(__file__)))
TOOL = re.sub("^tools/", "", os.path.relpath(os.path.realpath(sys.argv[0]), TOP))
# Where the crates lie with the proofs that `rt check` keeps. `check` names a copy, since rt ci keeps none, and a file that is there once
# rt ci has ended. With COMING, `check` puts the libraries that rt ci proves into the copy.
PROVED = os.environ.get("PROVED") or TOP
CI_ENDED, COMING = os.environ.get("CI_ENDED"), bool(os.environ.get("COMING"))
# What is kept beyond this clone: what passed, and copies with proofs. With ANEW, nothing that earlier runs kept is taken.
CACHE = os.environ.get("LEKHSOM_CACHE") or os.path.join(os.environ.get("XDG_CACHE_HOME") or os.path.expanduser("~/.cache"), "lekhsom")
PASSED, ANEW = f"{CACHE}/passed", bool(os.environ.get("ANEW"))
# The days after which what no run has asked for is removed.
KEPT_DAYS = 60
# The seconds that rt may take for one command, and a program for one input. Both take far less, unless they make way for others.
RT_SECONDS, PROGRAM_SECONDS = 60 * 60, 60

# What makes each kind of a crate's program, by how its name ends: as LLVM builds it, as Rattle's own compiler does, and its tests.
KINDS = {"": "rt run --backend llvm", ".by-rattle": "rt run --backend rattle", "_tests": "rt test"}
# The program logic that the proofs are made for, as `rt version` prints it: that of rattle-kit-13b and rattle-kit-13f.
LOGIC = "dac8208d650f15bf"
# The length of the longest media type that asks for no memory.
SHORT = 40
# The lines by which two lists of lines differ, with the names of the lists.
differences = functools.partial(unified_diff, n=0, lineterm="")
say = functools.partial(print, file=sys.stderr, flush=True)
# What a command wrote, and its status; the commands that are running, and the signals that told the tool to end.
Outcome = namedtuple("Outcome", "stdout stderr returncode")
_running, _signals = set(), []


def show(text):
    """Prints a text and ends, without a word too if its reader ends earlier, as `head` does."""
    signal.signal(signal.SIGPIPE, signal.SIG_DFL)
    sys.exit(print(text))


if sys.argv[1:] == ["--help"]:
    show(sys.modules["__main__"].__doc__)


def run(words, seconds=RT_SECONDS, given=None, **how):
    """Runs a command on these bytes, or on nothing; the rest is for subprocess.Popen. A command that takes longer is ended with all that
    it started, and is a TimeoutError. Once the tool has been told to end, nothing more is started."""
    how = {"stdin": subprocess.DEVNULL if given is None else subprocess.PIPE, "stdout": subprocess.PIPE, "stderr": subprocess.PIPE, **how}
    process = subprocess.Popen(["timeout", "-k", "5", str(seconds), *words], **how)
    _running.add(process)
    if _signals:
        process.terminate()
    outcome = Outcome(*process.communicate(given), process.returncode)
    _running.discard(process)
    if _signals:
        raise SystemExit("ended")
    if outcome.returncode == 124:
        raise TimeoutError(f"`{' '.join(words)}` took longer than {seconds} s, and was ended")
    return outcome


def output(words, folder=TOP, given=None, **how):
    """What a command writes to standard output and standard error, as a string, and its status."""
    outcome = run(words, given=given, cwd=folder, **{"stderr": subprocess.STDOUT, **how})
    return outcome.stdout.decode(errors="replace"), outcome.returncode


def run_ok(*words, folder=TOP, given=None):
    """What a command writes. Its failure is an error."""
    text, status = output(words, folder, given)
    if status:
        raise OSError(f"{' '.join(words[:6])} ended with status {status}:\n{text[-3000:]}")
    return text


def told(what, well, more=""):
    """Whether a thing is well, which is printed, and more if it isn't."""
    print(f"{TOOL}: {what}: {'right' if well else f'NOT SO{more}'}", flush=True)
    return well


def is_right(command, wanted, folder=TOP, **how):
    """Whether a shell command succeeds and writes what is wanted: this text, any if it is None, or one of which a function says so."""
    try:
        text, status = output(["bash", "-euo", "pipefail", "-c", command], folder, **how)
    except TimeoutError as error:
        text, status = str(error), 1
    well = not status and (wanted(text) if callable(wanted) else wanted in (None, text))
    return told(command.splitlines()[-1].strip()[:60], well, f", and not as wanted: {command}\n{text[-3000:]}")


def exit_status(tries, least=1):
    """The exit status of a tool, after its last line. Each try says whether it passed; an error ends them; fewer than the least fail."""
    results = []
    try:
        results.extend(map(bool, tries))
    except OSError as error:
        print(f"{TOOL}: {error}")
        results.append(False)
    failed = max(len(results), least) - sum(results)
    print(f"{sum(results)} passed, {failed} failed")
    return 1 if failed else 0


def _end(number, _frame):
    """SIGTERM and SIGINT end each tool as an error does, so its folders are removed, and what it runs ends too."""
    for signal_number in (signal.SIGTERM, signal.SIGINT):
        signal.signal(signal_number, signal.SIG_IGN)
    _signals.append(number)
    for process in list(_running):
        process.terminate()
    raise SystemExit(128 + number)


for _number in (signal.SIGTERM, signal.SIGINT):
    signal.signal(_number, _end)


@functools.lru_cache(None)
def tracked():
    """The files of the repository that git doesn't ignore."""
    return [path for path in run_ok("git", "ls-files", "-co", "--exclude-standard").split("\n") if os.path.isfile(f"{TOP}/{path}")]


@functools.lru_cache(None)
def kit():
    """What tells the kit: what it says of itself, its command, the sizes and times of its files, and the Python that runs the tools."""
    listed, folder = "", os.path.dirname(run_ok("rt", "doc").strip())
    if folder:
        own = "-type d ( -name out -o -name __pycache__ ) -prune -o -type f -printf %P\\t%s\\t%T@\\n".split()
        listed = "\n".join(sorted(run_ok("find", folder, *own).split("\n")))
    return hashlib.sha256(repr((run_ok("rt", "version"), Path(shutil.which("rt")).read_bytes(), listed, sys.version)).encode()).hexdigest()


@functools.lru_cache(None)
def checksum(*paths):
    """A checksum of the kit, of what the tools share, and of these files and folders, as far as git doesn't ignore them."""
    found, paths = hashlib.sha256(kit().encode()), ["tools/*.py", *paths]
    for path in sorted(run_ok("git", "ls-files", "-coz", "--exclude-standard", "--", *paths).split("\0")[:-1]):
        content = hashlib.sha256(Path(TOP, path).read_bytes()).hexdigest()
        found.update(f"{content} {os.access(f'{TOP}/{path}', os.X_OK)} {path}\n".encode())
    return found.hexdigest()


def kept_file(name, paths, more):
    """The file that is there if a thing has passed, and that has another name if these files and folders, or more, are others."""
    return Path(PASSED, f"{name.replace('/', '.')}.{hashlib.sha256((checksum(*paths) + more).encode()).hexdigest()}")


def is_kept(name, paths, more):
    """Whether a thing has passed on this machine, in any clone, and nothing that it rests on has changed since: these files and folders,
    and more."""
    with suppress(OSError):
        os.utime(kept_file(name, paths, more))
        return not ANEW
    return False


def keep(name, paths, more):
    """Keeps that a thing passed, unless a file that it rests on has changed meanwhile. What can't be written isn't kept."""
    with suppress(OSError):
        if checksum.__wrapped__(*paths) == checksum(*paths):
            prune()
            kept_file(name, paths, more).touch()


@functools.lru_cache(None)
def prune():
    """Removes what no run has asked for in a long time."""
    os.makedirs(PASSED, exist_ok=True)
    for file in os.scandir(PASSED):
        if file.stat().st_mtime < time.time() - KEPT_DAYS * 24 * 60 * 60:
            os.remove(file.path)


def need(what, *packages):
    """Installs Debian's packages that have a command or a file, if it is missing."""
    if not (shutil.which(what) or os.path.exists(what)):
        print(f"{what} is missing: apt-get installs {' '.join(packages)}", flush=True)
        waiting = "-o DPkg::Lock::Timeout=600 -o APT::Update::Lock::Timeout=600 -qq"
        run_ok("sh", "-c", f"apt-get update {waiting}; apt-get install {waiting} -y --no-install-recommends {' '.join(packages)}")


def instructions(words, given):
    """How many instructions a whole run takes, as valgrind counts them. Its cachegrind takes half the time of callgrind."""
    counting = ["valgrind", "--tool=cachegrind", "--cache-sim=no", "--cachegrind-out-file=/dev/null"]
    text = run([*counting, *words], given=given, stdout=subprocess.DEVNULL).stderr
    if not (found := re.search(rb"I +refs: +([\d,]+)", text)):
        raise OSError(f"valgrind counted nothing:\n{text[-600:].decode(errors='replace')}")
    return int(found[1].replace(b",", b""))


@functools.lru_cache(None)
def text_of(path):
    return Path(TOP, path).read_bytes().decode()


def blocks_of(text):
    """The indented blocks of a document, in order."""
    return [re.sub(r"(?m)^ {4}", "", block) for block in re.findall(r"(?m)(?:^ {4}.*\n)+(?:\n+(?: {4}.*\n)+)*", text)]


def write(path, text):
    os.makedirs(os.path.dirname(path), exist_ok=True)
    Path(path).write_text(text, encoding="utf-8")


def link_or_copy(file, copied):
    """Gives a file a second name, or copies it, if it can't have one."""
    try:
        os.link(file, copied)
    except OSError:
        shutil.copy2(file, copied)


def copy_built(top, to, crates):
    """Copies what was built of these crates below one folder to another. A file of a proof or a library only gets a second name, if it can,
    since rt replaces such a file and writes into none."""

    def copy(file, copied):
        is_replaced = file.endswith(".oantt") or "/out/rlib/" in file
        return link_or_copy(file, copied) if is_replaced else shutil.copy2(file, copied)

    for folder in (folder for crate in crates for folder in glob(f"{top}/crates/{crate}/out")):
        shutil.copytree(folder, to + folder[len(top) :], copy_function=copy)


def copy_sources(to):
    """Makes a repository for rt of the crates here, without what was built of them."""
    for name in ("crates.txt", "HANDLES"):
        write(f"{to}/{name}", text_of(name))
    shutil.copytree(f"{TOP}/crates", f"{to}/crates", ignore=shutil.ignore_patterns("out"))
    os.makedirs(f"{to}/.git", exist_ok=True)


def below(crate):
    """A crate, and the repository's libraries that its line of crates.txt names, the lowest first."""
    libraries = re.search(rf"(?m)^{crate}\b[^:\n]*:(.*)", text_of("crates.txt"))[1].split()
    return [*dict.fromkeys(name for library in libraries for name in below(library)), crate]


def is_static(crate):
    return f"\n{crate} staticlib:" in text_of("crates.txt")


def is_library(crate):
    """Whether other crates can stand on a crate."""
    return not is_static(crate) and not os.path.exists(f"{TOP}/crates/{crate}/src/main.rt")


def comes(crate):
    """Whether `check` puts this library into PROVED, once rt ci has proved it."""
    return COMING and is_library(crate)


def is_here(crate):
    """Whether a library that comes is in PROVED."""
    return os.path.exists(f"{PROVED}/crates/{crate}/out/rlib/stamp")


def prove(crate):
    """Proves a crate in PROVED, as far as it isn't. A static library is built as tools/c_library takes it."""
    kind = ["lib"] if is_library(crate) else ["lib", "--cpu", "x86-64"] if is_static(crate) else ["check"]
    run_ok("rt", *kind, "--jobs", "1", folder=f"{PROVED}/crates/{crate}")


def jobs():
    """How many processes share a proof, each of which takes up to 2.4 GB of memory. Four prove mime in 150 s, and two in 173 s. Two take a
    sixth less of processor time, as each makes for itself much of what the functions' proofs rest on."""
    free = int(re.search(r"MemAvailable: +(\d+)", Path("/proc/meminfo").read_text("utf-8"))[1])
    return str(max(1, min(4, len(os.sched_getaffinity(0)), free // 2_400_000)))


def prove_here(crate, words, log):
    """Runs rt in a crate's folder, and returns whether it succeeds."""
    with open(log, "w", encoding="utf-8") as said:
        return not run([*words, "--jobs", jobs()], stdout=said, stderr=subprocess.STDOUT, cwd=f"{TOP}/crates/{crate}").returncode


def prove_beside(crate, words, log):
    """Does so in a copy, beside another run of rt: while that works, it holds the folders of its crate and of all below."""
    with tempfile.TemporaryDirectory() as room, open(log, "w", encoding="utf-8") as said:
        copy_sources(room)
        copy_built(TOP, room, below(crate))
        status = run([*words, "--jobs", "1"], stdout=said, stderr=subprocess.STDOUT, cwd=f"{room}/crates/{crate}").returncode
        for built in glob(f"{room}/crates/{crate}/out/*/"):
            to = f"{TOP}/crates/{crate}/out/{os.path.basename(built[:-1])}"
            shutil.rmtree(to, ignore_errors=True)
            shutil.move(built, to)
    return not status


def build(crate, command):
    """Has rt prove and build a program of a crate, after its libraries, side by side as far as they don't stand on each other. Given only
    the program, rt would first read all sources in a separate pass. Returns the log of what fails."""
    left, running, began = below(crate), {}, time.monotonic()
    logs = {name: f"{TOP}/crates/{name}/out/build.log" for name in left}
    with ThreadPoolExecutor() as pool:
        while left or running:
            for name in [name for name in left if not {*below(name)[:-1]} & {*left, *running.values()}]:
                left.remove(name)
                write(logs[name], "")
                words = (command if name == crate else "rt lib").split()
                running[pool.submit(prove_beside if running else prove_here, name, words, logs[name])] = name
            for done in wait(running, 1 if sys.stderr.isatty() else 30, FIRST_COMPLETED).done:
                name = running.pop(done)
                if not done.result():
                    return logs[name]
            tell_progress(crate, began, {name: logs[name] for name in running.values()})


def tell_progress(crate, began, logs):
    """Says what is proved and how far it is: on a terminal on one line, otherwise on a new line."""
    start, end = ("\r\033[K", "") if sys.stderr.isatty() else ("", "\n")
    minutes, seconds = divmod(int(time.monotonic() - began), 60)
    far = {name: re.findall("(?m)^so far.*", Path(log).read_text("utf-8", "replace"))[-1:] for name, log in logs.items()}
    parts = [", ".join([f"crate {name}", *said]) for name, said in far.items()]
    say(start + "; ".join([f"{crate}: {minutes} min {seconds} s", *parts]), end=end)


def mark_of(sources, made):
    """What marks a program as built from the sources with this checksum."""
    return sources + run_ok("sh", "-c", 'cksum <"$0"', made)


@functools.lru_cache(None)
def program(crate, kind=""):
    """The program of a crate, of one kind, that was proved and built from its sources; if none was, rt does so, once no other run does."""
    out, sources, command = f"{TOP}/crates/{crate}/out", run_ok("tools/sources", crate), KINDS[kind]
    made, began = f"{out}/{crate}{kind}", f"{out}/build.began"
    mark = Path(f"{made}.sources")
    is_current = lambda: os.path.exists(made) and mark.exists() and mark.read_text("utf-8") == mark_of(sources, made)
    if is_current():
        return made
    say(
        f"{crate}: `{command}` proves and builds the program, and the libraries {' '.join(below(crate)[:-1])}, as far as they aren't up to "
        "date. This may take some minutes, 2 GB of disk and 2.4 GB of memory for each of up to five processes."
    )
    if not (version := run_ok("rt", "version").strip()).endswith(LOGIC):
        say(f"{crate}: made for the logic {LOGIC}; the command rt here is of '{version}', and may not be able to build it")
    write(began, "")
    with open(f"{out}/build.lock", "w", encoding="utf-8") as lock:
        fcntl.flock(lock, fcntl.LOCK_EX)
        if not is_current():
            built = made.replace(".by-rattle", "")
            Path(built).unlink(missing_ok=True)
            mark.unlink(missing_ok=True)
            log = build(crate, command) or f"{out}/build.log"
            if not os.path.exists(built):
                said = Path(log).read_text("utf-8", "replace")[-3000:]
                raise OSError(f"the proof or the build of {crate} failed; {log} has what rt said:\n{said}")
            os.replace(built, made)
            # If a source was touched or is lost meanwhile, the next run builds again.
            if not output(["tools/sources", crate], env={**os.environ, "SINCE": began})[0]:
                write(mark, mark_of(sources, made))
    return made


if __name__ == "__main__":
    try:
        program(sys.argv[1])
    except OSError as error:
        sys.exit(f"{sys.argv[1]}: {error.strerror}: {error.filename}" if error.filename else f"{sys.argv[1]}: {error}")
