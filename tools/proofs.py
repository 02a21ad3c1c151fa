"""The copy of the crates in which the tools of `check` prove, beside rt ci. rt ci proves each library from nothing, and gives back what was
there before. So that nothing is proved twice, its libraries are put into the copy, and, once it has passed, the programs that it built."""

import fcntl
import os
import re
import shutil
import subprocess
import sys
import tempfile
import time
from contextlib import contextmanager, suppress
from glob import glob
from pathlib import Path

from commands import ANEW, CACHE, TOP, below, checksum, copy_sources, is_kept, keep, link_or_copy, mark_of, output, run_ok, write

# What decides what lies in a copy, beside the kit and what the tools share.
SOURCES = "crates.txt", "HANDLES", "crates", "tools/c_library", "tools/mutation_test"
# What rt ci reads, and what it refuses in any other place, whether git ignores it or not.
CI_READS = "crates.txt", "HANDLES", "crates", "check"
CI_REFUSES = "-name *.rt -o -name *.antt -o -name *.bazel -o -name crates.txt -o -name .git -o -type l"
# How many copies are kept, and for how many seconds any other, in which a run may still work.
MOST, LONGEST_RUN = 2, 10_800
# Prints each library below a folder, and the mark by which rt knows that a library is built from the sources there.
MARKS = """import sys
sys.path.insert(0, sys.argv[1])
import rtlib
print(*(f"{crate.name} {crate.stamp()}" for crate in rtlib.crates_below(sys.argv[2]) if crate.makes_rlib()), sep="\\n")"""
# What rt ci says of a library that it has proved in this run, or in an earlier one.
IS_PROVED = re.compile(r"(?m)^rt: (\w+) (?:proved$|is kept: )")


def has_same_sources(top):
    differ = lambda path: output(["diff", "-rq", "--exclude=out", f"{TOP}/{path}", f"{top}/{path}"])[1]
    return not any(map(differ, ("crates.txt", "HANDLES", "crates")))


def remove_old(folder):
    """Removes all copies but the newest and those in which a run may still work."""
    for top in sorted(glob(f"{folder}/*"), key=os.path.getmtime)[:-MOST]:
        if os.path.getmtime(top) < time.time() - LONGEST_RUN:
            shutil.rmtree(top, ignore_errors=True)


def copy_of_crates(room):
    """A copy of the crates: that of an earlier run on this machine with the same sources and kit, if there is one."""
    fresh, folder = f"{room}/proved", f"{CACHE}/proved"
    if ANEW:
        return copied(fresh)
    top = f"{folder}/{checksum(*SOURCES)[:16]}"
    with suppress(OSError):
        os.makedirs(folder, exist_ok=True)
        if not os.path.exists(top):
            # Two runs may make it at once: the second fails, and takes that of the first.
            with suppress(OSError):
                os.rename(copied(tempfile.mkdtemp(dir=folder)), top)
        os.utime(top)
        remove_old(folder)
        if has_same_sources(top):
            return top
    return copied(fresh)


def copied(top):
    copy_sources(top)
    return top


def marks_of(top):
    """By its name, what marks each library of a copy as built, or nothing, if the kit doesn't say."""
    folder = os.path.dirname(os.path.realpath(shutil.which("rt")))
    text, status = output([sys.executable, "-Bc", MARKS, folder, top], stderr=subprocess.DEVNULL)
    return {} if status else dict(line.split() for line in text.splitlines())


@contextmanager
def held(folder):
    """Keeps rt out of a crate's folder, and tells whether it worked there already."""
    descriptor = os.open(folder, os.O_RDONLY)
    try:
        fcntl.flock(descriptor, fcntl.LOCK_EX | fcntl.LOCK_NB)
        yield True
    except BlockingIOError:
        yield False
    finally:
        os.close(descriptor)


def programs():
    """The crates that are programs."""
    return [crate for crate in os.listdir(f"{TOP}/crates") if os.path.exists(f"{TOP}/crates/{crate}/src/main.rt")]


def refused_by_ci():
    """The sources that rt ci reads even if git ignores them, as a checksum, and the paths of what it may refuse outside of them."""
    skipped = "-path ./.git -prune -o -path ./crates/*/out -prune -o".split()
    found = run_ok("find", ".", *skipped, "(", *CI_REFUSES.split(), ")", "-print")
    return run_ok("tools/sources") + "\n".join(sorted(found.split("\n")))


class Proofs:
    """The copy, and the libraries that come from rt ci, as far as it says in a file what it has proved, and has not ended."""

    def __init__(self, room, said):
        self.said, self.began, self.ended = said, f"{room}/began", f"{room}/ended"
        write(self.began, "")
        self.top = copy_of_crates(room)
        self.marks, self.there, self.ci = marks_of(self.top), set(), ("rt ci", CI_READS, refused_by_ci())
        self.is_ci_kept = is_kept(*self.ci) and all(os.path.exists(f"{self.top}/built/{crate}/{crate}") for crate in programs())

    def environment(self):
        """Tells the tools where the copy is, and whether libraries come."""
        return {"PROVED": self.top, "CI_ENDED": self.ended, "COMING": "yes" if self.marks else ""}

    def came(self):
        """The libraries that are proved in the copy by now, and all once rt ci has ended: the tools prove what it didn't bring."""
        if os.path.exists(self.ended):
            return {*os.listdir(f"{self.top}/crates")}
        said = Path(self.said).read_text("utf-8", "replace") if os.path.exists(self.said) else ""
        proved = self.marks if self.is_ci_kept else IS_PROVED.findall(said)
        for crate in sorted({*self.marks} - self.there, key=lambda library: len(below(library))):
            if crate in proved and not self.is_here(crate):
                self.put(crate)
            if self.is_here(crate):
                self.there.add(crate)
        return self.there

    def is_here(self, crate):
        mark = Path(f"{self.top}/crates/{crate}/out/rlib/stamp")
        return mark.exists() and mark.read_text("utf-8") == self.marks[crate]

    def put(self, crate):
        """Puts a library that rt ci has proved into the copy, unless rt works there, or its sources were touched."""
        out, built = f"{self.top}/crates/{crate}/out", f"{TOP}/crates/{crate}/out/rlib"
        is_untouched = not output(["tools/sources", crate], env={**os.environ, "SINCE": self.began})[0]
        with held(os.path.dirname(out)) as is_free, suppress(OSError, shutil.Error):
            if is_free and is_untouched and self.fits(crate):
                shutil.rmtree(f"{out}/rlib", ignore_errors=True)
                shutil.copytree(built, f"{out}/rlib", copy_function=link_or_copy)
                # At its end, rt ci puts back what was here before: a library with its own mark.
                if not os.path.exists(f"{built}/stamp"):
                    write(f"{out}/rlib/stamp", self.marks[crate])

    def fits(self, crate):
        """Whether the libraries below a crate are the same in the copy as those over which rt ci proved the crate."""
        formats = [[f"{top}/crates/{library}/out/rlib/{library}.rlib/format" for top in (TOP, self.top)] for library in below(crate)[:-1]]
        return all(Path(one).read_bytes() == Path(other).read_bytes() for one, other in formats)

    def keep_ci(self, sources):
        """Marks the programs that rt ci built from sources with these checksums, and keeps them, and that it passed."""
        found = [path for path in glob(f"{TOP}/crates/*/out/*") if os.path.isfile(path) and os.access(path, os.X_OK)]
        for path in found:
            write(f"{path}.sources", mark_of(sources[path.split("/")[-3]], path))
        with suppress(OSError):
            for path in found:
                to = f"{self.top}/built/{path.split('/')[-3]}"
                os.makedirs(to, exist_ok=True)
                for file in (path, f"{path}.sources"):
                    shutil.copy2(file, to)
            keep(*self.ci)
