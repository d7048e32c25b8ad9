#!/usr/bin/env python3
"""Puts proved programs, and the proved static library for C, into a folder, which it makes if there is none.

    tools/build.py FOLDER CRATE..      as linkcap, linkshow (programs), linkcap_c (FOLDER/liblinkcap_c.a)

`rt ci` proves a crate and all that it depends on, in a temporary repository that has only these crates, without must-fail
edits and tests. Some kits cache proofs by content; for the others ./check sets LINKCAP_PROVED once `rt ci` has passed, and
then what that run left in crates/*/out is taken. `rt ci` proves a static library but doesn't build it, so `rattle build`
proves that crate once more, over the libraries that `rt ci` built. The result is stored in
${XDG_CACHE_HOME:-~/.cache}/linkcap under the hash of its sources, of the kit and of this file; the next build copies it,
also in another clone.

Progress goes to standard error. It needs the command rt. The status is 1 if a crate isn't proved.
"""
import argparse
import hashlib
import os
import re
import shutil
import subprocess
import sys
import tempfile
import time
from pathlib import Path

from layers import TOP, crates

CACHE = Path(os.environ.get("XDG_CACHE_HOME") or Path.home() / ".cache") / "linkcap"
KIT_LIBRARY = "std"
SOURCES = ["src", "specs", "proofs"]
DONE = re.compile(r"rt: (\w+) (proved|is kept)")


def report(message):
    print("build: " + message, file=sys.stderr, flush=True)


def dependencies_of(name, dependencies):
    """All crates of the repository that a crate depends on, each after its own dependencies."""
    order = []
    for dependency in dependencies[name]:
        if dependency in dependencies:
            order += [other for other in [*dependencies_of(dependency, dependencies), dependency] if other not in order]
    return order


def files_of(name):
    """The files that a crate's proof reads."""
    folder = TOP / "crates" / name
    return sorted(file for part in SOURCES for file in (folder / part).rglob("*") if file.is_file())


def line_of(name):
    """The line of crates.txt that names a crate."""
    lines = (TOP / "crates.txt").read_text(encoding="utf-8").splitlines()
    return next(line for line in lines if re.match(r"%s\b" % name, line))


def key_of(names):
    """The hash of everything from which a build of these crates is made."""
    version = subprocess.run(["rt", "version"], stdout=subprocess.PIPE, check=True).stdout
    digest = hashlib.sha256(version + Path(__file__).read_bytes())
    for name in names:
        digest.update(line_of(name).encode())
        for file in files_of(name):
            digest.update(("%s %d\n" % (file.relative_to(TOP), file.stat().st_size)).encode() + file.read_bytes())
    return digest.hexdigest()


def copy_crate(name, repository):
    """Copies a crate without its build results and its must-fail edits."""
    ignore = shutil.ignore_patterns("out", "must-fail")
    shutil.copytree(TOP / "crates" / name, repository / "crates" / name, ignore=ignore)


class Progress:
    """How many of some crates are proved, and how long the others may take, by lines of source."""

    def __init__(self, names):
        self.start, self.crate_count, self.proved_lines = time.time(), len(names), 0
        self.lines_left = {name: sum(file.read_bytes().count(b"\n") for file in files_of(name)) for name in names}

    def add(self, name, is_cached):
        """Prints a line for one more proved crate. The estimate leaves out a cached proof, which takes no time."""
        lines = self.lines_left.pop(name, 0)
        self.proved_lines += 0 if is_cached else lines
        minutes, left = (time.time() - self.start) / 60, sum(self.lines_left.values())
        estimate = ", about %.0f to come" % (minutes * left / self.proved_lines) if self.proved_lines else ""
        done = self.crate_count - len(self.lines_left)
        report("%d of %d crates (%s), %.1f minutes so far%s" % (done, self.crate_count, name, minutes, estimate))


def prove(names, repository):
    """Proves crates, given in the order of their dependencies, and builds their programs in the repository."""
    (repository / ".git").mkdir()
    (repository / "crates.txt").write_text("".join(line_of(name) + "\n" for name in names), encoding="utf-8")
    shutil.copy(TOP / "HANDLES", repository)
    for name in names:
        copy_crate(name, repository)
    progress, log = Progress(names), []
    with subprocess.Popen(["rt", "ci"], cwd=repository, stdout=subprocess.PIPE, stderr=subprocess.STDOUT, text=True) as process:
        for line in process.stdout:
            log.append(line)
            done = DONE.match(line)
            if done:
                progress.add(done[1], done[2] != "proved")
    if process.returncode:
        first = next((at for at, line in enumerate(log) if " NOT PROVED" in line), len(log))
        sys.exit("".join(log[max(first - 40, 0):first + 1] + log[-3:]) + "build: not proved: " + names[-1])


def is_proved(names):
    """Whether `rt ci` has proved these libraries in this checkout, and left what it built: what other commands of the kit
    build has a stamp, and may be of earlier sources."""
    folders = [TOP / "crates" / name / "out/rlib" for name in names]
    return "LINKCAP_PROVED" in os.environ and all(
        (folder / (name + ".rlib")).is_dir() and not (folder / "stamp").exists() for name, folder in zip(names, folders))


def build_static(name, dependencies, repository, folder, archive):
    """Proves a static library, in a folder, over the libraries in the repository, and builds it."""
    first_page = subprocess.run(["rt", "doc"], stdout=subprocess.PIPE, text=True, check=True).stdout
    kit = Path(first_page.strip()).parent
    options = ["--crate-name", name, "src/lib.rt", "--crate-type", "staticlib", "--links", name + "="]
    options += ["--antt-project", kit / "rattle/logic/antt-project.json", "--logic-built", kit / "logic_built"]
    options += ["--toolchain", kit / "toolchain", "--backend", "llvm", "--jobs", str(min(4, os.cpu_count() or 1))]
    options += ["-L", "dependency=%s/rlibs" % kit]
    for other in [KIT_LIBRARY, *dependencies[name]]:
        rlib = repository / "crates" / other / "out/rlib" if other in dependencies else kit / "rlibs"
        options += ["--extern", "%s=%s/%s.rlib" % (other, rlib, other)]
    for other in dependencies_of(name, dependencies):
        options += ["-L", "dependency=%s/crates/%s/out/rlib" % (repository, other)]
    process = subprocess.run([kit / "bin/rattle", "build", *options, "-o", archive], cwd=folder,
                             stdout=subprocess.PIPE, stderr=subprocess.STDOUT, text=True)
    if process.returncode:
        sys.exit(process.stdout[-4000:] + "build: not proved: " + name)


def store(file, cache_file):
    """Copies a build into the cache for later runs, if the cache can be written."""
    part = cache_file.with_name("%s.%d" % (cache_file.name, os.getpid()))
    try:
        cache_file.parent.mkdir(parents=True, exist_ok=True)
        shutil.copy(file, part)
        part.replace(cache_file)
    except OSError as error:
        report("not cached: %s" % error)


def build(name, dependencies, folder):
    """Puts the program or the static library of a crate into a folder."""
    is_static = "staticlib" in line_of(name).partition(":")[0]
    libraries, file_name = dependencies_of(name, dependencies), "lib%s.a" % name if is_static else name
    cache_file = CACHE / key_of([*libraries, name])[:32] / file_name
    if cache_file.is_file():
        shutil.copy(cache_file, folder)
        return
    with tempfile.TemporaryDirectory(prefix="linkcap-build-") as work:
        repository, file = Path(work), TOP / "crates" / name / "out" / file_name
        is_ready = is_proved(libraries) and (is_static or file.is_file())
        if not is_ready:
            prove(libraries if is_static else [*libraries, name], repository)
            file = repository / "crates" / name / "out" / file_name
        if is_static:
            report("building " + file_name)
            copy_crate(name, repository)
            file = Path(work, file_name)
            build_static(name, dependencies, TOP if is_ready else repository, repository / "crates" / name, file)
        shutil.copy(file, folder)
        store(file, cache_file)


def main():
    parser = argparse.ArgumentParser(description=__doc__, formatter_class=argparse.RawDescriptionHelpFormatter)
    parser.add_argument("folder", metavar="FOLDER")
    parser.add_argument("crates", nargs="+", metavar="CRATE")
    args, dependencies = parser.parse_args(), crates()
    os.makedirs(args.folder, exist_ok=True)
    for name in args.crates:
        if name not in dependencies:
            parser.error("crates.txt has no crate " + name)
        build(name, dependencies, args.folder)


if __name__ == "__main__":
    main()
