#!/usr/bin/env python3
"""Writes a release: archives, packages for Debian and a wheel, from what ./install builds at this commit.

    tools/release.py [FOLDER]            writes FOLDER, or else release/ in the current folder, which must not exist
    tools/release.py --compare FOLDER    builds again, and compares each file of a release with it
        --tree PREFIX                    takes what ./install PREFIX installed, in place of a new build

FOLDER gets the archive (with install.sh), four packages for Debian, the wheel with the library inside, the Python package's
sources, the Go module and the Rust crate, which find an installed library, SHA256SUMS, and PROVED.txt: the commit, the kit,
what `./check` printed last, what the programs need, a sum of each crate's sources, and what is trusted. The version is the
first one in CHANGELOG.md. `./check` leaves what it printed in the cache of tools/build.py, if it passed at a commit without
changes. If it hasn't, for this commit and kit, or if there is `--tree`, the word `unchecked` is in the names.

The bytes depend only on what was built, the commit, and the versions of the tools that PROVED.txt lists: files have the
commit's time, root as their owner, and a fixed order and modes. A file in which the folder of this checkout, or of the kit,
occurs is refused. `--compare` takes from FOLDER what `./check` printed. It prints where files differ, with cmp, and which
tools have other versions. The status is 1 if a file differs, and 3 if one does and tools have other versions.

It needs the kit (command rt), dpkg-deb, xz, readelf, cmp, git, and what ./install needs; and no uncommitted changes.
"""
import argparse
import hashlib
import importlib.util
import io
import os
import platform
import re
import shutil
import subprocess
import sys
import tarfile
import tempfile
import zlib
from pathlib import Path

from build import CACHE, SOURCES
from debian import ARCHITECTURE, CLEAN, COMPILE, TRIPLET, Entry, Package, compressed, documentation, manual_entries, write_package
from layers import TOP, crates
from needs import libc_version, needs_lines
from release_compare import PROVED, SUMS, compare, stated

PROGRAMS = ["linkcap", "linkshow", "linkdiff", "linkrec", "linkgold", "linkjson"]
OF_A_PROGRAM = ["bin/%s", "share/man/man1/%s.1", "share/bash-completion/completions/%s", "share/fish/vendor_completions.d/%s.fish"]
# Files of an installation, by the package that has them
TOOLS = [pattern % program for program in PROGRAMS for pattern in OF_A_PROGRAM]
TOOLS += ["share/zsh/site-functions/_linkcap", "share/linkcap/*.py"]
DEVELOPMENT = ["include/linkcap*.h", "lib/liblinkcap.a", "lib/liblinkcap.so", "lib/pkgconfig/linkcap*.pc",
               "share/man/man3/linkcap*.3"]
PASSED = re.compile(r"\d+ passed, 0 failed, \d+ skipped")
UNCHECKED = "unchecked"
OF_TESTS = re.compile(r"_test\.go$|_test/|/tests/|/route_example/")
# The programs whose versions may change bytes: ldd has the C library's, whose start files are linked, and xz that of liblzma.
TOOLS_OF_A_BUILD = [os.environ.get("CC", "cc"), "ld", "objcopy", "ar", "ldd", "dpkg-deb", "xz"]
README = """%s: compares, normalises and shows captures of netlink link messages.

./install.sh PREFIX copies bin, include, lib and share to PREFIX. If that is ~/.local or /usr/local, bash and fish then find
completion by themselves; for zsh put PREFIX/share/zsh/site-functions into fpath, before compinit. Without installing:

    bin/linkshow samples/lo-request.bin
    man -l share/man/man1/linkcap.1

What the programs and the library need:

%s

linkdiff, linkrec, linkgold and linkjson are scripts: they need Python 3.8 or later, and linkrec and linkgold also strace to
record a command. PROVED.txt, beside this archive, names the commit that was proved, and what is trusted.
"""


def output(*command):
    return subprocess.run(command, cwd=TOP, stdout=subprocess.PIPE, text=True, check=True).stdout.strip()


def read(name):
    return (TOP / name).read_bytes()


class Release:
    """What a release is made from: the version, the commit with its time and author, the kit, and what ./check printed."""

    def __init__(self, result):
        self.version = re.search(r"^## (\d+\.\d+\.\d+)\b", read("CHANGELOG.md").decode(), re.M)[1]
        self.commit, self.epoch, self.author = output("git", "log", "-1", "--format=%H%n%ct%n%an <%ae>").split("\n")
        self.epoch = int(self.epoch)
        self.kit = output("rt", "version")
        self.result = result or result_of_check(self.commit, self.kit)

    def is_checked(self):
        return self.result != UNCHECKED

    def named(self, separator):
        """The version as names have it, with `unchecked` after a separator if it has to be there."""
        return self.version + ("" if self.is_checked() else separator + UNCHECKED)


def result_of_check(commit, kit):
    """What `./check` printed last at a commit, with this kit; or else `unchecked`."""
    try:
        lines = (CACHE / "checked" / commit).read_text(encoding="utf-8").splitlines()
    except OSError:
        return UNCHECKED
    return lines[1] if len(lines) == 2 and lines[0] == kit and PASSED.fullmatch(lines[1]) else UNCHECKED


# ---- files

def read_files(prefix, patterns):
    """The files of an installation that match patterns, by their path under its prefix. One that isn't there ends the run."""
    entries = {}
    for pattern in patterns:
        paths = sorted(prefix.glob(pattern))
        if not paths:
            sys.exit("release: no %s in %s" % (pattern, prefix))
        for path in paths:
            link = os.readlink(path) if path.is_symlink() else None
            name = path.relative_to(prefix).as_posix()
            entries[name] = Entry(b"" if link else path.read_bytes(), link, name.startswith("bin/"))
    return entries


def refuse_paths(entries, folders):
    for name, entry in entries.items():
        for folder in folders:
            if str(folder).encode() in entry.content:
                sys.exit("release: %s contains the path %s" % (name, folder))


def with_prefix(entries, prefix, library):
    """These files, with another prefix and folder of the library in those for pkg-config."""
    result = dict(entries)
    for name, entry in entries.items():
        if name.endswith(".pc"):
            text = re.sub(rb"(?m)^prefix=.*$", b"prefix=" + prefix, entry.content)
            result[name] = Entry(re.sub(rb"(?m)^libdir=.*$", b"libdir=${prefix}/" + library, text))
    return result


def write_archive(file, entries, epoch):
    stream = io.BytesIO()
    with tarfile.open(fileobj=stream, mode="w", format=tarfile.USTAR_FORMAT) as archive:
        for name, entry in sorted(entries.items()):
            member = tarfile.TarInfo(name)
            member.mtime, member.mode, member.uname, member.gname = epoch, 0o755 if entry.is_executable else 0o644, "root", "root"
            member.size = len(entry.content)
            if entry.link:
                member.type, member.linkname = tarfile.SYMTYPE, entry.link
            archive.addfile(member, io.BytesIO(entry.content))
    file.write_bytes(compressed(stream.getvalue(), epoch))


def samples():
    names = output("git", "ls-files", "samples").split("\n")
    return {name: Entry(read(name), None, os.access(TOP / name, os.X_OK)) for name in names}


# ---- what is released

def write_tarball(release, entries, folder):
    """Writes the archive. Its files for pkg-config find the prefix by their own folder."""
    name = "linkcap-%s-linux-x86_64" % release.named("-")
    files = {**with_prefix(entries, b"${pcfiledir}/../..", b"lib"), **samples(), "LICENSE": Entry(read("LICENSE")),
             "CHANGELOG.md": Entry(read("CHANGELOG.md")), "install.sh": Entry(read("tools/install_release.sh"), None, True),
             "README.txt": Entry((README % (name, "\n".join(needs_lines(entries)))).encode())}
    write_archive(folder / (name + ".tar.gz"), {"%s/%s" % (name, path): entry for path, entry in files.items()}, release.epoch)


def in_debian(entries):
    """Files of an installation where Debian has them."""
    library = "lib/" + TRIPLET
    entries = manual_entries(with_prefix(entries, b"/usr", library.encode()))
    folders = {"lib": library, "share/zsh/site-functions": "share/zsh/vendor-completions"}
    return {"usr/" + re.sub("^(lib|share/zsh/site-functions)(?=/)", lambda part: folders[part[1]], path): entry
            for path, entry in entries.items()}


def python_entries():
    """The Python package without a library, with the entry point by which pytest finds it."""
    backend, folder = load_backend(), "usr/lib/python3/dist-packages/"
    info = folder + backend.INFO
    entries = {folder + name: Entry(content) for name, content in backend._sources().items()}
    texts = {"METADATA": backend.METADATA, "entry_points.txt": backend.ENTRY_POINTS}
    return {**entries, **{"%s/%s" % (info, name): Entry(text.encode()) for name, text in texts.items()}}


def packages(entries, version):
    """The packages for Debian, without the files that each has."""
    tools, library, development = (in_debian(entries[part]) for part in ("tools", "library", "development"))
    name = next(iter(entries["library"])).rpartition("/")[2]
    number = name.rpartition(".")[2]
    runtime = "liblinkcap" + number
    tools.update({"usr/share/doc/linkcap/examples/" + path: entry for path, entry in samples().items()})
    tools["usr/share/doc/linkcap/CHANGELOG.md.gz"] = Entry(compressed(read("CHANGELOG.md")))
    yield Package("linkcap", ARCHITECTURE, "net", {"Depends": "libc6 (>= %s), python3" % libc_version(tools),
                  "Recommends": "iproute2, strace"}, "compares, normalises and shows captures of netlink link messages", tools)
    yield Package(runtime, ARCHITECTURE, "libs", {"Depends": "libc6 (>= %s)" % libc_version(library)},
                  "captures of netlink link messages (library)", library,
                  {"shlibs": "liblinkcap %s %s\n" % (number, runtime), "triggers": "activate-noawait ldconfig\n"})
    yield Package("liblinkcap-dev", ARCHITECTURE, "libdevel", {"Depends": "%s (= %s)" % (runtime, version)},
                  "captures of netlink link messages (files for C)", development)
    yield Package("python3-linkcap", "all", "python", {"Depends": "python3 (>= 3.8), " + runtime, "Recommends": "linkcap"},
                  "captures of netlink link messages (Python)", python_entries(),
                  {"postinst": COMPILE % "python3-linkcap", "prerm": CLEAN % "python3-linkcap"})


def write_packages(release, entries, folder):
    version = release.named("~")
    for package in packages(entries, version):
        files = {**package.entries, **documentation(package.name, version, release.author, release.epoch, read("LICENSE"))}
        write_package(package._replace(entries=files), version, release.author, release.epoch, folder)


def write_bindings(release, language, folder):
    """Writes the archive of the package for a language, which finds the library by pkg-config. It leaves out its tests."""
    name, source = "linkcap-%s-%s" % (language, release.named("-")), "bindings/%s/" % language
    paths = [path for path in output("git", "ls-files", source).split("\n") if not OF_TESTS.search(path)]
    entries = {"%s/%s" % (name, path[len(source):]): Entry(read(path)) for path in paths}
    write_archive(folder / (name + ".tar.gz"), {**entries, name + "/LICENSE": Entry(read("LICENSE"))}, release.epoch)


def load_backend():
    spec = importlib.util.spec_from_file_location("backend", TOP / "bindings/python/backend.py")
    backend = importlib.util.module_from_spec(spec)
    spec.loader.exec_module(backend)
    return backend


def write_python(release, library, folder):
    """Writes the wheel, with the library, and the sources. In the wheel's name, `unchecked` is the number of its build."""
    with tempfile.TemporaryDirectory(prefix="linkcap-wheel-") as work:
        Path(work, "liblinkcap.so").write_bytes(library.content)
        os.environ.update(LINKCAP_LIB_DIR=work, SOURCE_DATE_EPOCH=str(release.epoch))
        wheel, sources = load_backend().build_wheel(str(folder)), load_backend().build_sdist(str(folder))
    if not release.is_checked():
        (folder / wheel).rename(folder / wheel.replace("-py3-", "-0%s-py3-" % UNCHECKED))
    # Its own name, linkcap-0.1.0.tar.gz, would look like the archive of the programs.
    (folder / sources).rename(folder / ("linkcap-python-%s.tar.gz" % release.named("-")))


# ---- what is said about it

def crate_sum(name):
    """The SHA-256 of what sha256sum prints for the crate's sources, in the order of git."""
    files = output("git", "ls-files", *("crates/%s/%s" % (name, part) for part in SOURCES)).split("\n")
    lines = "".join("%s  %s\n" % (hashlib.sha256(read(file)).hexdigest(), file) for file in files)
    return hashlib.sha256(lines.encode()).hexdigest()


def system_name():
    """The name of the distribution that this runs in."""
    system = Path("/etc/os-release")
    found = re.search(r'^PRETTY_NAME="?(.*?)"?$', system.read_text(encoding="utf-8"), re.M) if system.is_file() else None
    return found[1] if found else platform.system()


def proved_text(release, files):
    """The text of PROVED.txt."""
    trusted = re.search(r"^## What is trusted\n\n(.*?)\n\n##", read("docs/proved.md").decode(), re.M | re.S)[1]
    tools = [output(tool, "--version").split("\n")[0] for tool in TOOLS_OF_A_BUILD]
    tools += ["Python " + platform.python_version(), "zlib " + zlib.ZLIB_RUNTIME_VERSION, system_name()]
    lines = ["linkcap %s" % release.version, "commit  " + release.commit, "kit     " + release.kit, "check   " + release.result]
    lines += ["needs   " + line for line in needs_lines(files)] + ["tool    " + tool for tool in tools]
    lines += ["", "Trusted (docs/proved.md has what is proved, tested and not claimed):", "", trusted, "",
              "Sums of the crates, each as of", "git ls-files crates/NAME/{src,specs,proofs} | xargs sha256sum | sha256sum", ""]
    return "\n".join(lines + ["%s  %s" % (crate_sum(name), name) for name in crates()]) + "\n"


def write_sums(folder):
    sums = ["%s  %s\n" % (hashlib.sha256(file.read_bytes()).hexdigest(), file.name) for file in sorted(folder.iterdir())]
    (folder / SUMS).write_text("".join(sums), encoding="utf-8")


def make(release, prefix, refused, folder):
    """Writes all files of a release into an empty folder."""
    entries = {"tools": read_files(prefix, TOOLS), "development": read_files(prefix, DEVELOPMENT)}
    entries["library"] = read_files(prefix, ["lib/" + entries["development"]["lib/liblinkcap.so"].link])
    files = {path: entry for part in entries.values() for path, entry in part.items()}
    refuse_paths(with_prefix(files, b"/usr", b"lib"), refused)
    write_tarball(release, files, folder)
    write_packages(release, entries, folder)
    write_python(release, next(iter(entries["library"].values())), folder)
    for language in ("go", "rust"):
        write_bindings(release, language, folder)
    (folder / PROVED).write_text(proved_text(release, files), encoding="utf-8")
    write_sums(folder)


def parse_arguments():
    parser = argparse.ArgumentParser(description=__doc__, formatter_class=argparse.RawDescriptionHelpFormatter)
    parser.add_argument("folder", metavar="FOLDER", nargs="?", type=Path, default=Path("release"))
    parser.add_argument("--compare", action="store_true")
    parser.add_argument("--tree", metavar="PREFIX", type=Path)
    args = parser.parse_args()
    if args.compare and not (args.folder / PROVED).is_file():
        parser.error("no release in %s" % args.folder)
    if not args.compare and args.folder.exists():
        parser.error("%s exists" % args.folder)
    return args


def refuse_changes(commit=None):
    """Ends the run if files have uncommitted changes, or if another commit than this one is checked out."""
    if output("git", "status", "--porcelain"):
        sys.exit("release: there are uncommitted changes")
    if commit and output("git", "rev-parse", "HEAD") != commit:
        sys.exit("release: another commit was checked out meanwhile")


def install(root):
    """Installs linkcap under a root folder, in its usr. If that fails, the run ends."""
    environment = {**os.environ, "DESTDIR": root}
    if subprocess.run([TOP / "install", "/usr"], env=environment, stdout=sys.stderr, check=False).returncode:
        sys.exit("release: ./install failed")


def main():
    args = parse_arguments()
    # Otherwise some tools translate what they print, and their versions with it.
    os.environ["LC_ALL"] = "C"
    if platform.system() != "Linux" or platform.machine() != "x86_64":
        sys.exit("release: needs Linux on x86-64")
    for tool in ["rt", "git", "readelf", "cmp", *TOOLS_OF_A_BUILD]:
        if not shutil.which(tool):
            sys.exit("release: needs " + tool)
    refuse_changes()
    release = Release(stated(args.folder, "check")[0] if args.compare else UNCHECKED if args.tree else None)
    if args.compare and stated(args.folder, "commit") != [release.commit]:
        sys.exit("release: %s is of commit %s" % (args.folder, stated(args.folder, "commit")[0]))
    with tempfile.TemporaryDirectory(prefix="linkcap-release-") as work:
        prefix, made = args.tree or Path(work, "tree/usr"), Path(work, "made")
        made.mkdir()
        if not args.tree:
            install(work + "/tree")
        make(release, prefix, [TOP, work, Path(output("rt", "doc")).parent], made)
        refuse_changes(release.commit)
        if args.compare:
            sys.exit(compare(made, args.folder))
        shutil.copytree(made, args.folder)
    print("release: %s %s is in %s" % (release.named(" "), release.commit[:12], args.folder))


if __name__ == "__main__":
    main()
