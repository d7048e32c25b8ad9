"""Writes packages for Debian, from files in memory, so that equal files give equal bytes (tools/release.py).

It needs dpkg-deb.
"""
import gzip
import hashlib
import io
import os
import subprocess
import tempfile
from collections import namedtuple
from datetime import datetime, timezone
from email.utils import format_datetime
from pathlib import Path

ARCHITECTURE, TRIPLET = "amd64", "x86_64-linux-gnu"
# Without byte code of Python, as Debian's own packages: written at installation, removed with the package
COMPILE = "#!/bin/sh\nset -e\nif command -v py3compile > /dev/null; then py3compile -p %s; fi\n"
CLEAN = "#!/bin/sh\nset -e\nif command -v py3clean > /dev/null; then py3clean -p %s; fi\n"
DESCRIPTION = """ The programs linkcap and linkshow and the library liblinkcap are compiled
 from formally verified code; the scripts and the packages for other languages
 are tested. PROVED.txt beside the release names the commit, the prover, and
 what is trusted.
"""
CHANGES = """linkcap (%s) unstable; urgency=medium

  * CHANGELOG.md in the package linkcap has the changes.

 -- %s  %s
"""

# A file of a release: its bytes, or else the target of a symbolic link; and whether it is executable.
Entry = namedtuple("Entry", "content link is_executable", defaults=(None, False))
# A package: its name, architecture, section and dependencies (fields of its control file), its first line of description,
# its files by their path from /, and its scripts and other control files by name.
Package = namedtuple("Package", "name architecture section relations summary entries control_files", defaults=({},))


def compressed(content, epoch=0):
    """The content as gzip packs it, with a time but no name, and the same header under each version of Python."""
    stream = io.BytesIO()
    with gzip.GzipFile(filename="", mode="wb", compresslevel=9, fileobj=stream, mtime=epoch) as packed:
        packed.write(content)
    return stream.getvalue()


def manual_entries(entries):
    """These files, with manuals compressed, as Debian's policy wants them."""
    result = {}
    for path, entry in entries.items():
        if "/man/" not in path:
            result[path] = entry
        elif entry.link:
            result[path + ".gz"] = Entry(b"", entry.link + ".gz")
        else:
            result[path + ".gz"] = Entry(compressed(entry.content))
    return result


def control_text(package, version, maintainer):
    kilobytes = sum(-(-len(entry.content) // 1024) for entry in package.entries.values())
    fields = {"Package": package.name, "Source": "linkcap", "Version": version, "Architecture": package.architecture,
              "Maintainer": maintainer, "Installed-Size": kilobytes, "Section": package.section, "Priority": "optional",
              **package.relations}
    if package.name == fields["Source"]:
        del fields["Source"]
    description = "Description: %s\n%s" % (package.summary, DESCRIPTION)
    return "".join("%s: %s\n" % field for field in fields.items()) + description


def write_file(path, entry):
    path.parent.mkdir(parents=True, exist_ok=True)
    if entry.link:
        path.symlink_to(entry.link)
    else:
        path.write_bytes(entry.content)


def fix_modes_and_times(root, executables, epoch):
    """Gives all that is under a folder modes that don't depend on the umask, and one time."""
    for path in [root, *root.rglob("*")]:
        if not path.is_symlink():
            path.chmod(0o755 if path.is_dir() or path in executables else 0o644)
        os.utime(path, (epoch, epoch), follow_symlinks=False)


def write_package(package, version, maintainer, epoch, folder):
    """Writes a package into a folder."""
    with tempfile.TemporaryDirectory(prefix="linkcap-debian-") as work:
        root = Path(work, "root")
        for path, entry in package.entries.items():
            write_file(root / path, entry)
        sums = "".join("%s  %s\n" % (hashlib.md5(entry.content).hexdigest(), path)
                       for path, entry in sorted(package.entries.items()) if not entry.link)
        control = {"control": control_text(package, version, maintainer), "md5sums": sums, **package.control_files}
        for name, text in control.items():
            write_file(root / "DEBIAN" / name, Entry(text.encode()))
        executables = {root / path for path, entry in package.entries.items() if entry.is_executable}
        executables |= {root / "DEBIAN" / name for name, text in control.items() if text.startswith("#!")}
        fix_modes_and_times(root, executables, epoch)
        file = folder / ("%s_%s_%s.deb" % (package.name, version, package.architecture))
        # One thread, since the compressed bytes may depend on whether there are several.
        subprocess.run(["dpkg-deb", "--root-owner-group", "--threads-max=1", "-Zxz", "--build", root, file],
                       env={**os.environ, "SOURCE_DATE_EPOCH": str(epoch)}, stdout=subprocess.DEVNULL, check=True)


def documentation(package, version, maintainer, epoch, license_text):
    """The files that each package of Debian has."""
    folder, time = "usr/share/doc/" + package, format_datetime(datetime.fromtimestamp(epoch, timezone.utc))
    changes = (CHANGES % (version, maintainer, time)).encode()
    return {folder + "/copyright": Entry(license_text), folder + "/changelog.gz": Entry(compressed(changes))}
