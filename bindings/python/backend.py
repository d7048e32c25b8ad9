"""A build backend without dependencies, so that `pip install bindings/python` needs no network.

If the environment names a folder in LINKCAP_LIB_DIR, the wheel contains the liblinkcap.so of that folder; else the package
looks for an installed library when it is imported. `pip install -e` records the folder's path instead. Builds are
reproducible, byte for byte: times in archives are SOURCE_DATE_EPOCH, or 1980.
"""
import base64
import gzip
import hashlib
import io
import os
import re
import sysconfig
import tarfile
import time
import zipfile

NAME = "linkcap"
HERE = os.path.dirname(os.path.abspath(__file__))
EARLIEST = 315532800  # 1980-01-01, the first day of zip files


def _read(*names):
    with open(os.path.join(HERE, *names), "rb") as file:
        return file.read()


VERSION = re.search(r'__version__ = "(.*)"', _read(NAME, "__init__.py").decode()).group(1)
INFO = f"{NAME}-{VERSION}.dist-info"
METADATA = f"""Metadata-Version: 2.1
Name: {NAME}
Version: {VERSION}
Summary: Captures of Linux netlink link messages: checked, normalised, compared and shown
License: MIT
Requires-Python: >=3.8
"""
ENTRY_POINTS = "[pytest11]\nlinkcap = linkcap.pytest_plugin\n"


def _epoch():
    return max(int(os.environ.get("SOURCE_DATE_EPOCH", EARLIEST)), EARLIEST)


def _sources():
    """The names of the package's files, with their bytes."""
    names = sorted(os.listdir(os.path.join(HERE, NAME)))
    return {f"{NAME}/{name}": _read(NAME, name) for name in names if name.endswith((".py", ".typed"))}


def _license():
    """The licence as a file: it is beside this file in an archive of the sources, and at the top of the repository. An empty
    dictionary if this folder alone was copied."""
    paths = [os.path.join(folder, "LICENSE") for folder in (HERE, os.path.dirname(os.path.dirname(HERE)))]
    return {"LICENSE": _read(path) for path in paths[::-1] if os.path.exists(path)}


def _library():
    """The library as a file of the package; an empty dictionary if the environment names no folder."""
    folder = os.environ.get("LINKCAP_LIB_DIR")
    if not folder:
        return {}
    with open(os.path.join(folder, "liblinkcap.so"), "rb") as file:
        return {f"{NAME}/liblinkcap.so": file.read()}


def _write_wheel(folder, files, tag):
    """Writes a wheel of these files, and returns its name."""
    is_pure = "true" if tag.endswith("any") else "false"
    files = dict(files)
    files[f"{INFO}/METADATA"] = METADATA.encode()
    files[f"{INFO}/WHEEL"] = f"Wheel-Version: 1.0\nGenerator: {NAME}\nRoot-Is-Purelib: {is_pure}\nTag: {tag}\n".encode()
    files[f"{INFO}/entry_points.txt"] = ENTRY_POINTS.encode()
    files.update({f"{INFO}/{name}": content for name, content in _license().items()})
    record = ""
    for name, content in files.items():
        digest = base64.urlsafe_b64encode(hashlib.sha256(content).digest()).rstrip(b"=").decode()
        record += f"{name},sha256={digest},{len(content)}\n"
    files[f"{INFO}/RECORD"] = (record + f"{INFO}/RECORD,,\n").encode()
    wheel = f"{NAME}-{VERSION}-{tag}.whl"
    with zipfile.ZipFile(os.path.join(folder, wheel), "w") as archive:
        for name, content in files.items():
            entry = zipfile.ZipInfo(name, time.gmtime(_epoch())[:6])
            entry.external_attr = 0o100644 << 16
            entry.compress_type = zipfile.ZIP_DEFLATED
            archive.writestr(entry, content)
    return wheel


def build_wheel(wheel_directory, config_settings=None, metadata_directory=None):
    library = _library()
    platform = sysconfig.get_platform().replace("-", "_").replace(".", "_")
    return _write_wheel(wheel_directory, {**_sources(), **library}, f"py3-none-{platform if library else 'any'}")


def build_editable(wheel_directory, config_settings=None, metadata_directory=None):
    """Writes a wheel with the path of this folder, and that of the library's folder if the environment names it."""
    files = {f"_{NAME}_editable.pth": f"{HERE}\n".encode()}
    folder = os.environ.get("LINKCAP_LIB_DIR")
    if folder:
        files[f"_{NAME}_editable.py"] = f"FOLDER = {os.path.abspath(folder)!r}\n".encode()
    return _write_wheel(wheel_directory, files, "py3-none-any")


def build_sdist(sdist_directory, config_settings=None):
    """Writes an archive of the sources, without a library."""
    top = f"{NAME}-{VERSION}"
    files = {"PKG-INFO": METADATA.encode(), **_license(), **_sources()}
    files.update({name: _read(name) for name in ("pyproject.toml", "backend.py")})
    tar = io.BytesIO()
    with tarfile.open(fileobj=tar, mode="w", format=tarfile.PAX_FORMAT) as archive:
        for name, content in files.items():
            entry = tarfile.TarInfo(f"{top}/{name}")
            entry.size, entry.mtime, entry.mode = len(content), _epoch(), 0o644
            archive.addfile(entry, io.BytesIO(content))
    with open(os.path.join(sdist_directory, f"{top}.tar.gz"), "wb") as file:
        with gzip.GzipFile(filename="", mode="wb", fileobj=file, mtime=_epoch()) as stream:
            stream.write(tar.getvalue())
    return f"{top}.tar.gz"
