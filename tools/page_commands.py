"""Runs the commands of pages and of manuals' examples.

`bash -eu -o pipefail` runs each block in a new folder for its page, which has links to all files and folders at the top of the
repository. Of the environment only these are set: PATH, with ~/.local/bin first; HOME and TMPDIR, folders that are removed at the
end; and that Python stores no bytecode, so that the repository stays as it is. In ~/.local is what a reader has installed. A
block that wants root runs in a separate network namespace, and no process of a block outlives it.
"""
import os
import shutil
import signal
import subprocess
import tempfile
import time
from concurrent.futures import ThreadPoolExecutor
from pathlib import Path

from layers import TOP

SECONDS = 60
PROGRAMS = ["linkcap", "linkshow"]
LIBRARY = Path("lib", "pkgconfig", "linkcap.pc")
EXAMPLE_LINKS = "ip link add b0 type bridge && ip link add v0 type veth && ip link add x0 type vxlan id 1 dstport 4789"


def succeeds(*command):
    """Whether there is such a command, and it ends with status 0."""
    return shutil.which(command[0]) is not None and subprocess.run(command, capture_output=True, check=False).returncode == 0


def is_root():
    return os.geteuid() == 0 and succeeds("unshare", "-n", "true")


def has_namespaces():
    """Whether linkrec may make a network namespace, and the kernel has the kinds of links that examples make in it."""
    return succeeds("unshare", "-n" if os.geteuid() == 0 else "-rn", "sh", "-c", EXAMPLE_LINKS)


# How to find out whether this machine has what a mark `wants` may name. A requirement without a function is never met here,
# since it takes long, or another machine.
REQUIREMENTS = {
    "root": is_root,
    "namespaces": has_namespaces,
    "strace": lambda: succeeds("strace", "-o", "/dev/null", "true"),
    "nlmon": lambda: is_root() and succeeds("unshare", "-n", "ip", "link", "add", "nlmon0", "type", "nlmon"),
    "iproute2": lambda: succeeds("ip", "-V"),
    "systemd-networkd": lambda: os.path.exists("/usr/lib/systemd/systemd-networkd")
    and succeeds("unshare", "--net", "--mount", "mount", "-t", "sysfs", "-o", "ro", "sysfs", "/sys"),
    "rtmon": lambda: shutil.which("rtmon") is not None,
    "tcpdump": lambda: succeeds("tcpdump", "--version"),
    "jq": lambda: succeeds("jq", "--version"),
    "venv": lambda: succeeds("python3", "-c", "import ensurepip, venv"),
    "a C compiler": lambda: succeeds("cc", "--version"),
    "pkg-config": lambda: succeeds("pkg-config", "--version"),
    "Go": lambda: succeeds("go", "version"),
    "GNU parallel": None, "ssh": None, "rsync": None, "Dask": None,
    "the kit": None, "a release": None, "mmdebstrap": None, "a network": None, "an hour": None, "hours": None,
}


def program(name, folder):
    """The file of a program: in a folder, or where `rt ci` puts it."""
    return folder / name if folder else TOP / "crates" / name / "out" / name


class Machine:
    """What commands find: a home folder with the installed programs, and which requirements are met."""

    def __init__(self, work, programs, prefix):
        self.home, self.found = work / "home", {}
        self.temporary = work / "tmp"
        self.temporary.mkdir()
        self.home.mkdir()
        local = self.home / ".local"
        if prefix is not None:
            local.symlink_to(prefix)
            return
        subprocess.run([TOP / "scripts" / "install.sh", local], check=True)
        for name in PROGRAMS:
            (local / "bin" / name).symlink_to(program(name, programs).resolve())

    def has(self, requirement):
        """Whether a requirement is met."""
        if requirement not in self.found:
            if requirement == "the library":
                self.found[requirement] = (self.home / ".local" / LIBRARY).exists()
            else:
                is_met = REQUIREMENTS.get(requirement)
                self.found[requirement] = is_met is not None and is_met()
        return self.found[requirement]

    def environment(self):
        path = "%s:%s" % (self.home / ".local" / "bin", os.environ["PATH"])
        return {"PATH": path, "HOME": str(self.home), "TMPDIR": str(self.temporary), "PYTHONDONTWRITEBYTECODE": "1"}


def check_requirements(page):
    """The requirements that this script doesn't know, and blocks that continue none."""
    has_commands = False
    for block in page.blocks:
        for word in block.requirements():
            if word not in REQUIREMENTS and word != "the library":
                yield "%s:%d: no such requirement: %s" % (page.name, block.line, word)
        if block.mark("continues") is not None and not has_commands:
            yield "%s:%d: continues no commands" % (page.name, block.line)
        has_commands = has_commands or block.language == "sh"


def run(block, folder, machine):
    """(status, standard output, standard error) of a block; the status is None if it took too long."""
    namespace = ["unshare", "-n"] if "root" in block.requirements() else []
    shell = subprocess.Popen([*namespace, "bash", "-eu", "-o", "pipefail", "-c", block.text()], cwd=folder,
                             env=machine.environment(), stdin=subprocess.DEVNULL, stdout=subprocess.PIPE,
                             stderr=subprocess.PIPE, start_new_session=True)
    try:
        out, err = shell.communicate(timeout=SECONDS)
        return shell.returncode, out, err
    except subprocess.TimeoutExpired:
        end_group(shell.pid)
        return (None, *shell.communicate())
    finally:
        end_group(shell.pid)


def end_group(leader):
    """Ends the processes of a session that are left."""
    try:
        os.killpg(leader, signal.SIGKILL)
    except ProcessLookupError:
        pass


def put_files(block, folder):
    """Puts the files there that the mark `given` names."""
    for name, source in block.given_files():
        (folder / name).parent.mkdir(parents=True, exist_ok=True)
        shutil.copy(TOP / source, folder / name)


def outcome(page, index, folder, machine):
    """What is wrong with the commands of a block; None if nothing is."""
    block = page.blocks[index]
    put_files(block, folder)
    status, out, err = run(block, folder, machine)
    expected = int(block.mark("status") or 0)
    if status != expected:
        result = "took over %d seconds" % SECONDS if status is None else "status %d, expected %d" % (status, expected)
        return "%s:%d: %s: %s" % (page.name, block.line, result, (out + err).decode("utf-8", "replace")[-300:])
    following = page.blocks[index + 1] if index + 1 < len(page.blocks) else None
    if following is not None and following.mark("output") is not None and out.decode("utf-8", "replace") != following.text():
        return "%s:%d: other output: %r" % (page.name, following.line, out[:300])
    return None


def reason_to_skip(block, machine, was_run):
    """Why a block's commands aren't run; None if they are."""
    missing = [word for word in block.requirements() if not machine.has(word)]
    if block.mark("run") is not None:
        return "is run " + block.mark("run")
    if missing:
        return "wants " + ", ".join(missing)
    return "continues what was skipped" if block.mark("continues") is not None and not was_run else None


def run_page(page, work, machine):
    """The faults of a page's commands. It prints which blocks it ran, and which not, and why."""
    folder = Path(tempfile.mkdtemp(dir=work))
    for entry in TOP.iterdir():
        if entry.name != ".git":
            (folder / entry.name).symlink_to(entry)
    was_run = True
    for index, block in enumerate(page.blocks):
        if block.saved_name():
            (folder / block.saved_name()).write_text(block.text(), encoding="utf-8")
        if block.language != "sh":
            continue
        reason = reason_to_skip(block, machine, was_run)
        was_run = reason is None
        if reason:
            print("pages: skipped: %s:%d %s" % (page.name, block.line, reason))
            continue
        begun = time.monotonic()
        fault = outcome(page, index, folder, machine)
        if fault:
            yield fault
        else:
            print("pages: ran: %s:%d (%d s)" % (page.name, block.line, time.monotonic() - begun))


def changes():
    """The changed and new files of the repository, as `git status` prints them."""
    return subprocess.run(["git", "status", "--porcelain"], cwd=TOP, capture_output=True, text=True, check=False).stdout


def run_all(pages, programs, prefix):
    """The faults of all pages' commands, with the programs of a folder, or with what is installed under a prefix."""
    missing = [] if prefix else [name for name in PROGRAMS if not program(name, programs).is_file()]
    if missing:
        yield "no program %s: build it first" % program(missing[0], programs)
        return
    before = changes()
    with tempfile.TemporaryDirectory(prefix="linkcap-pages-") as work:
        machine = Machine(Path(work), programs, prefix)
        with ThreadPoolExecutor(os.cpu_count()) as pool:
            for faults in pool.map(lambda page: list(run_page(page, work, machine)), pages):
                yield from faults
    if changes() != before:
        yield "commands changed the repository: %s" % changes()
