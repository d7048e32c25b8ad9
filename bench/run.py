#!/usr/bin/env python3
"""Prints all speeds in one run: first the ratios, then the numbers, as tables in Markdown.

    bench/run.sh [--megabytes N] [--rounds N] [--only GROUP,..]

By default there are 50 megabytes of each input, 9 rounds and all groups:

    memory      calls over bytes in memory, beside memcpy, libmnl's walk over the attributes and libnl's objects
    programs    linkcap and linkshow, beside cat, and od, which reads the first two megabytes
    crates      link messages as values, beside the Rust crates that bench/upstream.sh builds
    calls       calls from C, Rust, Go and Python over one message of 82 bytes, beside pyroute2's parsing
    peak        the most memory that the programs take

The inputs are samples that a kernel sent; a dump of 50 veth pairs, 50 bridges, 50 vxlan, 50 vrf, 50 dummy and 50 vlan links, if
`ip netns` is allowed and as far as the kernel has drivers for them; sample requests that ip sent; and RTM_NEWLINK messages of one
length, with a name and raw attributes of 36 bytes. They are repeated up to the size; values are made of each different body.

In a round all measurements take turns, on one core, each for a tenth of a second or longer. The median of the rounds counts, of
ratios that of the ratios in each round. Calls are measured by processor time, and programs by user time, which the kernel
estimates by samples. It takes about seven minutes, and seven times N megabytes in the temporary folder.

It takes the programs in crates/*/out, and the library of the folder LINKCAP_LIB_DIR, or else of bindings/c/build.sh. The others
need cc, pkg-config, cargo, go, Debian's packages libmnl-dev, libnl-route-3-dev and python3-pyroute2, and what bench/upstream.sh
leaves in ~/.cache. PYTHON names the Python that has pyroute2. A line says what is skipped, and why. It builds nothing in the
repository, and no gate runs it: no speed is promised.
"""
import argparse
import collections
import math
import os
import re
import resource
import shutil
import statistics
import struct
import subprocess
import sys
import tempfile
import time
from pathlib import Path

TOP = Path(__file__).resolve().parent.parent
HERE = TOP / "bench/speeds"
LINKCAP, LINKSHOW, VALUES = (str(TOP / "crates" / name / "out" / name) for name in ("linkcap", "linkshow", "read_links"))
CRATES = str(Path(os.environ.get("XDG_CACHE_HOME") or Path.home() / ".cache") / "linkcap/sid/build/target/release/read_links_upstream")
PYTHON = os.environ.get("PYTHON") or ("/usr/bin/python3" if os.path.exists("/usr/bin/python3") else sys.executable)
GROUPS = ["memory", "programs", "crates", "calls", "peak"]
LANGUAGES = ["C", "Rust", "Go", "Python"]
CALLS = ["check", "normalize", "same", "lines"]
SECONDS = 0.1
OD_BYTES = 2000000


class Skipped(Exception):
    """Why something can't be measured."""


def run(command, **options):
    """What a command writes."""
    try:
        process = subprocess.run(command, stdout=subprocess.PIPE, stderr=subprocess.PIPE, **options)
    except FileNotFoundError:
        raise Skipped("no " + command[0])
    if process.returncode < 0:
        raise Skipped("signal %d" % -process.returncode)
    if process.returncode > 0:
        lines = process.stderr.decode(errors="replace").strip().split("\n")
        raise Skipped(next((line for line in lines if "rror: " in line), lines[-1]) or "status %d" % process.returncode)
    return process.stdout


# ---- inputs

def joined(files):
    """The captures in files, one after the other; each starts at a multiple of 4."""
    return b"".join(capture + bytes(-len(capture) % 4) for capture in (file.read_bytes() for file in files))


def message(length):
    attributes, left = struct.pack("<HH4s", 8, 3, b"lo0\0"), length - 40
    while left >= 4:
        size = 36 if left >= 40 or left == 36 else left
        attributes += struct.pack("<HH", size, 1000) + bytes(range(size - 4)) + bytes(-size % 4)
        left -= (size + 3) // 4 * 4
    return struct.pack("<IHHII", length, 16, 0, 1, 0) + bytes(16) + attributes


def dump():
    netns = "linkcap-run-%d" % os.getpid()
    links = ["a{0} type veth peer name b{0}", "br{0} type bridge", "vx{0} type vxlan id {0} dstport 4{0:03} dev a{0}",
             "vrf{0} type vrf table {0}", "d{0} type dummy", "link a{0} name v{0} type vlan id {0}"]
    run(["ip", "netns", "add", netns])
    try:
        batch = "".join(f"link add {link.format(i)}\n" for i in range(1, 51) for link in links)
        subprocess.run(["ip", "-n", netns, "-force", "-batch", "-"], input=batch.encode(), stderr=subprocess.DEVNULL)
        return run(["ip", "netns", "exec", netns, str(TOP / "scripts/linkrec"), "dump"])
    finally:
        run(["ip", "netns", "del", netns])


def bodies_of(capture):
    """The different bodies of a capture's link messages."""
    bodies, at = {}, 0
    while at < len(capture):
        length, kind = struct.unpack_from("<IH", capture, at)
        if 16 <= kind < 20:
            bodies[capture[at + 16:at + length]] = None
        at += (length + 3) // 4 * 4
    return list(bodies)


def make_inputs(bench):
    samples = TOP / "samples"
    yield "samples", joined([samples / "get-veth.bin", samples / "notify-vrf.bin"])
    capture = bench.attempt("the dump", dump)
    if capture:
        yield f"dump of {len(bodies_of(capture))} links", capture
    yield "requests of ip", joined([samples / "req-veth.bin", *sorted(samples.glob("kinds/req-*.bin"))])
    for length in (82, 1000, 16000):
        yield f"messages of {length:,} bytes", message(length)


# ---- measurements, in seconds

def time_call(command, name, path):
    with open(path, "rb") as capture:
        return float(run([*command, name, str(SECONDS)], stdin=capture)) / 1e9


def time_program(command, source, sink, share=1, with_kernel=False):
    """The user time of one run, and the kernel's time for it if asked for; of a program that reads a share, that for all."""
    runs = user = kernel = 0
    while user + kernel < SECONDS:
        with open(source, "rb") as stdin, open(sink, "wb") as stdout:
            child = subprocess.Popen(command, stdin=stdin, stdout=stdout)
        _, status, usage = os.wait4(child.pid, 0)
        child.returncode = os.waitstatus_to_exitcode(status)
        if child.returncode != 0:
            raise Skipped(f"status {child.returncode}")
        runs, user, kernel = runs + 1, user + usage.ru_utime, kernel + usage.ru_stime
    return (user + kernel if with_kernel else user) / runs / share


def time_values(program, kind, bodies):
    """The time of reading a body, and of writing it too if the kind is `emits`, without that of starting the program."""
    def spent(count):
        before = resource.getrusage(resource.RUSAGE_CHILDREN)
        run([program], input="".join(f"{kind} {count} {body.hex()}\n" for body in bodies).encode())
        after = resource.getrusage(resource.RUSAGE_CHILDREN)
        return after.ru_utime + after.ru_stime - before.ru_utime - before.ru_stime

    count = 2
    while (took := spent(count)) < SECONDS:
        count *= 4
    return (took - spent(1)) / (count - 1) / len(bodies)


def peak(command, source):
    """The most memory in bytes. What wait4 reports of a child includes the memory of this process."""
    with open(source, "rb") as stdin:
        child = subprocess.Popen(command, stdin=stdin, stdout=subprocess.DEVNULL)
    seen = []
    while child.poll() is None:
        seen += re.findall(r"VmHWM:\s*(\d+) kB", Path(f"/proc/{child.pid}/status").read_text())
        time.sleep(0.001)
    if len(seen) < 5:
        raise Skipped("it ends too soon")
    return int(seen[-1]) * 1024


class Bench:
    """The measurements of a run, each with its group, row and column, and their results in all rounds."""

    def __init__(self, work, groups):
        self.work, self.groups, self.tasks, self.results, self.notes = work, groups, {}, collections.defaultdict(list), []

    def note(self, what, reason):
        self.notes.append(f"- skipped: {what}: {reason}")

    def attempt(self, what, function, *arguments):
        """The result of a function, or None if it is skipped."""
        try:
            return function(*arguments)
        except Skipped as reason:
            self.note(what, reason)

    def add(self, group, row, column, function, *arguments):
        if group in self.groups:
            self.tasks[group, row, column] = (function, *arguments)

    def run_rounds(self, rounds):
        for number in range(rounds):
            print(f"round {number + 1} of {rounds}", file=sys.stderr, flush=True)
            # What is compared is measured in succession, while the machine has one speed.
            for key in sorted(self.tasks, key=lambda key: key[2] if key[0] == "calls" else key[1]):
                result = self.attempt(f"{key[2]}, {key[1]}", *self.tasks[key])
                if result is not None:
                    self.results[key].append(result)
                if result is None or key[0] == "peak":
                    del self.tasks[key]

    def median(self, scale, *key):
        return statistics.median(self.results[key]) * scale if key in self.results else None

    def quotient(self, key, other):
        """The median of how many times as long one measurement takes as another one in the same round."""
        pairs = zip(self.results.get(key, []), self.results.get(other, []))
        quotients = [result / divisor for result, divisor in pairs if divisor]
        return statistics.median(quotients) if quotients else None


# ---- what is measured

def find_peers(bench):
    """The compiler's flags for libmnl and libnl, as far as they are installed."""
    packages = {"libmnl": "libmnl", "libnl": "libnl-route-3.0"}
    found = {name: bench.attempt(name, run, ["pkg-config", "--cflags", "--libs", package]) for name, package in packages.items()}
    return {name: ["-D" + name.upper(), *flags.decode().split()] for name, flags in found.items() if flags}


def build_c(work, lib, flags):
    # No symbol of libnl-route is used: it registers itself as it is loaded.
    run(["cc", "-O2", "-o", str(work / "c"), str(HERE / "calls.c"), "-I", lib, lib + "/liblinkcap.a", "-Wl,--no-as-needed", *flags])
    return [str(work / "c")]


def build_rust(work):
    (work / "Cargo.toml").write_text(
        f'[package]\nname = "calls"\nversion = "1.0.0"\nedition = "2021"\n[[bin]]\nname = "calls"\npath = "{HERE}/calls.rs"\n'
        f'[dependencies]\nlinkcap = {{ path = "{TOP}/bindings/rust" }}\n')
    run(["cargo", "build", "-q", "--release", "--offline", "--target-dir", "target"], cwd=work)
    return [str(work / "target/release/calls")]


def build_go(work, lib):
    (work / "linkcap-static.pc").write_text(f"Name: linkcap\nDescription: linkcap\nVersion: 1\nLibs: {lib}/liblinkcap.a\nCflags: -I{lib}\n")
    (work / "go.mod").write_text(
        f"module calls\ngo 1.19\nrequire linkcap.invalid/linkcap v0.0.0\nreplace linkcap.invalid/linkcap => {TOP}/bindings/go\n")
    shutil.copy(HERE / "calls.go", work)
    environment = {**os.environ, "PKG_CONFIG_PATH": str(work), "GOCACHE": str(work / "cache"), "GOPROXY": "off"}
    run(["go", "build", "-o", "go", "calls.go"], cwd=work, env=environment)
    return [str(work / "go")]


def add_calls(bench, paths):
    lib = os.path.abspath(os.environ.get("LINKCAP_LIB_DIR") or bench.work / "lib")
    if not os.environ.get("LINKCAP_LIB_DIR"):
        run([str(TOP / "bindings/c/build.sh"), lib])
    os.environ.update(LINKCAP_LIB_DIR=lib, PYTHONPATH=str(TOP / "bindings/python"), PYTHONDONTWRITEBYTECODE="1")
    peers = find_peers(bench)
    commands = {"C": bench.attempt("memory, calls from C", build_c, bench.work, lib, sum(peers.values(), [])),
                "Python": [PYTHON, str(HERE / "calls.py")]}
    if "calls" in bench.groups:
        commands.update(Rust=bench.attempt("calls from Rust", build_rust, bench.work),
                        Go=bench.attempt("calls from Go", build_go, bench.work, lib))
    one = bench.work / "one"
    one.write_bytes(message(82))
    for language, command in commands.items():
        for name in CALLS + {"C": list(peers), "Python": ["pyroute2"]}.get(language, []) if command else ():
            bench.add("calls", language, name, time_call, command, name, one)
    for row, path in paths.items():
        for name in ["memcpy", *peers, *CALLS[:3]] if commands["C"] else ():
            bench.add("memory", row, name, time_call, commands["C"], name, path)


def add_programs(bench, paths):
    for program in (LINKCAP, LINKSHOW):
        if not shutil.which(program):
            bench.note("programs", "no " + os.path.relpath(program, TOP))
    for row, path in paths.items():
        commands = {"norm": [LINKCAP, "norm"], "same": [LINKCAP, "same", path, path], "lines": [LINKSHOW], "JSON": [LINKSHOW, "--json"],
                    "od": ["od", "-An", "-tx1", "-N", str(OD_BYTES)], "cat": ["cat"]}
        for column, command in commands.items():
            if not shutil.which(command[0]):
                continue
            if column != "cat":
                share = min(1, OD_BYTES / os.path.getsize(path)) if column == "od" else 1
                bench.add("programs", row, column, time_program, command, path, os.devnull, share)
            if column in ("norm", "cat"):
                bench.add("programs", row, column + " with system time", time_program, command, path, bench.work / "out", 1, True)
            if column not in ("od", "cat"):
                bench.add("peak", row, column, peak, command, path)


def add_crates(bench, inputs):
    if not shutil.which(VALUES):
        raise Skipped("no " + os.path.relpath(VALUES, TOP))
    if not shutil.which(CRATES):
        raise Skipped("no program that bench/upstream.sh builds")
    for row, capture in inputs.items():
        bodies = bodies_of(capture)
        lines = "".join(f"reads 1 {body.hex()}\n" for body in bodies).encode()
        results = zip(bodies, *(run([program], input=lines).split() for program in (VALUES, CRATES)))
        accepted = [body for body, *words in results if words == [b"done", b"done"]]
        if len(accepted) < len(bodies):
            bench.note(f"crates, {row}", f"one side refuses {len(bodies) - len(accepted)} of {len(bodies)} bodies")
        for kind, column in (("reads", "read"), ("emits", "read and written")) if accepted else ():
            bench.add("crates", row, column, time_values, VALUES, kind, accepted)
            bench.add("crates", row, column + " by crates", time_values, CRATES, kind, accepted)


# ---- output

def number(value):
    """Three digits, or all before the point."""
    return "-" if value is None or value <= 0 else f"{value:,.{max(0, 2 - math.floor(math.log10(value)))}f}"


def print_table(title, rows, columns, value_of):
    """A table with the value of each row and column, unless there is none."""
    lines = [[value_of(row, column) for column in columns] for row in rows]
    if any(value is not None for line in lines for value in line):
        print(f"\n### {title}\n\n| | {' | '.join(columns)} |\n|---{'|--:' * len(columns)}|")
        for row, line in zip(rows, lines):
            print(f"| {row} | {' | '.join(map(number, line))} |")


def print_results(bench, sizes):
    def print_ratios(title, group, pairs):
        """Quotients of speeds, by the heads of their columns."""
        print_table(title, sizes, pairs, lambda row, head: bench.quotient((group, row, pairs[head][1]), (group, row, pairs[head][0])))

    def print_nanoseconds(title, group, rows, columns):
        print_table(title, rows, columns, lambda row, column: bench.median(1e9, group, row, column))

    def print_speeds(title, group, columns):
        def speed(row, column):
            microseconds = bench.median(1e6, group, row, column)
            return microseconds and sizes[row] / microseconds
        print_table(title, sizes, columns, speed)

    values = {"read / crates": ("read", "read by crates"),
              "read and written / crates": ("read and written", "read and written by crates")}
    print_ratios("Ratio of speeds: calls in memory, by processor time", "memory", {
        "norm / libmnl's walk": ("normalize", "libmnl"), "norm / libnl's objects": ("normalize", "libnl"),
        "check / libmnl's walk": ("check", "libmnl"), "same / libmnl's walk": ("same", "libmnl")})
    print_table("Ratio of speeds: `linkcap same FILE FILE` by user time, the call `same` by processor time", sizes, ["program / call"],
                lambda row, _: bench.quotient(("memory", row, "same"), ("programs", row, "same")))
    print_ratios("Ratio of speeds: `linkshow`, `linkshow --json` and `od -An -tx1`, by user time", "programs", {
        "lines / JSON": ("lines", "JSON"), "lines / od": ("lines", "od"), "JSON / od": ("JSON", "od")})
    print_ratios("Ratio of speeds: messages as values, by processor time", "crates", values)
    print_table("Ratio of times: calls over one message of 82 bytes, by processor time, to C's", LANGUAGES[1:], CALLS,
                lambda row, column: bench.quotient(("calls", row, column), ("calls", "C", column)))
    print_speeds("MB/s: calls in memory, by processor time", "memory", ["memcpy", "libmnl", "libnl", *CALLS[:3]])
    print_speeds("MB/s: programs, by user time", "programs",
                 ["norm", "same", "lines", "JSON", "od", "norm with system time", "cat with system time"])
    print_nanoseconds("ns for a message as values, by processor time", "crates", sizes, sum(values.values(), ()))
    print_nanoseconds("ns for a call over one message of 82 bytes, by processor time", "calls", LANGUAGES,
                      [*CALLS, "libmnl", "libnl", "pyroute2"])
    print_table("MB: peak memory of programs", sizes, ["norm", "same", "lines", "JSON"], lambda *key: bench.median(1e-6, "peak", *key))


def main():
    parser = argparse.ArgumentParser(prog="bench/run.sh", description=__doc__.split("\n")[0])
    parser.add_argument("--megabytes", metavar="N", type=float, default=50)
    parser.add_argument("--rounds", metavar="N", type=int, default=9)
    parser.add_argument("--only", metavar="GROUP,..", default=",".join(GROUPS), help=", ".join(GROUPS))
    options = parser.parse_args()
    groups = set(options.only.split(","))
    if not groups <= set(GROUPS):
        parser.error("groups are " + ", ".join(GROUPS))
    with tempfile.TemporaryDirectory() as folder:
        bench = Bench(Path(folder), groups)
        inputs = dict(make_inputs(bench)) if groups != {"calls"} else {}
        paths = {row: str(bench.work / row.replace(" ", "-")) for row in inputs}
        for row, capture in inputs.items():
            Path(paths[row]).write_bytes(capture * max(1, int(options.megabytes * 1e6) // len(capture)))
        if groups & {"memory", "calls"}:
            bench.attempt("memory, calls", add_calls, bench, paths)
        if groups & {"programs", "peak"}:
            add_programs(bench, paths)
        if "crates" in groups:
            bench.attempt("crates", add_crates, bench, inputs)
        os.sched_setaffinity(0, {max(os.sched_getaffinity(0))})
        bench.run_rounds(options.rounds)
        print(f"{options.megabytes:g} MB of each input, {options.rounds} rounds; 1 MB is 1,000,000 bytes.\n", *bench.notes, sep="\n")
        print_results(bench, {row: os.path.getsize(path) for row, path in paths.items()})


if __name__ == "__main__":
    main()
