"""Tests of golden files and of `python -m linkcap`."""
import json
import os
import re
import subprocess
import sys
import tempfile
import unittest
from typing import Any, List, Tuple

import linkcap
from linkcap import lines_replace
from support import TOP, read, sample, selected_lines

REFUSED = bytes.fromhex("28000000100000000000000000000000") + bytes(16) + bytes.fromhex("0700040001020300")


def selected(capture: bytes, without: str = "", **choice: Any) -> bytes:
    """The lines that options of linkshow select, by the independent implementation."""
    return selected_lines(capture, without, **choice)[0].encode()


class Golden(unittest.TestCase):
    def setUp(self) -> None:
        self.capture = sample("lo-request.bin")
        folder = tempfile.TemporaryDirectory()
        self.addCleanup(folder.cleanup)
        self.path = os.path.join(folder.name, "golden", "new", "lo.lines")

    def read(self) -> str:
        with open(self.path, encoding="ascii", newline="") as file:
            return file.read()

    def write(self, text: str) -> None:
        os.makedirs(os.path.dirname(self.path), exist_ok=True)
        with open(self.path, "w", encoding="utf-8", newline="") as file:
            file.write(text)

    def test_lines_of_samples(self) -> None:
        for name in ("get-veth", "lo-request", "notify-vrf", "req-veth"):
            capture = sample(name + ".bin")
            self.assertEqual(linkcap.lines(capture), sample(name + ".lines").decode())
            linkcap.golden(capture, os.path.join(TOP, "samples", name + ".lines"), numbers=True)
        first, *rest = linkcap.lines(self.capture, numbers=False).splitlines()
        self.assertEqual(first, "RTM_GETLINK flags 0x301 (REQUEST | ROOT | MATCH)")
        self.assertEqual(rest, sample("lo-request.lines").decode().splitlines()[1:])

    def test_numbers_are_left_out_by_default(self) -> None:
        linkcap.golden(self.capture, self.path, update=True)
        first, *rest = self.read().splitlines()
        self.assertEqual(first, "# linkcap lines, format 4")
        self.assertEqual(rest[0], "RTM_GETLINK flags 0x301 (REQUEST | ROOT | MATCH)")
        self.assertEqual(rest[1:], sample("lo-request.lines").decode().splitlines()[1:])
        linkcap.golden(self.capture, self.path)
        # another sequence number
        linkcap.golden(self.capture[:8] + b"\1\2\3\4" + self.capture[12:], self.path)
        with self.assertRaises(AssertionError):
            linkcap.golden(self.capture, self.path, numbers=True)
        linkcap.golden(self.capture, self.path, update=True, numbers=True)
        self.assertEqual(self.read().splitlines()[1:], sample("lo-request.lines").decode().splitlines())

    def test_difference(self) -> None:
        with self.assertRaisesRegex(AssertionError, "no golden file"):
            linkcap.golden(self.capture, self.path)
        linkcap.golden(self.capture, self.path, update=True)
        other = self.capture.replace(b"lo", b"hi")
        with self.assertRaisesRegex(AssertionError, '(?s)^the capture isn\'t .*\n-  IFLA_IFNAME "lo"\n\\+  IFLA_IFNAME "hi"\n'):
            linkcap.golden(other, self.path)
        linkcap.golden(other + self.capture, self.path, update=True, only=["getlink"])
        linkcap.golden(other + self.capture, self.path, only=[18])

    def test_selected_lines(self) -> None:
        """The file has what the options leave out in its head, so a test without them leaves it out too."""
        other = self.capture.replace(b"lo", b"hi")
        linkcap.golden(self.capture + other, self.path, update=True, link="hi", without=["IFLA_EXT_MASK", "counters"])
        head, left_out, *rest = self.read().splitlines()
        self.assertEqual(left_out, "# leaves out: IFLA_EXT_MASK, counters")
        self.assertEqual([line.split()[0] for line in rest], ["RTM_GETLINK", "ifinfomsg", "IFLA_IFNAME"])
        linkcap.golden(other, self.path)
        linkcap.golden(self.capture + other, self.path, link="hi", without=["ifla_ext_mask"])
        with self.assertRaisesRegex(AssertionError, '-  IFLA_IFNAME "hi"\n'):
            linkcap.golden(other, self.path, without=["IFLA_IFNAME"])
        with self.assertRaisesRegex(AssertionError, "no message that is selected"):
            linkcap.golden(other, self.path, link="lo")
        with self.assertRaisesRegex(ValueError, "IFLA_NAM"):
            linkcap.golden(other, self.path, without=["IFLA_NAM"])
        for name in ("json", "offsets", "keep_going", "onyl"):
            with self.assertRaisesRegex(TypeError, "golden.. got an unexpected keyword argument '" + name):
                linkcap.golden(other, self.path, **{name: True})  # type: ignore[arg-type]
        for without in ("IFLA_MTU", b"IFLA_MTU"):
            with self.assertRaisesRegex(TypeError, "a list of names"):
                linkcap.golden(other, self.path, without=without)  # type: ignore[arg-type]

    def test_names_are_replaced(self) -> None:
        linkcap.golden(self.capture, self.path, update=True, replace=["l[a-z]=link"])
        self.assertEqual(self.read().splitlines()[-1], '  IFLA_IFNAME "link"')
        linkcap.golden(self.capture.replace(b"lo", b"lx"), self.path, replace=["l[a-z]=link"])
        with self.assertRaisesRegex(AssertionError, '\\+  IFLA_IFNAME "hi"\n'):
            linkcap.golden(self.capture.replace(b"lo", b"hi"), self.path, replace=["l[a-z]=link"])
        for word in ("lo", "l[=link", "lo=1"):
            with self.assertRaisesRegex(ValueError, "^" + re.escape(word) + ": "):
                linkcap.golden(self.capture, self.path, replace=[word])

    def test_replaced_names_are_numbered(self) -> None:
        lines = ['  IFLA_IFNAME "v1"', "  IFLA_ADDRESS 02:00:00:00:00:01", '  IFLA_MASTER "v2"', '  IFLA_INFO_KIND "v1"',
                 '  ifinfomsg index "v1" flags 0x0', "  IFLA_BR_ROOT_ID 8000.020000000001", '  IFLA_IFALIAS "v2"']
        replacement = lines_replace.Replacement(["v.=port", "02:.*=mac"])
        self.assertEqual(replacement.apply(lines), [
            '  IFLA_IFNAME "port"', "  IFLA_ADDRESS mac", '  IFLA_MASTER "port#2"', '  IFLA_INFO_KIND "v1"',
            '  ifinfomsg index "port" flags 0x0', "  IFLA_BR_ROOT_ID 8000.mac", '  IFLA_IFALIAS "v2"'])
        self.assertEqual(replacement.apply(['  FRA_IIFNAME "v2"']), ['  FRA_IIFNAME "port#2"'])

    def test_faults_and_empty_captures(self) -> None:
        with self.assertRaisesRegex(linkcap.Fault, "cut frame at 0"):
            linkcap.golden(self.capture[:-1], self.path)
        with self.assertRaisesRegex(linkcap.Fault, "refused body at 0: IFLA_MTU: a payload of 3 bytes at 32"):
            linkcap.golden(REFUSED, self.path)
        for update in (True, False):
            with self.assertRaisesRegex(AssertionError, "empty"):
                linkcap.golden(b"", self.path, update=update)
            with self.assertRaisesRegex(AssertionError, "no message that is selected"):
                linkcap.golden(self.capture, self.path, update=update, only=["newlink"])
        self.assertFalse(os.path.exists(self.path))

    def test_formats(self) -> None:
        lines = linkcap.lines(self.capture, numbers=False)
        self.write(lines)
        linkcap.golden(self.capture, self.path)
        self.write("# linkcap lines, format 3\n" + lines.replace("lo", "hi"))
        with self.assertRaisesRegex(AssertionError, "has lines of format 3, and this linkcap writes format 4"):
            linkcap.golden(self.capture, self.path)

    def test_what_a_head_leaves_out(self) -> None:
        linkcap.golden(self.capture, self.path, update=True, numbers=True)
        first, *rest = [line for line in self.read().splitlines() if "IFLA_EXT_MASK" not in line]
        rest[0] = rest[0][:rest[0].index(" seq ")]
        head = [first, "# leaves out: numbers", '# leaves out what varies: RTM_GETLINK "lo" > IFLA_EXT_MASK']
        self.write("\n".join(head + rest) + "\n")
        linkcap.golden(self.capture, self.path, numbers=True)
        with self.assertRaisesRegex(AssertionError, '(?s)-  IFLA_IFNAME "lo".*\\+  IFLA_EXT_MASK'):
            linkcap.golden(self.capture.replace(b"lo", b"hi"), self.path)
        self.write("\n".join([first, "# leaves out: numbers, IFLA_NAM", *rest]))
        with self.assertRaisesRegex(ValueError, "no attribute or group is called IFLA_NAM"):
            linkcap.golden(self.capture, self.path)

    def test_format_is_that_of_linkshow(self) -> None:
        self.assertIn(f"\n## 0.1.0 (format {linkcap.FORMAT})\n", read("CHANGELOG.md").decode())
        self.assertIn(f"\n#define LINKCAP_FORMAT {linkcap.FORMAT}\n", read("bindings", "c", "linkcap.h").decode())

    def test_line_ends(self) -> None:
        linkcap.golden(self.capture, self.path, update=True)
        self.write(self.read().replace("\n", "\r\n"))
        with self.assertRaisesRegex(AssertionError, "CRLF"):
            linkcap.golden(self.capture, self.path)
        self.write(self.read().replace("\r\n", "\n").rstrip("\n"))
        with self.assertRaisesRegex(AssertionError, "No newline at end of file"):
            linkcap.golden(self.capture, self.path)
        self.write("caf\u00e9\n")
        with self.assertRaisesRegex(AssertionError, "(?s)isn't that of the golden file.*-caf"):
            linkcap.golden(self.capture, self.path)

    def test_frames_are_hidden(self) -> None:
        class Inner(unittest.TestCase):
            def runTest(inner) -> None:
                linkcap.golden(self.capture, self.path)

        result = unittest.TestResult()
        Inner().run(result)
        (_, message), = result.failures
        self.assertIn("no golden file", message)
        self.assertNotIn(os.path.join("linkcap", "_golden.py"), message)


class Program(unittest.TestCase):
    """`python -m linkcap`."""

    def run_program(self, *arguments: str, stdin: bytes = b"") -> "subprocess.CompletedProcess[bytes]":
        command = [sys.executable, "-m", "linkcap", *arguments]
        return subprocess.run(command, input=stdin, stdout=subprocess.PIPE, stderr=subprocess.PIPE, check=False)

    def test_program(self) -> None:
        request, path = sample("req-veth.bin"), os.path.join(TOP, "samples", "req-veth.bin")
        length, other = len(request), os.path.join(TOP, "samples", "lo-request.bin")
        cases: List[Tuple[List[str], bytes, int, bytes, bytes]] = [
            (["norm"], request, 0, request, b""),
            (["norm", path], b"", 0, request, b""),
            (["norm"], request + b"\x30\0\0\0", 2, request, f"cut frame at {length}\n".encode()),
            (["norm"], REFUSED, 2, b"", b"refused body at 0: IFLA_MTU: a payload of 3 bytes at 32\n"),
            (["same", path, "-"], request, 0, b"same\n", b""),
            (["same", path, other], b"", 1, b"different\n", b""),
            (["same", other, "-"], sample("lo-request.bin")[:-1], 2, b"", b"second: cut frame at 0\n"),
            (["lines"], request, 0, sample("req-veth.lines"), b""),
            (["lines", other], b"", 0, sample("lo-request.lines"), b""),
            (["lines", "--only", "getlink,3", other], b"", 0, sample("lo-request.lines"), b""),
            (["lines", "--without", "numbers,IFLA_EXT_MASK", "--offsets", other], b"", 0,
             selected(sample("lo-request.bin"), "numbers,IFLA_EXT_MASK", offsets=True), b""),
            (["lines", "--link", "no such link", other], b"", 0, b"", b""),
            (["lines", "--keep-going"], REFUSED + request, 2, selected(REFUSED + request, keep_going=True),
             b"refused body at 0: IFLA_MTU: a payload of 3 bytes at 32\n"),
            (["lines", "--without", "IFLA_STAT", other], b"", 3, b"",
             b"linkcap: no attribute or group is called 'IFLA_STAT'\n"),
            (["messages", other], b"", 0, b"0 48 18\n", b""),
            (["same", "--without-numbers", other, "-"], self.with_other_numbers(), 0, b"same\n", b""),
            (["same", other, "-"], self.with_other_numbers(), 1, b"different\n", b""),
            (["quirks"], sample("lo-request.bin")[:17] + b"\1" + sample("lo-request.bin")[18:], 0,
             b"second byte of the header of RTM_GETLINK at 17\n", b""),
            (["norm", "--limit", "15"], b"", 3, b"", b"linkcap: a limit is a number from 16 to 4294967295\n"),
        ]
        for arguments, stdin, status, out, error in cases:
            process = self.run_program(*arguments, stdin=stdin)
            self.assertEqual((process.returncode, process.stdout, process.stderr), (status, out, error), arguments)

    def with_other_numbers(self) -> bytes:
        """A request with another sequence number."""
        capture = sample("lo-request.bin")
        return capture[:8] + b"\1\2\3\4" + capture[12:]

    def test_json(self) -> None:
        process = self.run_program("json", "--without-numbers", os.path.join(TOP, "samples", "lo-request.bin"))
        message = json.loads(process.stdout)
        self.assertEqual((message["type"], message["flags"]["value"]), ("RTM_GETLINK", 0x301))
        self.assertIn(("IFLA_IFNAME", "lo"), [(one["name"], one["value"]) for one in message["attributes"]])
        self.assertNotIn("seq", message)

    def test_json_of_a_fault(self) -> None:
        request = sample("lo-request.bin")
        before = self.run_program("json", stdin=request + REFUSED)
        self.assertEqual((before.returncode, json.loads(before.stdout)["type"]), (2, "RTM_GETLINK"))
        both = self.run_program("json", "--keep-going", "--offsets", stdin=request + REFUSED)
        message = json.loads(both.stdout.splitlines()[1])
        self.assertEqual((both.returncode, message["offset"], message["refused"]),
                         (2, len(request), "IFLA_MTU: a payload of 3 bytes"))

    def test_usage(self) -> None:
        wrong: List[List[str]] = [[], ["norn"], ["same", "one"], ["lines", "--only", "newlnk"]]
        for arguments in wrong:
            self.assertEqual(self.run_program(*arguments).returncode, 3, arguments)
        self.assertEqual(self.run_program("norm", os.path.join(TOP, "missing")).returncode, 2)
        version = self.run_program("--version").stdout.decode()
        self.assertTrue(version.startswith(f"linkcap {linkcap.__version__} (interface 3, lines 4), library "), version)
        self.assertIn(linkcap.LIBRARY_PATH, version)


if __name__ == "__main__":
    unittest.main()
