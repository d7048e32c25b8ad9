"""Tests of `record` with the repository's linkrec. They are skipped without strace, ip, or permission to make a namespace."""
import os
import shutil
import subprocess
import tempfile
import unittest
from unittest import mock

import linkcap
import support

LINKREC = os.path.join(support.TOP, "scripts", "linkrec")
ADD = ["ip", "link", "add", "v0", "type", "veth", "peer", "name", "v1"]


def can_record() -> bool:
    """Whether strace works in a new network namespace."""
    if not all(map(shutil.which, ("strace", "unshare", "ip"))):
        return False
    command = ["unshare", "--map-root-user", "--net", "strace", "-qq", "-o", os.devnull, "true"]
    return subprocess.run(command, stderr=subprocess.DEVNULL, check=False).returncode == 0


@unittest.skipUnless(can_record(), "no strace, ip, or permission to make a network namespace")
class Record(unittest.TestCase):
    def setUp(self) -> None:
        patch = mock.patch.dict(os.environ, LINKREC=LINKREC)
        patch.start()
        self.addCleanup(patch.stop)

    def test_a_command(self) -> None:
        types = [message.type for message in linkcap.messages(linkcap.record(ADD))]
        self.assertIn(16, types)
        lines = linkcap.lines(linkcap.record(ADD), numbers=False)
        self.assertIn('  IFLA_IFNAME "v0"\n', lines)
        self.assertEqual(lines, linkcap.lines(linkcap.record(ADD), numbers=False))

    def test_a_setup(self) -> None:
        capture = linkcap.record(["ip", "link", "set", "v1", "up"], setup=[" ".join(ADD)])
        self.assertNotIn("veth", linkcap.lines(capture))

    def test_golden_files_have_names(self) -> None:
        setup = ["ip link add br0 type bridge", "ip link add br1 type bridge", " ".join(ADD)]
        recording = linkcap.record(["ip", "link", "set", "v0", "master", "br0"], setup=setup)
        self.assertIn("br0", [name for entry in recording.entries.values() for name in entry["names"].values()])
        with tempfile.TemporaryDirectory() as folder:
            path = os.path.join(folder, "master.lines")
            linkcap.golden(recording, path, update=True)
            with open(path, encoding="ascii") as file:
                text = file.read()
            self.assertTrue(text.endswith('index "v0" flags 0x0 change 0x0\n  IFLA_MASTER "br0"\n'), text)
            self.assertNotIn("refused", text)
            self.assertIn("\n# leaves out: padding, probes\n", text)
            linkcap.golden(linkcap.record(["ip", "link", "set", "v0", "master", "br0"], setup=setup), path)
            linkcap.golden(recording, path, update=True, without=["IFLA_MASTER"])
            with open(path, encoding="ascii") as file:
                self.assertRegex(file.read(), '\n# leaves out: IFLA_MASTER, padding, probes\n(?s:.*)index "v0" flags 0x0 change 0x0\n\\Z')
            linkcap.golden(recording, path)
            linkcap.golden(recording, path, update=True)
            with self.assertRaisesRegex(AssertionError, '-  IFLA_MASTER "br0"\n\\+  IFLA_MASTER "br1"\n'):
                linkcap.golden(linkcap.record(["ip", "link", "set", "v0", "master", "br1"], setup=setup), path)

    def test_the_record_of_another_capture(self) -> None:
        recording = linkcap.record(ADD)
        with tempfile.TemporaryDirectory() as folder:
            path = os.path.join(folder, "made.bin")
            with open(path, "wb") as file:
                file.write(recording)
            with self.assertRaises(FileNotFoundError):
                linkcap.Recording.read(path)
            with open(path + ".record", "w", encoding="ascii") as record:
                record.write('{"record": 1}\n')
            with self.assertRaisesRegex(ValueError, "a record of another capture, without the message at 0"):
                linkcap.Recording.read(path)

    def test_failures(self) -> None:
        with self.assertRaisesRegex(linkcap.RecordError, "ip ended with status 2: .*no_such_kind|Unknown device type"):
            linkcap.record(["ip", "link", "add", "v0", "type", "no_such_kind"])
        with self.assertRaisesRegex(linkcap.RecordError, "no-such-command"):
            linkcap.record(["no-such-command"])

    def test_a_command_that_may_fail(self) -> None:
        command = ["sh", "-c", " ".join(ADD) + "; ip link set v2 up; exit 3"]
        with self.assertRaisesRegex(linkcap.RecordError, "sh ended with status 3"):
            linkcap.record(command)
        capture = linkcap.record(command, may_fail=True)
        self.assertIn('  IFLA_IFNAME "v0"\n', linkcap.lines(capture))
        with self.assertRaisesRegex(linkcap.RecordError, "no-such-command"):
            linkcap.record(["no-such-command"], may_fail=True)
        with self.assertRaisesRegex(linkcap.RecordError, "ended with status 125"):
            linkcap.record(ADD, setup=["false"], may_fail=True)

    def test_wrong_arguments(self) -> None:
        for command in ("ip link", b"ip link"):
            with self.assertRaisesRegex(TypeError, "a list of words"):
                linkcap.record(command)  # type: ignore[arg-type]
        with self.assertRaisesRegex(ValueError, "a word at least"):
            linkcap.record([])
        with self.assertRaisesRegex(TypeError, "a list of shell commands"):
            linkcap.record(ADD, setup="ip link add d0 type dummy")

    def test_an_older_linkrec(self) -> None:
        with tempfile.TemporaryDirectory() as folder:
            path = os.path.join(folder, "linkrec")
            with open(path, "w", encoding="ascii") as script:
                script.write('#!/bin/sh\n: > "$4"\n')
            os.chmod(path, 0o755)
            with mock.patch.dict(os.environ, LINKREC=path), self.assertRaisesRegex(linkcap.RecordError, "wrote no record"):
                linkcap.record(ADD)

    def test_no_linkrec(self) -> None:
        with mock.patch.dict(os.environ, LINKREC="/nowhere/linkrec"), self.assertRaisesRegex(linkcap.RecordError, "no program"):
            linkcap.record(ADD)


if __name__ == "__main__":
    unittest.main()
