"""Tests of the pytest fixture."""
import os
from typing import Any

import pytest

import test_record

pytest_plugins = ["pytester"]

SAMPLES = os.path.join(os.path.dirname(os.path.abspath(__file__)), "..", "..", "..", "samples")
TEST = """
def test_request(linkcap_golden):
    with open({sample!r}, "rb") as file:
        linkcap_golden(file.read(){change}, "request.lines")
"""

RECORDED = """
import linkcap


def test_add_veth(linkcap_golden):
    linkcap_golden(linkcap.record(["ip", "link", "add", "v0", "type", "veth", "peer", "name", "v1"]), "veth.lines")
"""


def run(pytester: pytest.Pytester, *options: str, change: str = "") -> Any:
    pytester.makepyfile(TEST.format(sample=os.path.join(SAMPLES, "lo-request.bin"), change=change))
    return pytester.runpytest(*options)


def test_golden_files(pytester: pytest.Pytester) -> None:
    run(pytester).assert_outcomes(failed=1)
    run(pytester, "--linkcap-update").assert_outcomes(passed=1)
    golden = (pytester.path / "request.lines").read_text()
    with open(os.path.join(SAMPLES, "lo-request.lines")) as file:
        assert golden.splitlines()[2:] == file.read().splitlines()[1:]
    run(pytester).assert_outcomes(passed=1)
    result = run(pytester, change='.replace(b"lo", b"hi")')
    result.assert_outcomes(failed=1)
    result.stdout.fnmatch_lines(['*-  IFLA_IFNAME "lo"*', '*+  IFLA_IFNAME "hi"*'])
    # the failure is shown at the test's line, without the frames of linkcap
    assert "_golden.py" not in str(result.stdout) and "pytest_plugin.py" not in str(result.stdout)


@pytest.mark.skipif(not test_record.can_record(), reason="no strace, ip, or permission to make a network namespace")
def test_a_recorded_command(pytester: pytest.Pytester, monkeypatch: pytest.MonkeyPatch) -> None:
    monkeypatch.setenv("LINKREC", test_record.LINKREC)
    pytester.makepyfile(RECORDED)
    pytester.runpytest().assert_outcomes(failed=1)
    pytester.runpytest("--linkcap-update").assert_outcomes(passed=1)
    assert 'IFLA_INFO_KIND "veth"' in (pytester.path / "veth.lines").read_text()
    pytester.runpytest().assert_outcomes(passed=1)
    pytester.makepyfile(RECORDED.replace('"v1"', '"v2"'))
    result = pytester.runpytest()
    result.assert_outcomes(failed=1)
    result.stdout.fnmatch_lines(['*-*IFLA_IFNAME "v1"*', '*+*IFLA_IFNAME "v2"*'])
