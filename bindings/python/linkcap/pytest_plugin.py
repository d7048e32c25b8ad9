"""A pytest fixture for golden files of lines, and the option that writes them."""
import os
from typing import Any, Callable

import pytest

from ._golden import golden
from ._native import Capture


def pytest_addoption(parser: pytest.Parser) -> None:
    parser.addoption("--linkcap-update", action="store_true", help="write the golden files of linkcap_golden")


@pytest.fixture
def linkcap_golden(request: pytest.FixtureRequest) -> Callable[..., None]:
    """`linkcap.golden` for files in the folder of the test's file. Under --linkcap-update it writes them."""

    def compare(capture: Capture, name: str, **options: Any) -> None:
        __tracebackhide__ = True
        options.setdefault("update", request.config.getoption("--linkcap-update"))
        golden(capture, os.path.relpath(request.path.parent / name), **options)

    return compare
