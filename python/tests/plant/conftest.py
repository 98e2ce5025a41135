"""Where the repository's folders are, for the tests."""

import os
import pathlib
import signal
from unittest import mock

import pytest

TOP = pathlib.Path(__file__).resolve().parents[3]
DEPLOY = TOP / "deploy"
FAMILIES = TOP / "python/wanekupo/chips/families"


@pytest.fixture(autouse=True)
def hurry():
    """A test that waits for ever, as for who reads a pipe, fails."""
    signal.signal(signal.SIGALRM, lambda *_: pytest.fail("waited for ever"))
    signal.alarm(60)
    yield
    signal.alarm(0)


@pytest.fixture(autouse=True)
def own_environment():
    """What a command that cleans its environment does to this process ends with its test."""
    with mock.patch.dict(os.environ):
        yield
