"""Each operation of docs/openapi.yaml through a client that Debian's libopenapi-client-perl makes of its twin."""

import subprocess

import pytest

from common.needs import ROOT


@pytest.mark.needs("perl", "/usr/share/perl5/OpenAPI/Client.pm")
def test_each_operation(program):
    """A chip's life, a chip that is scrapped, what each shows, and requests that the client itself refuses."""
    words = ["perl", ROOT / "tests/api/openapi_client.pl", "--program", program]
    done = subprocess.run(words, capture_output=True, text=True, timeout=300)
    assert (done.returncode, ": 0 faults\n" in done.stdout) == (0, True), done.stdout + done.stderr
