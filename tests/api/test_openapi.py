"""Holds docs/openapi.yaml, and its twin by OpenAPI 3.0.3 (tools/openapi30), to the built program: every request and
every reply of docs/first-chip.md, of the tests' conversations and of random requests over a running server.

A request is one that the description has exactly where the server answers neither 7 (no such path or method) nor 9 nor
10 (the body or the parameter has another form); a reply has to be of the form that the description has for its path,
method and status, with its fields, no member that isn't described, and of a refusal a number of the response's
`x-refusals` with the members of that refusal's example. The description's examples are held to their own schemas and
numbers, and each schema to JSON Schema 2020-12.
"""

import contextlib
import json
import re
import subprocess
import sys
from pathlib import Path
from urllib.parse import urlsplit

import pytest

from api.openapi_description import Description, faults_of_examples, faults_of_form, faults_of_specification
from api.openapi_random import DIGEST, MAP, SITE, TOKENS, WORDS, Asking, Server, fields_of, replies_in
from common.needs import ROOT
from common.pages import BLOCK, SECONDS, Shell, steps_of
from common.ports import ports_in_row

CONVERSATIONS = ROOT / "crates/test_fixtures/src/conversations"
TEXT = re.compile(r'const (\w+): &str = r#"\n(.*?)"#;', re.DOTALL)
LOCKED = "e96d07bc3b7df96f50dff86c928556204aa1af88fc584d41f0698c5182763676"
# The shell may run as another user than this script, who has another Python.
RECORDER = '''#!/usr/bin/env python3
import json, os, subprocess, sys, tempfile
here = os.path.dirname(os.path.abspath(sys.argv[0]))
paths = [path for path in os.environ["PATH"].split(":") if os.path.abspath(path) != here]
os.environ["PATH"] = ":".join(paths)
words, data = sys.argv[1:], None
given = sys.stdin.buffer.read() if "@-" in words else b""
for place, word in enumerate(words):
    if word in ("-d", "--data", "--data-binary"):
        data = given.decode() if words[place + 1] == "@-" else words[place + 1]
with tempfile.TemporaryDirectory() as folder:
    head, body = folder + "/head", folder + "/body"
    done = subprocess.run(["curl", *words, "-D", head, "-o", body], input=given, stdout=subprocess.PIPE)
    told = open(body, "rb").read() if os.path.exists(body) else b""
    lines = open(head).read().split("\\n") if os.path.exists(head) else []
sys.stdout.buffer.write(told + done.stdout)
url = next((word for word in words if word.startswith("http://")), None)
if url and lines and lines[0]:
    text = told.split(b"\\r\\n\\r\\n", 1)[1] if told.startswith(b"HTTP/") else told
    with open(os.environ["RECORD"], "a") as out:
        print(json.dumps([url, data, lines, text.decode()]), file=out)
sys.exit(done.returncode)
'''


def hold(description, method, target, body, status, fields, text):
    """Holds a request and its reply to the description."""
    path, _, query = target.partition("?")
    operation = description.operation(method, path)
    number = json.loads(text).get("no") if text.startswith("{") else None
    told = f"{method} {target} {body[:200]!r} -> {text:.200}"
    if operation is None:
        unknown = description.all["components"]["responses"]["UnknownPath"]
        fault = description.fault_of_reply({"responses": {"404": unknown}}, status, fields, text)
        assert number == 6 or number == 7 and not fault, f"{told}: no such path or method: {fault}"
        return
    assert not (fault := description.fault_of_reply(operation, status, fields, text)), f"{told}: reply: {fault}"
    if number not in (1, 2, 3, 4, 6, 8):
        is_described = description.asks(operation, query, body)
        assert is_described == (number not in (9, 10)), f"{told}: {'' if is_described else 'not '}described"


@pytest.fixture(scope="module", params=["docs/openapi.yaml", "its twin by 3.0.3"])
def description(request, tmp_path_factory):
    if request.param == "docs/openapi.yaml":
        return Description(ROOT / request.param)
    twin = tmp_path_factory.mktemp("twin") / "twin.json"
    subprocess.run([sys.executable, ROOT / "tools/openapi30", "--out", twin], check=True)
    return Description(twin)


@pytest.mark.parametrize("faults", [faults_of_form, faults_of_examples, faults_of_specification])
def test_the_description_itself(description, faults):
    assert not list(faults(description))


@pytest.mark.needs("reader", "bash", "curl", "jq", "xxd", "sqlite3", "sha256sum")
def test_the_first_chip(description, program):
    """The requests of docs/first-chip.md, as curl sends them."""
    shell = Shell(program, ports_in_row(4), SECONDS)
    try:
        folder = Path(shell.folder.name)
        recorder, record = folder / "bin/curl", folder / "record"
        recorder.write_text(RECORDER, encoding="utf-8")
        recorder.chmod(0o755)
        record.touch()
        record.chmod(0o666)
        shell.reply([f"export RECORD={record}"])
        for block in BLOCK.findall((ROOT / "docs/first-chip.md").read_text(encoding="utf-8")):
            for step in steps_of(block):
                shell.reply(step.lines)
        records = record.read_text(encoding="utf-8").splitlines()
        assert len(records) > 8
        for line in records:
            url, data, lines, text = json.loads(line)
            parts = urlsplit(url)
            target = parts.path + (f"?{parts.query}" if parts.query else "")
            status = int(lines[0].split()[1])
            method, body = ("GET", b"") if data is None else ("POST", data.encode())
            hold(description, method, target, body, status, fields_of(lines[1:]), text)
    finally:
        shell.close()


def filled(text):
    """A body of a conversation with what its placeholders stand for."""
    text = text.replace("$DIGEST", DIGEST).replace("$LOCKED", LOCKED).replace("$NONE", '{"bits":[],"keys":{}}')
    if "<" in text:
        before, _, rest = text.partition("<")
        words, _, after = rest.partition(">")
        shown = dict(word.split("=") for word in words.split())
        blocks = [[shown.get(f"{block}.{place}", "0" * 8) for place in range(size)] for block, size in enumerate(WORDS)]
        text = before + json.dumps(blocks, separators=(",", ":")) + after
    while "$TIMES~" in text:
        before, _, rest = text.partition("$TIMES~")
        count, repeated, after = rest.split("~", 2)
        text = before + "".join(repeated.replace("#", str(100 + n)) for n in range(int(count))) + after
    if "$MAP" in text:
        before, _, after = text.partition("$MAP")
        told = MAP.replace('"', '\\"').replace("\n", "\\n")
        if after.startswith("~"):
            old, new, after = after[1:].split("~", 2)
            told = told.replace(old, new)
        text = before + told + after
    before, mark, after = text.partition("$FF")
    return before.encode() + (b"\xff" + after.encode() if mark else b"")


def requests_of(text, texts):
    """The requests of a conversation, those of its prelude first."""
    preludes = {"order": ["ORDER"], "map": ["ORDER", "MAP"], "chip": ["ORDER", "MAP", "CHIP"]}
    preludes["settled"] = [*preludes["chip"], "SETTLED"]
    for line in text.splitlines():
        if line.startswith("@ "):
            for name in preludes[line[2:]]:
                yield from requests_of(texts[name], texts)
        elif line and not line.startswith(("#", " ")) and not re.match(r"\d{3} |csv ", line):
            caller, method, target, *body = line.split(" ", 3)
            yield caller, method, target, filled(body[0] if body else "")


def bytes_of(caller, method, target, body):
    first = f"{method} {target} HTTP/1.1\r\nAuthorization: Bearer {TOKENS.get(caller, 'zzz')}"
    return f"{first}\r\nContent-Length: {len(body)}\r\n\r\n".encode() + body


PRELUDES = dict(TEXT.findall((CONVERSATIONS / "preludes.rt").read_text(encoding="utf-8")))
TEXTS = [
    pytest.param(text, id=f"{path.stem} {name}")
    for path in sorted(CONVERSATIONS.glob("*.rt"))
    for name, text in TEXT.findall(path.read_text(encoding="utf-8"))
]


@pytest.mark.parametrize("text", TEXTS)
def test_a_conversation(description, program, text):
    """The requests of one of the tests' conversations, over a new store in memory."""
    asked = list(requests_of(text, PRELUDES))
    stream = b"".join(bytes_of(*request) for request in asked)
    done = subprocess.run([program, "replay", "--site", SITE], input=stream, stdout=subprocess.PIPE, check=True)
    for (_, method, target, body), (status, fields, told) in zip(asked, replies_in(done.stdout), strict=True):
        hold(description, method, target, body, status, fields, told)


@pytest.mark.sizes(2000, 20_000)
def test_random_requests(description, program, tmp_path, size, seed):
    asking = Asking(seed)
    with contextlib.closing(Server(program, tmp_path)) as server:
        for _ in range(size):
            caller, method, target, body = asking.request()
            status, fields, text = server.ask(caller, method, target, body)
            hold(description, method, target, body, status, fields, text)
            number = re.search(rb'"nr": (\d+)[,}]', body)
            if method == "POST" and status == 200 and number:
                asking.numbers[caller] = max(asking.numbers.get(caller, 1), int(number[1]) + 1)
    assert asking.numbers["a1"] > size // 100, "few requests took a number"


TOP = b"POST /v1/order HTTP/1.1\r\nAuthorization: Bearer abc\r\n"
FIELDS = (b"Content-Length: x", b"Content-Length: 65537", b"Transfer-Encoding: chunked")


@pytest.mark.parametrize("data", [b"x y z\r\n\r\n", *(TOP + field + b"\r\n\r\n" for field in FIELDS)])
def test_a_head_that_cannot_be_read(description, program, tmp_path, data):
    with contextlib.closing(Server(program, tmp_path)) as server:
        hold(description, "POST", "/v1/order", data, *server.send(data))
