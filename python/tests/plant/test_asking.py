"""How a growth asks the server and nginx: who gets the token, whose certificate it has to be, and what no answer is."""

import contextlib
import http.client
import socket
import ssl
import threading
import time
import urllib.error

import pytest
from wanekupo.plant.site import apply as applying
from wanekupo.common.token_file import TokenError


@contextlib.contextmanager
def answering(*parts, many=1, pause=0.0):
    """A server on a port of its own, which answers each request by these parts; gives its address and the requests."""
    requests = []

    def answer(connection):
        with connection, contextlib.suppress(OSError):
            requests.append(connection.recv(4096).decode())
            for part in (part for _ in range(many) for part in parts):
                connection.sendall(part)
                time.sleep(pause)

    def serve():
        with contextlib.suppress(OSError):
            while True:
                threading.Thread(target=answer, args=(listener.accept()[0],), daemon=True).start()

    with socket.create_server(("127.0.0.1", 0)) as listener:
        threading.Thread(target=serve, daemon=True).start()
        yield f"http://127.0.0.1:{listener.getsockname()[1]}", requests
        listener.shutdown(socket.SHUT_RDWR)


def reply(line):
    return f"HTTP/1.1 {line}\r\nContent-Length: 0\r\n\r\n".encode()


@pytest.mark.parametrize("status", [200, 401, 404, 502])
def test_the_status_of_an_answer(status):
    with answering(reply(f"{status} x")) as (url, requests):
        assert applying.status_of(f"{url}/v1/order?name=x", "") == status
    assert requests[0].startswith("GET /v1/order?name=x HTTP/1.1\r\n") and "Authorization" not in requests[0]


def test_a_token_goes_to_the_asked_server_alone(monkeypatch):
    """No proxy of the environment gets it, and no server that an answer names is asked, with it or without."""
    with answering(reply("200 x")) as (other, others):
        monkeypatch.setenv("http_proxy", other)
        with answering(reply(f"302 x\r\nLocation: {other}/reached")) as (url, requests):
            assert applying.status_of(f"{url}/", "TOKEN") == 302
    assert "\r\nAuthorization: Bearer TOKEN\r\n" in requests[0] and others == []


@pytest.mark.parametrize("parts, pause", [
    ((b"HTTP/1.1 200 OK\r\nX: ", b"a"), 0.05), ((b"HTTP/1.1 100 Continue\r\n\r\n" * 100,), 0.0), ((b"",), 9.0),
])  # fmt: skip
def test_no_answer_keeps_root_for_ever(monkeypatch, parts, pause):
    """Neither a byte at a time, nor one that is always to come, nor none."""
    monkeypatch.setattr(applying, "PATIENCE", 0.5)
    begun = time.monotonic()
    with answering(*parts, many=1_000_000, pause=pause) as (url, _):
        with pytest.raises((OSError, http.client.HTTPException)):
            applying.status_of(f"{url}/", "")
    assert time.monotonic() - begun < 8


def test_nginx_has_to_have_the_certificate_of_the_file(monkeypatch):
    files, contexts = [], []

    def context(cafile):
        files.append(cafile)
        return ssl.SSLContext(ssl.PROTOCOL_TLS_CLIENT)

    def connection(host, port, timeout, context):
        contexts.append(context)
        return http.client.HTTPConnection(host, port, timeout=timeout)

    monkeypatch.setattr(applying.ssl, "create_default_context", context)
    monkeypatch.setattr(applying.http.client, "HTTPSConnection", connection)
    with answering(reply("200 x")) as (url, _):
        assert applying.status_of(url.replace("http:", "https:"), "T", "/c.pem") == 200
    (made,) = contexts
    assert files == ["/c.pem"] and made.verify_mode == ssl.CERT_REQUIRED and not made.check_hostname
    assert made.verify_flags & ssl.VERIFY_X509_PARTIAL_CHAIN


def test_no_answer_is_told(monkeypatch):
    for error in (urllib.error.URLError("refused"), http.client.RemoteDisconnected("refused"), TimeoutError("refused")):
        with pytest.raises(TokenError, match="nginx gives no answer: .*refused") as found:
            monkeypatch.setattr(applying, "status_of", lambda *_, error=error: (_ for _ in ()).throw(error))
            applying.answer_of("nginx", "https://x", "SECRET")
        assert found.value.status == 5 and "SECRET" not in str(found.value)
