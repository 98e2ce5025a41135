"""Asks by a library of Python, for bench/clients: asking.py LIBRARY URL TOKEN BODY PAUSE COUNT

Once a line is read it asks COUNT times, with so many seconds between: a POST of the body, and two GETs of the order
`o1`, in turn. For each it prints a line: the seconds, a space, and the status or the error. Then it stays, with what
the library keeps, until its input ends.
"""

import http.client
import sys
import time
import urllib.request
from urllib.parse import urlsplit


def by_urllib(url, fields):
    def ask(target, body):
        with urllib.request.urlopen(urllib.request.Request(url + target, body, fields)) as reply:
            reply.read()
            return reply.status

    return ask


def by_http_client(url, fields):
    """A connection that is kept. Where it was closed, the request is sent again over a new one, once: http.client
    raises its ConnectionError, has no pool, and opens anew at the next request."""
    connection = http.client.HTTPConnection(urlsplit(url).netloc)

    def sent(target, body):
        connection.request("POST" if body else "GET", target, body, fields)
        reply = connection.getresponse()
        reply.read()
        return reply.status

    def ask(target, body):
        try:
            return sent(target, body)
        except ConnectionError:
            connection.close()
            return f"{sent(target, body)} again"

    return ask


def by_requests(url, fields):
    import requests

    session = requests.Session()
    session.headers.update(fields)
    return lambda target, body: session.request("POST" if body else "GET", url + target, data=body).status_code


def main():
    library, url, token, body, pause, count = sys.argv[1:]
    made = {"urllib": by_urllib, "http.client": by_http_client, "requests": by_requests}[library]
    ask = made(url, {"Authorization": f"Bearer {token}"})
    print("ready", flush=True)
    sys.stdin.readline()
    for number in range(int(count)):
        if number:
            time.sleep(float(pause))
        start = time.perf_counter()
        try:
            told = ask("/v1/order?name=o1", None) if number % 3 else ask("/v1/order", body.encode())
        except Exception as error:
            told = repr(error)
        print(time.perf_counter() - start, told, flush=True)
    sys.stdin.read()


if __name__ == "__main__":
    main()
