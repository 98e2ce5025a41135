"""Requests at random for test_openapi.py, with a server that takes them."""

import http.client
import json
import random
import socket
import subprocess

from common.needs import ROOT
from common.pages import SECONDS
from common.ports import free_port

SITE = ROOT / "crates/station/data/site.toml"
MAP = (ROOT / "crates/station/data/map.toml").read_text(encoding="utf-8")
TOKENS = {"a1": "abc", "b1": "hello", "manager": "test"}
DIGEST = "453e1a59aaf4956999cac589cf209d34bfa882946bada4f1aa5199c4256c4fab"
KEY = "ba7816bf8f01cfea414140de5dae2223b00361a396177a9cb410ff61f20015ad"
WORDS = [7, 8, 8, 8]


def fields_of(lines):
    """The fields of a head's lines, in small letters."""
    return {name.lower(): value.strip() for name, mark, value in (line.partition(":") for line in lines) if mark}


def replies_in(data):
    """The replies of a stream, each with its status, fields and text."""
    while data:
        head, _, data = data.partition(b"\r\n\r\n")
        first, *lines = head.decode().split("\r\n")
        fields = fields_of(lines)
        size = int(fields["content-length"])
        yield int(first.split()[1]), fields, data[:size].decode()
        data = data[size:]


class Asking:
    """Requests at random: mostly as they should be, so that they reach the books, and some with a part of another
    form."""

    OTHERS = [None, True, -1, 0, 1, 4, 5, 9, 10, 10001, 2**53 - 1, 2**53, 1.0, 1.5, "", "1", "x", "o1", "é", "A" * 33]
    OTHERS += ["o1\n", [], {}, ["00000000"], "0" * 64, "F" * 64, "0" * 65, "240AC4000001", "ff", "abc", [[]], [["0"]]]
    OTHERS += [[["00000000"] * 9], [["00000000"]] * 5, [["0000000g"]]]

    def __init__(self, seed):
        self.random, self.numbers, self.key, self.asked = random.Random(seed), {"a1": 1, "b1": 1}, 0, 0

    def chip(self):
        return f"24{self.random.randrange(40):010x}"

    def order(self):
        return f"o{self.random.choice([0] * 9 + [*range(30)])}"

    def blocks(self):
        shown = [["0" * 8 for _ in range(size)] for size in WORDS]
        if self.random.random() < 0.5:
            shown[0][6] = "00000040"
        return shown

    def wish(self):
        field = self.random.choice(["JTAG_DISABLE", "BLOCK1", "BLOCK3", "no"])
        kind = self.random.choice(["bit", "value", "key", "wlock", "rlock", "burn"])
        wish = {"kind": kind, "field": field, "index": self.random.choice([0, 300]), "value": "1", "key_sha256": KEY}
        for name in list(wish):
            if self.random.random() < 0.1:
                del wish[name]
            elif self.random.random() < 0.05:
                wish[name] = self.random.choice(self.OTHERS)
        return wish

    def csv(self):
        rows = self.random.choice([0, 1, 3, 500, 501])
        first = self.random.randrange(10**6)
        text = "serial,key_sha256\n" + "".join(f"X{first + row},{first + row:064x}\n" for row in range(rows))
        others = ["\ufeff" + text, text.replace("\n", "\r\n"), text.replace(",", ";")]
        others += [text + "a,b\n", text + "a\n", "", "\n\n" + text]
        return self.random.choice([text] * 6 + others)

    def members(self, caller, path):
        chip = self.chip()
        issuer = self.random.choice(["acme-ca", "acme-ca", "acme-ca", "bolt-ca", "x"])
        self.key += 1
        choice = self.random.choice
        asked = {
            "/v1/order": {
                "name": f"o{self.random.randrange(30)}",
                "issuer": issuer,
                "prefix": choice(["A", "B-", "b"]),
                "width": self.random.randrange(1, 10),
                "first": self.random.randrange(1000),
                "quantity": choice([1, 5, 50]),
                "macs": choice([0, 0, 1]),
                "not_before": choice([None, "20260101000000Z", "2026"]),
            },
            "/v1/map": {"text": choice([MAP, MAP + "\n", "x", MAP.replace("count = 1\n", "count = 900\n")])},
            "/v1/device": {
                "chip": chip,
                "order": self.order(),
                "map": choice([DIGEST] * 8 + [DIGEST.upper(), KEY]),
                "blocks": self.blocks(),
            },
            "/v1/plan": {"chip": chip, "wishes": [self.wish() for _ in range(choice([0, 0, 1, 1, 2, 65]))]},
            "/v1/readback": {"chip": chip, "blocks": self.blocks()},
            "/v1/identity": {
                "chip": chip,
                "public_key": choice([f"{self.key:08x}"] * 5 + ["AB" * 1024, "ab" * 1025, "a"]),
            },
            "/v1/ship": {"chip": chip},
            "/v1/scrap": {"chip": chip},
            "/v1/import": {"issuer": issuer, "csv": self.csv()},
        }[path]
        number = self.numbers.get(caller, 1)
        is_own = self.random.random() < 0.95
        return {"nr": number if is_own else self.random.choice([number + 1, max(number - 1, 1)]), **asked}

    def body(self, members):
        """The members as JSON, now and then with one that is missing, of another form or there twice, or cut off."""
        if self.random.random() < 0.3:
            name = self.random.choice(list(members))
            if self.random.random() < 0.3:
                del members[name]
            else:
                members[name] = self.random.choice(self.OTHERS)
        items = list(members.items())
        if self.random.random() < 0.1:
            items.append(("more", self.random.choice(self.OTHERS)))
        self.random.shuffle(items)
        if self.random.random() < 0.05:
            items.insert(0, (items[-1][0], self.random.choice(self.OTHERS)))
        pairs = [f"{json.dumps(name)}: {json.dumps(it, ensure_ascii=self.random.random() < 0.5)}" for name, it in items]
        text = "{" + ", ".join(pairs) + "}"
        chance = self.random.random()
        if chance < 0.02:
            text = text[: self.random.randrange(len(text))]
        elif chance < 0.04:
            text = json.dumps(self.random.choice(self.OTHERS))
        return text.encode()

    ORDER = {"name": "o0", "issuer": "acme-ca", "prefix": "S", "width": 4, "first": 0, "quantity": 9000, "macs": 0}
    FIRST = [
        ("a1", "POST", "/v1/order", json.dumps({"nr": 1, **ORDER}).encode()),
        ("a1", "POST", "/v1/map", json.dumps({"nr": 2, "text": MAP}).encode()),
    ]
    UNKNOWN = ["/", "/v1", "/v1/orders", "/v1/order/", "/v1/report"]
    SHOWN = [("/v1/order", "name"), ("/v1/device", "chip"), ("/v1/ledger", "chip"), ("/v1/identity", "chip")]
    SHOWN += [("/v1/devices", "after"), ("/v1/report", "x"), ("/v1/site/report", "x")]
    STEPS = ["/v1/order", "/v1/map"] + ["/v1/device", "/v1/plan", "/v1/readback", "/v1/identity"] * 2
    STEPS += ["/v1/ship", "/v1/scrap", "/v1/import"]

    def request(self):
        """A request. The first two make an order of many devices, and import the map."""
        if self.asked < len(self.FIRST):
            self.asked += 1
            return self.FIRST[self.asked - 1]
        caller = self.random.choice(["a1"] * 12 + ["b1"] * 4 + ["manager", "nobody"])
        if self.random.random() < 0.02:
            return caller, self.random.choice(["GET", "POST", "PUT", "DELETE"]), self.random.choice(self.UNKNOWN), b"{}"
        if self.random.random() < 0.2:
            return caller, "GET", self.look(), b""
        path = self.random.choice(self.STEPS)
        return caller, "POST", path, self.body(self.members(caller, path))

    def look(self):
        """What a request that only looks asks for."""
        path, name = self.random.choice(self.SHOWN)
        value = self.order() if name == "name" else self.chip()
        value = self.random.choice([value] * 8 + ["", "A" * 33, "240AC4000001", "%6f1"])
        others = ["", name, f"{name}={value}&{name}={value}", f"a=b&{name}={value}&", f"{name.upper()}={value}"]
        return f"{path}?{self.random.choice([f'{name}={value}'] * 8 + others)}"


class Server:
    """A running server over a new store, and a connection to it."""

    def __init__(self, program, folder):
        self.port = free_port()
        words = [program, "serve", "--site", SITE, "--db", f"{folder}/books.db", "--port", str(self.port)]
        self.process = subprocess.Popen([*words, "--connections", "1000000"], stdout=subprocess.PIPE)
        self.process.stdout.readline()
        self.connection = http.client.HTTPConnection("127.0.0.1", self.port, timeout=SECONDS)

    def ask(self, caller, method, target, body):
        """A reply's status, its fields and its text."""
        fields = {"Authorization": f"Bearer {TOKENS.get(caller, 'zzz')}", "Content-Length": str(len(body))}
        self.connection.request(method, target, body, fields)
        reply = self.connection.getresponse()
        return reply.status, {name.lower(): value for name, value in reply.getheaders()}, reply.read().decode()

    def send(self, data):
        """The reply to bytes on a connection of their own, which the server closes."""
        self.connection.close()
        with socket.create_connection(("127.0.0.1", self.port), SECONDS) as stream:
            stream.sendall(data)
            stream.shutdown(socket.SHUT_WR)
            told = b""
            while some := stream.recv(65536):
                told += some
        return next(replies_in(told))

    def close(self):
        self.process.kill()
        self.process.wait()
        self.process.stdout.close()
