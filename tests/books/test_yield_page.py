"""clients/web/yield.html in a browser: through nginx, as deploy/nginx.conf has it, over a running server.

    tests/all books/test_yield_page.py --write     puts the policy's SHA-256 into deploy/nginx.conf, and the picture
                                                   of an open bar into docs/pictures, after a change of the page

With no order, one and 300; a wrong token; the manager's; a server that answers 503, none at all; and a report whose
names would be markup elsewhere. Bars are opened into their chips, by the keyboard and by a click, over several pages
of devices. The page's sentence, its yields and the looks of its states are those of wanekupo.books.yields. Tokens are
outer ones that look. What the page shows is read in the browser, and the policy must have kept nothing of the page's
own back.
"""

import base64
import contextlib
import hashlib
import json
import os
import re
import socket
import subprocess
import tempfile
import time
import urllib.request
from pathlib import Path

import pytest

from browser import Browser
from common.deployed import certify, replaced
from common.needs import ROOT
from common.ports import Answering, answered, free_ports
from common.served import Server, station
from wanekupo.books.yields import LOOKS, SENTENCE
from wanekupo.common.token_file import PREFIX, Outer, TokenSeat, Tokens, mark_of, current_minute, tokens_text

PAGE, CONF, PICTURE = ROOT / "clients/web/yield.html", ROOT / "deploy/nginx.conf", ROOT / "docs/pictures/yield-open.png"
HEAD = "order,quantity,registered,planned,settled,identified,shipped,quarantined,scrapped,serials_left\n"
MARKUP = "<img src=x onerror=document.title=1>&amp;"
# Reports by tokens: one whose name would be markup elsewhere, and one with invented figures, of which the picture is
# made.
REPORTS = {
    "markup": f"{MARKUP},9,1,0,0,0,1,0,0,7\n",
    "picture": """gate-2026-40,500,0,0,0,0,486,9,5,5
gate-2026-41,500,0,0,0,12,455,30,3,33
gate-2026-42,500,20,35,8,40,377,6,2,83
hub-2026-38,1000,0,0,0,0,981,12,7,7
hub-2026-40,1000,0,5,2,110,744,121,18,146
hub-2026-42,800,260,40,11,35,90,4,0,675
meter-2026-41,200,0,0,0,0,198,1,1,1
meter-2026-42,200,12,6,1,9,140,2,0,51
probe-2026-42,50,0,0,0,0,0,0,0,50
""",
}
SECONDS = 600

# How a seat of acme asks the server itself; and what lets the browser take the proxy's own certificate.
OWN = {"Authorization": "Bearer abc"}
UNSAFE = ["--ignore-certificate-errors"]

# What is read in the page: the picture that is saved, what the browser keeps, and how the states look.
SAVED = """(async () => {
    let kept = null;
    const make = URL.createObjectURL;
    URL.createObjectURL = (blob) => { kept = blob; return make.call(URL, blob); };
    document.getElementById('save').click();
    return await kept.text();
})()"""
STORED = """[localStorage.length, sessionStorage.length, document.cookie, location.href,
    document.getElementById('token').value]"""
DRAWN = """[...document.querySelectorAll('#figure pattern')].map((it) => [it.id,
    it.querySelector('rect').getAttribute('fill'), it.querySelector('path')?.getAttribute('stroke') ?? '',
    it.querySelector('path')?.getAttribute('d') ?? ''])"""

# The yields of the invented figures: shipped / (shipped + quarantined + scrapped), by hand.
YIELDS = "97.2 %,93.2 %,97.9 %,98.1 %,84.3 %,95.7 %,99.0 %,98.6 %,nothing finished"

# Invented chips of one order, among others: pages of 500, as the server has them.
STATES = ["shipped"] * 377 + ["registered"] * 20 + ["awaiting1"] * 30 + ["awaiting2"] * 5 + ["settled"] * 8
STATES += ["identified"] * 40 + ["quarantined"] * 6 + ["scrapped"] * 2
OF_ORDER = [(place * 3, state) for place, state in enumerate(STATES)]

# The seats' own tokens, each with its customer. What is typed into the page is the outer token of one.
CUSTOMERS = {"abc": "acme", "test": "@manager", "markup": "markup", "picture": "picture"}


def outer_of(inner):
    """The outer token of a seat, by the seat's own; of another one a stranger's."""
    return PREFIX + hashlib.sha256(inner.encode()).hexdigest()


def tokens():
    """The file of these tokens, of which each may only look."""
    made = Tokens()
    for number, (inner, customer) in enumerate(CUSTOMERS.items(), 1):
        made.seats[inner] = TokenSeat(inner, customer, inner)
        made.outers.append(Outer(f"{inner}:1", number, inner, True, mark_of(inner), current_minute(), outer_of(inner)))
    return tokens_text(made)


def sums():
    """What the policy has to say of the page's script and of its style."""
    text = PAGE.read_text(encoding="utf-8")
    for tag in ("script", "style"):
        part = re.search(rf"<{tag}>(.*?)</{tag}>", text, re.DOTALL)[1]
        yield tag, "sha256-" + base64.b64encode(hashlib.sha256(part.encode()).digest()).decode()


# ---- what stands behind nginx
def devices_behind(after, token):
    """A page of invented devices: every third is of the order gate-2026-42, the others of one named as markup."""
    found = []
    for place, state in OF_ORDER:
        for number in range(place, place + 3):
            is_own = number == place and token == "picture"
            reason = "stray" if state == "quarantined" else None
            serial = f"G{number:06}" if state in ("identified", "shipped") else None
            order = "gate-2026-42" if is_own else MARKUP
            names = {"chip": f"240ac4{number:06x}", "order": order}
            found.append({**names, "state": state, "reason": reason, "serial": serial})
    page = [it for it in found if it["chip"] > after]
    return {"devices": page[:500], "next": page[499]["chip"] if len(page) > 500 else None}


class Stub(Answering):
    """A server that answers 503, and to two tokens a report and a list of devices."""

    def do_GET(self):
        token, (path, _, query) = self.headers["Authorization"].removeprefix("Bearer "), self.path.partition("?")
        lines = REPORTS.get(token)
        body = (HEAD + lines).encode() if lines else b'{"error":"unkept","no":50}'
        if lines and path == "/v1/devices":
            body = json.dumps(devices_behind(query.removeprefix("after="), token)).encode()
        kind = "text/csv" if lines and path == "/v1/report" else "application/json"
        self.answer(200 if lines else 503, kind, body)


def order(port, number):
    """Makes an order of the seat's request of that number."""
    names = {"name": f"o{number}", "issuer": "acme-ca", "prefix": f"P{number}-"}
    asked = json.dumps({"nr": number, **names, "width": 3, "first": 1, "quantity": 9, "macs": 0}).encode()
    request = urllib.request.Request(f"http://127.0.0.1:{port}/v1/order", asked, OWN)
    urllib.request.urlopen(request, timeout=SECONDS).read()


@contextlib.contextmanager
def nginx(folder, port, upstream):
    """nginx with the deployed file, but for its ports, its certificate, the page's place and the rate of reports, of
    which these tests ask more in a minute than a customer has."""
    certify(Path(folder))
    pairs = [
        ("listen 8443", f"listen 127.0.0.1:{port}"),
        ("127.0.0.1:880;", f"127.0.0.1:{upstream};"),
        ("/etc/station/", f"{folder}/"),
        ("/usr/share/wanekupo/yield.html", str(PAGE)),
        ("/var/lib/nginx/", f"{folder}/"),
        ("/var/log/nginx/", f"{folder}/"),
        ("zone=reports:1m  rate=6r/m", "zone=reports:1m  rate=600r/m"),
    ]
    text = replaced(CONF, pairs)
    Path(folder, "nginx.conf").write_text(text, encoding="utf-8")
    Path(folder, "tokens.conf").write_text(tokens(), encoding="ascii")
    words = ["nginx", "-p", folder, "-e", f"{folder}/error.log", "-c", f"{folder}/nginx.conf"]
    words += ["-g", f"daemon off; pid {folder}/nginx.pid;"]
    process = subprocess.Popen(words)
    try:
        for _ in range(100):
            with contextlib.suppress(OSError), socket.create_connection(("127.0.0.1", port), 1):
                break
            time.sleep(0.1)
        yield
    finally:
        process.terminate()
        process.wait()


# ---- the page
class YieldPage:
    """The page in a browser, with the port of what stands behind nginx."""

    def __init__(self, browser, address, upstream):
        self.browser, self.address, self.upstream = browser, address, upstream

    def show(self, token):
        """Opens the page, gives it a token by the keyboard alone, and waits for its answer."""
        self.browser.call("Page.navigate", url=self.address)
        self.browser.until("document.readyState === 'complete' && document.getElementById('token') !== null")
        self.browser.value("document.getElementById('token').focus()")
        self.browser.call("Input.insertText", text=outer_of(token))
        self.browser.press("Enter")
        self.browser.until("!['', 'Asking …'].includes(document.getElementById('said').textContent)")
        return self.browser.value("document.getElementById('said').textContent")

    def chips(self):
        """What is shown of the chips behind a bar, once the page has looked."""
        self.browser.until("!document.getElementById('found').textContent.startsWith('Looking')")
        return self.browser.value("""({
            whose: document.getElementById('whose').textContent,
            found: document.getElementById('found').textContent,
            state: document.getElementById('state').value,
            rows: [...document.querySelectorAll('#devices tr')].map(
                (row) => [...row.children].map((cell) => cell.textContent).join(' ')),
            more: !document.getElementById('more').hidden,
        })""")

    def press(self, text):
        """Gives an element the keyboard's focus, and presses Enter."""
        self.browser.value(f"{text}.focus()")
        self.browser.press("Enter")

    def click(self, text):
        """Clicks into the middle of an element."""
        x, y = self.browser.value(f"""(() => {{
            const it = {text};
            it.scrollIntoView({{ block: 'center' }});
            const box = it.getBoundingClientRect();
            return [box.x + box.width / 2, box.y + box.height / 2];
        }})()""")
        for kind in ("mousePressed", "mouseReleased"):
            self.browser.call("Input.dispatchMouseEvent", type=kind, x=x, y=y, button="left", clickCount=1)

    def choose(self, name, value, event="change"):
        """Gives a field of the page a value, as a person does."""
        field = f"document.getElementById('{name}')"
        self.browser.value(f"{field}.value = '{value}'; {field}.dispatchEvent(new Event('{event}'))")

    def shown(self):
        """The names in the table, how many bars the picture has, and its first line aloud."""
        return self.browser.value("""({
            names: [...document.querySelectorAll('#rows th')].map((cell) => cell.textContent),
            groups: document.querySelectorAll('#figure [role=listitem]').length,
            bars: document.querySelectorAll('#figure .bar').length,
            first: document.querySelector('#figure [aria-label]')?.getAttribute('aria-label') ?? null,
            hidden: document.getElementById('shown').hidden,
        })""")


def lives(port):
    """Four devices of the first order: one registered, one shipped, one quarantined, one scrapped."""
    digest = "453e1a59aaf4956999cac589cf209d34bfa882946bada4f1aa5199c4256c4fab"
    blank = [["0" * 8] * size for size in (7, 8, 8, 8)]
    stray = [["0" * 8] * 6 + ["80000000"], *blank[1:]]
    chips = [f"24000000000{place}" for place in range(4)]
    asked = [("map", {"text": (ROOT / "crates/station/data/map.toml").read_text(encoding="utf-8")})]
    asked += [("device", {"chip": chip, "order": "o1", "map": digest, "blocks": blank}) for chip in chips]
    wish = {"kind": "bit", "field": "JTAG_DISABLE", "index": 0}
    asked += [
        ("plan", {"chip": chips[1], "wishes": []}),
        ("identity", {"chip": chips[1], "public_key": "61"}),
        ("ship", {"chip": chips[1]}),
        ("plan", {"chip": chips[2], "wishes": [wish]}),
        ("readback", {"chip": chips[2], "blocks": stray}),
        ("scrap", {"chip": chips[3]}),
    ]
    for place, (path, members) in enumerate(asked):
        data = json.dumps({"nr": place + 2, **members}).encode()
        request = urllib.request.Request(f"http://127.0.0.1:{port}/v1/{path}", data, OWN)
        urllib.request.urlopen(request, timeout=SECONDS).read()


def seen(test):
    """A test of the page, which takes root, since nginx's file asks for its own user."""
    return pytest.mark.root(pytest.mark.nginx(pytest.mark.browser(test)))


def policy():
    """deploy/nginx.conf with the SHA-256 of the page's script and of its style."""
    text = CONF.read_text(encoding="utf-8")
    for tag, told in sums():
        text = re.sub(rf"{tag}-src '[^']*'", f"{tag}-src '{told}'", text)
    return text


def test_the_policy(is_written):
    """It has the page's SHA-256; --write mends it."""
    text = policy()
    if is_written:
        CONF.write_text(text, encoding="utf-8")
    assert text == CONF.read_text(encoding="utf-8")


@pytest.fixture(scope="module")
def page(program):
    port, upstream = free_ports(2)
    with tempfile.TemporaryDirectory() as folder:
        os.chmod(folder, 0o755)
        with nginx(folder, port, upstream), contextlib.closing(Browser(1200, 900, UNSAFE)) as browser:
            yield YieldPage(browser, f"https://127.0.0.1:{port}/yield", upstream)


@pytest.fixture
def served(page, program, site):
    """The program behind nginx, over a new store."""
    words = station(str(program), str(site), str(site.with_name("books.db")), page.upstream)
    server = Server(words, page.upstream).wait(Server.is_answering)
    yield server
    server.kill()


@seen
def test_no_order(page, served):
    assert (page.show("abc"), page.shown()["names"]) == ("There are no orders yet.", [])


@seen
def test_one_order(page, served):
    order(page.upstream, 1)
    page.show("abc")
    first = "o1: nothing finished, 0 devices, 9 serial numbers left"
    assert page.shown() == {"names": ["o1"], "groups": 1, "bars": 0, "hidden": False, "first": first}


@pytest.fixture
def orders(page, served):
    """The page with 300 orders, of which the first has devices."""
    order(page.upstream, 1)
    lives(page.upstream)
    for number in range(2, 301):
        order(page.upstream, number + 11)
    page.show("abc")


@seen
def test_300_orders(page, orders):
    """The table and the bars, and the picture that is saved."""
    shown = page.shown()
    assert (len(shown["names"]), shown["groups"]) == (300, 300)
    counts = "4 devices, 1 registered, 1 shipped, 1 quarantined, 1 scrapped"
    assert shown["first"] == f"o1: yield 33.3 %, {counts}, 8 serial numbers left"
    assert shown["bars"] == 4
    page.choose("part", "o31", "input")
    assert page.shown()["names"] == ["o31", "o310", "o311"]
    assert page.browser.value("document.getElementById('count').textContent") == "3 of 300 orders"
    page.choose("part", "", "input")
    page.choose("order", "yield")
    assert page.shown()["names"][0] == "o1", "lowest yield first"
    saved = page.browser.value(SAVED)
    found = (saved[:4], saved.count('role="listitem"'), saved.count("<pattern "), "o1: yield 33.3 %" in saved)
    assert found == ("<svg", 300, 7, True), "the picture that is saved"


@seen
def test_an_open_bar(page, orders):
    """A bar is opened into its chips, and the browser keeps nothing of what it was given."""
    page.press("document.querySelector('#figure [role=button]')")
    rows = ["240000000000 registered  ", "240000000001 shipped  P1-001", "240000000002 quarantined stray "]
    rows.append("240000000003 scrapped  ")
    assert page.chips() == {"whose": "Chips of o1", "found": "4 chips", "state": "", "more": False, "rows": rows}
    assert page.browser.value(STORED) == [0, 0, "", page.address, ""]


@seen
def test_the_manager(page, served):
    page.show("test")
    assert page.shown()["names"] == ["acme", "bolt"]
    assert page.browser.value("document.querySelectorAll('#figure [role=button]').length") == 0


@seen
def test_a_wrong_token(page, served):
    assert page.show("nobody") == "No seat and no manager has this token."
    assert page.shown()["hidden"] is True


@pytest.fixture
def invented(page):
    """What answers with the invented figures, in the program's place."""
    with answered(Stub, page.upstream):
        yield


@seen
def test_the_yields(page, invented):
    page.show("picture")
    cells = "[...document.querySelectorAll('#rows td:nth-child(2)')].map((cell) => cell.textContent).join()"
    assert page.browser.value(cells) == YIELDS
    assert page.browser.value("document.getElementById('meant').textContent") == SENTENCE
    looks = [[f"look-{it.state}", it.colour, it.ink if it.lines else "", it.lines] for it in LOOKS]
    assert page.browser.value(DRAWN) == looks


@seen
def test_a_click(page, invented, is_written):
    """A bar is opened by a click into a part of it, and shows the chips of that state from all pages."""
    page.show("picture")
    bar = "[...document.querySelectorAll('#figure [role=button]')]"
    bar += ".find((it) => it.getAttribute('aria-label').startsWith('gate-2026-42'))"
    page.click(f"{bar}.querySelector('[data-state=planned]')")
    chips = page.chips()
    found = (chips["whose"], chips["state"], chips["found"], len(chips["rows"]))
    assert found == ("Chips of gate-2026-42", "planned", "35 chips", 35), "a part of a bar"
    page.choose("state", "")
    chips = page.chips()
    assert (chips["found"], len(chips["rows"]), chips["more"]) == ("200 or more chips", 200, True)
    page.press("document.getElementById('more')")
    page.press("document.getElementById('more')")
    chips = page.chips()
    assert (chips["found"], len(chips["rows"]), chips["more"]) == (f"{len(OF_ORDER)} chips", len(OF_ORDER), False)
    page.choose("state", "quarantined")
    rows = [f"240ac4{place:06x} quarantined stray " for place, state in OF_ORDER if state == "quarantined"]
    assert page.chips()["rows"] == rows, "the lost ones"
    if is_written:
        page.browser.picture(PICTURE, 1100)
    page.press("document.getElementById('close')")
    assert page.browser.value("document.getElementById('opened').hidden") is True


@seen
def test_503(page, invented):
    assert page.show("abc") == "The server couldn't answer just now (503). Ask again."


@seen
def test_markup(page, invented):
    page.show("markup")
    page.press("document.querySelector('#figure [role=button]')")
    assert page.chips()["whose"] == f"Chips of {MARKUP}"
    pictures = page.browser.value("document.querySelectorAll('#shown img').length + document.title")
    assert (page.shown()["names"], pictures) == ([MARKUP], "0Yield")


@seen
def test_no_server(page):
    """Behind it, what the policy kept back so far, and what the browser asked for."""
    assert page.show("abc") == "The server answered 502."
    entries = [told["params"]["entry"] for told in page.browser.told if told.get("method") == "Log.entryAdded"]
    assert [it["text"] for it in entries if it["source"] == "security"] == [], "what the policy kept back"
    sent = [told["params"] for told in page.browser.told if told.get("method") == "Network.requestWillBeSent"]
    urls = [it["request"]["url"] for it in sent if it["request"]["url"].startswith("https")]
    paths = {url.removeprefix(page.address.removesuffix("/yield")).partition("?")[0] for url in urls}
    assert {"/yield", "/v1/report"} <= paths <= {"/yield", "/v1/report", "/v1/site/report", "/v1/devices"}
