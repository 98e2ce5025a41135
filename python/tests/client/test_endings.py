"""How a chip's stay at a bench ends, and what is said then: each refusal, each fault of espefuse, of a hook, of the
network and of the disk, over the program and simulated chips.

Expected values are those of docs/integrate/api.md and docs/line/bench.md.
"""

import hashlib
import json
import os
import re
import socket
import subprocess
import time
from pathlib import Path

from running import ASK_WHERE, FACTS, GREEN, PAGE, RED, BenchCase, is_passed, life_of, macs_of, script, table_rows, tool
from support import DIGEST, LIFE, MAC, MAP, ORDER, Proxy, TlsProxy, steps, whole

from wanekupo.seat.journal import issued, strict_lines, requests_of


# What espefuse 4.7.0 prints (esptool/loader.py and espefuse/__init__.py), that of 5 with its comma, and what Python
# prints of pySerial's error, which espefuse doesn't catch.
RIGHT_PORT = "\nPlease make sure that you have specified the right port with the --port argument\n"
C3 = "\nA fatal error occurred: This chip is ESP32-C3 not ESP32-S3. Wrong --chip argument?" + RIGHT_PORT
C3_OF_5 = "\nA fatal error occurred: This chip is ESP32-C3, not ESP32-S3. Wrong chip argument?\n"
KIND = "this chip is an ESP32-C3, and not an ESP32-S3"
NO_CHIP = "A fatal error occurred: Failed to connect to ESP32-S3: No serial data received."
WENT = f"""
A fatal error occurred: Could not open /dev/ttyUSB77, the port is busy or doesn't exist.
([Errno 2] could not open port /dev/ttyUSB77: [Errno 2] No such file or directory: '/dev/ttyUSB77')

Hint: Check if the port is correct and ESP connected

{RIGHT_PORT}"""
OWN = WENT.replace("USB77", "ACM77")
PULLED = "device reports readiness to read but returned no data (device disconnected or multiple access on port?)"
TORN = f"""BLOCK1 : a0 a1 a2 a3 a4 a5 a6 a7 a8 a9 aa ab ac ad ae af
Traceback (most recent call last):
  File "/usr/lib/python3/dist-packages/serial/serialposix.py", line 595, in read
    raise SerialException(
serial.serialutil.SerialException: {PULLED}
"""


class Refusing(Proxy):
    """Answers each registration with a refusal, where it has one."""

    refusal = None

    def pass_on(self, client):
        if self.refusal is None or client.recv(15, socket.MSG_PEEK) != b"POST /v1/device":
            return super().pass_on(client)
        whole(client)
        told = json.dumps(self.refusal).encode()
        head = b"HTTP/1.1 409 Conflict\r\nContent-Type: application/json\r\nConnection: close\r\n"
        return client.sendall(head + b"Content-Length: %d\r\n\r\n%s" % (len(told), told))


class Endings(BenchCase):
    """How a chip's stay may end, and what is said then."""

    over_office = True

    def begun(self, name="left", mac=MAC, text="", **recipe):
        """A bench over an order, with a chip in a socket that is begun."""
        self.order()
        bench = self.run_bench(self.recipe(**recipe))
        self.put(name, mac)
        bench.said(text or name)
        return bench

    def test_the_facts_that_hooks_have(self):
        """CHIP, ORDER, SERIAL, MAC, MACS and KEY_SHA256; what they print is in the log, and no key is."""
        self.needs_program()
        self.order(quantity=2, macs=2)
        seen = self.folder / "seen"
        hook = script(self.folder / "hook", f'{FACTS}exec >> {seen}\n{FACTS}')
        leak = script(self.folder / "leak", f'{FACTS}cat "$FOLDER/key.pem"\nod -An -v -tx4 flash.key\n')
        hooks = {"before_ship": {"command": [leak]}, "label": {"command": [hook]}}
        bench = self.run_bench(self.recipe(hooks=hooks))
        self.put("left", MAC)
        bench.said("left")
        self.assertEqual(bench.ended("left")[0], "PASS")
        csr = self.folder / "spool" / "A001.csr"
        public = subprocess.run(["openssl", "req", "-in", csr, "-noout", "-pubkey"], capture_output=True, check=True)
        words = ["openssl", "pkey", "-pubin", "-outform", "DER"]
        der = subprocess.run(words, input=public.stdout, capture_output=True, check=True).stdout
        digest = hashlib.sha256(der).hexdigest()
        expected = f"{MAC} o1 A001 020000000010 020000000010 020000000011 {digest}\n"
        self.assertEqual(seen.read_text(), expected)
        hooks = {it["hook"]: it for it in self.logged() if "hook" in it}
        self.assertEqual(list(hooks), ["before_identity", "before_ship", "label"])
        self.assertEqual(hooks["before_ship"]["output"], f"{expected}[a key]\n [a key]\n")
        self.assertEqual({it["status"] for it in hooks.values()}, {0})
        self.assertEqual(bench.board()["rest"], 1)

    def test_hooks_that_fail(self):
        """Each says so; the chip isn't lost, and goes on where it was, with the same serial number."""
        self.needs_program()
        slow = script(self.folder / "slow", "sleep 100 & sleep 100\n")
        broken = script(self.folder / "broken", "echo 'no \x1b[31mpaper' >&2; exit 3\n")
        nothing, gone = (script(self.folder / name, "exit 0\n") for name in ("nothing", "gone"))
        forged = script(self.folder / "forged", 'head -c 99 /dev/urandom > "$FOLDER/identity.csr"\n')
        good = {"before_identity": {"command": [self.csr]}}
        again = "(no \\x1b[31mpaper): put it in once more, and where that fails too, red box."
        cases = [
            ({"before_identity": {"command": [broken]}}, "hook_failed", f"The command before_identity failed {again}"),
            ({"before_identity": {"command": [nothing]}}, "no_public_key", "left no public key"),
            ({"before_identity": {"command": [forged]}}, "no_public_key", "left no public key"),
            ({"before_identity": {"command": [gone]}}, "hook_missing", "doesn't start (No such file or directory)"),
            (good | {"before_ship": {"command": [slow], "timeout": 0.3}}, "hook_late", "(more than 0.3 seconds)"),
            (good | {"before_ship": {"command": [broken]}}, "hook_failed", "The command before_ship failed"),
            (good | {"label": {"command": [broken]}}, "no_label", "shipped as A001, its label is missing (no"),
            (good | {"label": {"command": [nothing]}}, "passed", "The chip is shipped as A001"),
        ]
        self.order()
        self.put("left", MAC)
        for hooks, reason, sentence in cases:
            bench = self.run_bench(self.recipe(hooks=hooks, stop=99))
            if reason == "hook_missing":
                os.unlink(gone)
            bench.said("left")
            word, found, told = bench.ended("left")
            words = {"passed": "PASS", "no_label": "LABEL"}
            self.assertEqual((word, found), (words.get(reason, "FAIL"), reason))
            self.assertIn(sentence, told)
            begun = [] if reason == "passed" else [MAC]
            self.assertEqual([it["chip"] for it in bench.board()["under_way"]], begun)
            self.assertEqual(bool(bench.board()["stopped"]), reason in ("no_public_key", "hook_missing"))
            self.assertEqual(bench.end(), 0)
        shift = json.loads((self.folder / "a1.json.bench" / "bench.json").read_text("ascii"))["shift"]
        self.assertEqual((shift["passed"], shift["first"], shift["failed"]), (1, 0, {}))
        ships = [it for it in strict_lines(self.folder / "a1.journal") if it.get("path") == "/v1/ship"]
        self.assertEqual([it["reason"] for it in ships], ["hook_failed"])
        self.assertEqual(life_of(self.ledger()), LIFE)
        self.assertEqual(len(issued(requests_of(self.folder / "a1.journal"))), 1)

    def test_what_read_backs_find(self):
        """Each outcome that isn't `match`, of a chip that was burnt otherwise than it was told."""
        (self.folder / "7.key").write_bytes(bytes(32 * [7]))
        lost = "and the chip is lost"
        cases = [
            ("stray", "burn_bit BLOCK0 197 198", 0, f"A bit reads 1 that nobody planned, {lost} (ABS_DONE_1): {RED}."),
            ("short", "dump", 0, f"The chip was burnt three times and doesn't take all bits (BLOCK1, JTAG_DISABLE): "
             f"{RED}."),
            ("key", "burn_key --no-protect-key BLOCK1 7.key", 0, f"The key block reads another key, {lost} (BLOCK1): "
             f"{RED}."),
            ("lost", "make 240ac4000004", 1, f"A burnt bit reads 0, {lost} (JTAG_DISABLE): {RED}."),
            ("other_chip", "make 240ac40000ff", 0, "Another chip is in the socket than before: put the first one back, "
             "and begin again."),
        ]
        self.order()
        for place, (reason, instead, after, sentence) in enumerate(cases):
            tool = self.other_tool(instead, after)
            bench = self.run_bench(self.recipe(sockets={"left": [tool, *self.socket_of("left")[3:]]}, stop=9))
            mac = macs_of(5)[place]
            self.put("left", mac)
            bench.said("left")
            self.assertEqual(bench.ended("left"), ("FAIL", reason, sentence))
            self.assertEqual(bench.board()["shift"]["failed"][reason], 1)
            self.take("left", mac)
            bench.end()

    def test_a_chip_that_is_changed_while_a_command_runs(self):
        """Behind before_identity, or before_ship, another chip is in the socket: nothing is recorded by what that one
        showed or took. The first one, put back, goes on."""
        self.order()
        place, other = self.folder / "places" / "left", macs_of(9)[8]
        change = f"mv {place} {self.folder}/chip-$CHIP && mv {self.folder}/chip-{other} {place}"
        for mac, hook, state in zip(macs_of(2), ("before_identity", "before_ship"), ("settled", "identified")):
            self.make(other, self.folder / f"chip-{other}")
            own = "" if hook == "before_ship" else f'"{self.csr}"\n'
            command = script(self.folder / hook, f"{own}[ ! -e {self.folder}/chip-{other} ] || {{ {change}; }}\n")
            bench = self.run_bench(self.recipe(hooks={hook: {"command": [command]}}))
            self.put("left", mac)
            for reason, behind in (("other_chip", state), ("passed", "shipped")):
                bench.said("left")
                bench.until(lambda board, reason=reason: board["sockets"][0]["reason"] == reason, reason)
                self.assertEqual(self.asked("GET", f"/v1/device?chip={mac}")[1]["state"], behind)
                if reason == "other_chip":
                    place.unlink()
                    self.put("left", mac)
            self.take("left", mac)
            bench.end()

    def test_chips_that_come_again(self):
        """One of another order, one that was scrapped, one that is shipped."""
        self.order()
        with self.station(file="a1.json") as office:
            office.make_order(**{**ORDER, "name": "o2", "prefix": "B", "macs": 0})
            office.import_map(MAP)
            for mac, order in zip(macs_of(2), ("o2", "o1")):
                office.register(mac, order, DIGEST, self.chip(mac).read())
            office.scrap(macs_of(2)[1])
        bench = self.run_bench(self.recipe())
        shipped = macs_of(3)[2]
        for mac, reason, sentence in (
            (MAC, "other_order", "The chip is of the order o2: take it out, and bring it to that order's bench."),
            (macs_of(2)[1], "scrapped_before", f"The chip was scrapped before: {RED}."),
            (shipped, "passed", f"The chip is shipped as A001: {GREEN}."),
            (shipped, "passed_before", f"The chip was shipped as A001 just before: {GREEN}."),
            (macs_of(4)[3], "passed", f"The chip is shipped as A002: {GREEN}."),
            (shipped, "shipped_before", f"The chip is shipped already, as A001: {ASK_WHERE}."),
        ):
            self.put("left", mac)
            bench.said("left")
            bench.until(lambda board: board["sockets"][0]["reason"] == reason, reason)
            self.assertEqual(bench.ended("left")[2], sentence)
            self.take("left", mac)
        self.assertEqual({**bench.board()["shift"], "since": ""}, {"since": "", "passed": 2, "first": 2, "failed": {}})

    def test_espefuse_that_fails(self):
        """No chip, no command, no chip of the family, a port that went, one that is silent behind its
        burning, and one that is pulled out while it is burnt. The log has what espefuse said, without a key."""
        self.failing_tools()
        again = "put it in once more, and where that fails too, red box."
        cases = [
            ("./silent", MAC, "no_chip", "(Failed to connect to ESP32): press it in, and begin again."),
            ("./other", MAC, "no_dump", "take it out, and look at it."),
            ("./gone", MAC, "no_tool", "call the engineer."),
            ("./breaks", "000000000000", "no_mac", again),
            ("./c3", MAC, "no_dump", f"({KIND}): take it out, and look at it."),
            ("./c3_of_5", MAC, "no_dump", f"({KIND}): take it out, and look at it."),
            ("./went", MAC, "no_port", "(the port /dev/ttyUSB77 isn't there): call the engineer."),
            ("./own", MAC, "no_chip", "(the port /dev/ttyACM77 isn't there): press it in, and begin again."),
            ("./breaks", MAC, "no_read", f"espefuse can't read the chip (Timed out): {again}"),
            ("./pulled", "240ac4000002", "no_burn", f"espefuse can't burn the chip ({PULLED}): {again}"),
        ]
        self.order()
        begun = []
        for command, mac, reason, sentence in cases:
            begun += [mac] if reason in ("no_read", "no_burn") else []
            self.assert_fails(command, mac, reason, sentence, begun)
        outputs = {it["result"]: it.get("output", "") for it in self.logged() if "result" in it}
        self.assertIn("BLOCK1 : [a key]\n", outputs["no_burn"])
        self.assertIn("Traceback (most recent call last):", outputs["no_burn"])
        self.assertNotIn("a0a1a2", "".join(outputs.values()).replace(" ", ""))
        self.assertIn("Wrong chip argument?", outputs["no_dump"])

    def failing_tools(self):
        """Commands of a socket by their names, each of which fails in one way."""
        tool(self.folder / "silent", "echo 'A fatal error occurred: Failed to connect to ESP32'; exit 2\n")
        tool(self.folder / "other", "echo 'espefuse v9'\n")
        tool(self.folder / "gone", "exit 2\n")
        for name, text, status in (("c3", C3, 2), ("c3_of_5", C3_OF_5, 2), ("went", WENT, 2), ("own", OWN, 2)):
            tool(self.folder / name, f"cat <<'END'\n{text}END\nexit {status}\n")
        chip = " ".join(self.socket_of("left"))
        torn = f"case \"$*\" in *scripts*) cat <<'END' >&2\n{TORN}END\nexit 1;; esac"
        tool(self.folder / "pulled", f'{torn}\nexec {chip} "$@"\n')
        late = 'case "$*" in *dump*) [ ! -e burnt ] || { echo "A fatal error occurred: Timed out"; exit 2; };;'
        tool(self.folder / "breaks", f'{late} *) touch burnt;; esac\nexec {chip} "$@"\n')

    def assert_fails(self, command, mac, reason, sentence, begun):
        """A chip in a socket of this command fails so, and these chips are begun then."""
        bench = self.run_bench(self.recipe(sockets={"left": [command]}))
        if command == "./gone":
            (self.folder / "gone").unlink()
        self.put("left", mac)
        bench.said("left")
        word, found, told = bench.ended("left")
        self.assertEqual((word, found, [it["chip"] for it in bench.board()["under_way"]]), ("FAIL", reason, begun))
        self.assertTrue(told.endswith(sentence), told)
        bench.end()

    def test_chips_of_another_family(self):
        """Each fails and counts once while it is in, also where a chip begins by itself, and three stop the line."""
        reel = tool(self.folder / "reel", f'[ -e in ] && cat c3.txt || echo "{NO_CHIP}"\nexit 2\n')
        (self.folder / "c3.txt").write_text(C3, encoding="ascii")
        self.order()
        bench = self.run_bench(self.recipe(sockets={"left": [reel]}, top={"start": "chip"}))
        for place in (1, 2, 3):
            (self.folder / "in").touch()
            bench.until(lambda board, place=place: board["shift"]["failed"] == {"no_dump": place}, place)
            time.sleep(2.5)  # in which it is looked at twice
            self.assertEqual(bench.board()["shift"]["failed"], {"no_dump": place})
            self.assertEqual(bench.socket("left")["state"], "FAIL")
            (self.folder / "in").unlink()
            if place < 3:
                bench.until(lambda board: board["sockets"][0]["state"] == "waiting", "waiting")
        self.assertIn("3 chips failed in a row", bench.board()["stopped"])

    def told_to_go_on(self, bench, recipe):
        """A person ends the bench, has its seat go on, and starts it again."""
        bench.end()
        with self.station() as seat:
            seat.resynchronize()
        bench = self.run_bench(recipe)
        bench.until(lambda board: board["rest"] is not None)
        return bench

    def test_each_refusal(self):
        """By the numbers in the table of the page, whichever step the server refuses."""
        text = PAGE.read_text(encoding="utf-8")
        rows = re.findall(r"^\| `(\w+)` \| refusals? ([0-9, ]+)", text, re.MULTILINE)
        rows = [row for row in rows if row[0] != "older_store"]
        wanted = {int(no): name for name, numbers in rows for no in re.findall("[0-9]+", numbers)}
        asked = [*range(1, 5), *range(6, 30), 32, 35, 36, 39, 40, 41]
        self.assertEqual(sorted(wanted), asked)
        stops = {name for name, _, _, todo in table_rows(text) if re.search("engineer|next order|stopped", todo)}
        self.order()
        proxy = self.proxy(kind=Refusing)
        recipe = self.recipe(proxy.url, stop=99)
        bench = self.run_bench(recipe)
        bench.until(lambda board: board["rest"] is not None)
        self.put("left", MAC)
        for no, expected in [*((no, 99) for no in asked), (11, 1)]:
            name = "older_store" if expected == 1 else wanted[no]
            proxy.refusal = {"error": "none", "no": no, "expected": expected}
            before = bench.socket("left")["since"]
            bench.said("left")
            is_new = lambda it, before=before: it["since"] != before and it["state"] == "FAIL"
            board = bench.until(lambda board, is_new=is_new: is_new(board["sockets"][0]), (no, name))
            self.assertEqual((board["sockets"][0]["reason"], bool(board["stopped"])), (name, name in stops), no)
            bench.said("go")
            if no in (11, 12):
                bench = self.told_to_go_on(bench, recipe)
        proxy.refusal = None
        bench.said("left")
        bench.until(lambda board: is_passed(board, MAC))
        self.assertEqual(steps(self.ledger()), LIFE)

    def test_what_stops_a_line_at_its_start(self):
        """A certificate that isn't trusted, what isn't the server, another token, and an order that isn't made."""
        self.needs_program()
        self.order()
        tls = TlsProxy(self.program, self.folder)
        self.addCleanup(tls.close)
        (self.folder / "other.token").write_text("nobody\n", encoding="ascii")
        other = {"token": "other.token", "state": "b1.json"}
        long = self.canned(200, "application/json", bytes(5 << 20))
        for options, told in (
            ({"url": tls.url}, "The server's certificate isn't trusted: call the engineer."),
            ({"url": long}, "What answers isn't the server: call the engineer."),
            ({"server": other}, "The server doesn't take this bench's token (refusal 6): call the engineer."),
            ({"top": {"order": "o9"}}, "The server knows no order o9 (refusal 14): call the engineer."),
        ):
            bench = self.run_bench(self.recipe(**options))
            self.assertEqual(bench.until(lambda board: board["stopped"])["stopped"], told)
            self.assertEqual(bench.end(), 0)
        bench = self.run_bench(self.recipe(self.canned(502, "text/html", b"<html>")))
        told = "nginx answers, and the server behind it doesn't"
        self.assertEqual(bench.until(lambda board: board["away"])["away"]["why"], told)

    def test_three_in_a_row(self):
        """The line stops, and says what the three chips have in common; a person has it go on. One that is put in again
        counts once."""
        self.needs_program()
        broken = script(self.folder / "broken", "exit 3\n")
        self.order()
        bench = self.run_bench(self.recipe(hooks={"before_ship": {"command": [broken]}}))
        for place, mac in enumerate(macs_of(3), 1):
            self.assertEqual(bench.board()["stopped"], "")
            self.put("left", mac)
            bench.said("left")
            bench.until(lambda board: sum(board["shift"]["failed"].values()) == place)
            for _ in range(2 if place == 1 else 0):
                since = bench.socket("left")["since"]
                bench.said("left")
                bench.until(lambda _, since=since: (it := bench.socket("left"))["since"] != since and it["sentence"])
            self.take("left", mac)
        common = "all at the step 'before ship', each as 'command failed', each in the socket 'left'"
        told = f"3 chips failed in a row, {common}: look why before you go on."
        self.assertEqual(bench.until(lambda board: board["stopped"])["stopped"], told)
        self.put("left", "240ac4000004")
        bench.said("left")
        self.assertEqual(bench.board()["notice"], "The line stands: type go, or press Go on.")
        bench.kill()
        self.assertEqual(self.asked("GET", "/v1/device?chip=240ac4000004")[0], 404)
        bench = self.run_bench(self.recipe())
        self.assertEqual(bench.board()["shift"]["failed"], {"hook_failed": 3})
        bench.said("left")
        self.assertEqual(bench.ended("left")[0], "PASS")

    def test_a_crash(self):
        """What was begun is shown, and goes on in another socket."""
        self.needs_program()
        self.order()
        wait = script(self.folder / "wait", f"[ -e {self.folder}/go ] || sleep 100\n")
        recipe = self.recipe(hooks={"before_ship": {"command": [wait]}})
        bench = self.run_bench(recipe)
        self.put("left", MAC)
        bench.said("left")
        bench.until(lambda board: board["sockets"][0]["step"] == "before ship")
        bench.kill()
        (self.folder / "go").touch()
        bench = self.run_bench(recipe)
        found = bench.board()["under_way"]
        self.assertEqual([(it["chip"], it["socket"], it["step"]) for it in found], [(MAC, "left", "before ship")])
        self.take("left", MAC)
        self.put("right", MAC)
        bench.said("right")
        self.assertEqual(bench.ended("right"), ("PASS", "passed", f"The chip is shipped as A001: {GREEN}."))
        self.assertEqual(bench.board()["under_way"], [])

    def test_a_stopped_server(self):
        """The bench waits, says so, and goes on by itself, with each request done once."""
        bench = self.begun(hooks={"before_ship": {"command": [script(self.folder / "nap", "sleep 0.5\n")]}})
        bench.until(lambda board: board["sockets"][0]["step"] == "before ship")
        self.program.kill()
        board = bench.until(lambda board: board["away"])
        self.assertEqual((board["away"]["why"], board["sockets"][0]["state"]), ("no reply comes", "working"))
        self.program.start()
        self.assertEqual(bench.ended("left")[0], "PASS")
        self.assertIsNone(bench.board()["away"])
        self.assertEqual(steps(self.ledger()), LIFE)

    def test_another_hand(self):
        """Somebody uses the seat: the line stops, and what is to be done is nothing."""
        bench = self.begun(hooks={"before_ship": {"command": [script(self.folder / "nap", "sleep 1\n")]}})
        bench.until(lambda board: board["sockets"][0]["step"] == "before ship")
        with self.station(file="other.json") as other:
            other.resynchronize()
            other.import_map(MAP)
        told = "Somebody else used this bench's seat (refusal 12): touch nothing, and call the engineer."
        self.assertEqual(bench.ended("left"), ("FAIL", "out_of_step", told))
        self.assertEqual(bench.board()["stopped"], told)

    def test_a_full_disk(self):
        """Full from the start, and in the middle of a chip: it stops the line, and nothing is lost. Behind it the chip
        goes on."""
        self.order()
        small = self.folder / "small"
        small.mkdir(mode=0o700)
        mounts = f"mount -t tmpfs -o size=400k,mode=700 none {small} && cp -p {self.folder}/a1.json {small}"
        own = ["unshare", "-m" if os.geteuid() == 0 else "-rm", "sh", "-c"]
        if subprocess.run([*own, "mount -t tmpfs none /mnt"], capture_output=True).returncode:
            self.skipTest("nobody may mount here")
        unshare = [*own, f'{mounts} && exec "$@"', "sh"]
        server = {"state": "small/a1.json", "journal": "small/a1.journal"}
        bench = self.run_bench(self.recipe(server=server), before=unshare)
        inside, reached = Path(f"/proc/{bench.process.pid}/root{small}"), set()
        kept = inside / "a1.json.bench/bench.json"  # it says that the map is imported: then the bench waits
        bench.until(lambda _: kept.exists() and json.loads(kept.read_text("utf-8"))["map"], "imported the map")
        for place, mac in enumerate(macs_of(6)):
            with open(inside / "fill", "wb", buffering=0) as out:
                with self.assertRaises(OSError):
                    while True:
                        out.write(bytes(4096))
                out.truncate(out.tell() - 4096 * (place % 4))
            self.put("left", mac)
            bench.said("left")
            bench.until(lambda board, mac=mac: board["sockets"][0]["state"] == "FAIL" or is_passed(board, mac))
            if bench.socket("left")["state"] == "FAIL":
                told = "The disk of this bench is full: leave the chips in, and call the engineer."
                self.assertEqual(bench.ended("left"), ("FAIL", "disk_full", told))
                reached.add(bench.socket("left")["step"])
                self.assertTrue(bench.until(lambda board: board["stopped"])["stopped"].startswith(told))
                (inside / "fill").unlink()
                bench.said("go")
                bench.said("left")
            bench.until(lambda board, mac=mac: is_passed(board, mac), "passed")
            self.assertEqual(life_of(self.ledger(mac)), LIFE)
            self.take("left", mac)
        self.assertGreater(len(reached), 1, reached)
