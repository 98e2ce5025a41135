#!/usr/bin/env node
/**
 * A station over no client, for the kit: it brings the chip on the bench from registered to shipped (../README.md).
 *
 * Its state file has the number of the next request, the request under way, the last one that was accepted, and why it
 * stopped. It is synced before a request is sent, so that a start behind a kill sends the same bytes again, before
 * anything else. A refusal as 11 or 12 ends it and each later start, until a person looked why and took the state file
 * away. Node 18 or later, no package.
 *
 * It shows the protocol alone. Before it gets a real chip it needs what the page for stations asks for besides: the MAC's
 * CRC, the MAC compared before each step, the order's reply compared with what was asked, the form of each member of a
 * reply, a look at the report before a registration, a lock, and a look for files of others.
 */

import { spawnSync } from "node:child_process";
import { createHash } from "node:crypto";
import fs from "node:fs";
import http from "node:http";
import path from "node:path";
import { setTimeout as pausedFor } from "node:timers/promises";

// A number that no seat comes to: its refusal says which one is expected.
const FAR = Number.MAX_SAFE_INTEGER;

// Seconds: the pauses before a request is sent again double, a whole reply is waited for, and a reply is asked for.
const FIRST_PAUSE = 0.1;
const LONGEST_PAUSE = 10;
const TIMEOUT = 30;
const PATIENCE = 120;

// The longest body of a reply, in bytes: what stands on a port shall not fill the memory here.
const LONGEST_REPLY = 4 * 1024 * 1024;

// Refusals. Up to 12, one says nothing of what became of the same request when it was sent before.
const WRONG_NUMBER = 11;
const OTHER_BODY = 12;
const UNKNOWN_ORDER = 14;
const UNKNOWN_DEVICE = 15;
const BAD_MAP = 29;

// The status of a reply that says that nothing was done, for now.
const UNKEPT = 503;

// The members of an accepted reply, by the request's path. A chip and a name are those that were asked for.
const REPLIES = {
  "/v1/order": ["name", "next"],
  "/v1/map": ["map"],
  "/v1/device": ["chip", "state"],
  "/v1/plan": ["batch1", "batch2", "state"],
  "/v1/readback": ["outcome", "rest", "state"],
  "/v1/identity": ["chip", "serial"],
  "/v1/ship": ["chip", "state"],
};
const ECHOED = ["chip", "name"];

// The mode of a file of this user's alone.
const PRIVATE = 0o600;

/** A refusal of the server's, by its number. */
class Refused extends Error {
  constructor(no, error) {
    super(`refused as ${no} (${error})`);
    this.no = no;
  }
}

/** What is no reply of the server's, so that the request is sent again. */
class NoReply extends Error {}

function sha256(data) {
  return createHash("sha256").update(data).digest("hex");
}

/** JSON in visible ASCII, so that each reader of a line takes it for the same. */
function asciiJson(data) {
  const escape = (unit) => `\\u${unit.charCodeAt(0).toString(16).padStart(4, "0")}`;
  return JSON.stringify(data).replace(/[\u007f-\uffff]/g, escape);
}

/** A value with the members of each object in the order of their names. */
function ordered(data) {
  if (Array.isArray(data)) return data.map(ordered);
  if (data === null || typeof data !== "object") return data;
  const names = Object.keys(data).sort();
  return Object.fromEntries(names.map((name) => [name, ordered(data[name])]));
}

// Files.

/** Writes into an opened file, syncs it and closes it. */
function writeSynced(opened, text) {
  try {
    fs.writeFileSync(opened, text);
    fs.fsyncSync(opened);
  } finally {
    fs.closeSync(opened);
  }
}

/** Syncs a folder, so that a name that was made or replaced in it stays. */
function syncFolder(folder) {
  const opened = fs.openSync(folder, "r");
  try {
    fs.fsyncSync(opened);
  } finally {
    fs.closeSync(opened);
  }
}

/** Replaces a file: whole or not at all, whenever the power fails. */
function replaceFile(file, text) {
  fs.rmSync(`${file}.new`, { force: true });
  writeSynced(fs.openSync(`${file}.new`, "wx", PRIVATE), text);
  fs.renameSync(`${file}.new`, file);
  syncFolder(path.dirname(file));
}

/** The SHA-256 of a block's bytes, the lowest of each word first. */
function blockDigest(block) {
  return sha256(Buffer.concat(block.map((word) => Buffer.from(word, "hex").reverse())));
}

/** A request's members, with the SHA-256 of each block in place of its words, among which a key may be. */
function redacted(members) {
  return "blocks" in members ? { ...members, blocks: members.blocks.map(blockDigest) } : members;
}

/** The station's own log: a request is in it before it is sent, and its reply before the next request. */
class Log {
  /** Takes away a last line that a crash cut. */
  constructor(file) {
    this.file = file;
    const data = fs.existsSync(file) ? fs.readFileSync(file) : Buffer.alloc(0);
    const end = data.lastIndexOf("\n") + 1;
    if (end < data.length) fs.truncateSync(file, end);
  }

  add(line) {
    const at = `${new Date().toISOString().slice(0, 19)}Z`;
    writeSynced(fs.openSync(this.file, "a", PRIVATE), `${asciiJson(ordered({ ...line, at }))}\n`);
    syncFolder(path.dirname(this.file));
  }

  asked(target, body) {
    const members = redacted(JSON.parse(body));
    const digest = sha256(`${target}\n${JSON.stringify(ordered(members))}`);
    this.add({ path: target, asked: members, digest });
  }
}

// Replies.

/** One sending over a connection of its own: the status, the kind and the bytes of a whole reply. */
function sendOnce({ url, token, method, target, body }) {
  return new Promise((resolve, reject) => {
    const length = body ? { "Content-Length": Buffer.byteLength(body) } : {};
    const headers = { Authorization: `Bearer ${token}`, ...length };
    const signal = AbortSignal.timeout(1000 * TIMEOUT);
    const request = http.request(new URL(target, url), { method, headers, signal, agent: false });
    request.on("error", (error) => reject(new NoReply(error.message)));
    request.on("response", (response) => readReply(response).then(resolve, reject));
    request.end(body);
  });
}

/** A reply whose bytes are as many as it says. The server says it in each: a whole one that doesn't is another's. */
async function readReply(response) {
  const parts = [];
  let size = 0;
  try {
    for await (const part of response) {
      size += part.length;
      if (size > LONGEST_REPLY) throw new NoReply(`a reply of more than ${LONGEST_REPLY} bytes`);
      parts.push(part);
    }
  } catch (error) {
    throw new NoReply(error.message);
  }
  const { "content-length": length, "content-type": type = "" } = response.headers;
  if (!response.complete || length !== String(size)) throw new NoReply("a reply that is cut, or has no length");
  return { status: response.statusCode, kind: type.split(";")[0].trim(), data: Buffer.concat(parts) };
}

/** The members of a reply of the server's, which a proxy's page is not. */
function membersOf({ status, kind, data }, target, asked) {
  let body = null;
  try {
    body = kind === "application/json" ? JSON.parse(data.toString("utf8")) : null;
  } catch {
    // a page with another's type
  }
  const isObject = body !== null && typeof body === "object" && !Array.isArray(body);
  const isThere = (name) => name in body && (!ECHOED.includes(name) || body[name] === asked[name]);
  const isDone = status === 200 && asked.nr !== FAR;
  if (isObject && isDone && (REPLIES[target] ?? []).every(isThere)) return body;
  if (isObject && status !== 200 && status !== UNKEPT && Number.isInteger(body.no) && "error" in body) return body;
  throw new NoReply(`status ${status}, which is no reply to ${target}`);
}

// The seat.

/** A seat whose requests are each done once, by its state file. */
class Seat {
  constructor({ KIT_URL, KIT_TOKEN, KIT_STATE, KIT_LOG }) {
    Object.assign(this, { url: KIT_URL, token: KIT_TOKEN, file: KIT_STATE, log: new Log(KIT_LOG) });
    const none = { next: null, under_way: null, last: null, stop: null };
    this.state = fs.existsSync(KIT_STATE) ? JSON.parse(fs.readFileSync(KIT_STATE, "utf8")) : none;
  }

  /** Changes the state, in the file first. */
  keep(changes) {
    const state = { ...this.state, ...changes };
    replaceFile(this.file, asciiJson(state));
    this.state = state;
  }

  /** Asks until the server answers: the status, the members, and whether it was sent more than once. */
  async ask(method, target, asked, body) {
    const query = body ? "" : `?${new URLSearchParams(asked)}`;
    const words = { url: this.url, token: this.token, method, target: target + query, body };
    const end = Date.now() + 1000 * PATIENCE;
    for (let pause = FIRST_PAUSE, again = false; ; again = true, pause = Math.min(2 * pause, LONGEST_PAUSE)) {
      try {
        const reply = await sendOnce(words);
        return { status: reply.status, told: membersOf(reply, target, asked), again };
      } catch (error) {
        if (!(error instanceof NoReply) || Date.now() + 1000 * pause > end) throw error;
        await pausedFor(1000 * pause);
      }
    }
  }

  /** What is shown, or null where it is refused as `none`: there is no such thing. */
  async get(target, asked, none) {
    const { status, told } = await this.ask("GET", target, asked);
    if (status === 200) return told;
    if (told.no === none) return null;
    throw new Refused(told.no, told.error);
  }

  /** Has a request done, once, and gives its reply. */
  async post(target, members) {
    const number = this.state.next ?? (await this.expected());
    this.keep({ next: number, under_way: { path: target, body: JSON.stringify({ nr: number, ...members }) } });
    return this.complete(false);
  }

  /** Sends what an earlier start left under way, unless that one stopped. */
  async finish() {
    const { stop, under_way: asked } = this.state;
    if (stop) throw new Refused(stop.no, stop.error);
    if (asked) await this.complete(true);
  }

  /** Sends the request under way, of an earlier start too, until its reply is there, and keeps that. */
  async complete(wasSent) {
    const { next: number, under_way: asked } = this.state;
    this.log.asked(asked.path, asked.body);
    const { status, told, again } = await this.ask("POST", asked.path, JSON.parse(asked.body), asked.body);
    if (status !== 200) this.refuse(number, status, told, wasSent || again);
    this.log.add({ nr: number, status, reply: told });
    const body = asciiJson(redacted(JSON.parse(asked.body)));
    this.keep({ next: number + 1, under_way: null, last: { path: asked.path, body, reply: told } });
    return told;
  }

  /** Throws a refusal. One that says nothing of what became of the same request before leaves it under way. */
  refuse(number, status, told, isRepeat) {
    const isKept = isRepeat && told.no <= OTHER_BODY;
    if (!isKept) this.log.add({ nr: number, status, reply: told });
    const stop = [WRONG_NUMBER, OTHER_BODY].includes(told.no) ? told : null;
    this.keep({ under_way: isKept ? this.state.under_way : null, stop });
    throw new Refused(told.no, told.error);
  }

  /** The number that the server expects of the seat. Nothing is changed. */
  async expected() {
    const asked = { nr: FAR, chip: "0".repeat(12) };
    const { told } = await this.ask("POST", "/v1/ship", asked, JSON.stringify(asked));
    if (told.no !== WRONG_NUMBER) throw new Refused(told.no, told.error);
    return told.expected;
  }
}

// The chip.

/** A chip behind espefuse, whose command with its port is `tool`; `keys` are the job's. */
class Espefuse {
  constructor(tool, keys) {
    Object.assign(this, { tool, keys });
  }

  run(...words) {
    const done = spawnSync(this.tool, words, { encoding: "utf8", stdio: ["ignore", "pipe", "inherit"] });
    if (done.error) throw done.error;
    if (done.status !== 0) throw new Error(`${words[0]}: status ${done.status}`);
    return done.stdout;
  }

  /** What the chip shows: its blocks, each a list of words, block 0 and word 0 first. */
  read() {
    const found = [...this.run("dump").matchAll(/^BLOCK\d+ .*\[\d+ *\] read_regs:((?: [0-9a-f]{8})+) *$/gm)];
    return found.map(([, words]) => words.trim().split(" "));
  }

  /**
   * Burns a batch, keys first and block 0 last. What of it is burnt already stays as it is. Never without
   * --no-protect-key: the locks come in the second batch, and burnt now they are `stray`.
   */
  burn({ bits, keys }) {
    for (const field of Object.keys(keys)) {
      this.run("burn_key", "--no-protect-key", this.keys[field].burnt_as, this.keys[field].file);
    }
    for (const block of [...new Set(bits.map((it) => it.block))].sort((one, other) => other - one)) {
      const places = bits.filter((it) => it.block === block).flatMap(placesOf);
      this.run("burn_bit", `BLOCK${block}`, ...places.map(String));
    }
  }
}

/** The places in its block of the bits of a word's mask. */
function placesOf({ word, mask }) {
  const number = Number.parseInt(mask, 16);
  return [...Array(32).keys()].filter((place) => (number >>> place) & 1).map((place) => 32 * word + place);
}

/** The factory MAC of an ESP32, by which it is named. */
function chipOf(blocks) {
  return blocks[0][2].slice(4) + blocks[0][1];
}

/** Whether a chip shows all bits and keys of a batch. */
function shows(blocks, { bits, keys }) {
  const digests = blocks.map(blockDigest);
  const has = ({ block, word, mask }) => (~Number.parseInt(blocks[block][word], 16) & Number.parseInt(mask, 16)) === 0;
  return bits.every(has) && Object.values(keys).every((digest) => digests.includes(digest));
}

/**
 * Burns and reads back what a device awaits, until it awaits nothing. A batch is burnt before it is read back, also
 * where it may be burnt already, and until the chip shows all of it: a read-back of a half burnt key would quarantine
 * the device for good.
 */
async function settle(seat, bench, chip) {
  for (;;) {
    const device = await seat.get("/v1/device", { chip });
    if (!["awaiting1", "awaiting2"].includes(device.state)) return device;
    const work = device.state === "awaiting1" ? device.pending.batch1 : device.pending.batch2;
    let blocks;
    for (let tries = 0; tries < 9 && !(blocks && shows(blocks, work)); tries += 1) {
      bench.burn(work);
      blocks = bench.read();
    }
    await seat.post("/v1/readback", { chip, blocks });
  }
}

/** Makes the order, unless it is there, and imports the maps: the digest of the last one. */
async function prepare(seat, { order, maps }) {
  if (!(await seat.get("/v1/order", { name: order.name }, UNKNOWN_ORDER))) await seat.post("/v1/order", order);
  let map;
  for (const file of maps) {
    try {
      ({ map } = await seat.post("/v1/map", { text: fs.readFileSync(file, "utf8") }));
    } catch (error) {
      if (error.no !== BAD_MAP) throw error;
    }
  }
  return map;
}

async function main() {
  const job = JSON.parse(fs.readFileSync(process.env.KIT_JOB, "utf8"));
  const seat = new Seat(process.env);
  const bench = new Espefuse(process.env.KIT_CHIP, job.keys);
  await seat.finish();
  const map = await prepare(seat, job);
  const blocks = bench.read();
  const chip = chipOf(blocks);
  let device = await seat.get("/v1/device", { chip }, UNKNOWN_DEVICE);
  device ??= await seat.post("/v1/device", { chip, order: job.order.name, map, blocks });
  if (device.state === "registered") await seat.post("/v1/plan", { chip, wishes: job.wishes });
  device = await settle(seat, bench, chip);
  if (device.state === "settled") {
    const publicKey = fs.readFileSync(job.public_key).toString("hex");
    await seat.post("/v1/identity", { chip, public_key: publicKey });
  }
  const { state } = await seat.get("/v1/device", { chip });
  if (["identified", "shipped"].includes(state)) {
    fs.writeFileSync(job.record, JSON.stringify(await seat.get("/v1/identity", { chip })));
  }
  if (state === "identified") await seat.post("/v1/ship", { chip });
  return (await seat.get("/v1/device", { chip })).state === "shipped" ? 0 : 1;
}

process.exitCode = await main().catch((error) => {
  console.error(error.message);
  return 1;
});
