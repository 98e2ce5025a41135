// Asks by fetch, or by the module http with its default agent, for bench/clients:
// node asking.mjs LIBRARY URL TOKEN BODY PAUSE COUNT
//
// Once a line is read it asks COUNT times, with so many seconds between: a POST of the body, and two GETs of the order
// `o1`, in turn. For each it prints a line: the seconds, a space, and the status or the error. Then it stays, with what
// the library keeps, until its input ends.

import http from "node:http";
import { once } from "node:events";
import { setTimeout } from "node:timers/promises";

const [library, url, token, body, pause, count] = process.argv.slice(2);
const headers = { authorization: `Bearer ${token}` };

async function byFetch(method, target, body) {
  const reply = await fetch(url + target, { method, headers, body });
  await reply.text();
  return reply.status;
}

async function byHttp(method, target, body) {
  const request = http.request(url + target, { method, headers });
  request.end(body);
  const [reply] = await once(request, "response");
  reply.resume();
  await once(reply, "end");
  return reply.statusCode;
}

const ask = { fetch: byFetch, http: byHttp }[library];
console.log("ready");
await once(process.stdin, "data");
for (let number = 0; number < Number(count); number += 1) {
  if (number > 0 && Number(pause) > 0) await setTimeout(1000 * Number(pause));
  const start = performance.now();
  let told;
  try {
    told = number % 3 > 0 ? await ask("GET", "/v1/order?name=o1") : await ask("POST", "/v1/order", body);
  } catch (error) {
    told = `${error} ${error.cause ?? ""}`.replaceAll("\n", " ");
  }
  console.log((performance.now() - start) / 1000, told);
}
await once(process.stdin, "end");
process.exit();
