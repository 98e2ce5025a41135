//! A plain server of registrations and whole lives of devices over an SQLite file, for bench/serving to measure beside
//! the program: for each request the same statements in one transaction with one sync, and the kept reply where the
//! request is a repeat. It has none of the office's rules: a step does what it is asked for, whatever state a device is
//! in and whatever a chip shows.
//!
//!     rust_station DB PORT SEAT CUSTOMER TOKEN [SEAT CUSTOMER TOKEN]..
//!
//! DB is a store with its tables, a seat's row, a map and an order; TOKEN is the SHA-256 of a seat's token. It serves on
//! 127.0.0.1 until it is ended: tiny_http's threads read and write, and one thread answers one request after another.

mod books;
mod statements;

use books::{block_of, bytes_of, hex, sha256, Answer, Books, Refusal, Seat, BAD_MEMBER};
use rusqlite::{params, Connection, Row, TransactionBehavior};
use serde_json::{json, Value};
use std::collections::HashMap;
use std::error::Error;
use tiny_http::{Header, Method, Request, Response, Server};

/// The statements that a connection keeps prepared.
const PREPARED: usize = 32;

/// A request as it was read.
struct Asked {
    path: String,
    number: i64,
    members: Value,
    blocks: Option<Vec<Vec<u8>>>,
    digest: [u8; 32],
}

impl Asked {
    /// Reads the body. A request is known by the SHA-256 of its path and its members, with a digest for each block.
    fn parse(path: &str, body: &[u8]) -> Answer<Asked> {
        let mut members: Value = serde_json::from_slice(body).map_err(|_| Refusal(400, "bad_json"))?;
        let number = members["nr"].as_i64().ok_or(BAD_MEMBER)?;
        let blocks = match members["blocks"].as_array() {
            Some(blocks) if blocks.len() == 4 => Some(blocks.iter().map(block_of).collect::<Answer<Vec<_>>>()?),
            _ => None,
        };
        if let Some(blocks) = &blocks {
            members["blocks"] = blocks.iter().map(|block| hex(&sha256(block))).collect();
        }
        let digest = sha256(format!("{}\n{}", path, members).as_bytes());
        Ok(Asked { path: path.to_string(), number, members, blocks, digest })
    }
}

/// A store, and the seats by the SHA-256 of their tokens.
struct Station {
    base: Connection,
    seats: HashMap<Vec<u8>, Seat>,
}

impl Station {
    fn open(path: &str, seats: &[String]) -> Result<Station, Box<dyn Error>> {
        let base = Connection::open(path)?;
        base.pragma_update(None, "journal_mode", "WAL")?;
        base.pragma_update(None, "synchronous", "FULL")?;
        base.pragma_update(None, "foreign_keys", true)?;
        base.set_prepared_statement_cache_capacity(PREPARED);
        let seat_of = |words: &[String]| {
            let token = bytes_of(&words[2]).map_err(|_| "a token's SHA-256 isn't hexadecimal")?;
            Ok((token, Seat { name: words[0].clone(), customer: words[1].clone() }))
        };
        let seats = seats.chunks_exact(3).map(seat_of).collect::<Result<_, &str>>()?;
        Ok(Station { base, seats })
    }

    /// The body of the reply.
    fn answer(&mut self, request: &mut Request) -> Answer<String> {
        let seat = token_of(request).and_then(|token| self.seats.get(&sha256(token.as_bytes())[..]));
        let seat = seat.ok_or(Refusal(401, "unknown_token"))?;
        if *request.method() != Method::Post {
            return Err(Refusal(404, "unknown_path"));
        }
        let mut body = Vec::new();
        request.as_reader().read_to_end(&mut body).map_err(|_| Refusal(400, "bad_length"))?;
        let asked = Asked::parse(request.url(), &body)?;
        let tx = self.base.transaction_with_behavior(TransactionBehavior::Immediate)?;
        let reply = reply_of(&Books { tx: &tx, seat }, &asked)?;
        tx.commit()?;
        Ok(reply)
    }
}

fn token_of(request: &Request) -> Option<&str> {
    let field = request.headers().iter().find(|header| header.field.equiv("Authorization"))?;
    field.value.as_str().strip_prefix("Bearer ")
}

/// The kept reply where the request is the last one again, else the reply to the next one, which is kept.
fn reply_of(books: &Books, asked: &Asked) -> Answer<String> {
    let Seat { name, customer } = books.seat;
    let read = |row: &Row| Ok((row.get::<_, i64>(2)?, row.get::<_, Vec<u8>>(3)?, row.get(4)?));
    let (last, digest, kept) = books.find(statements::SEAT, [name], read)?.ok_or(Refusal(503, "unkept"))?;
    if asked.number == last && asked.digest[..] == digest[..] {
        return Ok(kept);
    }
    if asked.number != last + 1 {
        return Err(Refusal(409, "wrong_number"));
    }
    let reply = carry_out(books, asked)?;
    books.run(statements::PUT_SEAT, params![name, customer, asked.number, asked.digest, reply])?;
    Ok(reply)
}

fn carry_out(books: &Books, asked: &Asked) -> Answer<String> {
    let (members, blocks) = (&asked.members, asked.blocks.as_deref());
    match asked.path.as_str() {
        "/v1/device" => books.register(members, blocks.ok_or(BAD_MEMBER)?),
        "/v1/plan" => books.step(members, None, "awaiting1", "planned"),
        "/v1/readback" => books.step(members, Some(blocks.ok_or(BAD_MEMBER)?), "settled", "read"),
        "/v1/identity" => books.identify(members),
        "/v1/ship" => books.step(members, None, "shipped", "shipped"),
        _ => Err(Refusal(404, "unknown_path")),
    }
}

fn main() -> Result<(), Box<dyn Error>> {
    let words: Vec<String> = std::env::args().skip(1).collect();
    if words.len() < 5 || words.len() % 3 != 2 {
        return Err("rust_station DB PORT SEAT CUSTOMER TOKEN [SEAT CUSTOMER TOKEN]..".into());
    }
    let mut station = Station::open(&words[0], &words[2..])?;
    let server = Server::http(("127.0.0.1", words[1].parse::<u16>()?)).map_err(|fault| fault.to_string())?;
    let json = Header::from_bytes("Content-Type", "application/json").map_err(|_| "no field")?;
    for mut request in server.incoming_requests() {
        let (status, body) = match station.answer(&mut request) {
            Ok(body) => (200, body),
            Err(Refusal(status, name)) => (status, json!({ "error": name }).to_string()),
        };
        let reply = Response::from_data(body).with_status_code(status).with_header(json.clone());
        if let Err(fault) = request.respond(reply) {
            eprintln!("rust_station: a reply wasn't sent: {}", fault);
        }
    }
    Ok(())
}
