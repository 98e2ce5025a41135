//! The statements of the program's crate office_sql for registrations and lives; bench/serving compares the texts.

macro_rules! given_where {
    ($tests:literal) => {
        concat!(
            "SELECT given.issuer, given.serial, customer, key, chip, mac, not_after, not_before FROM given",
            " JOIN given_start ON given_start.issuer = given.issuer AND given_start.serial = given.serial WHERE ",
            $tests,
            " ORDER BY given.issuer, given.serial"
        )
    };
}

pub const SEAT: &str = "SELECT name, customer, last, digest, reply FROM seat WHERE name = ?1 ORDER BY name";
pub const DEVICE: &str = concat!(
    "SELECT customer, chip, ord, map, state, reason, bits, keys, todo, serial FROM device",
    " WHERE customer = ?1 AND chip = ?2 ORDER BY customer, chip"
);
pub const LINK: &str =
    "SELECT customer, digest, map FROM link WHERE customer = ?1 AND digest = ?2 ORDER BY customer, digest";
pub const ORDER: &str = concat!(
    "SELECT orders.customer, name, issuer, prefix, width, first, quantity, macs, mac, cursor, not_before FROM orders",
    " JOIN order_start ON order_start.customer = orders.customer AND ord = name",
    " WHERE orders.customer = ?1 AND name = ?2 ORDER BY orders.customer, name"
);
pub const LAST_ENTRY: &str = "SELECT n FROM ledger WHERE customer = ?1 AND chip = ?2 ORDER BY n DESC LIMIT 1";
pub const GIVEN_BY_SERIAL: &str = given_where!("given.issuer = ?1 AND given.serial = ?2");
pub const GIVEN_BY_KEY: &str = given_where!("given.issuer = ?1 AND key = ?2");

pub const ADD_DEVICE: &str = concat!(
    "INSERT INTO device (customer, chip, ord, map, state, reason, bits, keys, todo, serial)",
    " VALUES (?1, ?2, ?3, ?4, ?5, ?6, ?7, ?8, ?9, ?10)"
);
pub const PUT_DEVICE: &str = concat!(
    "UPDATE device SET ord = ?3, map = ?4, state = ?5, reason = ?6, bits = ?7, keys = ?8, todo = ?9, serial = ?10",
    " WHERE customer = ?1 AND chip = ?2"
);
pub const ADD_ENTRY: &str = concat!(
    "INSERT INTO ledger (customer, chip, n, event, note, seat, bits, keys)",
    " VALUES (?1, ?2, ?3, ?4, ?5, ?6, ?7, ?8)"
);
pub const ADD_GIVEN: &str = concat!(
    "INSERT INTO given (issuer, serial, customer, key, chip, mac, not_after)",
    " VALUES (?1, ?2, ?3, ?4, ?5, ?6, ?7)"
);
pub const ADD_GIVEN_START: &str = "INSERT INTO given_start (issuer, serial, not_before) VALUES (?1, ?2, ?3)";
pub const SET_CURSOR: &str = "UPDATE orders SET cursor = ?3 WHERE customer = ?1 AND name = ?2";
pub const PUT_SEAT: &str = "UPDATE seat SET customer = ?2, last = ?3, digest = ?4, reply = ?5 WHERE name = ?1";
