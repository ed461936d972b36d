//! The tables, in SQL. docs/SERVE.md documents them for auditors; what is written there changes with this file.

/// The tables that version 2 has otherwise, or has not.
pub const NEW: &str = "
CREATE TABLE journal (
    id INTEGER PRIMARY KEY CHECK (id = 1),
    version INTEGER NOT NULL,
    program TEXT NOT NULL,
    policy_words INTEGER NOT NULL,
    sessions_words INTEGER NOT NULL,
    orders_words INTEGER NOT NULL,
    at INTEGER NOT NULL,
    file TEXT NOT NULL,
    moved_from TEXT, moved_number INTEGER, moved_sum BLOB,
    sum BLOB NOT NULL
);
CREATE TABLE request (
    number INTEGER PRIMARY KEY,
    at INTEGER NOT NULL,
    client INTEGER NOT NULL,
    account TEXT NOT NULL,
    via TEXT,
    user INTEGER,
    kind INTEGER, n INTEGER, a INTEGER, b INTEGER, c INTEGER, m INTEGER,
    cut BLOB,
    reply INTEGER NOT NULL,
    place INTEGER NOT NULL,
    opening INTEGER,
    key TEXT,
    sum BLOB NOT NULL
);
CREATE INDEX request_key ON request (account, key) WHERE key IS NOT NULL;
CREATE TABLE moved_from (
    request INTEGER PRIMARY KEY,
    number INTEGER NOT NULL,
    at INTEGER NOT NULL,
    account TEXT NOT NULL,
    opening INTEGER
);
CREATE TABLE moved_key (
    account TEXT NOT NULL,
    key TEXT NOT NULL,
    number INTEGER NOT NULL,
    at INTEGER NOT NULL,
    record BLOB NOT NULL,
    reply INTEGER NOT NULL,
    place INTEGER NOT NULL,
    PRIMARY KEY (account, key)
) WITHOUT ROWID;
CREATE TABLE snapshot (
    after INTEGER PRIMARY KEY,
    version INTEGER NOT NULL,
    row_sum BLOB NOT NULL,
    policy BLOB NOT NULL, sessions BLOB NOT NULL, orders BLOB NOT NULL,
    openings BLOB NOT NULL,
    names TEXT NOT NULL,
    sum BLOB NOT NULL
);
";

/// The tables that are as they were in version 2.
pub const KEPT: &str = "
CREATE TABLE policy (
    place INTEGER PRIMARY KEY,
    line INTEGER,
    kind INTEGER NOT NULL, n INTEGER NOT NULL,
    a INTEGER NOT NULL, b INTEGER NOT NULL, c INTEGER NOT NULL, m INTEGER NOT NULL,
    words TEXT NOT NULL
);
CREATE TABLE barred (
    id INTEGER PRIMARY KEY,
    at INTEGER NOT NULL,
    after INTEGER NOT NULL,
    client INTEGER NOT NULL,
    account TEXT NOT NULL,
    via TEXT,
    record BLOB,
    asked TEXT NOT NULL,
    why TEXT NOT NULL
);
CREATE TABLE clock (
    id INTEGER PRIMARY KEY,
    after INTEGER NOT NULL,
    expected INTEGER NOT NULL,
    found INTEGER NOT NULL
);
CREATE TABLE name (
    request INTEGER NOT NULL,
    sort TEXT NOT NULL,
    number INTEGER NOT NULL,
    name BLOB NOT NULL
);
CREATE INDEX name_request ON name (request);
CREATE TABLE start (
    id INTEGER PRIMARY KEY,
    at INTEGER NOT NULL,
    after INTEGER NOT NULL,
    program TEXT NOT NULL
);
CREATE TABLE reply (number INTEGER PRIMARY KEY, name TEXT NOT NULL);
CREATE TABLE kind (number INTEGER PRIMARY KEY, words TEXT NOT NULL, subject TEXT, ordr TEXT, task TEXT);
";

/// A request with its reply.
pub const INSERT: &str =
    "INSERT INTO request (number, at, client, account, via, user, kind, n, a, b, c, m, cut, reply, place, opening, key, sum) \
     VALUES (?1, ?2, ?3, ?4, ?5, ?6, ?7, ?8, ?9, ?10, ?11, ?12, ?13, ?14, ?15, ?16, ?17, ?18)";

pub const INSERT_NAME: &str =
    "INSERT INTO name (request, sort, number, name) VALUES (?1, ?2, ?3, ?4)";

/// What a request was moved from.
pub const INSERT_MOVED: &str =
    "INSERT INTO moved_from (request, number, at, account, opening) VALUES (?1, ?2, ?3, ?4, ?5)";

/// What an account may not ask.
pub const INSERT_BARRED: &str =
    "INSERT INTO barred (at, after, client, account, via, record, asked, why) \
     VALUES (?1, ?2, ?3, ?4, ?5, ?6, ?7, ?8)";

/// A clock that was set.
pub const INSERT_CLOCK: &str = "INSERT INTO clock (after, expected, found) VALUES (?1, ?2, ?3)";

/// A start of the server.
pub const INSERT_START: &str = "INSERT INTO start (at, after, program) VALUES (?1, ?2, ?3)";

/// A snapshot. One of another layout after the same request makes room for it.
pub const INSERT_SNAPSHOT: &str =
    "INSERT OR REPLACE INTO snapshot (after, version, row_sum, policy, sessions, orders, openings, names, sum) \
     VALUES (?1, ?2, ?3, ?4, ?5, ?6, ?7, ?8, ?9)";

/// What an account was answered under a key since a time, the last of it.
pub const KNOWN: &str = "
SELECT number, kind, n, a, b, c, m, cut, reply, place, at FROM request WHERE account = ?1 AND key = ?2 AND key IS NOT NULL AND at >= ?3
UNION ALL SELECT number, NULL, NULL, NULL, NULL, NULL, NULL, record, reply, place, at FROM moved_key WHERE account = ?1 AND key = ?2 AND at >= ?3
ORDER BY at DESC, number DESC LIMIT 1";
