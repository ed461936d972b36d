//! The tables of journals in PostgreSQL: those of a file (../tables.rs), with the desk before each key, and who writes each desk.
//!
//! They change by migrations, each run once, in its order. A migration that has landed is never changed: its sum is compared.

use super::views::VIEWS;

/// What makes or changes the tables, from 1 on.
pub const MIGRATIONS: [&str; 3] = [TABLES, NUMBERS, VIEWS];

/// A number for each desk, by which servers share them.
const NUMBERS: &str = "ALTER TABLE writer ADD COLUMN number bigint GENERATED ALWAYS AS IDENTITY";

const TABLES: &str = r#"
CREATE TABLE journal (
    desk text PRIMARY KEY,
    version bigint NOT NULL,
    program text NOT NULL,
    policy_words bigint NOT NULL,
    sessions_words bigint NOT NULL,
    orders_words bigint NOT NULL,
    at bigint NOT NULL,
    file text NOT NULL,
    moved_from text, moved_number bigint, moved_sum bytea,
    sum bytea NOT NULL
);
CREATE TABLE policy (
    desk text NOT NULL REFERENCES journal,
    place bigint NOT NULL,
    line bigint,
    kind smallint NOT NULL, n smallint NOT NULL,
    a integer NOT NULL, b integer NOT NULL, c integer NOT NULL, m bigint NOT NULL,
    words text NOT NULL,
    PRIMARY KEY (desk, place)
);
CREATE TABLE request (
    desk text NOT NULL,
    number bigint NOT NULL,
    at bigint NOT NULL,
    client bigint NOT NULL,
    opening bigint,
    m bigint,
    "user" integer,
    a integer, b integer, c integer,
    place integer NOT NULL,
    kind smallint, n smallint,
    reply smallint NOT NULL,
    account text NOT NULL,
    via text,
    cut bytea,
    key text,
    sum bytea NOT NULL,
    PRIMARY KEY (desk, number)
);
CREATE INDEX request_key ON request (desk, account, key) WHERE key IS NOT NULL;
CREATE TABLE moved_from (
    desk text NOT NULL,
    request bigint NOT NULL,
    number bigint NOT NULL,
    at bigint NOT NULL,
    account text NOT NULL,
    opening bigint,
    PRIMARY KEY (desk, request)
);
CREATE TABLE moved_key (
    desk text NOT NULL,
    account text NOT NULL,
    key text NOT NULL,
    number bigint NOT NULL,
    at bigint NOT NULL,
    record bytea NOT NULL,
    reply smallint NOT NULL,
    place integer NOT NULL,
    PRIMARY KEY (desk, account, key)
);
CREATE TABLE snapshot (
    desk text NOT NULL,
    after bigint NOT NULL,
    version bigint NOT NULL,
    row_sum bytea NOT NULL,
    policy bytea NOT NULL, sessions bytea NOT NULL, orders bytea NOT NULL,
    openings bytea NOT NULL,
    names text NOT NULL,
    sum bytea NOT NULL,
    PRIMARY KEY (desk, after)
);
CREATE TABLE barred (
    desk text NOT NULL,
    id bigint GENERATED ALWAYS AS IDENTITY,
    at bigint NOT NULL,
    after bigint NOT NULL,
    client bigint NOT NULL,
    account text NOT NULL,
    via text,
    record bytea,
    asked text NOT NULL,
    why text NOT NULL,
    PRIMARY KEY (desk, after, id)
);
CREATE TABLE clock (
    desk text NOT NULL,
    id bigint GENERATED ALWAYS AS IDENTITY,
    after bigint NOT NULL,
    expected bigint NOT NULL,
    found bigint NOT NULL,
    PRIMARY KEY (desk, after, id)
);
CREATE TABLE name (
    desk text NOT NULL,
    id bigint GENERATED ALWAYS AS IDENTITY,
    request bigint NOT NULL,
    sort text NOT NULL,
    number integer NOT NULL,
    name bytea NOT NULL,
    PRIMARY KEY (desk, request, id)
);
CREATE INDEX name_number ON name (desk, sort, number, request);
CREATE SEQUENCE fence;
CREATE TABLE start (
    desk text NOT NULL,
    id bigint NOT NULL,
    at bigint NOT NULL,
    after bigint NOT NULL,
    program text NOT NULL,
    server text NOT NULL,
    PRIMARY KEY (desk, after, id)
);
-- Who has a desk. `start` decides: a group is written by whoever has it, and by nobody else.
CREATE TABLE writer (
    desk text PRIMARY KEY REFERENCES journal,
    start bigint NOT NULL,
    last bigint NOT NULL,
    groups bigint NOT NULL,
    beat timestamptz NOT NULL,
    server text NOT NULL,
    backend integer NOT NULL,
    ended boolean NOT NULL
) WITH (fillfactor = 50);
CREATE TABLE reply (number integer PRIMARY KEY, name text NOT NULL);
CREATE TABLE kind (number integer PRIMARY KEY, words text NOT NULL, subject text, ordr text, task text);
CREATE VIEW rule AS
    SELECT desk, said.reply, policy.kind, row_number() OVER (PARTITION BY desk, policy.kind ORDER BY policy.place) AS rule,
        policy.place, policy.line, policy.words
    FROM policy JOIN (VALUES (14, 16), (15, 11), (16, 12), (18, 15)) AS said (reply, kind) ON said.kind = policy.kind;
CREATE VIEW answered AS
    SELECT said.desk, said.number, to_timestamp(said.at / 1e6) AT TIME ZONE 'UTC' AS time, said.client, said.account, said.via,
        said.words AS kind, said."user",
        (SELECT encode(name.name, 'escape') FROM name WHERE name.desk = said.desk AND name.sort = 'user' AND name.number = said."user"
            AND name.request <= said.number ORDER BY name.request DESC LIMIT 1) AS user_name,
        said.subject, said.ordr,
        (SELECT encode(name.name, 'escape') FROM name WHERE name.desk = said.desk AND name.request = said.opening AND name.sort = 'order') AS order_name,
        said.task,
        (SELECT encode(name.name, 'escape') FROM name WHERE name.desk = said.desk AND name.sort = 'task' AND name.number = said.task
            AND name.request = 0) AS task_name,
        said.opening, reply.name AS reply, said.place AS rule, rule.words AS rule_words
    FROM (SELECT request.*, kind.words,
            CASE kind.subject WHEN 'a' THEN a WHEN 'b' THEN b WHEN 'c' THEN c END AS subject,
            CASE kind.ordr WHEN 'a' THEN a WHEN 'b' THEN b WHEN 'c' THEN c END AS ordr,
            CASE kind.task WHEN 'a' THEN a WHEN 'b' THEN b WHEN 'c' THEN c END AS task
        FROM request LEFT JOIN kind ON kind.number = request.kind) AS said
    LEFT JOIN reply ON reply.number = said.reply
    LEFT JOIN rule ON rule.desk = said.desk AND rule.reply = said.reply AND rule.rule = said.place;
CREATE VIEW opening AS
    SELECT began.desk, began.number AS opening, began.a AS ordr, encode(named.name, 'escape') AS name, began.b AS template,
        to_timestamp(began.at / 1e6) AT TIME ZONE 'UTC' AS opened, to_timestamp(ended.at / 1e6) AT TIME ZONE 'UTC' AS ended,
        began.at AS opened_at, ended.at AS ended_at
    FROM request AS began
    LEFT JOIN name AS named ON named.desk = began.desk AND named.request = began.number AND named.sort = 'order'
    LEFT JOIN request AS ended ON ended.desk = began.desk AND ended.opening = began.number AND ended.kind = 49 AND ended.reply = 0
    WHERE began.kind = 48 AND began.reply = 0;
"#;

/// The fence and a group's rows.
macro_rules! fenced {
    () => {
        r#"
WITH f AS (UPDATE writer SET last = $4, groups = groups + 1, beat = clock_timestamp() WHERE desk = $1 AND start = $2 AND last = $3 RETURNING 1),
r AS (INSERT INTO request (desk, number, at, client, account, via, "user", kind, n, a, b, c, m, cut, reply, place, opening, key, sum)
    SELECT $1, u.* FROM unnest($5::bigint[], $6::bigint[], $7::bigint[], $8::text[], $9::text[], $10::integer[], $11::smallint[],
        $12::smallint[], $13::integer[], $14::integer[], $15::integer[], $16::bigint[], $17::bytea[], $18::smallint[], $19::integer[],
        $20::bigint[], $21::text[], $22::bytea[]) AS u
    WHERE EXISTS (SELECT 1 FROM f) RETURNING 1)"#
    };
}

/// How many rows the fence met, and how many came.
macro_rules! counted {
    () => {
        "
SELECT (SELECT count(*) FROM f), (SELECT count(*) FROM r)"
    };
}

/// Writes a group whose rows are all there is to it. The fence, the rows and the commit are one statement: whoever has lost the desk writes
/// nothing, and a server that is stopped between two statements holds no lock that keeps its successor out.
pub const WRITE: &str = concat!(fenced!(), counted!());

/// The same with names, notes and snapshots.
pub const WRITE_ALL: &str = concat!(
    fenced!(),
    r#",
n AS (INSERT INTO name (desk, request, sort, number, name)
    SELECT $1, u.request, u.sort, u.number, u.name
    FROM unnest($23::bigint[], $24::text[], $25::integer[], $26::bytea[]) WITH ORDINALITY AS u (request, sort, number, name, place)
    WHERE EXISTS (SELECT 1 FROM f) ORDER BY u.place),
v AS (INSERT INTO moved_from (desk, request, number, at, account, opening)
    SELECT $1, u.* FROM unnest($27::bigint[], $28::bigint[], $29::bigint[], $30::text[], $31::bigint[]) AS u
    WHERE EXISTS (SELECT 1 FROM f)),
b AS (INSERT INTO barred (desk, at, after, client, account, via, record, asked, why)
    SELECT $1, u.at, $3, u.client, u.account, u.via, u.record, u.asked, u.why
    FROM unnest($32::bigint[], $33::bigint[], $34::text[], $35::text[], $36::bytea[], $37::text[], $38::text[])
        WITH ORDINALITY AS u (at, client, account, via, record, asked, why, place)
    WHERE EXISTS (SELECT 1 FROM f) ORDER BY u.place),
c AS (INSERT INTO clock (desk, after, expected, found)
    SELECT $1, $3, u.* FROM unnest($39::bigint[], $40::bigint[]) AS u WHERE EXISTS (SELECT 1 FROM f)),
s AS (INSERT INTO snapshot (desk, after, version, row_sum, policy, sessions, orders, openings, names, sum)
    SELECT $1, u.* FROM unnest($41::bigint[], $42::bigint[], $43::bytea[], $44::bytea[], $45::bytea[], $46::bytea[], $47::bytea[],
        $48::text[], $49::bytea[]) AS u
    WHERE EXISTS (SELECT 1 FROM f)
    ON CONFLICT (desk, after) DO UPDATE SET version = excluded.version, row_sum = excluded.row_sum, policy = excluded.policy,
        sessions = excluded.sessions, orders = excluded.orders, openings = excluded.openings, names = excluded.names, sum = excluded.sum)"#,
    counted!()
);

/// A number that no server had before.
pub const NEXT: &str = "SELECT nextval('fence')";

/// Takes a desk from the server that has it, where that has ended, or is silent for so many microseconds. Whoever had it can write nothing
/// from then on.
pub const TAKE: &str = "
WITH w AS (UPDATE writer SET start = $3, beat = clock_timestamp(), server = $4, backend = pg_backend_pid(), ended = false
    WHERE desk = $1 AND start = $2 AND (ended OR beat <= clock_timestamp() - $5::bigint * interval '1 microsecond')
    RETURNING start, last, groups),
s AS (INSERT INTO start (desk, id, at, after, program, server) SELECT $1, w.start, $6, w.last, $7, $4 FROM w)
SELECT last, groups FROM w";

/// The same by a server whose connection broke, from itself: it is no start. One of its earlier tries may have been done.
pub const RETAKE: &str = "
UPDATE writer SET start = $3, beat = clock_timestamp(), backend = pg_backend_pid() WHERE desk = $1 AND start = ANY ($2)
RETURNING last, groups";

/// Keeps a desk from being served until the transaction ends, and takes it from the server that had it when it commits.
pub const HOLD: &str = "
UPDATE writer SET start = nextval('fence'), ended = true
WHERE desk = $1 AND start = $2 AND (ended OR beat <= clock_timestamp() - $3::bigint * interval '1 microsecond')
RETURNING last";

/// Who has a desk, for how many microseconds nothing came from there, and whether its session is gone.
pub const WHO: &str = "
SELECT start, server, ended, number, (extract(epoch FROM clock_timestamp() - beat) * 1000000)::bigint,
    NOT EXISTS (SELECT 1 FROM pg_stat_activity WHERE pid = backend AND application_name = 'mishantral')
FROM writer WHERE desk = $1";

/// That the desk is still served, while nobody asks.
pub const BEAT: &str =
    "UPDATE writer SET beat = clock_timestamp() WHERE desk = $1 AND start = $2 RETURNING last";

/// An end that was asked for: the next server need not wait.
pub const END: &str =
    "UPDATE writer SET ended = true WHERE desk = $1 AND start = $2 RETURNING last";

/// What an account was answered under its keys, the last of each.
pub const KNOWN: &str = r#"
SELECT DISTINCT ON (account, key) account, key, number, kind, n, a, b, c, m, cut, reply, place FROM (
    SELECT account, key, number, at, kind, n, a, b, c, m, cut, reply, place FROM request
        WHERE desk = $1 AND (account, key) IN (SELECT * FROM unnest($2::text[], $3::text[]))
    UNION ALL SELECT account, key, number, at, NULL, NULL, NULL, NULL, NULL, NULL, record, reply, place FROM moved_key
        WHERE desk = $1 AND (account, key) IN (SELECT * FROM unnest($2::text[], $3::text[]))) AS known
WHERE at >= $4 ORDER BY account, key, at DESC, number DESC"#;
