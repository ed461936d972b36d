//! The views of journals in PostgreSQL, for those who prefer SQL: those of a file (../views.rs), each with its desk. They have the same columns
//! and the same texts of times, so that the queries of docs/HOLDS.md run over both.

/// What makes them again: a migration. `opening` and `answered` had been there without what a move brings, and with times that are no text.
pub const VIEWS: &str = r#"
DROP VIEW opening;
DROP VIEW answered;
CREATE FUNCTION said(name bytea) RETURNS text LANGUAGE plpgsql IMMUTABLE STRICT AS
    $$ BEGIN RETURN convert_from(name, 'UTF8'); EXCEPTION WHEN others THEN RETURN encode(name, 'escape'); END $$;
CREATE FUNCTION moment(at bigint) RETURNS text LANGUAGE sql IMMUTABLE STRICT AS
    $$ SELECT to_char(timestamp '1970-01-01' + at * interval '1 microsecond', 'YYYY-MM-DD HH24:MI:SS.MS') $$;
CREATE VIEW answered AS
    SELECT said.desk, said.number, moment(said.at) AS time, said.client, said.account, said.via, said.words AS kind, said."user",
        (SELECT said(name.name) FROM name WHERE name.desk = said.desk AND name.sort = 'user' AND name.number = said."user"
            AND name.request <= said.number ORDER BY name.request DESC LIMIT 1) AS user_name,
        said.subject, said.ordr,
        (SELECT said(name.name) FROM name WHERE name.desk = said.desk AND name.request = said.opening AND name.sort = 'order') AS order_name,
        said.task,
        (SELECT said(name.name) FROM name WHERE name.desk = said.desk AND name.sort = 'task' AND name.number = said.task
            AND name.request = 0) AS task_name,
        said.opening, reply.name AS reply, said.place AS rule, rule.words AS rule_words
    FROM (SELECT request.*, kind.words,
            CASE kind.subject WHEN 'a' THEN a WHEN 'b' THEN b WHEN 'c' THEN c END AS subject,
            CASE kind.ordr WHEN 'a' THEN a WHEN 'b' THEN b WHEN 'c' THEN c END AS ordr,
            CASE kind.task WHEN 'a' THEN a WHEN 'b' THEN b WHEN 'c' THEN c END AS task
        FROM request LEFT JOIN kind ON kind.number = request.kind) AS said
    LEFT JOIN reply ON reply.number = said.reply
    LEFT JOIN rule ON rule.desk = said.desk AND rule.reply = said.reply AND rule.rule = said.place;
CREATE VIEW opening AS
    SELECT began.desk, began.number AS opening, began.a AS ordr, said(named.name) AS name, began.b AS template,
        (SELECT said(name.name) FROM name WHERE name.desk = began.desk AND name.sort = 'template' AND name.number = began.b
            AND name.request = 0) AS template_name,
        moment(coalesce(moved.at, began.at)) AS opened, moment(ended.at) AS ended,
        coalesce(moved.at, began.at) AS opened_at, ended.at AS ended_at
    FROM request AS began
    LEFT JOIN moved_from AS moved ON moved.desk = began.desk AND moved.request = began.number
    LEFT JOIN name AS named ON named.desk = began.desk AND named.request = began.number AND named.sort = 'order'
    LEFT JOIN request AS ended ON ended.desk = began.desk AND ended.opening = began.number AND ended.kind = 49 AND ended.reply = 0
    WHERE began.kind = 48 AND began.reply = 0;
CREATE VIEW hold AS
    WITH work AS NOT MATERIALIZED (SELECT request.desk, request.number, coalesce(moved.at, request.at) AS at, "user", kind, c AS task,
            request.opening
        FROM request LEFT JOIN moved_from AS moved ON moved.desk = request.desk AND moved.request = request.number
        WHERE kind BETWEEN 50 AND 52 AND reply = 0),
    done AS (SELECT desk, opening, task, min(number) AS number FROM work WHERE kind = 52 GROUP BY desk, opening, task),
    claim AS (SELECT DISTINCT ON (work.desk, work.opening, work.task) work.*
        FROM work LEFT JOIN done ON done.desk = work.desk AND done.opening = work.opening AND done.task = work.task
        WHERE work.kind < 52 AND (done.number IS NULL OR work.number < done.number)
        ORDER BY work.desk, work.opening, work.task, work.number DESC),
    pair AS (SELECT DISTINCT ON (claim.desk, claim.opening, claim.task, work.task) claim.desk, claim.opening, work.task AS from_task,
            claim.task AS to_task, work.at AS begun_at, claim.number AS claimed_by, claim.at AS claimed_at, claim."user"
        FROM claim JOIN work ON work.desk = claim.desk AND work.opening = claim.opening AND work.kind = 52 AND work.task <> claim.task
            AND work.number < claim.number
        WHERE claim.kind = 50
        ORDER BY claim.desk, claim.opening, claim.task, work.task, work.number DESC)
    SELECT pair.desk, pair.opening,
        (SELECT said(name.name) FROM name WHERE name.desk = pair.desk AND name.request = pair.opening AND name.sort = 'order') AS order_name,
        pair.from_task, pair.to_task, said(first.name) AS from_name, said(second.name) AS to_name,
        moment(pair.begun_at) AS begun, moment(pair.claimed_at) AS claimed,
        pair.begun_at, pair.claimed_at, pair.claimed_at - pair.begun_at AS hold_us, pair."user",
        (SELECT said(name.name) FROM name WHERE name.desk = pair.desk AND name.sort = 'user' AND name.number = pair."user"
            AND name.request <= pair.claimed_by ORDER BY name.request DESC LIMIT 1) AS user_name
    FROM pair
    LEFT JOIN name AS first ON first.desk = pair.desk AND first.request = 0 AND first.sort = 'task' AND first.number = pair.from_task
    LEFT JOIN name AS second ON second.desk = pair.desk AND second.request = 0 AND second.sort = 'task' AND second.number = pair.to_task;
"#;
