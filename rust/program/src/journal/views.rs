//! The views, in SQL, for those who prefer it: requests in words, openings of orders, holds. docs/HOLDS.md documents them with queries; what is
//! written there changes with this file.
//!
//! No index of `request` serves them: every request would pay for it when it is written. SQLite makes the indexes that a query needs while it runs.

/// Every view, after the tables that they read.
pub const VIEWS: &str = "
CREATE INDEX name_number ON name (sort, number, request);
CREATE VIEW rule AS
    SELECT of.reply, policy.kind, row_number() OVER (PARTITION BY policy.kind ORDER BY policy.place) AS rule,
        policy.place, policy.line, policy.words
    FROM policy JOIN (SELECT 14 AS reply, 16 AS kind UNION ALL SELECT 15, 11 UNION ALL SELECT 16, 12 UNION ALL SELECT 18, 15) AS of
        ON of.kind = policy.kind;
CREATE VIEW answered AS
    SELECT said.number, strftime('%Y-%m-%d %H:%M:%f', said.at / 1e6, 'unixepoch') AS time,
        said.client, said.account, said.via, said.words AS kind, said.user,
        (SELECT CAST(name.name AS TEXT) FROM name WHERE name.sort = 'user' AND name.number = said.user
            AND name.request <= said.number ORDER BY name.request DESC LIMIT 1) AS user_name,
        said.subject, said.ordr,
        (SELECT CAST(name.name AS TEXT) FROM name WHERE name.request = said.opening AND name.sort = 'order') AS order_name,
        said.task,
        (SELECT CAST(name.name AS TEXT) FROM name WHERE name.sort = 'task' AND name.number = said.task AND name.request = 0) AS task_name,
        said.opening, reply.name AS reply, said.place AS rule, rule.words AS rule_words
    FROM (SELECT request.*, kind.words,
            CASE kind.subject WHEN 'a' THEN a WHEN 'b' THEN b WHEN 'c' THEN c END AS subject,
            CASE kind.ordr WHEN 'a' THEN a WHEN 'b' THEN b WHEN 'c' THEN c END AS ordr,
            CASE kind.task WHEN 'a' THEN a WHEN 'b' THEN b WHEN 'c' THEN c END AS task
        FROM request LEFT JOIN kind ON kind.number = request.kind) AS said
    LEFT JOIN reply ON reply.number = said.reply
    LEFT JOIN rule ON rule.reply = said.reply AND rule.rule = said.place;
CREATE VIEW opening AS
    SELECT began.number AS opening, began.a AS ordr, CAST(named.name AS TEXT) AS name, began.b AS template,
        (SELECT CAST(name.name AS TEXT) FROM name WHERE name.sort = 'template' AND name.number = began.b AND name.request = 0) AS template_name,
        strftime('%Y-%m-%d %H:%M:%f', coalesce(moved.at, began.at) / 1e6, 'unixepoch') AS opened,
        strftime('%Y-%m-%d %H:%M:%f', ended.at / 1e6, 'unixepoch') AS ended,
        coalesce(moved.at, began.at) AS opened_at, ended.at AS ended_at
    FROM request AS began
    LEFT JOIN moved_from AS moved ON moved.request = began.number
    LEFT JOIN name AS named ON named.request = began.number AND named.sort = 'order'
    LEFT JOIN request AS ended ON ended.opening = began.number AND ended.kind = 49 AND ended.reply = 0
    WHERE began.kind = 48 AND began.reply = 0;
CREATE VIEW hold AS
    WITH work AS (SELECT request.number, coalesce(moved.at, request.at) AS at, user, kind, c AS task, request.opening
        FROM request LEFT JOIN moved_from AS moved ON moved.request = request.number WHERE kind BETWEEN 50 AND 52 AND reply = 0),
    done AS (SELECT opening, task, min(number) AS number FROM work WHERE kind = 52 GROUP BY opening, task),
    claim AS (SELECT work.opening, work.task, max(work.number) AS number, work.kind, work.at, work.user
        FROM work LEFT JOIN done ON done.opening = work.opening AND done.task = work.task
        WHERE work.kind < 52 AND (done.number IS NULL OR work.number < done.number) GROUP BY work.opening, work.task),
    pair AS (SELECT claim.opening, work.task AS from_task, claim.task AS to_task, max(work.number) AS begun_by, work.at AS begun_at,
            claim.number AS claimed_by, claim.at AS claimed_at, claim.user
        FROM claim JOIN work ON work.opening = claim.opening AND work.kind = 52 AND work.task <> claim.task AND work.number < claim.number
        WHERE claim.kind = 50 GROUP BY claim.opening, claim.task, work.task)
    SELECT pair.opening,
        (SELECT CAST(name.name AS TEXT) FROM name WHERE name.request = pair.opening AND name.sort = 'order') AS order_name,
        pair.from_task, pair.to_task, CAST(first.name AS TEXT) AS from_name, CAST(second.name AS TEXT) AS to_name,
        strftime('%Y-%m-%d %H:%M:%f', pair.begun_at / 1e6, 'unixepoch') AS begun,
        strftime('%Y-%m-%d %H:%M:%f', pair.claimed_at / 1e6, 'unixepoch') AS claimed,
        pair.begun_at, pair.claimed_at, pair.claimed_at - pair.begun_at AS hold_us, pair.user,
        (SELECT CAST(name.name AS TEXT) FROM name WHERE name.sort = 'user' AND name.number = pair.user
            AND name.request <= pair.claimed_by ORDER BY name.request DESC LIMIT 1) AS user_name
    FROM pair
    LEFT JOIN name AS first ON first.request = 0 AND first.sort = 'task' AND first.number = pair.from_task
    LEFT JOIN name AS second ON second.request = 0 AND second.sort = 'task' AND second.number = pair.to_task;
";
