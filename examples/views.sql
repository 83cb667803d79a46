-- Views over a store of SQLite, for sqlite3 and for spreadsheets: names in place of numbers, and figures with their
-- points. They are put into a store while no program has it, and replace those of the same names:
--
--     sqlite3 S <examples/views.sql
--     sqlite3 -header -csv S 'SELECT * FROM live_trades' >trades.csv
--
-- The desk passes over views. It does not read them, and what they show is what its tables have.

DROP VIEW IF EXISTS trades_by_reference_date;
DROP VIEW IF EXISTS blotter;
DROP VIEW IF EXISTS desk_positions;
DROP VIEW IF EXISTS live_trades;
DROP VIEW IF EXISTS trade_versions;
DROP VIEW IF EXISTS live_versions;

-- The last version of each trade that is not canceled, as the desk's table has it.
CREATE VIEW live_versions AS
SELECT * FROM versions_3 AS version
WHERE version.act <> 2 AND version.number = (SELECT MAX(other.number) FROM versions_3 AS other
    WHERE other.desk = version.desk AND other.reference = version.reference);

-- Every version of every trade, to read, with the terms of its issue by which it was figured.
CREATE VIEW trade_versions AS
SELECT
    version.desk,
    version.reference,
    version.number,
    CASE version.act WHEN 0 THEN 'ENTERED' WHEN 1 THEN 'CORRECTED' ELSE 'CANCELED' END AS act,
    CASE version.side WHEN 0 THEN 'BOUGHT' ELSE 'SOLD' END AS side,
    version.par,
    version.cusip,
    issue.name AS issue,
    printf('%d.%07d', issue.coupon / 10000000, issue.coupon % 10000000) AS coupon,
    issue.maturity,
    version.settle,
    CASE version.basis WHEN 0 THEN 'YIELD' WHEN 1 THEN 'PRICE' ELSE 'RATE' END AS given,
    CASE version.basis
        WHEN 1 THEN printf('%d.%06d', version.value / 1000000, version.value % 1000000)
        ELSE printf('%s%d.%04d', CASE WHEN version.value < 0 THEN '-' ELSE '' END,
            abs(version.value) / 10000, abs(version.value) % 10000)
    END AS value,
    printf('%d.%03d', version.price / 1000, version.price % 1000) AS price,
    printf('%s%d.%03d', CASE WHEN version.yld < 0 THEN '-' ELSE '' END,
        abs(version.yld) / 1000, abs(version.yld) % 1000) AS yield,
    version.redemption,
    printf('%d.%06d', version.at_price / 1000000, version.at_price % 1000000) AS redeemed_at,
    CASE version.label WHEN 0 THEN 'MATURITY' WHEN 1 THEN 'PAR OPTION' WHEN 2 THEN 'CALL' ELSE 'CALLED' END AS label,
    version.days AS accrued_days,
    printf('%d.%02d', version.principal / 100, version.principal % 100) AS principal,
    printf('%d.%02d', version.accrued / 100, version.accrued % 100) AS accrued,
    printf('%d.%02d', version.commission / 100, version.commission % 100) AS commission,
    printf('%s%d.%02d', CASE WHEN version.total < 0 THEN '-' ELSE '' END,
        abs(version.total) / 100, abs(version.total) % 100) AS total
FROM versions_3 AS version
JOIN issues_3 AS issue ON issue.cusip = version.cusip AND issue.number = version.issue;

-- The same of the last version of each trade that is not canceled.
CREATE VIEW live_trades AS
SELECT trade.*
FROM live_versions
JOIN trade_versions AS trade USING (desk, reference, number);

-- A line for each desk and CUSIP with live trades, as `muni positions` has it: how many trades, the par bought, sold
-- and left, and the money paid less the money received. The side is that of the party that is confirmed.
CREATE VIEW desk_positions AS
SELECT
    desk, cusip, issue, trades, bought, sold, bought - sold AS position,
    printf('%s%d.%02d', CASE WHEN cents < 0 THEN '-' ELSE '' END, abs(cents) / 100, abs(cents) % 100) AS money
FROM (
    SELECT
        version.desk,
        version.cusip,
        issue.name AS issue,
        COUNT(*) AS trades,
        SUM(CASE version.side WHEN 0 THEN version.par ELSE 0 END) AS bought,
        SUM(CASE version.side WHEN 1 THEN version.par ELSE 0 END) AS sold,
        SUM(CASE version.side WHEN 0 THEN version.total ELSE -version.total END) AS cents
    FROM live_versions AS version
    JOIN issues_3 AS issue ON issue.cusip = version.cusip
    WHERE issue.number = (SELECT MAX(last.number) FROM issues_3 AS last WHERE last.cusip = version.cusip)
    GROUP BY version.desk, version.cusip
)
ORDER BY desk, cusip;

-- A line for each day of settlement and desk: its live trades, the par bought and sold, the money to pay and to receive.
-- The store keeps no day or time of entry.
CREATE VIEW blotter AS
SELECT
    settle, desk, trades, bought, sold,
    printf('%s%d.%02d', CASE WHEN paid < 0 THEN '-' ELSE '' END, abs(paid) / 100, abs(paid) % 100) AS paid,
    printf('%s%d.%02d', CASE WHEN received < 0 THEN '-' ELSE '' END, abs(received) / 100, abs(received) % 100) AS received
FROM (
    SELECT
        settle,
        desk,
        COUNT(*) AS trades,
        SUM(CASE side WHEN 0 THEN par ELSE 0 END) AS bought,
        SUM(CASE side WHEN 1 THEN par ELSE 0 END) AS sold,
        SUM(CASE side WHEN 0 THEN total ELSE 0 END) AS paid,
        SUM(CASE side WHEN 1 THEN total ELSE 0 END) AS received
    FROM live_versions
    GROUP BY settle, desk
)
ORDER BY settle, desk;

-- The same by the day with which references begin, as 20240403A0001 begins with 2024-04-03: that of the trade, if the desk
-- gives its references so. A trade whose reference does not begin with a day of the calendar is not in it.
CREATE VIEW trades_by_reference_date AS
SELECT
    day, desk, trades, bought, sold,
    printf('%s%d.%02d', CASE WHEN paid < 0 THEN '-' ELSE '' END, abs(paid) / 100, abs(paid) % 100) AS paid,
    printf('%s%d.%02d', CASE WHEN received < 0 THEN '-' ELSE '' END, abs(received) / 100, abs(received) % 100) AS received
FROM (
    SELECT
        substr(reference, 1, 4) || '-' || substr(reference, 5, 2) || '-' || substr(reference, 7, 2) AS day,
        desk,
        COUNT(*) AS trades,
        SUM(CASE side WHEN 0 THEN par ELSE 0 END) AS bought,
        SUM(CASE side WHEN 1 THEN par ELSE 0 END) AS sold,
        SUM(CASE side WHEN 0 THEN total ELSE 0 END) AS paid,
        SUM(CASE side WHEN 1 THEN total ELSE 0 END) AS received
    FROM live_versions
    GROUP BY day, desk
)
WHERE date(day, '+0 days') = day
ORDER BY day, desk;
