-- SPDX-License-Identifier: Apache-2.0
CREATE EXTENSION hll_sketches;
-- sketches of values
SELECT hll_image_add_agg(v) FROM unnest(ARRAY['a', 'b', 'a', NULL]) v;
SELECT hll_image_add_agg(x, 10, 4) FROM generate_series(1, 3) x;
SELECT hll_image_add_agg('\x61'::bytea) = hll_image_add_agg('a') AS same_bytes;
SELECT hll_image_add_agg(v) IS NULL AS is_null FROM unnest(ARRAY[NULL]::text[]) v;
-- unions
CREATE TABLE shards AS SELECT n, hll_image_add_agg(x) AS image FROM generate_series(1, 4) n, generate_series(n * 1000, n * 1000 + 1999) x GROUP BY n;
SELECT hll_info(hll_image_union_agg(image)), hll_image_union_agg(image) = (SELECT hll_image_add_agg(x) FROM generate_series(1000, 5999) x) AS is_of_all FROM shards;
SELECT hll_image_union_agg(image, 10) = hll_fold(hll_image_union_agg(image), 10) AS folds FROM shards;
SELECT hll_merge(a.image, b.image) = hll_merge(b.image, a.image) AS commutes FROM shards a, shards b WHERE a.n = 1 AND b.n = 2;
SELECT (hll_info(hll_merge(image, hll_image_empty(4)))).lg_k AS stays, (hll_info(hll_merge(image, image, 10))).lg_k AS bounded FROM shards WHERE n = 1;
SELECT hll_agree(image, hll_convert(image, 4)) AS agree, hll_agree(image, hll_image_empty()) AS agrees_with_none FROM shards WHERE n = 1;
-- estimates
SELECT n, hll_estimate(image) BETWEEN b.lower AND b.upper AS is_between, 2000 BETWEEN b.lower AND b.upper AS is_near FROM shards, hll_estimate_bounds(image, 3) b ORDER BY n;
SELECT hll_hip_estimate(hll_image_empty()) IS NULL AS of_none, hll_hip_estimate('\x0a0107040000000a0000000000000840' || decode(repeat('00', 40), 'hex')) AS kept;
-- the type
CREATE TABLE days (day int, sketch hyperloglog(10));
INSERT INTO days SELECT x % 3, hyperloglog_agg(x, 10, 4) FROM generate_series(1, 9) x GROUP BY 1;
SELECT day, sketch, round(# sketch) AS estimate FROM days ORDER BY day;
SELECT round(# hyperloglog_union_agg(sketch)) AS of_all, pg_typeof(hyperloglog_union_agg(sketch)) FROM days;
SELECT a.sketch || b.sketch = b.sketch || a.sketch AS commutes, count(*) FROM days a, days b GROUP BY 1;
SELECT round(# hyperloglog_agg(v)) AS dates FROM unnest(ARRAY['2026-11-01', 'infinity', NULL]::date[]) v;
-- refusals
SELECT hll_fault('\x0201070a030801080500000c') AS image, hll_fault('\x0201070a') AS cut, hll_fault('\x0201080a00000000') AS other;
\set VERBOSITY terse
SELECT hll_fold('\x0201070a', 4);
SELECT hll_fold(hll_image_empty(10), 11);
SELECT hll_image_union_agg(i) FROM (VALUES (hll_image_empty()), (NULL), ('\x0301070c04080009')) x(i);
SELECT hll_image_add_agg('a', 22);
SELECT hll_estimate(hll_image_empty() || hll_image_empty());
SELECT hll_merge(hll_image_add_agg(1), hll_image_add_agg(1, 10));
INSERT INTO days VALUES (3, hyperloglog_empty(12));
SELECT '\x0201070c030c000800'::hyperloglog;
SELECT hyperloglog_agg(1.5);
DROP TABLE shards, days;
DROP EXTENSION hll_sketches;
