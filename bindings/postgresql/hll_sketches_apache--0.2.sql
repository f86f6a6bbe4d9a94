/* SPDX-License-Identifier: Apache-2.0 */

\echo Use "CREATE EXTENSION hll_sketches_apache" to load this file. \quit

-- Calls of hll_sketches by the names of Apache's extension datasketches, so that queries can stay as they are. They are an
-- extension of their own, as both can't have hll_sketch_build(anyelement) in one schema.

-- Names have schemas, as in the scripts of hll_sketches and hll_sketches_agg, which say why. A body that is no literal is resolved
-- here, once, with exactly the types of the arguments.

DO $$
DECLARE
    own CONSTANT pg_catalog.text := (
        SELECT pg_catalog.quote_ident(CAST(nspname AS pg_catalog.text))
        FROM pg_catalog.pg_extension JOIN pg_catalog.pg_namespace
            ON pg_namespace.oid OPERATOR(pg_catalog.=) pg_extension.extnamespace
        WHERE extname OPERATOR(pg_catalog.=) CAST('hll_sketches' AS pg_catalog.name));
    sketch CONSTANT pg_catalog.text := pg_catalog.concat(own, '.hyperloglog');
    kinds CONSTANT pg_catalog.text[] := ARRAY['pg_catalog.bytea', 'pg_catalog.text', 'pg_catalog.int8', 'pg_catalog.int2',
        'pg_catalog.int4', 'pg_catalog.bool', 'pg_catalog.float4', 'pg_catalog.float8', 'pg_catalog.date', 'pg_catalog.timestamp',
        'pg_catalog.timestamptz', 'pg_catalog.uuid', 'pg_catalog."char"', 'pg_catalog.numeric', 'pg_catalog.anyelement',
        sketch];
    options CONSTANT pg_catalog.text[] := ARRAY['', ', %s pg_catalog.int8'];
    aggregate CONSTANT pg_catalog.text := 'CREATE AGGREGATE %2$s (%3$s) (SFUNC = %1$s.%4$s, STYPE = pg_catalog.internal, '
        'SSPACE = 8192, FINALFUNC = %1$s.hyperloglog_final, COMBINEFUNC = %1$s.hll_image_combine, '
        'SERIALFUNC = %1$s.hll_image_serial, DESERIALFUNC = %1$s.hll_image_deserial, PARALLEL = SAFE)';
    marks CONSTANT pg_catalog.text := 'LANGUAGE sql IMMUTABLE STRICT PARALLEL SAFE COST 100';
    estimate CONSTANT pg_catalog.text := 'CREATE FUNCTION hll_sketch_get_estimate(sketch %2$s) RETURNS pg_catalog.float8 %3$s '
        'RETURN %1$s.hll_estimate(sketch)';
    bounds CONSTANT pg_catalog.text := 'CREATE FUNCTION hll_sketch_get_estimate_and_bounds(sketch %2$s, '
        'deviations pg_catalog.int8 DEFAULT 1) RETURNS pg_catalog.float8[] %3$s '
        'RETURN (SELECT ARRAY[%1$s.hll_estimate(sketch), b.lower, b.upper] FROM %1$s.hll_estimate_bounds(sketch, deviations) b)';
    shown CONSTANT pg_catalog.text := 'CREATE FUNCTION hll_sketch_to_string(sketch %2$s) RETURNS pg_catalog.text %3$s '
        'RETURN (SELECT CAST(pg_catalog.row_to_json(i) AS pg_catalog.text) FROM %1$s.hll_info(sketch) i)';
    option pg_catalog.text;
    kind pg_catalog.text;
    statement pg_catalog.text;
BEGIN
    FOREACH option IN ARRAY options LOOP
        FOREACH kind IN ARRAY kinds LOOP
            EXECUTE pg_catalog.format(aggregate, own, 'hll_sketch_build',
                pg_catalog.concat('value ', kind, pg_catalog.format(option, 'lg_k')), 'hll_image_add_trans');
        END LOOP;
        FOREACH kind IN ARRAY ARRAY[sketch, 'pg_catalog.bytea'] LOOP
            EXECUTE pg_catalog.format(aggregate, own, 'hll_sketch_union',
                pg_catalog.concat('sketch ', kind, pg_catalog.format(option, 'lg_max_k')), 'hll_image_union_trans');
        END LOOP;
    END LOOP;
    FOREACH kind IN ARRAY ARRAY[sketch, 'pg_catalog.bytea'] LOOP
        FOREACH statement IN ARRAY ARRAY[estimate, bounds, shown] LOOP
            EXECUTE pg_catalog.format(statement, own, kind, marks);
        END LOOP;
    END LOOP;
END
$$;
