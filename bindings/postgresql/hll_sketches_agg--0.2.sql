/* SPDX-License-Identifier: Apache-2.0 */

\echo Use "CREATE EXTENSION hll_sketches_agg" to load this file. \quit

-- The aggregates of hll_sketches by shorter names. They are an extension of their own, as postgresql-hll looks up its
-- aggregates of these names without their types, and fails where its schema has others.

-- Whatever the script looks up is named with its schema. For what is the catalog's see the script of hll_sketches. What
-- hll_sketches has is looked up in the schema of that extension: the target schema is searched first, and others may have a
-- type or a function of the same name there. If the aggregates used a type of another role, this role could drop it, and with
-- it the extension and every view that uses it.

-- The target schema is asked for, not written into a literal, which its name could break out of.
DO $$
BEGIN
    IF EXISTS (SELECT
               FROM pg_catalog.pg_extension JOIN pg_catalog.pg_namespace
                   ON pg_namespace.oid OPERATOR(pg_catalog.=) pg_extension.extnamespace
               WHERE extname OPERATOR(pg_catalog.=) CAST('hll' AS pg_catalog.name)
                   AND nspname OPERATOR(pg_catalog.=) pg_catalog.current_schema()) THEN
        RAISE EXCEPTION 'extension hll_sketches_agg cannot be in the schema of extension hll'
            USING ERRCODE = 'duplicate_function', HINT = 'Name another one: CREATE EXTENSION hll_sketches_agg SCHEMA ...';
    END IF;
END
$$;

DO $$
DECLARE
    own CONSTANT pg_catalog.text := (
        SELECT pg_catalog.quote_ident(CAST(nspname AS pg_catalog.text))
        FROM pg_catalog.pg_extension JOIN pg_catalog.pg_namespace
            ON pg_namespace.oid OPERATOR(pg_catalog.=) pg_extension.extnamespace
        WHERE extname OPERATOR(pg_catalog.=) CAST('hll_sketches' AS pg_catalog.name));
    sketch CONSTANT pg_catalog.text := pg_catalog.concat(own, '.hyperloglog');
    kinds CONSTANT pg_catalog.text[] := ARRAY['pg_catalog.bytea', 'pg_catalog.text', 'pg_catalog.int8', 'pg_catalog.int2',
        'pg_catalog.int4', 'pg_catalog.bool', 'pg_catalog.float4', 'pg_catalog.float8', 'pg_catalog.date', 'pg_catalog.timestamp',
        'pg_catalog.timestamptz', 'pg_catalog.uuid', 'pg_catalog."char"', 'pg_catalog.numeric', 'pg_catalog.anyelement',
        sketch];
    options CONSTANT pg_catalog.text[] := ARRAY['', ', %s pg_catalog.int8', ', %s pg_catalog.int8, width pg_catalog.int8'];
    aggregate CONSTANT pg_catalog.text := 'CREATE AGGREGATE %2$s (%3$s) (SFUNC = %1$s.%4$s, STYPE = pg_catalog.internal, '
        'SSPACE = 8192, FINALFUNC = %1$s.%5$s, COMBINEFUNC = %1$s.hll_image_combine, SERIALFUNC = %1$s.hll_image_serial, '
        'DESERIALFUNC = %1$s.hll_image_deserial, PARALLEL = SAFE)';
    option pg_catalog.text;
    kind pg_catalog.text;
BEGIN
    FOREACH option IN ARRAY options LOOP
        EXECUTE pg_catalog.format(aggregate, own, 'hll_union_agg',
            pg_catalog.concat('sketch ', sketch, pg_catalog.format(option, 'lg_max_k')),
            'hll_image_union_trans', 'hyperloglog_final');
        EXECUTE pg_catalog.format(aggregate, own, 'hll_union_agg',
            pg_catalog.concat('sketch pg_catalog.bytea', pg_catalog.format(option, 'lg_max_k')),
            'hll_image_union_trans', 'hll_image_final');
        FOREACH kind IN ARRAY kinds LOOP
            EXECUTE pg_catalog.format(aggregate, own, 'hll_add_agg',
                pg_catalog.concat('value ', kind, pg_catalog.format(option, 'lg_k')), 'hll_image_add_trans', 'hll_image_final');
        END LOOP;
    END LOOP;
END
$$;
