/* SPDX-License-Identifier: Apache-2.0 */

\echo Use "CREATE EXTENSION hll_sketches" to load this file. \quit

-- This script runs as a superuser, and others may have objects in the target schema, which is on the search path. PostgreSQL
-- prefers their operators and functions to those of the catalog if the types fit better. So everything of the catalog is named
-- with its schema.
--
-- The extension's own names have no schema, as it can be moved. Each is looked up with exactly the types that it has here, and
-- such a match goes first. Nothing else can have the same name and types: an object that was there before makes CREATE fail, as
-- nothing here says OR REPLACE.
--
-- Number arguments are int8, to which int2 and int4 are cast implicitly.

-- ---- the type

CREATE TYPE hyperloglog;

CREATE FUNCTION hyperloglog_in(pg_catalog.cstring, pg_catalog.oid, pg_catalog.int4) RETURNS hyperloglog
    AS 'MODULE_PATHNAME', 'hll_pg_type_in' LANGUAGE C IMMUTABLE STRICT PARALLEL SAFE;
CREATE FUNCTION hyperloglog_out(hyperloglog) RETURNS pg_catalog.cstring
    AS 'MODULE_PATHNAME', 'hll_pg_type_out' LANGUAGE C IMMUTABLE STRICT PARALLEL SAFE;
CREATE FUNCTION hyperloglog_recv(pg_catalog.internal, pg_catalog.oid, pg_catalog.int4) RETURNS hyperloglog
    AS 'MODULE_PATHNAME', 'hll_pg_type_recv' LANGUAGE C IMMUTABLE STRICT PARALLEL SAFE;
CREATE FUNCTION hyperloglog_send(hyperloglog) RETURNS pg_catalog.bytea
    AS 'byteasend' LANGUAGE internal IMMUTABLE STRICT PARALLEL SAFE;
CREATE FUNCTION hyperloglog_typmod_in(pg_catalog.cstring[]) RETURNS pg_catalog.int4
    AS 'MODULE_PATHNAME', 'hll_pg_typmod_in' LANGUAGE C IMMUTABLE STRICT PARALLEL SAFE;
CREATE FUNCTION hyperloglog_typmod_out(pg_catalog.int4) RETURNS pg_catalog.cstring
    AS 'MODULE_PATHNAME', 'hll_pg_typmod_out' LANGUAGE C IMMUTABLE STRICT PARALLEL SAFE;

-- It is preferred to bytea if a literal could be either.
CREATE TYPE hyperloglog (
    INPUT = hyperloglog_in, OUTPUT = hyperloglog_out, RECEIVE = hyperloglog_recv, SEND = hyperloglog_send,
    TYPMOD_IN = hyperloglog_typmod_in, TYPMOD_OUT = hyperloglog_typmod_out,
    INTERNALLENGTH = VARIABLE, STORAGE = external, CATEGORY = 'U', PREFERRED = true);
COMMENT ON TYPE hyperloglog IS 'a HyperLogLog sketch: the bytes of one DataSketches image';

CREATE FUNCTION hyperloglog(hyperloglog, pg_catalog.int4, pg_catalog.bool) RETURNS hyperloglog
    AS 'MODULE_PATHNAME', 'hll_pg_of_type' LANGUAGE C IMMUTABLE STRICT PARALLEL SAFE;
COMMENT ON FUNCTION hyperloglog(hyperloglog, pg_catalog.int4, pg_catalog.bool)
    IS 'the sketch, if it is of this lg_k and width';
CREATE FUNCTION hyperloglog(pg_catalog.bytea, pg_catalog.int4, pg_catalog.bool) RETURNS hyperloglog
    AS 'MODULE_PATHNAME', 'hll_pg_of_bytea' LANGUAGE C IMMUTABLE STRICT PARALLEL SAFE COST 50;
COMMENT ON FUNCTION hyperloglog(pg_catalog.bytea, pg_catalog.int4, pg_catalog.bool) IS 'the sketch of an image';

CREATE CAST (hyperloglog AS hyperloglog) WITH FUNCTION hyperloglog(hyperloglog, pg_catalog.int4, pg_catalog.bool) AS IMPLICIT;
CREATE CAST (pg_catalog.bytea AS hyperloglog) WITH FUNCTION hyperloglog(pg_catalog.bytea, pg_catalog.int4, pg_catalog.bool)
    AS ASSIGNMENT;
CREATE CAST (hyperloglog AS pg_catalog.bytea) WITHOUT FUNCTION AS IMPLICIT;

-- ---- comparisons: of bytes, as bytea compares them

-- (Without operator classes of its own the type would use those of bytea, by the cast, but an operator that somebody else
-- defines for the type would go first. A class only for hash would not go together with the btree class of bytea, and then no
-- group could be hashed.)

CREATE FUNCTION hyperloglog_eq(hyperloglog, hyperloglog) RETURNS pg_catalog.bool
    AS 'byteaeq' LANGUAGE internal IMMUTABLE STRICT PARALLEL SAFE LEAKPROOF;
CREATE FUNCTION hyperloglog_ne(hyperloglog, hyperloglog) RETURNS pg_catalog.bool
    AS 'byteane' LANGUAGE internal IMMUTABLE STRICT PARALLEL SAFE LEAKPROOF;
CREATE FUNCTION hyperloglog_lt(hyperloglog, hyperloglog) RETURNS pg_catalog.bool
    AS 'bytealt' LANGUAGE internal IMMUTABLE STRICT PARALLEL SAFE LEAKPROOF;
CREATE FUNCTION hyperloglog_le(hyperloglog, hyperloglog) RETURNS pg_catalog.bool
    AS 'byteale' LANGUAGE internal IMMUTABLE STRICT PARALLEL SAFE LEAKPROOF;
CREATE FUNCTION hyperloglog_gt(hyperloglog, hyperloglog) RETURNS pg_catalog.bool
    AS 'byteagt' LANGUAGE internal IMMUTABLE STRICT PARALLEL SAFE LEAKPROOF;
CREATE FUNCTION hyperloglog_ge(hyperloglog, hyperloglog) RETURNS pg_catalog.bool
    AS 'byteage' LANGUAGE internal IMMUTABLE STRICT PARALLEL SAFE LEAKPROOF;
CREATE FUNCTION hyperloglog_cmp(hyperloglog, hyperloglog) RETURNS pg_catalog.int4
    AS 'byteacmp' LANGUAGE internal IMMUTABLE STRICT PARALLEL SAFE LEAKPROOF;
CREATE FUNCTION hyperloglog_hash(hyperloglog) RETURNS pg_catalog.int4
    AS 'hashvarlena' LANGUAGE internal IMMUTABLE STRICT PARALLEL SAFE;
CREATE FUNCTION hyperloglog_hash_extended(hyperloglog, pg_catalog.int8) RETURNS pg_catalog.int8
    AS 'hashvarlenaextended' LANGUAGE internal IMMUTABLE STRICT PARALLEL SAFE;

CREATE OPERATOR = (LEFTARG = hyperloglog, RIGHTARG = hyperloglog, FUNCTION = hyperloglog_eq, COMMUTATOR = =, NEGATOR = <>,
    RESTRICT = pg_catalog.eqsel, JOIN = pg_catalog.eqjoinsel, HASHES, MERGES);
CREATE OPERATOR <> (LEFTARG = hyperloglog, RIGHTARG = hyperloglog, FUNCTION = hyperloglog_ne, COMMUTATOR = <>, NEGATOR = =,
    RESTRICT = pg_catalog.neqsel, JOIN = pg_catalog.neqjoinsel);
CREATE OPERATOR < (LEFTARG = hyperloglog, RIGHTARG = hyperloglog, FUNCTION = hyperloglog_lt, COMMUTATOR = >, NEGATOR = >=,
    RESTRICT = pg_catalog.scalarltsel, JOIN = pg_catalog.scalarltjoinsel);
CREATE OPERATOR <= (LEFTARG = hyperloglog, RIGHTARG = hyperloglog, FUNCTION = hyperloglog_le, COMMUTATOR = >=, NEGATOR = >,
    RESTRICT = pg_catalog.scalarlesel, JOIN = pg_catalog.scalarlejoinsel);
CREATE OPERATOR > (LEFTARG = hyperloglog, RIGHTARG = hyperloglog, FUNCTION = hyperloglog_gt, COMMUTATOR = <, NEGATOR = <=,
    RESTRICT = pg_catalog.scalargtsel, JOIN = pg_catalog.scalargtjoinsel);
CREATE OPERATOR >= (LEFTARG = hyperloglog, RIGHTARG = hyperloglog, FUNCTION = hyperloglog_ge, COMMUTATOR = <=, NEGATOR = <,
    RESTRICT = pg_catalog.scalargesel, JOIN = pg_catalog.scalargejoinsel);

CREATE OPERATOR CLASS hyperloglog_ops DEFAULT FOR TYPE hyperloglog USING btree AS
    OPERATOR 1 <, OPERATOR 2 <=, OPERATOR 3 =, OPERATOR 4 >=, OPERATOR 5 >, FUNCTION 1 hyperloglog_cmp(hyperloglog, hyperloglog);
CREATE OPERATOR CLASS hyperloglog_ops DEFAULT FOR TYPE hyperloglog USING hash AS
    OPERATOR 1 =, FUNCTION 1 hyperloglog_hash(hyperloglog),
    FUNCTION 2 hyperloglog_hash_extended(hyperloglog, pg_catalog.int8);

-- ---- one sketch, of the type or as bytes

CREATE FUNCTION hll_fault(image pg_catalog.bytea) RETURNS pg_catalog.text
    AS 'MODULE_PATHNAME', 'hll_pg_fault' LANGUAGE C IMMUTABLE STRICT PARALLEL SAFE COST 50;
COMMENT ON FUNCTION hll_fault(pg_catalog.bytea) IS 'a word that says why bytes are not an HLL image; null for an image';
CREATE FUNCTION hll_is_image(image pg_catalog.bytea) RETURNS pg_catalog.bool
    AS 'MODULE_PATHNAME', 'hll_pg_is_image' LANGUAGE C IMMUTABLE STRICT PARALLEL SAFE COST 50;
COMMENT ON FUNCTION hll_is_image(pg_catalog.bytea) IS 'whether bytes are an HLL image';
CREATE FUNCTION hll_first_image(images pg_catalog.bytea) RETURNS pg_catalog.bytea
    AS 'MODULE_PATHNAME', 'hll_pg_first_image' LANGUAGE C IMMUTABLE STRICT PARALLEL SAFE COST 50;
COMMENT ON FUNCTION hll_first_image(pg_catalog.bytea) IS 'the image with which the bytes begin, without the bytes after it';
-- Stable, as an update of the module changes it.
CREATE FUNCTION hll_version() RETURNS pg_catalog.text
    AS 'MODULE_PATHNAME', 'hll_pg_version' LANGUAGE C STABLE STRICT PARALLEL SAFE;
COMMENT ON FUNCTION hll_version() IS 'the version of the library that this session has loaded';
CREATE FUNCTION hll_processor() RETURNS pg_catalog.text
    AS 'MODULE_PATHNAME', 'hll_pg_processor' LANGUAGE C STABLE STRICT PARALLEL SAFE;
COMMENT ON FUNCTION hll_processor() IS 'for which processors the code of the library was compiled that runs';

CREATE FUNCTION hyperloglog_empty(lg_k pg_catalog.int8 DEFAULT 12, width pg_catalog.int8 DEFAULT 8) RETURNS hyperloglog
    AS 'MODULE_PATHNAME', 'hll_pg_empty' LANGUAGE C IMMUTABLE STRICT PARALLEL SAFE;
COMMENT ON FUNCTION hyperloglog_empty(pg_catalog.int8, pg_catalog.int8) IS 'an empty sketch';
CREATE FUNCTION hll_image_empty(lg_k pg_catalog.int8 DEFAULT 12, width pg_catalog.int8 DEFAULT 8) RETURNS pg_catalog.bytea
    AS 'MODULE_PATHNAME', 'hll_pg_empty' LANGUAGE C IMMUTABLE STRICT PARALLEL SAFE;
COMMENT ON FUNCTION hll_image_empty(pg_catalog.int8, pg_catalog.int8) IS 'the image of an empty sketch';

CREATE FUNCTION hll_info(sketch hyperloglog, OUT lg_k pg_catalog.int4, OUT width pg_catalog.int4, OUT stage pg_catalog.text,
        OUT coupons pg_catalog.int8, OUT zeros pg_catalog.int8)
    AS 'MODULE_PATHNAME', 'hll_pg_info' LANGUAGE C IMMUTABLE STRICT PARALLEL SAFE COST 50;
COMMENT ON FUNCTION hll_info(hyperloglog) IS 'lg_k, width and stage of a sketch, and its number of coupons or of registers that are 0';
CREATE FUNCTION hll_info(image pg_catalog.bytea, OUT lg_k pg_catalog.int4, OUT width pg_catalog.int4, OUT stage pg_catalog.text,
        OUT coupons pg_catalog.int8, OUT zeros pg_catalog.int8)
    AS 'MODULE_PATHNAME', 'hll_pg_info' LANGUAGE C IMMUTABLE STRICT PARALLEL SAFE COST 50;
COMMENT ON FUNCTION hll_info(pg_catalog.bytea) IS 'lg_k, width and stage of a sketch, and its number of coupons or of registers that are 0';

CREATE FUNCTION hll_estimate(sketch hyperloglog) RETURNS pg_catalog.float8
    AS 'MODULE_PATHNAME', 'hll_pg_estimate' LANGUAGE C IMMUTABLE STRICT PARALLEL SAFE COST 100;
COMMENT ON FUNCTION hll_estimate(hyperloglog) IS 'the estimated number of distinct values';
CREATE FUNCTION hll_estimate(image pg_catalog.bytea) RETURNS pg_catalog.float8
    AS 'MODULE_PATHNAME', 'hll_pg_estimate' LANGUAGE C IMMUTABLE STRICT PARALLEL SAFE COST 100;
COMMENT ON FUNCTION hll_estimate(pg_catalog.bytea) IS 'the estimated number of distinct values';
CREATE OPERATOR # (RIGHTARG = hyperloglog, FUNCTION = hll_estimate);
COMMENT ON OPERATOR # (NONE, hyperloglog) IS 'the estimated number of distinct values';
CREATE OPERATOR # (RIGHTARG = pg_catalog.bytea, FUNCTION = hll_estimate);
COMMENT ON OPERATOR # (NONE, pg_catalog.bytea) IS 'the estimated number of distinct values';

CREATE FUNCTION hll_hip_estimate(sketch hyperloglog) RETURNS pg_catalog.float8
    AS 'MODULE_PATHNAME', 'hll_pg_hip_estimate' LANGUAGE C IMMUTABLE STRICT PARALLEL SAFE COST 50;
COMMENT ON FUNCTION hll_hip_estimate(hyperloglog)
    IS 'the estimate that another program kept in a sketch while it counted in order, or null';
CREATE FUNCTION hll_hip_estimate(image pg_catalog.bytea) RETURNS pg_catalog.float8
    AS 'MODULE_PATHNAME', 'hll_pg_hip_estimate' LANGUAGE C IMMUTABLE STRICT PARALLEL SAFE COST 50;
COMMENT ON FUNCTION hll_hip_estimate(pg_catalog.bytea)
    IS 'the estimate that another program kept in a sketch while it counted in order, or null';

CREATE FUNCTION hll_estimate_bounds(sketch hyperloglog, deviations pg_catalog.int8 DEFAULT 2, OUT lower pg_catalog.float8,
        OUT upper pg_catalog.float8)
    AS 'MODULE_PATHNAME', 'hll_pg_estimate_bounds' LANGUAGE C IMMUTABLE STRICT PARALLEL SAFE COST 100;
COMMENT ON FUNCTION hll_estimate_bounds(hyperloglog, pg_catalog.int8)
    IS 'bounds of the number of distinct values, at 1 to 3 deviations';
CREATE FUNCTION hll_estimate_bounds(image pg_catalog.bytea, deviations pg_catalog.int8 DEFAULT 2, OUT lower pg_catalog.float8,
        OUT upper pg_catalog.float8)
    AS 'MODULE_PATHNAME', 'hll_pg_estimate_bounds' LANGUAGE C IMMUTABLE STRICT PARALLEL SAFE COST 100;
COMMENT ON FUNCTION hll_estimate_bounds(pg_catalog.bytea, pg_catalog.int8)
    IS 'bounds of the number of distinct values, at 1 to 3 deviations';

CREATE FUNCTION hll_fold(sketch hyperloglog, lg_k pg_catalog.int8) RETURNS hyperloglog
    AS 'MODULE_PATHNAME', 'hll_pg_fold' LANGUAGE C IMMUTABLE STRICT PARALLEL SAFE COST 100;
COMMENT ON FUNCTION hll_fold(hyperloglog, pg_catalog.int8) IS 'the sketch with a smaller lg_k';
CREATE FUNCTION hll_fold(image pg_catalog.bytea, lg_k pg_catalog.int8) RETURNS pg_catalog.bytea
    AS 'MODULE_PATHNAME', 'hll_pg_fold' LANGUAGE C IMMUTABLE STRICT PARALLEL SAFE COST 100;
COMMENT ON FUNCTION hll_fold(pg_catalog.bytea, pg_catalog.int8) IS 'the sketch with a smaller lg_k';

CREATE FUNCTION hll_convert(sketch hyperloglog, width pg_catalog.int8) RETURNS hyperloglog
    AS 'MODULE_PATHNAME', 'hll_pg_convert' LANGUAGE C IMMUTABLE STRICT PARALLEL SAFE COST 100;
COMMENT ON FUNCTION hll_convert(hyperloglog, pg_catalog.int8) IS 'the sketch with registers of 4, 6 or 8 bits';
CREATE FUNCTION hll_convert(image pg_catalog.bytea, width pg_catalog.int8) RETURNS pg_catalog.bytea
    AS 'MODULE_PATHNAME', 'hll_pg_convert' LANGUAGE C IMMUTABLE STRICT PARALLEL SAFE COST 100;
COMMENT ON FUNCTION hll_convert(pg_catalog.bytea, pg_catalog.int8) IS 'the sketch with registers of 4, 6 or 8 bits';

CREATE FUNCTION hll_set_estimator_fields(sketch hyperloglog) RETURNS hyperloglog
    AS 'MODULE_PATHNAME', 'hll_pg_set_estimator_fields' LANGUAGE C IMMUTABLE STRICT PARALLEL SAFE COST 100;
COMMENT ON FUNCTION hll_set_estimator_fields(hyperloglog)
    IS 'the sketch with the fields from which other DataSketches libraries estimate';
CREATE FUNCTION hll_set_estimator_fields(image pg_catalog.bytea) RETURNS pg_catalog.bytea
    AS 'MODULE_PATHNAME', 'hll_pg_set_estimator_fields' LANGUAGE C IMMUTABLE STRICT PARALLEL SAFE COST 100;
COMMENT ON FUNCTION hll_set_estimator_fields(pg_catalog.bytea)
    IS 'the sketch with the fields from which other DataSketches libraries estimate';

-- ---- two sketches

CREATE FUNCTION hll_merge(a hyperloglog, b hyperloglog) RETURNS hyperloglog
    AS 'MODULE_PATHNAME', 'hll_pg_merge_sketches' LANGUAGE C IMMUTABLE STRICT PARALLEL SAFE COST 100;
COMMENT ON FUNCTION hll_merge(hyperloglog, hyperloglog) IS 'the union of two sketches of one lg_k';
CREATE FUNCTION hll_merge(a hyperloglog, b hyperloglog, lg_max_k pg_catalog.int8) RETURNS hyperloglog
    AS 'MODULE_PATHNAME', 'hll_pg_merge_sketches' LANGUAGE C IMMUTABLE STRICT PARALLEL SAFE COST 100;
COMMENT ON FUNCTION hll_merge(hyperloglog, hyperloglog, pg_catalog.int8) IS 'the union of two sketches under a bound of lg_k';
CREATE FUNCTION hll_agree(a hyperloglog, b hyperloglog) RETURNS pg_catalog.bool
    AS 'MODULE_PATHNAME', 'hll_pg_agree' LANGUAGE C IMMUTABLE STRICT PARALLEL SAFE COST 100;
COMMENT ON FUNCTION hll_agree(hyperloglog, hyperloglog)
    IS 'whether two sketches have the same registers at the smaller lg_k';

CREATE FUNCTION hll_merge(a pg_catalog.bytea, b pg_catalog.bytea) RETURNS pg_catalog.bytea
    AS 'MODULE_PATHNAME', 'hll_pg_merge' LANGUAGE C IMMUTABLE STRICT PARALLEL SAFE COST 100;
COMMENT ON FUNCTION hll_merge(pg_catalog.bytea, pg_catalog.bytea) IS 'the union of two sketches of one lg_k';
CREATE FUNCTION hll_merge(a pg_catalog.bytea, b pg_catalog.bytea, lg_max_k pg_catalog.int8) RETURNS pg_catalog.bytea
    AS 'MODULE_PATHNAME', 'hll_pg_merge' LANGUAGE C IMMUTABLE STRICT PARALLEL SAFE COST 100;
COMMENT ON FUNCTION hll_merge(pg_catalog.bytea, pg_catalog.bytea, pg_catalog.int8)
    IS 'the union of two sketches under a bound of lg_k';
CREATE FUNCTION hll_agree(a pg_catalog.bytea, b pg_catalog.bytea) RETURNS pg_catalog.bool
    AS 'MODULE_PATHNAME', 'hll_pg_agree' LANGUAGE C IMMUTABLE STRICT PARALLEL SAFE COST 100;
COMMENT ON FUNCTION hll_agree(pg_catalog.bytea, pg_catalog.bytea)
    IS 'whether two sketches have the same registers at the smaller lg_k';

-- (With a bytea on one side PostgreSQL would choose the operator of bytea, which concatenates.)
CREATE FUNCTION hll_merge(a hyperloglog, b pg_catalog.bytea) RETURNS hyperloglog
    AS 'MODULE_PATHNAME', 'hll_pg_merge_sketches' LANGUAGE C IMMUTABLE STRICT PARALLEL SAFE COST 100;
CREATE FUNCTION hll_merge(a pg_catalog.bytea, b hyperloglog) RETURNS hyperloglog
    AS 'MODULE_PATHNAME', 'hll_pg_merge_sketches' LANGUAGE C IMMUTABLE STRICT PARALLEL SAFE COST 100;
CREATE OPERATOR || (LEFTARG = hyperloglog, RIGHTARG = hyperloglog, FUNCTION = hll_merge);
COMMENT ON OPERATOR || (hyperloglog, hyperloglog) IS 'the union of two sketches of one lg_k';
CREATE OPERATOR || (LEFTARG = hyperloglog, RIGHTARG = pg_catalog.bytea, FUNCTION = hll_merge);
CREATE OPERATOR || (LEFTARG = pg_catalog.bytea, RIGHTARG = hyperloglog, FUNCTION = hll_merge);

-- ---- functions of the aggregates

CREATE FUNCTION hll_image_combine(pg_catalog.internal, pg_catalog.internal) RETURNS pg_catalog.internal
    AS 'MODULE_PATHNAME', 'hll_pg_combine' LANGUAGE C IMMUTABLE PARALLEL SAFE COST 100;
CREATE FUNCTION hll_image_serial(pg_catalog.internal) RETURNS pg_catalog.bytea
    AS 'MODULE_PATHNAME', 'hll_pg_serial' LANGUAGE C IMMUTABLE STRICT PARALLEL SAFE;
CREATE FUNCTION hll_image_deserial(pg_catalog.bytea, pg_catalog.internal) RETURNS pg_catalog.internal
    AS 'MODULE_PATHNAME', 'hll_pg_deserial' LANGUAGE C IMMUTABLE STRICT PARALLEL SAFE;
CREATE FUNCTION hll_image_final(pg_catalog.internal) RETURNS pg_catalog.bytea
    AS 'MODULE_PATHNAME', 'hll_pg_final' LANGUAGE C IMMUTABLE PARALLEL SAFE COST 100;
CREATE FUNCTION hyperloglog_final(pg_catalog.internal) RETURNS hyperloglog
    AS 'MODULE_PATHNAME', 'hll_pg_final' LANGUAGE C IMMUTABLE PARALLEL SAFE COST 100;
CREATE FUNCTION hll_count_final(pg_catalog.internal) RETURNS pg_catalog.int8
    AS 'MODULE_PATHNAME', 'hll_pg_count_final' LANGUAGE C IMMUTABLE PARALLEL SAFE COST 100;

-- ---- unions: hyperloglog_union_agg(sketch [, lg_max_k [, width]]), which returns the type, and hll_image_union_agg, which
-- returns bytes; each for the type and for bytes

DO $$
DECLARE
    kinds CONSTANT pg_catalog.text[] := ARRAY[['hyperloglog', 'union'], ['pg_catalog.bytea', 'union_bytea']];
    options CONSTANT pg_catalog.text[] := ARRAY[
        '', ', lg_max_k pg_catalog.int8', ', lg_max_k pg_catalog.int8, width pg_catalog.int8'];
    step CONSTANT pg_catalog.text := 'CREATE FUNCTION hll_image_union_trans(pg_catalog.internal, %s) RETURNS pg_catalog.internal '
        'AS ''MODULE_PATHNAME'', ''hll_pg_%s_trans'' LANGUAGE C IMMUTABLE PARALLEL SAFE COST 50';
    aggregate CONSTANT pg_catalog.text := 'CREATE AGGREGATE %1$s_union_agg(sketch %2$s) (SFUNC = hll_image_union_trans, '
        'STYPE = pg_catalog.internal, SSPACE = 8192, FINALFUNC = %1$s_final, COMBINEFUNC = hll_image_combine, '
        'SERIALFUNC = hll_image_serial, DESERIALFUNC = hll_image_deserial, PARALLEL = SAFE); '
        'COMMENT ON AGGREGATE %1$s_union_agg(%2$s) IS ''the union of sketches: of one lg_k, or of an lg_k at most''';
    option pg_catalog.text;
    kind pg_catalog.text[];
BEGIN
    FOREACH option IN ARRAY options LOOP
        FOREACH kind SLICE 1 IN ARRAY kinds LOOP
            EXECUTE pg_catalog.format(step, pg_catalog.concat(kind[1], option), kind[2]);
            EXECUTE pg_catalog.format(aggregate, 'hyperloglog', pg_catalog.concat(kind[1], option));
            EXECUTE pg_catalog.format(aggregate, 'hll_image', pg_catalog.concat(kind[1], option));
        END LOOP;
    END LOOP;
END
$$;

-- ---- values: hyperloglog_agg(value [, lg_k [, width]]), which returns the type, and hll_image_add_agg, which returns bytes;
-- hll_count_distinct(value [, lg_k]); and hll_add(sketch, value)

-- Each type of values has a step and an addition. A numeric would be cast to a float8, and other types to whatever they can be
-- cast to. So these are rejected, and sketches too.
DO $$
DECLARE
    kinds CONSTANT pg_catalog.text[] := ARRAY[
        ['pg_catalog.bytea', 'bytea'], ['pg_catalog.text', 'text'], ['pg_catalog.int8', 'int8'], ['pg_catalog.int2', 'int2'],
        ['pg_catalog.int4', 'int4'], ['pg_catalog.bool', 'bool'], ['pg_catalog.float4', 'float4'],
        ['pg_catalog.float8', 'float8'], ['pg_catalog.date', 'date'], ['pg_catalog.timestamp', 'timestamp'],
        ['pg_catalog.timestamptz', 'timestamp'], ['pg_catalog.uuid', 'uuid'], ['pg_catalog."char"', 'char'],
        ['pg_catalog.numeric', 'other'], ['pg_catalog.anyelement', 'other'], ['hyperloglog', 'sketch']];
    options CONSTANT pg_catalog.text[] := ARRAY['', ', lg_k pg_catalog.int8', ', lg_k pg_catalog.int8, width pg_catalog.int8'];
    step CONSTANT pg_catalog.text := 'CREATE FUNCTION hll_image_add_trans(pg_catalog.internal, %s) RETURNS pg_catalog.internal '
        'AS ''MODULE_PATHNAME'', ''hll_pg_add_%s_trans'' LANGUAGE C IMMUTABLE PARALLEL SAFE COST 5';
    aggregate CONSTANT pg_catalog.text := 'CREATE AGGREGATE %1$s(value %2$s) (SFUNC = hll_image_add_trans, '
        'STYPE = pg_catalog.internal, SSPACE = 8192, FINALFUNC = %3$s, COMBINEFUNC = hll_image_combine, '
        'SERIALFUNC = hll_image_serial, DESERIALFUNC = hll_image_deserial, PARALLEL = SAFE); '
        'COMMENT ON AGGREGATE %1$s(%2$s) IS ''%4$s''';
    sketch CONSTANT pg_catalog.text := 'the sketch of values';
    count CONSTANT pg_catalog.text := 'the estimated number of distinct values, rounded';
    addition CONSTANT pg_catalog.text := 'CREATE FUNCTION hll_add(sketch %1$s, value %2$s) RETURNS %1$s '
        'AS ''MODULE_PATHNAME'', ''hll_pg_add_%3$s'' LANGUAGE C IMMUTABLE PARALLEL SAFE COST 100; '
        'COMMENT ON FUNCTION hll_add(%1$s, %2$s) IS ''the sketch with one value more''';
    option pg_catalog.text;
    kind pg_catalog.text[];
BEGIN
    FOREACH kind SLICE 1 IN ARRAY kinds LOOP
        FOREACH option IN ARRAY options LOOP
            EXECUTE pg_catalog.format(step, pg_catalog.concat(kind[1], option), kind[2]);
            EXECUTE pg_catalog.format(aggregate, 'hyperloglog_agg', pg_catalog.concat(kind[1], option), 'hyperloglog_final', sketch);
            EXECUTE pg_catalog.format(aggregate, 'hll_image_add_agg', pg_catalog.concat(kind[1], option), 'hll_image_final', sketch);
        END LOOP;
        FOREACH option IN ARRAY options[1:2] LOOP
            EXECUTE pg_catalog.format(aggregate, 'hll_count_distinct', pg_catalog.concat(kind[1], option), 'hll_count_final', count);
        END LOOP;
        EXECUTE pg_catalog.format(addition, 'hyperloglog', kind[1], kind[2]);
        EXECUTE pg_catalog.format(addition, 'pg_catalog.bytea', kind[1], kind[2]);
    END LOOP;
END
$$;
