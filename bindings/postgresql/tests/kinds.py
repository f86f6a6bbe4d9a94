# SPDX-License-Identifier: Apache-2.0
"""Values of each type, beside the bytes that docs/FORMAT.md says ("What values are hashed as") and its hash."""
import datetime
import decimal
import itertools
import random
import re
import struct
import sys
import uuid

from behaviour.cases import cases, is_right, printed
from behaviour_in_sql import expressions, joined, rejected
from images import image_of_values
from report import DATATYPE, SEED, bytes_of, check, equal, refused, skip
from server import HERE
from unions import settings

AGGREGATES = "hll_image_add_agg", "hyperloglog_agg"
LEAST, GREATEST = -2**63, 2**63 - 1
EPOCH = datetime.datetime(1970, 1, 1)
MICROSECOND = datetime.timedelta(microseconds=1)
NAN = bytes.fromhex("000000000000f87f")


def integer(number):
    """Its eight bytes; from 2^63 on its own."""
    return struct.pack("<Q", number % 2**64)


def real(number):
    return NAN if number != number else struct.pack("<d", number + 0.0)


def single(number):
    return struct.unpack("<f", struct.pack("<f", number))[0]


def random_times(numbers, count):
    for _ in range(count):
        seconds = numbers.randrange(-62135596800, 253402300800)
        yield EPOCH + datetime.timedelta(seconds=seconds, microseconds=numbers.randrange(10**6))


def kinds():
    """Each type, and texts of its values with their bytes."""
    numbers = random.Random(SEED)
    for name, bits in ("int2", 16), ("int4", 32), ("int8", 64):
        some = [0, 1, -1, 2**(bits - 1) - 1, -2**(bits - 1)] + [numbers.randrange(-2**(bits - 1), 2**(bits - 1)) for _ in range(2000)]
        yield name, [(str(n), integer(n)) for n in some]
    yield "bool", [("true", integer(1)), ("false", integer(0))]
    some = [0.0, -0.0, 1.0, 1.5, 5e-324, 1.7e308, float("inf"), float("-inf"), float("nan")] + [numbers.gauss(0, 1e9) for _ in range(2000)]
    yield "float8", [(repr(x), real(x)) for x in some]
    some = [single(x) for x in some if abs(x) < 1e38 or x != x or abs(x) == float("inf")]
    yield "float4", [(repr(x), real(x)) for x in some]
    days = [datetime.date(1, 1, 1), datetime.date(1970, 1, 1), datetime.date(1969, 12, 31), datetime.date(9999, 12, 31)]
    days += [day.date() for day in random_times(numbers, 2000)]
    yield "date", [(day.isoformat(), integer(day.toordinal() - 719163)) for day in days] + [
        ("4713-01-01 BC", integer(-2440550)), ("5874897-12-31", integer(2145042905)),
        ("-infinity", integer(LEAST)), ("infinity", integer(GREATEST))]
    times = [EPOCH, EPOCH - MICROSECOND, datetime.datetime(9999, 12, 31, 23, 59, 59, 999999), *random_times(numbers, 2000)]
    micros = [(time.isoformat(" "), integer((time - EPOCH) // MICROSECOND)) for time in times]
    ends = [("-infinity", integer(LEAST)), ("infinity", integer(GREATEST)),
            ("294276-12-31 23:59:59.999999%s", integer(9224318015999999999))]
    yield "timestamp", micros + [(text.replace("%s", ""), value) for text, value in ends]
    yield "timestamptz", [(text + "+00", value) for text, value in micros] + [(text.replace("%s", "+00"), value) for text, value in ends]
    ids = [uuid.UUID(int=numbers.getrandbits(128)) for _ in range(2000)] + [uuid.UUID(int=0)]
    yield "uuid", [(str(one), one.bytes) for one in ids]
    yield '"char"', [(chr(n), bytes([n])) for n in range(48, 58)]
    yield "text", [("v%d" % n, b"v%d" % n) for n in range(2000)] + [("ä€😀", "ä€😀".encode())]
    yield "bytea", [("\\x%04x" % n, struct.pack(">H", n)) for n in range(2000)]


def array_of(kind, texts):
    return "CAST(ARRAY[%s] AS %s[])" % (", ".join("'%s'" % text for text in texts), kind)


# A value of tests/behaviour as SQL, by its type.
SQL = {
    "text": lambda it: "convert_from('\\x%s'::bytea, 'UTF8')" % it.hex(), "bytes": lambda it: "'\\x%s'::bytea" % it.hex(), "integer": str,
    "surrogate": lambda it: "chr(%d)" % int(it, 16),
    "real": "'%s'::float8".__mod__, "single": "'%s'::float4".__mod__, "boolean": "%s::boolean".__mod__, "date": "date '%s'".__mod__,
    "time": "timestamptz '%s+00'".__mod__, "uuid": lambda it: "'%s'::uuid" % it.hex(), "decimal": "'%s'::numeric".__mod__,
    "list": "'[%s]'::jsonb".__mod__, "missing": lambda it: "NULL::text",
}


def own_width(image):
    return "(hll_info(%s)).width" % image


def of_query(server, call, sql):
    """What a query makes, or PostgreSQL says."""
    said = server.run("SELECT %s;" % sql)
    if said.startswith("ERROR"):
        return rejected(call, said)
    image = bytes_of(said)
    if call not in SQL:
        return image.hex() if image else "missing"
    return "%08x" % int.from_bytes(image[8:], "little") if image else "missing"


def of_image(server, image):
    """What a whole image is by a cast, too, and what hll_fault says of it."""
    cast = of_query(server, "whole", "hll_convert(i, (hll_info(i)).width) FROM (SELECT %s::hyperloglog i) one" % image)
    fault = server.ask("SELECT hll_fault(%s)" % image)
    return [cast] + (["rejected: " + fault] if fault else [])


def behaviour(server):
    """The cases of tests/behaviour, which every binding runs."""
    for case in cases("postgresql"):
        call, given, _ = case
        each = ["hyperloglog_agg(%s)" % SQL[call](given)] if call in SQL else expressions(call, given, "'\\x%s'::bytea".__mod__, own_width)
        found = [of_query(server, call, sql) for sql in each]
        answer = joined(found + (of_image(server, "'\\x%s'::bytea" % given) if call == "whole" else []))
        check(printed(case), is_right(case, answer), answer)


def kinds_of_values(server):
    """One value, a few and many of each type, by each aggregate."""
    for kind, values in kinds():
        for some, lg_k, width in ((values, 11, 6), (values[:5], 12, 8), (values[-3:], 10, 4)):
            wanted = image_of_values(lg_k, width, [value for _, value in some])
            for name in AGGREGATES:
                query = "SELECT %s(v, %d, %d) FROM unnest(%s) v" % (name, lg_k, width, array_of(kind, [text for text, _ in some]))
                equal("%s of %d values of %s" % (name, len(some), kind), bytes_of(server.ask(query)), wanted)
        for text, value in values[:12] + values[-4:]:
            found = server.ask("SELECT hyperloglog_agg(%s '%s')" % (kind, text))
            equal("%s %s" % (kind, text), bytes_of(found), image_of_values(12, 8, [value]))
    alike(server)


def counts(server):
    """hll_count_distinct is the rounded estimate of each type's values, a bigint; 0 for no value, as count."""
    for kind, values in kinds():
        for some, lg_k in (values, 11), (values[:5], 12), (values[-3:], 10):
            given = array_of(kind, [text for text, _ in some])
            found = server.ask("SELECT hll_count_distinct(v, %d) = round(# hyperloglog_agg(v, %d)), hll_count_distinct(v) = round(# hyperloglog_agg(v)), "
                               "hll_count_distinct(v) FILTER (WHERE v IS NULL), pg_typeof(hll_count_distinct(v)) FROM unnest(%s) v" % (lg_k, lg_k, given))
            equal("hll_count_distinct of %d values of %s" % (len(some), kind), found, "t|t|0|bigint")
    for call, wanted in (
            ("hll_count_distinct(v) FROM unnest(ARRAY['ann', 'bob', NULL, 'ann']) v", "2"), ("hll_count_distinct(NULL::text)", "0"),
            ("hll_count_distinct(n, 4) FROM generate_series(1, 0) n", "0"), ("hll_count_distinct(DISTINCT n % 9, 4) = hll_count_distinct(n % 9, 4) FROM generate_series(1, 900) n", "t"),
            ("bool_and(c = n) FROM (SELECT n, hll_count_distinct(n) OVER (ORDER BY n) c FROM generate_series(1, 90) n) x", "t"),
            ("bool_and(c = least(n, 3)) FROM (SELECT n, hll_count_distinct(n) OVER (ORDER BY n ROWS 2 PRECEDING) c FROM generate_series(1, 90) n) x", "t")):
        equal(call, server.ask("SELECT " + call), wanted)
    for kind, value in OTHERS.items():
        said = server.run("SELECT hll_count_distinct(%s);" % value)
        refused("hll_count_distinct of " + kind, said, DATATYPE, "values of type %s cannot be counted" % kind)
    refused("hll_count_distinct of a sketch", server.run("SELECT hll_count_distinct(hyperloglog_empty());"), DATATYPE, "sketches are not counted")
    for lg_k, code in ("3", "22023"), ("22", "22023"), ("NULL", "22004"), ("n", "22023"):
        refused("hll_count_distinct of lg_k " + lg_k, server.run("SELECT hll_count_distinct(n, %s) FROM generate_series(10, 12) n;" % lg_k), code)


ALIKE = ("5::int2", "5::int4", "5::int8"), ("true", "1"), ("false", "0", "0::float8", "'-0'::float8", "'-0'::float4"), (
    "'NaN'::float8", "'NaN'::float4"), ("1.5::float4", "1.5::float8"), ("'x'", "'x'::text", "'x'::varchar(9)", "'x'::char(5)",
    "'x'::name", "'x'::word", "'x'::\"char\"", "'\\x78'::bytea"), ("7::small", "7"), ("date '1970-01-08'", "7"), (
    "timestamp '1970-01-01 00:00:00.000007'", "timestamptz '1970-01-01 05:30:00.000007+05:30'", "7"), (
    "date 'infinity'", "timestamp 'infinity'", "timestamptz 'infinity'", str(GREATEST))


def alike(server):
    """Values that count as one, though their types differ, and those that don't."""
    server.ask("CREATE DOMAIN word AS text; CREATE DOMAIN small AS int4 CHECK (VALUE > 0)")
    for values in ALIKE:
        for name in AGGREGATES:
            found = server.ask("SELECT count(DISTINCT v) FROM unnest(ARRAY[%s]) v" % ", ".join(
                "(SELECT %s(%s)::bytea)" % (name, value) for value in values))
            equal("%s: one value is %s" % (name, " and ".join(values)), found, "1")
    found = server.ask("SELECT count(DISTINCT v) FROM unnest(ARRAY[%s]) v" % ", ".join(
        "(SELECT hyperloglog_agg(%s))" % value for value in ("7", "7::float8", "'7'", "'\\x07'::bytea", "NULL::text", "''")))
    equal("values that differ", found, "5")
    for name in AGGREGATES:
        for arguments in ("v", "v, 9", "v, 9, 4"):
            for kind, _ in kinds():
                found = server.ask("SELECT %s(%s) IS NULL FROM unnest(ARRAY[NULL]::%s[]) v" % (name, arguments, kind))
                equal("%s(%s) of a %s that is NULL" % (name, arguments, kind), found, "t")


OTHERS = {"numeric": "1.5", "oid": "1::oid", "color": "'red'::color", "money": "1::money", "interval": "interval '1 s'",
          "time without time zone": "localtime", "regclass": "'pg_class'::regclass", "json": "'{}'::json", "jsonb": "'{}'::jsonb",
          "inet": "inet '::1'", "bit": "B'1'", "integer[]": "ARRAY[1]", "record": "ROW(1, 2)", "xid": "'1'::xid", "point": "point(1, 2)",
          "int4range": "int4range(1, 2)", "pg_lsn": "'0/1'::pg_lsn", "macaddr": "macaddr '08:00:2b:01:02:03'"}


def refused_kinds(server):
    """All other types are refused with their names, and not counted as what they could be cast to."""
    server.ask("CREATE TYPE color AS ENUM ('red')")
    for name in AGGREGATES:
        for arguments in ("%s", "%s, 9", "%s, 9, 4"):
            for kind, value in OTHERS.items():
                said = server.run("SELECT %s(%s);" % (name, arguments % value))
                refused("%s of %s" % (name, kind), said, DATATYPE, "values of type %s cannot be counted" % kind)
            said = server.run("SELECT %s(%s);" % (name, arguments % "hyperloglog_empty()"))
            refused("%s of sketches" % name, said, DATATYPE, "sketches are not counted as values")
        said = server.run("SELECT %s(v) FROM unnest(ARRAY[NULL]::numeric[]) v;" % name)
        refused("%s of a numeric that is NULL" % name, said, DATATYPE)
    found = server.ask("SELECT hyperloglog_agg(v) IS NULL FROM unnest(ARRAY[]::numeric[]) v")
    equal("no numeric", found, "t")
    hints(server)
    as_in_python(server)
    if server.run("CREATE EXTENSION citext;"):
        skip("citext", "it is not here")
        return
    refused_texts(server)


# ---- what to count instead

# Values of the types in README.md's table, and of elements of arrays, in several spellings: # is a digit of 0 to 3, and ? of 0 to 1.
SPELLINGS = {
    "numeric": "#.#|#.#0|-#.#000|#e#|#00.00|##e-1|0.000#|.000#00|NaN|Infinity|-inf|-0.0|+0#|1####.##############0#0",
    "interval": "# mon #0 days|-# mon ## days|# mon -#0 days ## hours|##0 days|##00 hours|-1 mon 2#:0#:00.#|2 mon -0#:00:00|1 year|360 days -0#:##|-30 days 24 hours",
    "numrange": "[#,1#)|[#.0,1#.00)|(#,1#.0]|[#.0,)|(,#.00]|(,#]|empty|[1.0,1)|[#,Infinity]",
    "time": "0#:1#|0#:1#:00|0#:1#:00.000|0#:1#:#0.#|0#:1#:#0.#00|24:00|00:00", "timetz": "0#:1#+0#|0#:1#:00+0#|0#:1#:00.0+0#:00|0#:1#:#0.#-0#:30",
    "bit": "????|B????|x#", "varbit": "?|B?|????|B????|x#|????????|x##", "money": "#|#.00|$#.#|$#.#0|-#.##|(#.##)|-$#|#,#00",
    "inet": "10.0.#.#|10.0.#.#/32|10.0.#.#/24|::#|::000#|0:0::#/128|::ffff:10.0.0.#|::FFFF:a00:#", "cidr": "10.#|10.#.0.0/16|10.#.0/24|10.#/16|::#|::000#/128|10.#.#.#",
    "macaddr": "08:00:2b:01:0#:0#|08-00-2B-01-0#-0#|08002b:010#0#", "macaddr8": "08:00:2b:ff:fe:01:0#:0#|08-00-2B-FF-FE-01-0#-0#|08:00:2b:01:0#:0#",
    "oid": "##| ##|00##", "xid": "1##| 1##", "xid8": "1##| 1##", "cid": "1##| 1##", "tid": "(#,#)|(0#,00#)", "pg_lsn": "#/#a|0#/#A|00#/000#A", "reg": "1###| 1###|##",
    "tsvector": "b#:1#|b#:1#A a|a b#:1#a|b#|'b#' a|a:1 b#:2,1#|a:1 b#:1#D,2|", "int4range": "[#,1#)|(#,1#]|[#,1#]|(#,)|[#,)|(,#)|empty|(1#,2#)|[1,1)", "int8range": "[#,1#)|(#,1#]|(,#)|[1,1)",
    "daterange": "[2026-01-1#,2026-02-1#)|(2026-01-1#,2026-02-1#]|[20260111,2026-2-1#]|(,2026-01-1#)|[-infinity,2026-01-1#)|[2026-01-1#,infinity]",
    "tsrange": "[2026-01-1#,2026-02-1#)|[2026-01-1# 00:00,20260211 0:00)|[2026-01-1# 00:00,20260211 #:0#]|(,2026-01-1# 00:00:00.0)|(2026-01-1#,infinity]|empty",
    "tstzrange": "[2026-01-1# 0#:00+00,2026-02-1#)|[2026-01-1# 1#:00+1#,2026-02-1# 00:00+0#)|(,2026-01-1# 00:00:00.0-0#)|empty",
    "hue": "red|green", "text": "a#|{#,}|NULL|\\#|\"#", "varchar": "a#|a #| a", "name": "a#|A#", '"char"': "#|a|{|\\", "bytea": "\\x0#|\\x0#0?|\\00#", "int2": "#|0#|-#",
    "int4": "#|0#|-#", "int8": "#|0#|-#", "bool": "t|yes|1|f|off", "date": "2026-01-1#|2026011#|infinity", "timestamp": "2026-01-1# 0#:00|2026011# 0#00|2026-01-1#",
    "timestamptz": "2026-01-1# 0#:00+0#|2026-01-1# 1#:00+1#", "uuid": "0000000000000000000000000000000#|{00000000-0000-0000-0000-00000000000#}"}
FORM, GENERIC = "Count %s, which is the same text for equal values.", "Equal values of this type can have different texts, so count a part of the value"


def forms_shown():
    """The table of README.md: types, and what to count instead of their values."""
    table = re.search(r"^\| type \| count \|\n\|---\|---\|\n((?:\|.*\n)*)", (HERE / "README.md").read_text().replace("enums", "`hue`"), re.M)[1]
    rows = [(re.findall("`([^`]+)`", types), form.strip("`")) for types, form in (row.strip("| ").split(" | ") for row in table.splitlines())]
    rows[-1] = [name + "[]" for name in rows[-2][0] + rows[-1][0]], rows[-1][1]
    return {name: form for names, form in rows for name in names}


def templates(kind):
    """The spellings of a type, or of what has its values inside."""
    name = kind.replace("multi", "")
    if kind.endswith("[]"):
        some = ['"%s"' % re.sub(r'(["\\])', r"\\\1", one) for one in templates(kind[:-2])]
        return ["{}", "{NULL}"] + [form.replace("$", one) for one in some for form in ("{$}", "{ $ }", "[1:1]={$}", "[0:0]={$}", "{{$},{$}}", "{$,NULL}", "{{$,$}}")]
    if name != kind:
        return ["{%s}" % ",".join(some) for count in range(3) for some in itertools.product(templates(name), repeat=count)]
    return SPELLINGS["reg" if kind.startswith("reg") else kind].split("|")


def spelled(numbers, template):
    return "".join(numbers.choice({"#": "0123", "?": "01"}.get(one, one)) for one in template)


def hints(server):
    """The HINT of each type is that of README.md's table, and for 10,000 values what it says to count is one text for equal values only."""
    server.ask("CREATE TYPE hue AS ENUM ('red', 'green'); CREATE DOMAIN price AS numeric(9, 2); CREATE DOMAIN spans AS interval; CREATE DOMAIN prices AS price[]; CREATE DOMAIN ids AS int8[]")
    shown = forms_shown()
    names = dict(line.split("|") for line in server.ask("SELECT x::regtype, x FROM unnest('{%s}'::text[]) x" % ",".join(name.replace('"', '\\"') for name in shown)).split("\n"))
    all_types = server.ask("SELECT oid::regtype FROM pg_type WHERE typtype IN ('b', 'r', 'm') AND typnamespace = 'pg_catalog'::regnamespace AND typname !~ '(int2|oid)vector|pg_node_tree'")
    said = server.run("".join("SELECT hyperloglog_agg(NULL::%s);\n" % name for name in all_types.split("\n") + ["hue", "hue[]"]))
    given = dict(re.findall("values of type (.*) cannot be counted as they are\nHINT:  (.*)", said))
    for name, hint in given.items():
        check("hint of " + name, hint == FORM % shown[names[name]] if name in names else hint.startswith(GENERIC), hint)
    equal("types of the table without a hint", [name for name in names if name not in given], [])
    for name, kind in ("price", "numeric"), ("spans", "interval"), ("ids", "int8[]"), ("prices", None), ("record", None):
        said = server.run("SELECT hyperloglog_agg(NULL::%s);" % name)
        check("hint of " + name, (FORM % shown[kind] if kind else GENERIC) in said, said)
    # (lc_monetary needs another locale, which may not be here)
    for setting, own, other, value in (("IntervalStyle", "postgres", "iso_8601", "interval '1 day'"), ("DateStyle", "ISO", "German", "ARRAY[date '2026-11-01']"),
                                       ("TimeZone", "UTC", "+5", "ARRAY[timestamptz '2026-11-01 00:00+00']")):
        found = server.ask("".join("SET %s = '%s'; SELECT hyperloglog_agg((%s)::text);" % (setting, one, value) for one in (own, other, own))).split("\n")
        equal("texts that depend on " + setting, (found[0] == found[1], found[0] == found[2]), (False, True))
    numbers = random.Random(SEED + 5)
    for name, kind in names.items():
        some = templates(kind)
        texts = [spelled(numbers, numbers.choice(some)) for _ in range(10000)]
        found = server.ask("""WITH t AS MATERIALIZED (SELECT value, %s AS form FROM (SELECT x::%s AS value FROM unnest(ARRAY[NULL, %s]) x) x),
            u AS (SELECT DISTINCT value, form FROM t WHERE value IS NOT NULL)
            SELECT (SELECT count(*) FROM (SELECT DISTINCT value FROM u) x), count(DISTINCT form), count(*), (SELECT count(form) FROM t), hyperloglog_agg(form) IS NULL
            FROM u""" % (re.match("Count (.*), which", given[name])[1], {"bit": "bit(4)"}.get(kind, kind.replace("reg", "oid::reg")), ", ".join("'%s'" % text.replace("'", "''") for text in texts)))
        count = int(found.split("|")[0])
        equal("values and texts of " + kind, found, "%d|%d|%d|10000|f" % (count, count, count))
        check("equal values of %s in several spellings" % kind, 1 < count < 10000 and (count < len(set(texts)) or kind == "hue"), (count, len(set(texts))))


def as_in_python(server):
    """What the errors of the Python package say to count instead is what is counted here."""
    sys.path.insert(0, str(HERE.parent / "python"))
    from hll_sketches import Sketch

    def counted(values):
        sketch = Sketch()
        for value in values:
            try:
                sketch.update(value)
            except TypeError as error:
                form = re.search("pass (.*), as which", str(error))[1]
                sketch.update(eval(form, dict(vars(datetime), Context=decimal.Context, Decimal=decimal.Decimal, value=value)))
        return sketch.to_bytes()

    numbers = random.Random(SEED + 6)
    zones = [datetime.timezone(datetime.timedelta(minutes=minutes)) for minutes in (0, 330, -720, 1)]
    times = [time.replace(tzinfo=zone) for time in random_times(numbers, 500) if 1 < time.year < 9999 for zone in zones]
    times += [time.astimezone(numbers.choice(zones)) for time in times]
    ids = [uuid.UUID(int=numbers.getrandbits(128)) for _ in range(500)]
    reals = [spelled(numbers, numbers.choice(templates("numeric"))) for _ in range(2000)] + ["1E+2", "100", "-0.0", "NaN"]
    reals += ["%d.%030d0" % (numbers.getrandbits(100), numbers.getrandbits(90)) for _ in range(100)]
    for kind, form, texts, values in (
            ("numeric", "trim_scale(v)::text", reals, map(decimal.Decimal, reals)), ("timestamptz", "v", map(str, times), times), ("uuid", "v", map(str, ids), ids),
            ("timestamp", "v", (str(time.replace(tzinfo=None)) for time in times), (time.replace(tzinfo=None) for time in times))):
        found = server.ask("SELECT hyperloglog_agg(%s) FROM unnest(%s) v" % (form, array_of(kind, texts)))
        equal("values of %s in Python" % kind, bytes_of(found), counted(values))


PEOPLE = """CREATE COLLATION IF NOT EXISTS ignores_case (provider = icu, locale = 'und-u-ks-level2', deterministic = false);
    CREATE DOMAIN nickname AS citext;
    CREATE TABLE people (name citext, nick nickname, under text COLLATE ignores_case, plain text, short varchar(9));
    INSERT INTO people SELECT x, x, x, x, x FROM unnest(ARRAY['Ann', 'ann', 'Bob']) x"""
EACH_WAY = ("hyperloglog_agg(%s)", "hll_image_add_agg(%s, 9)", "hyperloglog_agg(%s, 9, 4)", "hyperloglog_agg(DISTINCT %s)", "hyperloglog_agg(%s) FILTER (WHERE true)",
            "hyperloglog_agg(%s) OVER ()", "count(*) OVER (), hyperloglog_agg(%s, 9) OVER (ORDER BY plain ROWS 1 PRECEDING)", "hll_count_distinct(%s)", "hll_add(hyperloglog_empty(), %s)",
            "hll_add(hll_image_empty(), %s)")


def refused_texts(server):
    """Texts that are equal by another rule than their bytes are refused, and counted where they are cast."""
    server.ask(PEOPLE)
    for call in EACH_WAY:
        for value, kind in ("name", "citext"), ("nick", "nickname"), ("coalesce(name, nick)", "citext"):
            said = server.run("SELECT %s FROM people;" % (call % value))
            refused("%s of a %s" % (call, kind), said, DATATYPE, "values of type %s cannot be counted" % kind)
            check("a cast for " + kind, "with CAST(value AS text), or a form that equal values share, for example lower(value)" in said, said)
        for value in "under", "plain COLLATE ignores_case", "ARRAY[under]::text":
            said = server.run("SELECT %s FROM people;" % (call % value))
            refused("%s of %s" % (call, value), said, "42P21", "texts under the nondeterministic collation \"ignores_case\" cannot be counted")
            check("a cast for a collation", 'CAST(value AS text) COLLATE "C"' in said, said)
        for value in "name::text", "nick::text", "lower(name)", 'under COLLATE "C"', "plain", "short", 'lower(under) COLLATE "C"':
            said = server.run("SELECT %s FROM people;" % (call % value))
            check("%s of %s" % (call, value), "ERROR" not in said, said)
    found = server.ask("""SELECT round(# hyperloglog_agg(name::text)), round(# hyperloglog_agg(lower(name))), round(# hyperloglog_agg(lower(under) COLLATE "C")),
        round(# hyperloglog_agg(short)) FROM people""")
    equal("counts of people", found, "3|2|2|3")
    folded_texts(server)
    for workers in (0, 3):
        said = server.run(settings(workers) + "SELECT hyperloglog_agg(name) FROM people;")
        refused("a citext at %d workers" % workers, said, DATATYPE, "values of type citext")
    computed_below(server)


def folded_texts(server):
    """A parameter of the type citext is rejected in a generic plan. In a custom plan it is a text before the check sees it, and so is a constant,
    also as the argument of a function that PostgreSQL puts into the query: README.md says so."""
    prepared = "PREPARE p(citext) AS SELECT round(# hyperloglog_agg($1)) FROM generate_series(1, 2); SET plan_cache_mode = force_%s_plan; EXECUTE p('Ann');"
    refused("a parameter in a generic plan", server.run(prepared % "generic"), DATATYPE, "values of type citext cannot be counted")
    refused("hll_add of a parameter in a generic plan", server.run("PREPARE p(citext) AS SELECT hll_add(hyperloglog_empty(), $1); "
                                                                   "SET plan_cache_mode = force_generic_plan; EXECUTE p('Ann');"), DATATYPE, "values of type citext")
    equal("a parameter in a custom plan", server.run(prepared % "custom"), "1")
    server.ask("CREATE FUNCTION counted(name citext) RETURNS hyperloglog LANGUAGE sql STABLE AS 'SELECT hll_add(hyperloglog_empty(), name)'")
    refused("a row in an inlined function", server.run("SELECT counted(name) FROM people;"), DATATYPE, "values of type citext")
    for value in "'Ann'::citext", "lower('Ann'::citext)::citext":
        equal("a constant: " + value, server.run("SELECT round(# hyperloglog_agg(%s));" % value), "1")
    equal("a constant in an inlined function", server.run("SELECT round(# counted('Ann'));"), "1")


# From PostgreSQL 16 on, the plan sorts rows for an aggregate. Then a node below the aggregate computes its values, and the
# aggregate's own arguments don't show whether they were cast.
NICKS = "coalesce(name, nick)"
SORTED = ("DISTINCT %s", "DISTINCT %s, 9", "%s ORDER BY %s", "%s, 9, 4 ORDER BY %s DESC", "%s ORDER BY %s, plain")
PARTS_OF_PEOPLE = """CREATE TABLE parts (LIKE people) PARTITION BY LIST (plain);
    CREATE TABLE anns PARTITION OF parts FOR VALUES IN ('Ann', 'ann'); CREATE TABLE others PARTITION OF parts DEFAULT;
    INSERT INTO parts SELECT * FROM people; CREATE INDEX ON parts ((coalesce(name, nick)::text)); CREATE INDEX ON people (plain);
    ANALYZE people, parts"""
INDEX = "SET enable_seqscan = off; SET enable_bitmapscan = off; "
# A node of the plan, what makes PostgreSQL choose it, and what the rows are from.
NODES = {"Sort": ("", "people"), "Incremental Sort": (INDEX, "people GROUP BY plain"), "Merge Append": (INDEX, "parts"), "Append": ("", "parts"),
         "Subquery Scan": ("", "(SELECT * FROM people OFFSET 0) s"), "CTE Scan": ("", "(WITH c AS MATERIALIZED (TABLE people) TABLE c) s"),
         "Merge Join": ("SET enable_hashjoin = off; SET enable_nestloop = off; ", "people JOIN (SELECT plain p FROM people) s ON p = plain"),
         "Gather": (settings(2), "people"), "GroupAggregate": ("", "people GROUP BY ROLLUP (plain, short)")}


def sorted_calls(value):
    return ["hyperloglog_agg(%s)" % form.replace("%s", value) for form in SORTED]


def computed_below(server):
    """A value that isn't cast is rejected wherever the plan computes it, and counted where it is cast."""
    server.ask(PARTS_OF_PEOPLE)
    presorts = server.ask("SELECT count(*) FROM pg_settings WHERE name = 'enable_presorted_aggregate'") == "1"
    hidden = 0
    for node, (chosen, rows) in NODES.items():
        for call in sorted_calls(NICKS):
            name = "%s above %s" % (call, node)
            refused(name, server.run("%sSELECT %s FROM %s;" % (chosen, call, rows)), DATATYPE, "values of type citext cannot be counted")
            plan = server.run("%sEXPLAIN (VERBOSE, COSTS OFF) SELECT %s FROM %s;" % (chosen, call, rows))
            hidden += re.search(r"(\(|DISTINCT )\(\(COALESCE", plan.split("\n")[1]) is not None
            check("the plan of " + name, not presorts or node in plan or ", plain" in call, plan)
        for call in sorted_calls(NICKS + "::text"):
            said = server.run("%sSELECT %s FROM %s;" % (chosen, call, rows))
            check("%s with a cast above %s" % (call, node), "ERROR" not in said, said)
    check("values that the plan computes below", hidden >= 20 if presorts else hidden == 0, hidden)
    texts_below(server)
    both_casts(server, presorts)


def texts_below(server):
    """Texts are counted: those of a subquery too, which become texts there by an implicit cast."""
    server.ask("CREATE VIEW names AS SELECT name AS t FROM people UNION ALL SELECT plain FROM people")
    for value, rows, wanted in (("plain", "people", "3"), ("short", "people", "3"), ("coalesce(short, plain)", "parts", "3"), ("coalesce(short, short)", "people", "3"),
                                ("plain || short", "people", "3"), ("lower(name)", "people", "2"), ("coalesce(name, plain)", "people", "3"),
                                ("t", "names", "3"), ("coalesce(t, '')", "names", "3"), ("t", "(SELECT DISTINCT t FROM names) s", "3")):
        for call in sorted_calls(value):
            if "plain" not in call.split("ORDER BY")[-1] or rows in ("people", "parts"):
                found = server.ask("%s SELECT round(# %s) FROM %s" % (INDEX, call, rows))
                equal("%s from %s" % (call, rows), found, wanted)


def both_casts(server, presorts):
    """PostgreSQL takes an expression with an implicit cast and with an explicit one for the same. README.md says what follows."""
    cast = NICKS + "::text"
    for name in "hyperloglog_agg", "hll_image_add_agg":
        for calls in ("hyperloglog_agg(%s), %s(%s)" % (cast, name, NICKS), "%s(%s), hyperloglog_agg(%s)" % (name, NICKS, cast)):
            refused("both: " + calls, server.run("SELECT %s FROM people;" % calls), DATATYPE, "values of type citext")
    calls = "string_agg(DISTINCT %s, ''), round(# hyperloglog_agg(DISTINCT %s))"
    off = "SET enable_presorted_aggregate = off; " if presorts else ""
    said = server.run(off + "SELECT %s FROM people;" % (calls % (NICKS, cast)))
    equal("cast in this call", said, "AnnBobann|3")
    refused("cast in another call", server.run(off + "SELECT %s FROM people;" % (calls % (cast, NICKS))), DATATYPE, "values of type citext")
    equal("cast in both calls", server.run("SELECT %s FROM people;" % (calls % (cast, cast))), "AnnBobann|3")
    if presorts:
        said = server.run("SELECT %s FROM people;" % (calls % (NICKS, cast)))
        refused("cast in this call, and sorted below", said, DATATYPE, "values of type citext")
        check("where the cast is missing", "lower(value), everywhere in the query." in said, said)
    server.ask("CREATE INDEX cast_nicks ON people (name, nick, (%s::text))" % NICKS)
    server.ask("VACUUM people")
    plan = server.run(INDEX + "EXPLAIN SELECT hyperloglog_agg(%s) FROM people;" % NICKS)
    check("an index with a cast", "Index Only Scan using cast_nicks" in plan, plan)
    for call in sorted_calls(NICKS) + ["hyperloglog_agg(%s)" % NICKS]:
        said = server.run(INDEX + "SET enable_indexonlyscan = off; SELECT %s FROM people;" % call)
        refused("beside an index with a cast: " + call, said, DATATYPE, "values of type citext")


# ---- one value more


def one_more(server):
    """hll_add beside the aggregate: of each type, at each stage and width, of the type and of bytes, and in loops."""
    for kind, values in kinds():
        texts = [text for text, _ in values[:300]]
        for sketch in ("hyperloglog_empty(8, %d)", "hll_image_empty(8, %d)"):
            for width in (4, 6, 8):
                found = server.ask("""DO $$ BEGIN DROP AGGREGATE IF EXISTS added_one_by_one(%s); END $$;
                    CREATE AGGREGATE added_one_by_one(%s) (SFUNC = hll_add, STYPE = %s, INITCOND = '%s');
                    SELECT added_one_by_one(v), hyperloglog_agg(v, 8, %d) FROM unnest(%s) v""" % (
                        kind, kind, "hyperloglog" if sketch.startswith("hyper") else "bytea", server.ask("SELECT " + sketch % width), width, array_of(kind, texts)))
                equal("hll_add of %s at width %d" % (kind, width), *found.split("|"))
    for call, wanted in (
            ("hll_add(hyperloglog_empty(9, 4), NULL::text)", "\\x02010709030c0000"), ("hll_add(NULL::hyperloglog, 7) IS NULL", "t"),
            ("hll_add(hyperloglog_empty(12, 4), 'a') = hyperloglog_agg('a', 12, 4)", "t"), ("pg_typeof(hll_add(hll_image_empty(), 7))", "bytea"),
            ("pg_typeof(hll_add('\\x0201070c030c0008', 'a'))", "hyperloglog"), ("(hll_info(hll_add(hyperloglog_agg('a'), 'a'))).coupons", "1")):
        equal(call, server.ask("SELECT " + call), wanted)
    for kind, value in OTHERS.items():
        said = server.run("SELECT hll_add(hyperloglog_empty(), %s);" % value)
        refused("hll_add of " + kind, said, DATATYPE, "values of type %s cannot be counted" % kind)
    refused("hll_add of a sketch", server.run("SELECT hll_add(hyperloglog_empty(), hyperloglog_empty());"), DATATYPE, "sketches are not counted")
    found = server.ask("""SELECT bool_and(hll_add(m, g)::bytea = f), bool_and(hll_add(m, -g)::bytea <> f), bool_and(m::bytea = f)
        FROM (SELECT g, a || b m, hll_merge(a::bytea, b::bytea) f FROM (SELECT g, hyperloglog_agg(g * n, 8) a, hyperloglog_agg(g * n + 1, 8) b
            FROM generate_series(1, 50) g, generate_series(1, 40) n GROUP BY g) x OFFSET 0) y WHERE hll_add(m, -g)::bytea <> f""")
    equal("a merge to which a value is added stays", found, "t|t|t")
    found = server.run("""DO $$ DECLARE s hyperloglog := hyperloglog_empty(10, 6); before hyperloglog; BEGIN
        FOR n IN 1 .. 3000 LOOP before := s; s := hll_add(s, n); END LOOP;
        s := hll_add(s || s, 7) || s;
        RAISE NOTICE 'same % %', s = (SELECT hyperloglog_agg(n, 10, 6) FROM generate_series(1, 3000) n), hll_add(before, 3000) = s; END $$;""")
    check("a loop of hll_add", "same t t" in found, found)
