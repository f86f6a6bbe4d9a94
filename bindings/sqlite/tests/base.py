# SPDX-License-Identifier: Apache-2.0
"""What the parts share: connections with the extension, refusals, and images without what estimators read."""
import pathlib
import sqlite3

from report import check

FOLDER = pathlib.Path(__file__).resolve().parent.parent
EXTENSION = FOLDER / "build" / "hll_sketches"


def connect(path=":memory:"):
    connection = sqlite3.connect(path, check_same_thread=False)
    connection.enable_load_extension(True)
    connection.load_extension(str(EXTENSION))
    connection.enable_load_extension(False)
    return connection


db = connect()


def ask(sql, *arguments, on=db):
    """The one value of the one row of a query."""
    (value,), = on.execute(sql, arguments).fetchall()
    return value


def said_by(sql, *arguments, on=db):
    """What SQLite says where it refuses a query; "" where it doesn't."""
    try:
        on.execute(sql, arguments).fetchall()
    except (sqlite3.Error, MemoryError) as error:
        return str(error) or type(error).__name__
    return ""


def refused(name, wanted, sql, *arguments):
    said = said_by(sql, *arguments)
    check(name, said == wanted, "%r in place of %r" % (said, wanted))


FINDING = "SELECT .. WHERE NOT hll_is_image(image) finds such rows"


def rejected(name, wanted, sql, *arguments):
    """That a query is refused for an image, with the query that finds such images."""
    refused(name, "%s (%s)" % (wanted, FINDING), sql, *arguments)


def rows_of(values):
    """A query of one column `x` over these values, and its arguments."""
    if not values:
        return "SELECT NULL AS x WHERE 0", []
    return "SELECT column1 AS x FROM (VALUES %s)" % ", ".join(["(?)"] * len(values)), values


def table_of(values):
    """A new temporary table of one column `x`, which keeps the types of the values."""
    db.execute("DROP TABLE IF EXISTS temp.t")
    db.execute("CREATE TEMP TABLE t (x)")
    db.executemany("INSERT INTO t VALUES (?)", ((value,) for value in values))
    return "temp.t"


def plain(image):
    """An image without the words and the flag from which others estimate, which only registers have."""
    if image is None or image[7] & 3 != 2:
        return image
    return image[:5] + bytes([image[5] & ~16]) + image[6:8] + image[32:]
