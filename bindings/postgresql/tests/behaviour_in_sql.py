# SPDX-License-Identifier: Apache-2.0
"""The cases of tests/behaviour as SQL, which PostgreSQL and SQLite share: expressions over BYTEA or BLOB, and what an error says."""
import re


def union(bound, width, rows):
    """The union of the rows of a query with a column x. A bound or a width of 0 is left out."""
    given = ", ".join(["x"] + [bound] * (bound != "0") + [width] * (bound != "0" and width != "0"))
    merged = "(SELECT hll_image_union_agg(%s) FROM (%s) rows)" % (given, rows)
    return "hll_convert(%s, %s)" % (merged, width) if bound == "0" != width else merged


def rows_of(values):
    return " UNION ALL ".join("SELECT %s AS x" % value for value in values) or "SELECT hll_image_empty() AS x WHERE 1 = 0"


def expressions(call, given, literal, width):
    """The expressions that answer a case, by each way in. `literal` writes bytes, and `width` an expression of an image's own width."""
    if call == "whole":
        image = literal(given)
        return ["hll_convert(%s, %s)" % (image, width(image)), union("0", "0", rows_of([image]))]
    if call == "first":
        image = "hll_first_image(%s)" % literal(given)
        return ["hll_convert(%s, %s)" % (image, width(image))]
    fields = given.split()
    if call == "union":
        return [union(fields[0], fields[1], rows_of(map(literal, fields[2:])))]
    if call == "new":
        return ["hll_image_empty(%s, %s)" % tuple(fields)]
    if call == "many":
        return ["(SELECT hll_image_add_agg(x) FROM (%s) rows)" % rows_of("NULL" if it == "null" else "'%s'" % it for it in fields)]
    return []


def rejected(call, message):
    """What a message says; of one image only the reason."""
    reason = re.search(r"invalid HLL image(?: in argument \d)?: (\w+)", message)
    if call in ("whole", "first") and reason:
        return "rejected: " + ("trailing" if reason[1].isdigit() else reason[1])
    return "rejected: " + message.replace("\n", " ")


def joined(answers):
    return " or ".join(sorted(set(answers))) or "the call is not known"
