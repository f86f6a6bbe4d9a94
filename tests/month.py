#!/usr/bin/env python3
# SPDX-License-Identifier: Apache-2.0
"""Makes a month of logs to try with: month.py [DIRECTORY].

Three servers write three forms: web/DAY.tsv.gz, app/DAY.csv (with a byte order mark, CRLF and quotes) and mobile/DAY.jsonl. A line
has the local time of a visitor, with its offset, a country, a page and a user. As in real logs, some users and countries are
missing, some lines come twice, and some come a day late. The file of web/2026-11-17 is cut; the whole one is next to it, as
web/2026-11-17.tsv.gz.again.
"""
import collections
import datetime
import gzip
import json
import pathlib
import random
import sys

DAYS, LINES, USERS, PAGES = 30, 300, 4000, 60
COUNTRIES = [("DE", "+01:00"), ("US", "-05:00"), ("JP", "+09:00"), ("BR", "-03:00"), ("", "Z")]
PLACES = ["/", "/suche?q=\u6771\u4eac", "/caf\u00e9", "/a b", "/x,y", "/\U0001f642"]
MISSING = ["", "-", "NULL"]

Visit = collections.namedtuple("Visit", "time country page user")


def visits(numbers, day):
    """The visits of a day; the user of some is None."""
    pick = lambda count, power=1: int(count * numbers.random() ** power)  # noqa: E731
    for _ in range(LINES):
        country, offset = COUNTRIES[pick(len(COUNTRIES))]
        page, user = pick(PAGES, 3), pick(USERS, 2)
        time = "%sT%02d:%02d:%02d%s" % (day, pick(24), pick(60), pick(60), offset)
        name = str(user) if user % 3 == 0 else "%s-%d" % (["Ann", "Zo\u00eb", "\u674e"][user % 3], user)
        yield Visit(time, country, PLACES[page] if page < len(PLACES) else "/page/%d" % page, None if numbers.random() < 0.03 else name)


def tsv_line(visit, numbers):
    user = MISSING[int(3 * numbers.random())] if visit.user is None else visit.user
    return "%s\t%s\t%s\t%s\n" % (visit.time, visit.country, visit.page, user)


def csv_line(visit):
    return '%s,%s,"%s",%s\r\n' % (visit.time, visit.country, visit.page, visit.user or "")


def json_line(visit, number):
    user = int(visit.user) if visit.user and visit.user.isdigit() and number % 2 else visit.user
    one = {"ts": visit.time, "country": visit.country or None, "page": visit.page, "user": user}
    return json.dumps(one, ensure_ascii=bool(number % 2)) + "\n"


def write(folder, day, web, app, mobile):
    """Writes the three files of a day."""
    for name, data in (("web/%s.tsv.gz" % day, gzip.compress("".join(web).encode(), mtime=0)),
                       ("app/%s.csv" % day, ("\ufeffts,country,page,user\r\n" + "".join(app)).encode()),
                       ("mobile/%s.jsonl" % day, "".join(mobile).encode())):
        path = folder / name
        path.parent.mkdir(parents=True, exist_ok=True)
        path.write_bytes(data)


def make(folder):
    """Writes the month, and returns the users of each day, country and page."""
    numbers, late, users = random.Random(20261101), [], collections.defaultdict(set)
    for number in range(DAYS):
        day = str(datetime.date(2026, 11, 1) + datetime.timedelta(number))
        web, app, mobile = late, [], []
        late = []
        for count, visit in enumerate(visits(numbers, day)):
            if visit.user is not None:
                users[day, visit.country, visit.page].add(visit.user)
            form, times = numbers.random(), 2 if numbers.random() < 0.02 else 1
            if form < 0.6:
                is_late = numbers.random() < 0.01 and number < DAYS - 1
                (late if is_late else web).extend([tsv_line(visit, numbers)] * times)
            elif form < 0.8:
                app.extend([csv_line(visit)] * times)
            else:
                mobile.extend([json_line(visit, count)] * times)
        write(folder, day, web, app, mobile)
    cut = folder / "web/2026-11-17.tsv.gz"
    whole = cut.read_bytes()
    (folder / "web/2026-11-17.tsv.gz.again").write_bytes(whole)
    cut.write_bytes(whole[: len(whole) // 2])
    return users


if __name__ == "__main__":
    make(pathlib.Path(sys.argv[1] if len(sys.argv) > 1 else "."))
