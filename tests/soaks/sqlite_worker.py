# SPDX-License-Identifier: Apache-2.0
"""A process with a connection to SQLite, for soaks/sqlite_lane.py: sqlite_worker.py DATABASE EXTENSION MODE. Reads a command from each line,
and prints a line about it."""
import hashlib
import resource
import signal
import sqlite3
import sys
import threading

ADD = """UPDATE daily SET image = hll_merge(image, (
    WITH RECURSIVE numbers(value) AS (SELECT ? UNION ALL SELECT value + 1 FROM numbers WHERE value < ?)
    SELECT hll_add_agg(value) FROM numbers)) WHERE key = ?"""
MERGE = "SELECT hll_union_agg(image) FROM many, (WITH RECURSIVE n(i) AS (SELECT 1 UNION ALL SELECT i + 1 FROM n WHERE i < ?) SELECT i FROM n)"
kept = []


def add(connection, number, key, first, count):
    connection.execute("BEGIN IMMEDIATE")
    try:
        connection.execute(ADD, (first, first + count - 1, key))
        connection.execute("INSERT INTO done VALUES (?)", (number,))
        connection.execute("COMMIT")
    except sqlite3.Error:
        if connection.in_transaction:
            connection.execute("ROLLBACK")
        raise
    return "ok"


def merge(connection, times):
    return hashlib.sha256(connection.execute(MERGE, (times,)).fetchone()[0]).hexdigest()


def main():
    signal.signal(signal.SIGINT, signal.SIG_IGN)
    database, extension, mode = sys.argv[1:]
    connection = sqlite3.connect(database, isolation_level=None, timeout=20, check_same_thread=False)
    connection.enable_load_extension(True)
    connection.load_extension(extension)
    connection.execute("PRAGMA journal_mode=" + mode)
    print("ready", flush=True)
    for line in sys.stdin:
        command, *words = line.split()
        milliseconds, *numbers = map(int, words)
        timer = threading.Timer(milliseconds / 1000, connection.interrupt)
        try:
            if command == "limit":      # a disk that is full at this size of a file
                resource.setrlimit(resource.RLIMIT_FSIZE, (milliseconds or resource.RLIM_INFINITY, resource.RLIM_INFINITY))
                told = "ok"
            elif command == "keep":     # memory that grows, on purpose
                kept.append(b"x" * milliseconds)
                told = "ok"
            else:
                if milliseconds:
                    timer.start()
                told = {"add": add, "merge": merge}[command](connection, *numbers)
        except sqlite3.Error as why:
            told = "no %s" % why
        timer.cancel()
        if timer.is_alive():
            timer.join()
        print(told, flush=True)


if __name__ == "__main__":
    main()
