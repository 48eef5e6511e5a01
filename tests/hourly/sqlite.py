#!/usr/bin/env python3
"""Runs a recipe for the sqlite3 shell in Python's module sqlite3, which has none of the commands
that begin with a dot: of these `.import --skip N FILE TABLE` puts each row behind the first N into
the table, each field as text, and the others are for what is printed.

    sqlite.py RECIPE [DATABASE]
"""
import csv
import sqlite3
import sys


def put_in(database, file, table, skip=0):
    with open(file, newline="", encoding="ascii") as lines:
        rows = list(csv.reader(lines))[skip:]
    database.executemany(f"INSERT INTO {table} VALUES (?, ?, ?)", rows)


def main(recipe, where=":memory:"):
    statement, database = "", sqlite3.connect(where, isolation_level=None)
    with open(recipe, encoding="ascii") as lines:
        for line in lines:
            if line.startswith(".import --skip "):
                _, _, skip, file, table = line.split()
                put_in(database, file, table, int(skip))
            elif line.startswith(".import "):
                put_in(database, *line.split()[1:])
            elif not line.startswith("."):
                statement += line
                if sqlite3.complete_statement(statement):
                    for row in database.execute(statement):
                        print(*("-" if value is None else value for value in row))
                    statement = ""


if __name__ == "__main__":
    main(*sys.argv[1:])
