"""The databases that the program sqlite3 makes of model/tables.sql, model/tables_first.sql and model/pool_tables.sql, as the tests of the stores over SQLite have them.

    model/run tables            says whether crates/store_trial/src has the bytes that sqlite3 makes
    model/run tables --write    writes them there

Two versions of sqlite3 may make different bytes: the number of the version is in the file. Those in the test are of sqlite3 3.40.1.
"""
import os
import re
import subprocess
import sys
import tempfile
import textwrap

TOP = os.path.join(os.path.dirname(os.path.abspath(__file__)), "..")
# each text, and the file that has what is made of it
MADE = {
    "model/tables.sql": "crates/store_trial/src/register_file.rt",
    "model/tables_first.sql": "crates/store_trial/src/first_file.rt",
    "model/pool_tables.sql": "crates/store_trial/src/pool_file.rt",
}
TEXT = re.compile(r'(const FILE: &str = "\\\n)(.*?)(";\n)', re.S)


def database(text):
    """The bytes that sqlite3 makes of the text."""
    with tempfile.TemporaryDirectory() as folder:
        path = os.path.join(folder, "made.db")
        with open(os.path.join(TOP, text)) as words:
            subprocess.run(["sqlite3", path], stdin=words, check=True)
        with open(path, "rb") as file:
            return file.read()


def words_of(data):
    """The bytes in hexadecimal digits, at most 48 a word; `0*N` are N bytes that are zero, three or more."""
    words = []
    for zeros, others in re.findall(rb"(\x00{3,})|((?:(?!\x00{3,})[\s\S])+)", data):
        words += [f"0*{len(zeros)}"] if zeros else [others[at:at + 48].hex() for at in range(0, len(others), 48)]
    return textwrap.fill(" ".join(words), 150) + "\n"


def main():
    for text, made in MADE.items():
        path = os.path.join(TOP, made)
        with open(path) as file:
            test = file.read()
        found = TEXT.sub(lambda match: match[1] + words_of(database(text)) + match[3], test)
        if sys.argv[1:] == ["--write"]:
            with open(path, "w") as file:
                file.write(found)
        elif found != test:
            sys.exit(f"tables: {made} has other bytes; model/tables.py --write writes them")


if __name__ == "__main__":
    main()
