#!/usr/bin/env python3
"""python3 tests/programs/ledger_kills.py PROGRAM [KILLS [ARTICLES [MOVEMENTS [SQLITE3]]]]: enters files of movements into a database by the program
`hashbag_ledger`, and kills it by SIGKILL at random moments, 20 times by default. After each kill the program verifies the stock, each file whose
entry was acknowledged is there once, the files of a run are there all or none, and the balance is that of the files that are there, which is
counted here.
With the name of a program `sqlite3` that one checks the integrity of the file too. The last line is 'ledger_kills: ok' or says what is
wrong."""
import csv
import os
import random
import signal
import subprocess
import sys
import tempfile
import time

random.seed(20)
program = os.path.realpath(sys.argv[1])
kills = int(sys.argv[2]) if len(sys.argv) > 2 else 20
articles = int(sys.argv[3]) if len(sys.argv) > 3 else 300
movements = int(sys.argv[4]) if len(sys.argv) > 4 else 1500
sqlite3 = sys.argv[5] if len(sys.argv) > 5 else None


def fail(what):
    print("ledger_kills: " + what)
    sys.exit(1)


def run(*words):
    return subprocess.run([program, *words], capture_output=True, text=True, stdin=subprocess.DEVNULL)


def write_day(day):
    """Writes a file of movements, and returns its rows."""
    rows = []
    for i in range(movements // 7):
        article = "article %d" % random.randrange(articles)
        rows.append((article, random.randint(-60, 100)))
    with open("day%d.csv" % day, "w") as file:
        file.write("article,change\n")
        for article, change in rows:
            file.write("%s,%d\n" % (article, change))
    return rows


def enter(stock, rows):
    """Enters the rows into a stock, and returns how many are refused."""
    refused = 0
    for article, change in rows:
        if stock.get(article, 0) + change < 0:
            refused += 1
        else:
            stock[article] = stock.get(article, 0) + change
    return refused


def check(days, acknowledged):
    """Compares the database with the files that are in it."""
    verified = run("verify", "--db", "k.db")
    if verified.returncode != 0:
        fail("verify ends with status %d: %s" % (verified.returncode, verified.stderr))
    listed = run("batches", "--db", "k.db")
    if listed.returncode != 0:
        fail("batches: " + listed.stderr)
    stock, names = {}, []
    for row in csv.DictReader(listed.stdout.splitlines()):
        rows = days[row["file"]]
        names.append(row["file"])
        refused = enter(stock, rows)
        if int(row["movements"]) != len(rows) or int(row["refused"]) != refused:
            fail("%s: %s movements and %s refused, not %d and %d" % (row["file"], row["movements"], row["refused"], len(rows), refused))
    if len(names) != len(set(names)):
        fail("a file is there twice")
    lost = [name for name in acknowledged if name not in names]
    if lost:
        fail("acknowledged and not there: " + " ".join(lost))
    wanted = "article,number\n" + "".join("%s,%d\n" % (article, stock[article]) for article in sorted(stock) if stock[article] > 0)
    if run("balance", "--db", "k.db").stdout != wanted:
        fail("another balance than that of the files that are there")
    if sqlite3:
        said = subprocess.run([sqlite3, "k.db", "pragma integrity_check"], capture_output=True, text=True).stdout
        if said != "ok\n":
            fail("integrity_check: " + said)
    return names


def main():
    os.chdir(tempfile.mkdtemp())
    days, acknowledged, waiting = {}, [], []
    days["day0.csv"] = write_day(0)
    began = time.time()
    if run("enter", "--db", "k.db", "day0.csv").returncode not in (0, 1):
        fail("the first file")
    acknowledged.append("day0.csv")
    # so long a run of three files takes at most, about
    day, done, late, took = 1, 0, 0, 1.5 * (time.time() - began)
    while done < kills:
        while len(waiting) < 3:
            name = "day%d.csv" % day
            days[name] = write_day(day)
            waiting.append(name)
            day += 1
        began = time.time()
        process = subprocess.Popen([program, "enter", "--db", "k.db", *waiting], stdin=subprocess.DEVNULL, stderr=subprocess.DEVNULL)
        try:
            process.wait(timeout=random.uniform(0, took))
        except subprocess.TimeoutExpired:
            process.send_signal(signal.SIGKILL)
            process.wait()
        if process.returncode == -signal.SIGKILL:
            done += 1
        elif process.returncode in (0, 1):
            acknowledged.extend(waiting)
            took = 1.1 * (time.time() - began)
        else:
            fail("enter ends with status %d" % process.returncode)
        there = check(days, acknowledged)
        if 0 < len([name for name in waiting if name in there]) < len(waiting):
            fail("some files of a run are there, and others not")
        late += len([name for name in waiting if name in there and name not in acknowledged])
        acknowledged = there
        waiting = [name for name in waiting if name not in there]
    print("%d kills, %d files there, %d of them entered by runs that were killed" % (done, len(acknowledged), late))
    print("ledger_kills: ok")


main()
