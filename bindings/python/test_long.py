"""test_long.py COMMAND ROWS: the example quarters as CSV through the command `morskebab`, and as lines through `./run rerun`: the same figures. The long one
takes at most 20 times the processor time, and no more memory than a tenth of its rows."""
import json
import os
import pathlib
import subprocess
import sys
import tempfile

ROOT = pathlib.Path(__file__).resolve().parents[2]
QUARTER = [sys.executable, str(ROOT / "examples" / "quarter.py")]
SUM = "10000"
RATIO, MEGABYTES = 20, 24


def made(name, *words):
    with open(name, "wb") as out:
        subprocess.run([*QUARTER, *words], stdout=out, check=True)
    return name


def measured(*words):
    """What it prints, its processor seconds and its megabytes at most."""
    with tempfile.TemporaryFile() as out, subprocess.Popen(words, stdout=out, stderr=subprocess.DEVNULL) as process:
        _, status, used = os.wait4(process.pid, 0)
        process.returncode = os.waitstatus_to_exitcode(status)
        assert process.returncode == 0, f"{words} ended with {process.returncode}"
        out.seek(0)
        return out.read().decode(), used.ru_utime + used.ru_stime, used.ru_maxrss // 1024


KEYS = ("paid", "taken_back", "total", "least", "most")


def told(lines):
    """Of each part of rerun's report: posted, refunded, net, and its partners' figures, in units."""
    parts = []
    for line in lines.splitlines():
        words = line.replace(".", "").split()
        if words[0] == "posted":
            parts.append([[int(word) for word in words[1::2]]])
        elif words[0] == "partner":
            parts[-1].append([int(word) for word in words[5::2]])
        elif words[0] == "settled":
            parts.append([[int(word) for word in words[5::2]]])
    return parts


def found(out):
    """The same of the command's JSON."""
    def units(held, *keys):
        return [int(held[key].replace(".", "")) for key in keys]

    parts = []
    for book in json.loads(out)["books"]:
        for card in book["cards"]:
            parts.append([units(card, "posted", "refunded", "net"), *(units(partner, *KEYS) for partner in card["partners"])])
        if len(book["cards"]) > 1:
            parts += [[units(partner, "total", "least", "most")] for partner in book["together"]["partners"]]
    return parts


def examples(command):
    """Hourly, nightly, and with the contract that changes in its second month."""
    here = ROOT / "examples"
    for contracts, rows, lines in (("contracts", "hourly", "hourly"), ("contracts", "nightly", "nightly"), ("contracts-renegotiated", "nightly", "renegotiated")):
        out, _, _ = measured(command, "rerun", "--json", "--contracts", str(here / f"{contracts}.csv"), "--postings", str(here / f"{rows}.csv"))
        wanted, _, _ = measured(str(ROOT / "run"), "rerun", str(here / f"{lines}.txt"))
        assert found(out) == told(wanted) != [], f"{lines}: {found(out)} is not {told(wanted)}"
    print("long: the example quarter from CSV, hourly, nightly and renegotiated, has the figures of ./run rerun")


def main(command, rows):
    examples(command)
    with tempfile.TemporaryDirectory() as folder:
        os.chdir(folder)
        contracts = made("contracts.csv", "csv", "long-contracts", SUM)
        again = [command, "rerun", "--contracts", contracts, "--json", "--postings"]
        made("long.txt", "long", str(rows), SUM)
        subprocess.run([str(ROOT / "run"), "rerun", "long.txt"], stdout=subprocess.DEVNULL, stderr=subprocess.DEVNULL, check=True)
        lines, plain, _ = measured(str(ROOT / "run"), "rerun", "long.txt")
        out, taken, most = measured(*again, made("long.csv", "csv", "long", str(rows), SUM))
        _, _, least = measured(*again, made("short.csv", "csv", "long", str(rows // 10), SUM))
    assert found(out) == told(lines) != [], "the figures differ"
    assert json.loads(out)["books"][0]["cards"][0]["rows"]["accepted"] == rows
    assert taken <= RATIO * plain, f"{taken:.2f} s of processor time, and ./run rerun takes {plain:.2f} s"
    assert most - least <= MEGABYTES, f"{most} MB, and {least} MB for a tenth of the rows"
    print(f"long: {rows} rows in {taken:.1f} s of processor time, {taken / plain:.1f} times that of ./run rerun ({plain:.2f} s), in {most} MB ({least} MB for a tenth); the same figures")


if __name__ == "__main__":
    main(sys.argv[1], int(sys.argv[2]))
