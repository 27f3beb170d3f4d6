#!/usr/bin/env python3
"""Runs the built program over a table of words and files, and compares how each run ends: its status, what it prints on standard
error, and what it prints on standard output. Then it measures the memory of a page whose parts come and go. The last line counts
what passed; the status is 1 where something failed.

usage: checks/program.py [PROGRAM]
"""

import os
import subprocess
import sys
import tempfile

TOP = os.path.dirname(os.path.dirname(os.path.abspath(__file__)))
USAGE = "cosmetic: usage: cosmetic apply|lists|drill .."
UNREAD = "cosmetic: a file could not be read"
UNWRITTEN = "cosmetic: the output could not be written"
ADDRESS = "https://example.com/"
LIMIT = 16_777_216

# The files that the runs read, by their names.
FILES = {
    "L": b"##p\n",
    "P": b"<p>a</p>",
    "S": b"attr 1 class x\n",
    "R": b"com\n",
    "empty": b"",
    "long": b"x" * (LIMIT + 1),
    "half": (b"! " + b"x" * 61 + b"\n") * (LIMIT // 2 // 64),
    "not-utf8": b"<p>\xff",
    "marked-not-utf8": b"\xef\xbb\xbf<p>\xff",
    "deep": b"<b>" * 513,
    "deepest": b"<b>" * 512,
    "many": b"<br>" * 1_000_001,
    "most": b"<br>" * 1_000_000,
}


def page(*words):
    """The words of a report of a page at an address."""
    return ["apply", "--url", ADDRESS, *words]


# Words, status, and the text on standard error. What isn't Done prints nothing else.
ENDS = [
    ([], 2, USAGE),
    (["help"], 2, USAGE),
    (["--help"], 2, USAGE),
    (["apply"], 2, USAGE),
    (["apply", "L", "P"], 2, USAGE),
    (["apply", "--url", ADDRESS, "L"], 2, USAGE),
    (["apply", "--page", "P", "L"], 2, USAGE),
    (page("--page", "P"), 2, USAGE),
    (page("--page", "P", "--page", "P", "L"), 2, USAGE),
    (page("--page", "P", "--env", "a b", "L"), 2, USAGE),
    (page("--page", "P", "--env", ",", "L"), 2, USAGE),
    (page("--page", "P", "--other", "L"), 2, USAGE),
    (["lists"], 2, USAGE),
    (["lists", "--page", "P", "L"], 2, USAGE),
    (["drill"], 2, USAGE),
    (["drill", "0"], 2, USAGE),
    (["drill", "01"], 2, USAGE),
    (["drill", "2001"], 2, USAGE),
    (["drill", "4", "4"], 2, USAGE),
    (page("--page", "P", "missing"), 3, UNREAD),
    (page("--page", "P", "."), 3, UNREAD),
    (page("--page", "missing", "L"), 3, UNREAD),
    (page("--page", ".", "L"), 3, UNREAD),
    (page("--page", "P", "--script", "missing", "L"), 3, UNREAD),
    (page("--page", "P", "--suffixes", "missing", "L"), 3, UNREAD),
    (["lists", "L", "missing"], 3, UNREAD),
    (page("--page", "P", *["L"] * 33), 5, "cosmetic: refused: more than 32 lists"),
    (["lists", *["L"] * 33], 5, "cosmetic: refused: more than 32 lists"),
    (["apply", "--url", "example", "--page", "P", "L"], 5, "cosmetic: refused: not an address"),
    (["apply", "--url", "", "--page", "P", "L"], 5, "cosmetic: refused: not an address"),
    (["apply", "--url", "https://" + "a" * 65_529, "--page", "P", "L"], 5, "cosmetic: refused: address past 65536 bytes"),
    (page("--page", "P", "--suffixes", "long", "L"), 5, "cosmetic: refused: suffixes too long"),
    (page("--page", "P", "long"), 5, "cosmetic: refused: list 1 too long"),
    (page("--page", "P", "half", "half", "L"), 5, "cosmetic: refused: list 3 too long"),
    (page("--page", "long", "L"), 5, "cosmetic: refused: page too long"),
    (page("--page", "P", "--script", "long", "L"), 5, "cosmetic: refused: script too long"),
    (page("--page", "not-utf8", "L"), 5, "cosmetic: refused: page is not UTF-8 at 3"),
    (page("--page", "marked-not-utf8", "L"), 5, "cosmetic: refused: page is not UTF-8 at 6"),
    (page("--page", "deep", "L"), 5, "cosmetic: refused: page deeper than 512"),
    (page("--page", "many", "L"), 5, "cosmetic: refused: page past 1000000 nodes"),
    # the first refusal decides, in the order of the address and the files, and no later file is read
    (["apply", "--url", "example", "--page", "missing", "missing"], 5, "cosmetic: refused: not an address"),
    (page("--page", "missing", "--suffixes", "long", "missing"), 5, "cosmetic: refused: suffixes too long"),
    (page("--page", "missing", "long"), 5, "cosmetic: refused: list 1 too long"),
    (page("--page", "deep", "--script", "missing", "L"), 5, "cosmetic: refused: page deeper than 512"),
    (page("--page", "not-utf8", "missing"), 3, UNREAD),
]

# Words, and what is printed.
DONE = [
    (page("--page", "P", "empty"), f"page {ADDRESS}\nactive 0\nstep 0 opened\nhidden 0\nend 0\n"),
    (
        page("--page", "P", "--script", "S", "--suffixes", "R", "L"),
        f"page {ADDRESS}\nactive 1\nfilter 1:1 p\nstep 0 opened\nhidden 1\n 1 p 1:1\nstep 1 ok\nhidden 1\n 1 p 1:1\nend 1\n",
    ),
    (
        ["apply", f"--url={ADDRESS}", "--page=P", "--brief", "--", "L"],
        f"page {ADDRESS}\nactive 1\nstep 0 opened\nhidden 1\nend 0\n",
    ),
    (page("--page", "deepest", "--brief", "L"), f"page {ADDRESS}\nactive 1\nstep 0 opened\nhidden 0\nend 0\n"),
    (page("--page", "most", "--brief", "empty"), f"page {ADDRESS}\nactive 0\nstep 0 opened\nhidden 0\nend 0\n"),
    (["lists", "half", "half"], "read 0 filters 0 exceptions 0 options\n"),
    (["drill", "4"], "drill 4 nodes 18 steps 4 hidden 2 taken 1\n"),
    (["drill", "--brief", "200"], "drill 200 hidden 173\n"),
]

# Parts of so many nodes come and go, one after another; their slots are used again, so that a hundred times as many of them take no
# more memory than their script does.
PART = 100
FEW, MANY = 50, 5_000
FURTHER_KILOBYTES = 8_192

EXAMPLE = [
    "apply", "--url", "https://www.harbour-times.example/today", "--page", "page.html", "--script", "script.txt",
    "--suffixes", "suffixes.txt", "list.txt",
]


def coming_and_going(count):
    """A script in which parts are put into the first element and taken out again."""
    html = "<i>" + "<b></b>" * (PART - 1) + "</i>"
    return "".join(f"insert 1 0 {html}\ndelete {3 + PART * number}\n" for number in range(count))


def peak_kilobytes(words, folder):
    """The most memory that a run takes, and its status."""
    with open(os.devnull, "wb") as nothing, subprocess.Popen(words, cwd=folder, stdout=nothing, stderr=nothing) as ran:
        _, status, usage = os.wait4(ran.pid, 0)
        ran.returncode = os.waitstatus_to_exitcode(status)
    return usage.ru_maxrss, ran.returncode


def told(words):
    """The words as they are told, cut where they are long."""
    return " ".join(word if len(word) < 60 else f"{word[:56]}.." for word in words)


def main():
    program = os.path.abspath(sys.argv[1] if len(sys.argv) > 1 else f"{TOP}/crates/cosmetic_top/out/cosmetic_top")
    passed = failed = 0

    def compare(words, folder, wanted, out=subprocess.PIPE):
        nonlocal passed, failed
        ran = subprocess.run([program, *words], cwd=folder, stdout=out, stderr=subprocess.PIPE, timeout=120, check=False)
        got = ran.returncode, ran.stderr.decode(), (ran.stdout or b"").decode()
        if got == wanted:
            passed += 1
        else:
            failed += 1
            print(f"FAILED: {told(words)}\n  wanted {wanted!r:.300}\n  got    {got!r:.300}")

    with tempfile.TemporaryDirectory() as folder:
        for name, data in FILES.items():
            with open(f"{folder}/{name}", "wb") as file:
                file.write(data)
        for words, status, text in ENDS:
            compare(words, folder, (status, f"{text}\n", ""))
        for words, output in DONE:
            compare(words, folder, (0, "", output))
        for words, _ in DONE:
            with open("/dev/full", "wb") as full:
                compare(words, folder, (4, f"{UNWRITTEN}\n", ""), full)
        peaks = []
        for name, count in (("few-parts", FEW), ("many-parts", MANY)):
            with open(f"{folder}/{name}", "w", encoding="utf-8") as file:
                file.write(coming_and_going(count))
            peaks.append(peak_kilobytes([program, *page("--page", "P", "--script", name, "--brief", "L")], folder))
        if peaks[1][0] <= peaks[0][0] + FURTHER_KILOBYTES and peaks[0][1] == peaks[1][1] == 0:
            passed += 1
        else:
            failed += 1
            print(f"FAILED: the memory of parts that come and go, in kilobytes, and the statuses: {peaks}")
    with open(f"{TOP}/examples/output.txt", encoding="utf-8") as file:
        compare(EXAMPLE, f"{TOP}/examples", (0, "", file.read()))
    print(f"{passed} passed, {failed} failed")
    return 1 if failed else 0


if __name__ == "__main__":
    sys.exit(main())
