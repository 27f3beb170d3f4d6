#!/usr/bin/env python3
"""Times the built program, and prints the time and the peak memory of each run as a table.

  bench/bench.py [--program PATH]

It makes its own input in a temporary folder.

- Pages: a flat one, whose elements are all siblings, and a nested one. The time should grow as the page does.
- HTML documents that Debian's documentation packages ship, where they are installed (python3-doc, sqlite3-doc, nodejs-doc
  and others), the largest first, without filters: reading them should reach 40 MB a second, with less than 25 bytes of memory
  for each byte. What this process holds, some 26 MB, is the least that is shown as the peak of a run.
- A million small elements, each with an attribute: what a node takes at the peak.
- Hostile pages, each in two sizes: the larger one should take at most about twice as long.
- A list of selectors over a page of one element: how many lines are read in a second, their patterns and the text that is
  written for each of them included.
- A whole list in the shape of real ones, 170,000 lines of which 31,000 are cosmetic: `lists` should read 20 MB of it a second, with
  at most 6 bytes of memory for each byte.
- The class and id lines of a real list, where Debian's webext-ublock-origin-firefox is installed, else lines made in that shape,
  on a nested page: what one test costs.
- 200 filters of each operator on a nested page: what one test costs, by operator.
- Lists and pages of bad input: each run has to end with status 0.
- A script of changes: its time should grow as the number of its lines does, and its peak memory should not; pairs of an insert
  and a delete keep it flat.
- 10,000 rules of public suffixes, and what finding the active filters of a page takes beside reading the lists.
- What changes cost: on a list that nothing observes, with ten times the filters or the page, on a page of 800,000 nodes, and in
  the worst cases; what the engine holds for an element and for a filter."""

import argparse
import os
import random
import re
import subprocess
import sys
import tempfile
import time
from pathlib import Path

TOP = Path(__file__).resolve().parent.parent

# The largest documents that are read, and how many.
DOCUMENT_BYTES = 10_000_000
DOCUMENTS = 8


# Pages that are made to be slow, by name: what comes first, and what fills them up to a size.
HOSTILE = {
    "a comment that isn't closed": ("<!--", "a -"),
    "a script that isn't closed": ("<script>", "a</b</scrip"),
    "`<`": ("", "<"),
    "`</`": ("", "</"),
    "`<!`": ("", "<!"),
    "`&`": ("", "&"),
    "references": ("", "&amp;"),
    "a number that doesn't end": ("&#", "1"),
    "end tags of no element": ("<b>" * 500, "</i>"),
    "a tag that isn't closed": ("<b ", "a "),
    "a value that isn't closed": ("<b a='", "a>"),
    "one attribute again and again": ("<b ", "a=1 ", ">"),
    "one word": ("", "a"),
}


# A hundred selectors in the shape of those in real lists: most are one class or id, and few have operators. Each gets the
# number of its line.
SELECTORS = (
    [".ad-{}", ".banner_{}", "#ad{}", "#google_ads_{}", ".sponsor-{}-top", ".post.is-ad-{}", "#AdBox{}"] * 10
    + [".page-{} > .ad", "div.box-{} .promo", "#main-{} > div > .sponsored", ".top-{} + .ad, .top-{} ~ .more"] * 3
    + ['div[class^="ad-{}"]', 'a[href*="/track/{}?"]', '[id^="div-gpt-ad-{}"]', 'iframe[src$="{}.html" i]'] * 3
    + [
        ".card-{}:has(> .ad)",
        "article.post-{}:has-text(/sponsored|promoted/i)",
        ".row-{}:has-text(/^Ad {}$/)",
        ".label-{}:upward(2)",
        ".item-{}:not(.kept):nth-child(2n+1)",
        ".feed-{} > div:has(.ad):not(:has(video))",
    ]
)


# Words that hosts and addresses of lists are made of.
WORDS = ("ads", "banner", "track", "media", "static", "cdn", "click", "promo", "metrics", "pixel", "affiliate", "content")


# Filters of each operator, by the number of the filter. Most of them select nothing or little of the nested page.
OPERATORS = {
    ".class": lambda i: f".c{i}",
    "#id": lambda i: f"#s{i * 100}",
    "tag": lambda i: f"x{i}",
    "[attr^=v]": lambda i: f'[id^="x{i}"]',
    "[class~=v i]": lambda i: f'[class~="C{i}" i]',
    ":nth-child(an+b)": lambda i: f"a:nth-child({i + 2}n+2)",
    ":nth-last-of-type": lambda i: f".row:nth-last-of-type({i + 1})",
    ":only-child": lambda i: f".c{i}:only-child",
    ":empty": lambda i: f".c{i}:empty",
    "a > b": lambda i: f".c{i} > span",
    "a b": lambda i: f".x{i} a",
    "a ~ b": lambda i: f".c{i} ~ .none",
    ":is()": lambda i: f":is(.x{i}, .y{i} a)",
    ":not()": lambda i: f".c{i}:not(:first-child)",
    ":has(> a)": lambda i: f"div:has(> .x{i})",
    ":has(a)": lambda i: f".row:has(.x{i})",
    ":has-text(literal)": lambda i: f"span:has-text(word{i})",
    ":has-text(pattern)": lambda i: f"span:has-text(/word{i} [a-z]+/)",
    ":min-text-length": lambda i: f"span:min-text-length({i + 20})",
    ":matches-path(pattern)": lambda i: f"span:matches-path(/^.x{i}/)",
    ":matches-attr(pattern)": lambda i: f"a:matches-attr(id=/^x{i}/)",
    ":watch-attr": lambda i: f".c{i}:watch-attr(class)",
    ":upward(n)": lambda i: f".x{i}:upward(2)",
    ":upward(selector)": lambda i: f".x{i}:upward(.row)",
}


def flat_page(nodes):
    """Rows of an element with a text, all children of the document."""
    for i in range(nodes // 2):
        yield f'<div class="row c{i % 97}" id="r{i}">text {i} of the page</div>'


def nested_page(nodes):
    """Blocks of five nodes, a hundred of them in each section."""
    for i in range(nodes // 5):
        if i % 100 == 0:
            yield ("</div>" if i else "") + f'<div class="section" id="s{i}">'
        yield f'<div class="row c{i % 97}"><a class="link" id="a{i}">text {i}</a><span>more text {i} here</span></div>'
    yield "</div>"


def filters(count):
    """Half classes and half ids; some of them select something."""
    lines = [f"##.c{i}" for i in range(count // 2)] + [f"###r{i * 1000}" for i in range(count - count // 2)]
    return "\n".join(lines) + "\n"


def selectors(count):
    """Lines of a list, each with a selector of its own."""
    for i in range(count):
        yield "##" + SELECTORS[i * 37 % len(SELECTORS)].replace("{}", str(i)) + "\n"


def script(lines, nodes):
    """Classes that come and go, all over the page."""
    for i in range(lines):
        yield f"attr {1 + 2 * (i * 7919 % (nodes // 2))} class row c{i % 97}\n"


def write(file, parts):
    """Writes a file part by part: what this process holds would count as the peak of the runs that it starts."""
    with file.open("w") as target:
        target.writelines(parts)


def report(name, *words):
    """The words of a report of the page, with this list."""
    return ["apply", "--url", "https://example.com/", "--page", "page", *words, name]


def run(program, folder, words):
    """Seconds, peak memory in bytes, status and length of the output of one run."""
    output = Path(folder, "output")
    with open(output, "wb") as target:
        began = time.perf_counter()
        process = subprocess.Popen([program, *words], cwd=folder, stdout=target, stdin=subprocess.DEVNULL)
        _, status, usage = os.wait4(process.pid, 0)
        seconds = time.perf_counter() - began
    process.returncode = os.waitstatus_to_exitcode(status)
    return seconds, usage.ru_maxrss * 1024, process.returncode, output.stat().st_size


def measure(program, folder, name, words, sized="page"):
    """Runs the program, prints a line of the table with the size of one file, and answers its seconds; none where the run
    failed."""
    size = Path(folder, sized).stat().st_size
    seconds, peak, status, output = run(program, folder, words)
    failure = "" if status == 0 else f"  status {status}"
    print(f"{name:<38}{size:>12,}{seconds:>9.2f}{peak / 1e6:>9.0f}{peak / size:>10.1f}{output:>12,}{failure}")
    return seconds if status == 0 else None


def compare(name, first, second):
    """Prints how many times as long the second run took; whether both ran."""
    if first is None or second is None:
        return False
    print(f"{name:<38}{second / first:>21.2f} times as long")
    return True


def pages(program, folder, name, make):
    """A page, and one two and a half times as large."""
    seconds = []
    for nodes in (200_000, 500_000):
        write(Path(folder, "page"), make(nodes))
        seconds.append(measure(program, folder, f"{name}, {nodes:,} nodes, 50 filters", report("list")))
    return compare(f"{name}, 500,000 for 200,000 nodes", *seconds)


def small_elements(program, folder):
    """As many nodes as there may be, each with an attribute: what a node takes at the peak."""
    write(Path(folder, "page"), ["<br class=ad>"] * 1_000_000)
    return measure(program, folder, "1,000,000 small elements", report("none")) is not None


def documents(program, folder):
    """The largest documents of the installed packages, without those that a page's size rules out."""
    found = [(file.stat().st_size, file) for file in Path("/usr/share/doc").rglob("*.html") if file.is_file()]
    if not found:
        print("no HTML documents of Debian's packages are installed")
    ran = True
    for size, file in sorted(found, reverse=True)[:DOCUMENTS]:
        if size <= DOCUMENT_BYTES:
            Path(folder, "page").write_bytes(file.read_bytes())
            seconds = measure(program, folder, "/".join(file.parts[-3:])[-38:], report("none"))
            ran = ran and seconds is not None
            if seconds:
                print(f"{'':<38}{size / 1e6 / seconds:>21.1f} MB a second")
    return ran


def hostile_page(name, size):
    first, fill, *last = HOSTILE[name]
    yield first
    for _ in range(size // len(fill) // 1000):
        yield fill * 1000
    yield from last


def attributes_page(size):
    """One tag with as many attributes, each of a name of its own."""
    yield "<b"
    for i in range(size // 9):
        yield f" a{i:07}"
    yield ">"


def unordered_attributes_page(size):
    """The same, whose names are in no order."""
    names = random.Random(1)
    yield "<b"
    for _ in range(size // 8):
        yield " " + "".join(names.choices("abcdefghijklmnopqrstuvwxyz", k=7))
    yield ">"


def end_tags_page(length, size):
    """Five hundred open elements, each of a name of its own of this length, and end tags of another name as long."""
    first = "".join(f"<{'b' * (length - 3)}{i:03}>" for i in range(500))
    fill = f"</{'b' * (length - 3)}999>"
    yield first
    for _ in range((size - len(first)) // len(fill)):
        yield fill


def hostile(program, folder):
    """Each hostile page, and one twice as large."""
    makers = {name: lambda size, name=name: hostile_page(name, size) for name in HOSTILE}
    makers["attributes of a tag"] = attributes_page
    makers["attributes in no order"] = unordered_attributes_page
    for length in (8, 3000):
        makers[f"end tags of {length:,} bytes"] = lambda size, length=length: end_tags_page(length, size)
    ran = True
    for name, make in makers.items():
        seconds = []
        for size in (8_000_000, 16_000_000):
            write(Path(folder, "page"), make(size))
            seconds.append(measure(program, folder, name, report("list")))
        ran = compare("  twice as large", *seconds) and ran
    return ran


def selector_lists(program, folder, count):
    """A list of selectors, and how many lines are read in a second: the time of a run with an empty list doesn't count."""
    write(Path(folder, "list"), selectors(count))
    write(Path(folder, "page"), ["<p>"])
    without, *_ = run(program, folder, report("none"))
    seconds = measure(program, folder, f"{count:,} lines of selectors", report("list"), "list")
    if seconds is None:
        return False
    print(f"{'':<38}{count / max(seconds - without, 0.001):>21,.0f} lines a second")
    return True


def host(i):
    """One of some 40,000 hosts."""
    return f"{WORDS[i % 61 % len(WORDS)]}.site-{i * 7919 % 40_000}.{('com', 'net', 'org', 'example', 'co.uk')[i % 5]}"


def cosmetic_line(i):
    """Most are generic, or have one host; some have several, and few are exceptions or scriptlets."""
    selector = SELECTORS[i * 37 % len(SELECTORS)].replace("{}", str(i))
    kind = i % 20
    if kind < 9:
        return f"##{selector}"
    if kind < 15:
        return f"{host(i)}##{selector}"
    if kind < 17:
        return f"{host(i)},{host(i + 1)},~www.{host(i)}##{selector}"
    return (f"{host(i)}#@#{selector}", f"{host(i)}##+js(set, ads.on{i}, false)", f"{WORDS[i % len(WORDS)]}.*##{selector}")[kind - 17]


def network_line(i):
    """Most block a host; a hundredth are comments, directives and page options."""
    kind = i % 100
    if kind < 60:
        return f"||{host(i)}^"
    if kind < 80:
        return f"||{host(i)}^$third-party,script"
    if kind < 97:
        return f"/{WORDS[i % len(WORDS)]}/{i}/ads.$domain={host(i)}"
    return (f"! Section {i}", f"@@||{host(i)}^$generichide", f"!#if env_mobile\n||{host(i)}^$image\n!#endif")[kind - 97]


def whole_list(lines):
    """As many lines in the shape of a real list, of which 31 in 170 are cosmetic."""
    yield "[Adblock Plus 2.0]\n"
    for i in range(lines):
        yield (cosmetic_line(i) if i % 170 < 31 else network_line(i)) + "\n"


def whole_lists(program, folder):
    """A whole list, and one twice as long."""
    seconds = []
    for count in (170_000, 340_000):
        write(Path(folder, "list"), whole_list(count))
        seconds.append(measure(program, folder, f"{count:,} lines of a whole list", ["lists", "list"], "list"))
        if seconds[-1]:
            print(f"{'':<38}{Path(folder, 'list').stat().st_size / 1e6 / seconds[-1]:>21.1f} MB a second")
    return compare("  twice as long", *seconds)


def list_lines():
    """The class and id lines of a real list, if one is installed."""
    for file in Path("/usr/share").glob("*/extensions/*/*/assets/thirdparties/easylist/easylist.txt"):
        lines = file.read_text().split("\n")
        return [line for line in lines if re.fullmatch(r"##[.#][A-Za-z][A-Za-z0-9_-]*", line)]
    return [f"##.ad-{i}" if i % 3 else f"###ad_{i}" for i in range(13_000)]


def cost(program, folder, name, lines, elements):
    """A list on the page that stands there: prints what one test of a filter on an element costs."""
    write(Path(folder, "list"), [line + "\n" for line in lines])
    without, *_ = run(program, folder, report("none"))
    seconds = measure(program, folder, name, report("list"))
    if seconds is None:
        return False
    print(f"{'':<38}{(seconds - without) / (len(lines) * elements) * 1e9:>21,.0f} ns a test")
    return True


def costs(program, folder):
    """Real lines on two pages, and 200 filters of each operator on the smaller one."""
    real = list_lines()
    ran = True
    for nodes, lines in ((100_000, real[:2_000]), (10_000, real)):
        page = "".join(nested_page(nodes))
        write(Path(folder, "page"), [page])
        elements = len(re.findall("<[a-z]", page))
        ran = cost(program, folder, f"{len(lines):,} real lines, {nodes:,} nodes", lines, elements) and ran
    for name, make in OPERATORS.items():
        lines = [f"##{make(i)}" for i in range(200)]
        ran = cost(program, folder, f"200 of `{name}`, 10,000 nodes", lines, elements) and ran
    lines = [f"##.c{i}:others()" for i in range(200)]
    return cost(program, folder, "200 of `:others()`, 10,000 nodes", lines, elements) and ran


def bad_input(program, folder):
    """Lists and pages that are made to be slow."""
    write(Path(folder, "page"), ["<p>"])
    write(Path(folder, "list"), ("##..\n" for _ in range(3_300_000)))
    ran = [measure(program, folder, "16 MB of malformed lines", report("list"), "list")]
    write(Path(folder, "list"), ["##p:has-text(/b+c$/)\n"])
    write(Path(folder, "page"), ["<p>", *("ab " * 1000 for _ in range(5_500))])
    ran.append(measure(program, folder, "a text of 16 MB under a pattern", report("list")))
    write(Path(folder, "list"), [f"##{name * 16}.b{')' * 16}\n" for name in (":is(", ":not(", ":has(> ", ":has(")])
    write(Path(folder, "page"), ["<b class=a>" * 510])
    ran.append(measure(program, folder, "16 levels on a page 510 deep", report("list")))
    write(Path(folder, "list"), [f"##{'.a:has(' * 16}.b{')' * 16}\n", f"##.a:has(.a{' .a' * 14} .b)\n", f"##.b{' .a' * 26}\n"])
    ran.append(measure(program, folder, "  with a class beside each level", report("list")))
    write(Path(folder, "list"), [f"##{'.a:has(:is(' * 8}.b{'))' * 8}\n", f"##{':not(:has(:is(' * 5}.b{')))' * 5}\n"])
    write(Path(folder, "page"), ["<b class=a>" * 100])
    ran.append(measure(program, folder, "`:has()` with others between, 100 deep", report("list")))
    write(Path(folder, "list"), [f"##b{'+b' * 32_700}:last-child\n"])
    write(Path(folder, "page"), ["<i>", *["<b></b>"] * 33_000, "</i>"])
    ran.append(measure(program, folder, "32,700 steps on 33,000 siblings", report("list")))
    write(Path(folder, "list"), ["##.b ~ .a ~ .a\n"])
    write(Path(folder, "page"), ["<b class=a></b>" * 5_000])
    ran.append(measure(program, folder, "`a ~ b ~ b` on 5,000 siblings", report("list")))
    write(Path(folder, "list"), ["##.a:has(~ .a ~ .a ~ .b)\n", "##.a:has(+ .a ~ .a + .a ~ .a ~ .b)\n"])
    write(Path(folder, "page"), ["<b class=a></b>" * 5_000])
    ran.append(measure(program, folder, "`:has()` with many `~`, 5,000 siblings", report("list")))
    write(Path(folder, "list"), ["##*:has-text(zzz)\n", "##*:min-text-length(4000000000)\n"])
    write(Path(folder, "page"), ["<b>" * 500, *("ab " * 1000 for _ in range(5_500))])
    ran.append(measure(program, folder, "a text of 16 MB under 500 elements", report("list")))
    write(Path(folder, "list"), ["##b:nth-last-of-type(3n)\n"])
    write(Path(folder, "page"), ["<b></b><i></i>" * 10_000])
    ran.append(measure(program, folder, "20,000 siblings counted from the last", report("list")))
    return all(seconds is not None for seconds in ran)


def scripts(program, folder, nodes):
    """A script, and one with four times as many lines."""
    seconds = []
    for lines in (500, 2_000):
        write(Path(folder, "script"), script(lines, nodes))
        name = f"{lines:,} lines, {nodes:,} nodes, 10 filters"
        seconds.append(measure(program, folder, name, report("list", "--script", "script")))
    return compare("2,000 for 500 lines", *seconds)


def suffixes(program, folder):
    """Rules of public suffixes, and the active filters of a page, beside reading the lists."""
    write(Path(folder, "rules"), (f"{WORDS[i % len(WORDS)]}{i}.com\n" for i in range(10_000)))
    write(Path(folder, "page"), ["<p>"])
    without, *_ = run(program, folder, report("none"))
    seconds = measure(program, folder, "10,000 rules of public suffixes", report("none", "--suffixes", "rules"), "rules")
    if seconds is None:
        return False
    print(f"{'':<38}{(seconds - without) * 1e3:>21,.1f} ms more than without")
    write(Path(folder, "list"), (cosmetic_line(i) + "\n" for i in range(30_000)))
    read = measure(program, folder, "30,000 cosmetic lines, read", ["lists", "list"], "list")
    active = measure(program, folder, "  and their active filters, asked", report("list", "--brief"), "list")
    return compare("  with the active filters", read, active)


def changes(program, folder, name, lines, size=1_000):
    """So many lines of a script over the page and the list that stand there, beside the same run without a script: what a line
    costs."""
    write(Path(folder, "script"), (line + "\n" for line in lines))
    without, *_ = run(program, folder, report("list", "--brief"))
    seconds = measure(program, folder, name, report("list", "--brief", "--script", "script"))
    if seconds is None:
        return None
    each = (seconds - without) / size * 1e6
    print(f"{'':<38}{each:>21,.1f} us a line")
    return max(each, 0.1)


def generic_list(count):
    """Generic lines of classes and ids in the shape of a real list's, which have few sets of sensors between them."""
    return (f"##.ad-{i}\n" if i % 3 else f"###ad_{i}\n" for i in range(count))


def one_class(count, every=2):
    """Lines that give elements of the flat page another class."""
    return (f"attr {1 + every * (i * 7919 % 5_000)} class row c{i % 97}" for i in range(count))


def memory(program, folder):
    """What the engine holds for an element that a filter selects, and for a filter, beside runs without."""
    def each(name, count, first, second):
        peaks = []
        for words in (first, second):
            _, peak, status, _ = run(program, folder, words)
            if status:
                return False
            peaks.append(peak)
        print(f"{name:<38}{(peaks[1] - peaks[0]) / count:>21,.0f} bytes")
        return True

    write(Path(folder, "none"), [])
    write(Path(folder, "page"), ["<br class=row>" * 900_000])
    write(Path(folder, "list"), ["##.other\n"])
    ran = each("an element, held by the engine", 900_000, report("none", "--brief"), report("list", "--brief"))
    write(Path(folder, "list"), ["##.row\n"])
    ran = each("an element that a filter selects", 900_000, report("none", "--brief"), report("list", "--brief")) and ran
    write(Path(folder, "page"), ["<p>"])
    write(Path(folder, "list"), generic_list(500_000))
    return each("a filter, beyond its list", 500_000, ["lists", "list"], report("list", "--brief")) and ran


def engine(program, folder):
    """What changes cost, beside the same on other lists and pages. `--brief` prints numbers alone."""
    classes = [f"##.c{i}\n" for i in range(2_000)]
    write(Path(folder, "page"), flat_page(20_000))
    write(Path(folder, "script"), (f"attr {2 * i + 1} title t{i}\n" for i in range(2_000)))
    write(Path(folder, "list"), classes)
    write(Path(folder, "none"), [])
    brief = ("--brief", "--script", "script")
    seconds = [measure(program, folder, "2,000 lines that nothing observes", report("none", *brief))]
    seconds.append(measure(program, folder, "  with 2,000 class filters", report("list", *brief)))
    ran = [compare("  filters for none", *seconds)]

    write(Path(folder, "list"), generic_list(13_922))
    read = [measure(program, folder, "13,922 generic lines, read", ["lists", "list"], "list")]
    read.append(measure(program, folder, "the page, read", report("none", "--brief")))
    first = measure(program, folder, "both, and the first report", report("list", "--brief"))
    ran.append(all(read) and compare("  first report for reading", sum(read), first))
    for name, line in (
        ("1,000 classes", lambda i: f"attr {2 * i + 1} class row c{i}"),
        ("1,000 texts", lambda i: f"text {2 * i + 2} other"),
        ("1,000 inserts", lambda i: f"insert {2 * i + 1} 0 <b class=c{i}></b>"),
        ("1,000 moves", lambda i: f"move {2 * i + 1} {2 * i + 3} 0"),
        ("1,000 deletes", lambda i: f"delete {2 * i + 1}"),
    ):
        ran.append(changes(program, folder, f"{name}, 13,922 filters", (line(i) for i in range(1_000))))

    each = []
    for count, nodes in ((1_392, 20_000), (13_922, 20_000), (13_922, 200_000)):
        write(Path(folder, "list"), generic_list(count))
        write(Path(folder, "page"), flat_page(nodes))
        each.append(changes(program, folder, f"1,000 classes, {count:,} filters, {nodes:,}", one_class(1_000)))
    ran += [compare("  ten times the filters", *each[:2]), compare("  ten times the page", *each[1:])]

    write(Path(folder, "page"), ["<br class=row>" * 800_000])
    ran.append(changes(program, folder, "1,000 classes, 800,000 nodes", one_class(1_000)))
    write(Path(folder, "page"), flat_page(20_000))
    pairs = (line for i in range(10_000) for line in ("insert 1 0 <b class=x></b>", f"delete {20_001 + i}"))
    ran.append(changes(program, folder, "10,000 inserts and deletes in turn", pairs, 20_000))
    ran.append(worst_cases(program, folder))
    ran.append(memory(program, folder))
    ran.append(measure(program, folder, "drill 2000", ["drill", "2000"]))
    return all(ran)


# The worst cases: a filter, and a page where one change makes much dirty.
WORST = {
    "`.a ~ .b`, 100,000 children": (".a ~ .b", lambda: ["<i></i>" * 100_000], lambda i: f"attr 1 class {'ab'[i % 2]}"),
    "`:has()` on the root": ("b:has(.a)", lambda: ["<b>", "<i></i>" * 100_000, "</b>"], lambda i: f"attr {i + 2} class {'ab'[i % 2]}"),
    "`:others()`": (".a:others()", lambda: ["<i></i>" * 10_000], lambda i: f"attr {i + 1} class {'ab'[i % 2]}"),
    "`:has-text()` high up": ("b:has-text(zz)", lambda: ["<b>", "<i>t</i>" * 100_000, "</b>"], lambda i: f"text {2 * i + 3} u{i}"),
    "`:nth-last-child()`": ("i:nth-last-child(3n)", lambda: ["<i></i>" * 10_000], lambda i: "insert 0 0 <i></i>"),
}


def worst_cases(program, folder):
    """Ten changes each."""
    ran = True
    for name, (selector, page, line) in WORST.items():
        write(Path(folder, "list"), [f"##{selector}\n"])
        write(Path(folder, "page"), page())
        ran = changes(program, folder, name, (line(i) for i in range(10)), 10) is not None and ran
    return ran


def main():
    parser = argparse.ArgumentParser(description=__doc__, formatter_class=argparse.RawDescriptionHelpFormatter)
    parser.add_argument("--program", default=str(TOP / "crates/cosmetic_top/out/cosmetic_top"))
    program = str(Path(parser.parse_args().program).resolve())
    print(f"{'input':<38}{'bytes':>12}{'seconds':>9}{'peak MB':>9}{'per byte':>10}{'output':>12}")
    with tempfile.TemporaryDirectory() as folder:
        Path(folder, "list").write_text(filters(50))
        ran = [pages(program, folder, "flat", flat_page), pages(program, folder, "nested", nested_page)]
        Path(folder, "none").write_text("")
        ran += [small_elements(program, folder), documents(program, folder), hostile(program, folder), selector_lists(program, folder, 30_000)]
        ran += [whole_lists(program, folder), suffixes(program, folder)]
        ran += [costs(program, folder), bad_input(program, folder)]
        Path(folder, "list").write_text(filters(10))
        write(Path(folder, "page"), flat_page(20_000))
        ran.append(scripts(program, folder, 20_000))
        ran.append(engine(program, folder))
    return 0 if all(ran) else 1


sys.exit(main())
