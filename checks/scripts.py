#!/usr/bin/env python3
"""Runs the built program over scripts of all changes and lists of all operators, made from a seed, and compares what it prints
after each line with a fresh run on the page as it then stands, which this file keeps and writes out anew. The last line counts
what passed; the status is 1 where something failed.

usage: checks/scripts.py [PROGRAM] [--scripts COUNT] [--seed NUMBER]
"""

import argparse
import os
import random
import subprocess
import sys
import tempfile

TOP = os.path.dirname(os.path.dirname(os.path.abspath(__file__)))
NAMES = ["b", "i", "u", "em", "div", "span", "section"]
CLASSES = ["x", "y", "z", "ad"]
TEXTS = ["more", "more 7", "promo", "an advert", "k", " "]
PATHS = ["/", "/shop", "/shop/ad", "/x"]
LINES = 12
FILTERS = 14

# What filters are made of: {c} and {d} are classes, {n} and {m} names, {k} a small number.
SIMPLE = [
    ".{c}", "{n}.{c}", "#r{k}", "{n}", "[title]", '[title^="{c}"]', '[title*="{c}" i]', "[class~={c}]", '[title$="{d}"]', "[title|={c}]",
    ":root", "{n}:first-child", ".{c}:last-child", "{n}:only-child", "{n}:nth-child(2n+1)", ".{c}:nth-last-child({k})",
    "{n}:nth-of-type({k})", "{n}:nth-last-of-type(1)", "{n}:first-of-type", "{n}:last-of-type", "{n}:only-of-type", "{n}:empty",
]
COMBINED = [
    "{a} {b}", "{a} > {b}", "{a} + {b}", "{a} ~ {b}", ".{c}:is({a}, {b} > {n})", "{n}:not({a})", "{n}:not({a} {b})", ":where({a}) {b}",
    "{n}:has({a})", "{n}:has(> {a})", "{n}:has(+ {a})", "{n}:has(~ {a}:not(.z {b}))", "{a}:has({n}:has({b}))",
    "{n}:has-text(more)", "{n}:has-text(/more \\d/)", "{a}:has-text(/^an? /i)", "{n}:min-text-length({k})",
    "{n}:matches-path(/^.shop/)", "{a}:matches-path(ad)", "{n}:matches-attr(title=/^{c}/)", "{n}:matches-attr(class)",
    "{a}:upward({k})", "{a}:upward({b})", "{a}:watch-attr(class)", "{a}:others()", "{a}:not(:has({b}))", "{a}:has-text(k) > {b}",
    "{a}:upward(1):not({b})",
]
REMOVED = [".ad", ".ad > .x", "u:has(> .ad)", "i.z:has-text(more)", "em:empty.y"]


class Node:
    """A node of the page: an element has a name, a text none."""

    def __init__(self, name=None, attrs=None, text=""):
        self.number, self.name, self.attrs, self.text = 0, name, attrs or {}, text
        self.parent, self.children = None, []

    def put(self, place, node):
        node.parent = self
        self.children.insert(place, node)

    def cut(self):
        self.parent.children.remove(self)
        self.parent = None

    def below(self):
        """The nodes below this one, in document order."""
        for child in self.children:
            yield child
            yield from child.below()

    def inner(self):
        """The text that is read as the nodes below. A comment keeps two texts apart."""
        parts = []
        for index, child in enumerate(self.children):
            if child.name is None:
                apart = index and self.children[index - 1].name is None
                parts.append(("<!---->" if apart else "") + child.text)
            else:
                attrs = "".join(f' {name}="{value}"' for name, value in child.attrs.items())
                parts.append(f"<{child.name}{attrs}>{child.inner()}</{child.name}>")
        return "".join(parts)


class Page:
    """The page as it stands, with the numbers that the program gives its nodes."""

    def __init__(self, made):
        self.made, self.document, self.next, self.path = made, Node("document"), 1, "/"
        self.fill(self.document, 5)
        self.number(self.document)

    def some_attrs(self):
        attrs = {}
        if self.made.random() < 0.7:
            attrs["class"] = " ".join(self.made.sample(CLASSES, self.made.randint(1, 2)))
        if self.made.random() < 0.3:
            attrs["title"] = self.made.choice(CLASSES) + self.made.choice(["", "-", " "]) + self.made.choice(CLASSES)
        if self.made.random() < 0.2:
            attrs["id"] = f"r{self.made.randint(1, 3)}"
        return attrs

    def fill(self, parent, depth):
        for _ in range(self.made.randint(0, 3) if depth < 5 else 4):
            texts = parent.children and parent.children[-1].name is None
            if not texts and self.made.random() < 0.3:
                parent.put(len(parent.children), Node(text=self.made.choice(TEXTS)))
            elif depth:
                child = Node(self.made.choice(NAMES), self.some_attrs())
                parent.put(len(parent.children), child)
                self.fill(child, depth - 1)

    def number(self, top):
        for node in top.below():
            node.number, self.next = self.next, self.next + 1

    def find(self, number):
        return next((node for node in self.document.below() if node.number == number), None)

    def mutation(self):
        """A line of a script, and what makes its change here."""
        nodes = list(self.document.below())
        elements = [node for node in nodes if node.name is not None]
        texts = [node for node in nodes if node.name is None]
        kind = self.made.choice(["attr", "attr", "unset", "text", "insert", "insert", "delete", "move", "move", "path"])
        if kind == "path":
            path = self.made.choice(PATHS)
            return f"path {path}", lambda: setattr(self, "path", path)
        if kind == "text" and texts:
            node, text = self.made.choice(texts), self.made.choice(TEXTS)
            return f"text {node.number} {text}", lambda: setattr(node, "text", text)
        if kind == "insert" or not elements:
            parent = self.made.choice([self.document, *elements])
            place, part = self.made.randint(0, len(parent.children)), Node("part")
            self.fill(part, 2)
            if not part.children:
                part.put(0, Node("b", self.some_attrs()))
            return f"insert {parent.number} {place} {part.inner()}", lambda: self.insert(parent, place, part)
        if kind == "delete":
            node = self.made.choice(nodes)
            return f"delete {node.number}", node.cut
        if kind == "move":
            node, parent = self.made.choice(nodes), self.made.choice([self.document, *elements])
            others = [child for child in parent.children if child is not node]
            place = self.made.randint(0, len(others))
            return f"move {node.number} {parent.number} {place}", lambda: (node.cut(), parent.put(place, node))
        node = self.made.choice(elements)
        if kind == "unset" and node.attrs:
            name = self.made.choice(list(node.attrs))
            return f"unset {node.number} {name}", lambda: node.attrs.pop(name)
        name, value = self.made.choice([("class", self.made.choice(CLASSES)), ("title", "x-y"), ("id", "r1"), ("class", "X y")])
        return f"attr {node.number} {name} {value}", lambda: node.attrs.__setitem__(name, value)

    def insert(self, parent, place, part):
        self.number(part)
        for node in reversed(list(part.children)):
            parent.put(place, node)


def filters(made):
    """The lines of a list."""

    def simple():
        return made.choice(SIMPLE).format(**words())

    def words():
        return {"c": made.choice(CLASSES), "d": made.choice(CLASSES), "n": made.choice(NAMES), "k": made.randint(1, 3)}

    lines = [f"##{made.choice(COMBINED).format(a=simple(), b=simple(), **words())}" for _ in range(FILTERS - 4)]
    lines += [f"##{simple()}" for _ in range(2)]
    return lines + [f"##{selector}:remove()" for selector in made.sample(REMOVED, 2)]


def steps_of(output):
    """Of each step its answer, the numbers of the elements taken, and the rows of the hidden ones."""
    steps = []
    for line in output.splitlines():
        words = line.split(" ")
        if words[0] == "step":
            steps.append((" ".join(words[2:]), [], []))
        elif words[0] == "taken":
            steps[-1][1].append(int(words[2]))
        elif words[0] == "":
            steps[-1][2].append((int(words[1]), words[2:]))
        elif words[0] == "note":
            raise ValueError(line)
    return steps


class Runs:
    """Runs of the program over files of a folder."""

    def __init__(self, program, folder):
        self.program, self.folder = program, folder

    def steps(self, lines, page, path, script=None):
        files = {"list": lines, "page": page} | ({} if script is None else {"script": script})
        for name, text in files.items():
            with open(f"{self.folder}/{name}", "w", encoding="utf-8") as file:
                file.write(text)
        words = ["apply", "--url", f"https://example.com{path}", "--page", "page"]
        words += [] if script is None else ["--script", "script"]
        ran = subprocess.run([self.program, *words, "list"], cwd=self.folder, capture_output=True, timeout=60, check=True)
        return steps_of(ran.stdout.decode())


def compare(runs, made):
    """Follows one script, and answers how many lines changed the page."""
    page = Page(made)
    lines, source, script, changed = "\n".join(filters(made)), page.document.inner(), [], 0
    for number in range(LINES + 1):
        line, change = page.mutation() if number else (None, None)
        script += [line] if number else []
        answer, taken, rows = runs.steps(lines, source, "/", "\n".join(script))[number]
        if answer == "ok":
            change()
            changed += 1
        for node in taken:
            page.find(node).cut()
        _, again, fresh = runs.steps(lines, page.document.inner(), page.path)[0]
        kept = in_order(rows, [node.number for node in page.document.below() if node.name is not None])
        wanted = in_order(fresh, fresh_numbers(page.document))
        if again or kept != wanted:
            raise ValueError(f"step {number} {line}\n  kept  {kept}\n  fresh {wanted}, taken {again}")
    return changed


def in_order(rows, numbers):
    """The rows with the places of their elements in document order, by the numbers of all elements."""
    places = {number: place for place, number in enumerate(numbers)}
    return [(places[number], words) for number, words in rows]


def fresh_numbers(document):
    """The numbers that a fresh reading gives the elements. The comment between two texts is a node."""
    numbers, given = [], 0

    def walk(node):
        nonlocal given
        for index, child in enumerate(node.children):
            if child.name is None:
                given += 1 + bool(index and node.children[index - 1].name is None)
            else:
                given += 1
                numbers.append(given)
                walk(child)

    walk(document)
    return numbers


def main():
    words = argparse.ArgumentParser(description=__doc__, formatter_class=argparse.RawDescriptionHelpFormatter)
    words.add_argument("program", nargs="?", default=f"{TOP}/crates/cosmetic_top/out/cosmetic_top")
    words.add_argument("--scripts", type=int, default=300)
    words.add_argument("--seed", type=int, default=1)
    said = words.parse_args()
    passed = failed = changed = 0
    with tempfile.TemporaryDirectory() as folder:
        runs = Runs(os.path.abspath(said.program), folder)
        for seed in range(said.seed, said.seed + said.scripts):
            try:
                changed += compare(runs, random.Random(seed))
                passed += 1
            except (ValueError, subprocess.SubprocessError) as error:
                failed += 1
                print(f"FAILED: seed {seed}: {error}")
    print(f"{changed} changes; {passed} passed, {failed} failed")
    return 1 if failed else 0


if __name__ == "__main__":
    sys.exit(main())
