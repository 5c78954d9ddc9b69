#!/usr/bin/env python3
"""Lists the places of each point of the design pass in crates/*/src.

    python3 docs/history/places.py POINT [FOLDER]

A place is a line of the output; POINT is 1 to 8. The list is by text alone: what stands in it is read,
and docs/history/DESIGN-PASS.md says of each line whether it is such a place, and what became of it.
"""
import glob
import re
import sys
from collections import defaultdict

FOLDER = sys.argv[2] if len(sys.argv) > 2 else "."


def sources():
    for path in sorted(glob.glob(FOLDER + "/crates/*/src/**/*.rt", recursive=True)):
        yield path[len(FOLDER) + 8:], open(path).read()


def lines():
    for path, text in sources():
        for n, line in enumerate(text.split("\n"), 1):
            yield f"{path}:{n}", line


def grep(pattern, but=None):
    for at, line in lines():
        code = line.split("//")[0]
        if re.search(pattern, code) and not (but and re.search(but, code)):
            print(at, code.strip())


def block(text, start):
    """The text from an opening brace to its closing one."""
    depth = 0
    for i in range(start, len(text)):
        depth += {"{": 1, "}": -1}.get(text[i], 0)
        if depth == 0:
            return text[start:i + 1]
    return text[start:]


def functions():
    """Path, line, name, head and body of each function."""
    for path, text in sources():
        text = re.sub(r"//[^\n]*", "", text)
        for m in re.finditer(r"\bfn (\w+)", text):
            at, depth = m.end(), 0
            while at < len(text):
                line = text[text.rfind("\n", 0, at) + 1:at + 1].strip()
                if text[at] == ";" and depth == 0:
                    break
                if text[at] == "{" and depth == 0:
                    before = text[text.rfind("\n", 0, at) + 1:at].strip()
                    if not re.match(r"(requires|ensures|ghost)\b", before):
                        break
                    at += len(block(text, at))
                    continue
                at += 1
            head = text[m.start():at]
            body = block(text, at) if at < len(text) and text[at] == "{" else ""
            yield path, text.count("\n", 0, m.start()) + 1, m.group(1), head, body


WORD = r"[A-Za-z_]\w*|\d+|[^\sA-Za-z_0-9]"
KEEP = set("fn for in if else match let mut return self Self Ok Err Some None true false impl as ref".split())


def shape(code):
    return " ".join("x" if re.match(r"[A-Za-z_0-9]", t) and t not in KEEP else t for t in re.findall(WORD, code))


def twins():
    """Functions and types whose code is the same but for names and numbers."""
    groups = defaultdict(list)
    for path, line, name, head, body in functions():
        if "_tests/" in path and "#[test]" in head:
            continue
        s = shape(head.split("\n")[0] + body)
        if len(s.split()) >= 12 and body:
            groups[s].append(f"{path}:{line} fn {name}")
    for path, text in sources():
        text = re.sub(r"//[^\n]*", "", text)
        for m in re.finditer(r"\b(struct|enum) (\w+)[^{;(]*\{", text):
            s = m.group(1) + shape(block(text, m.end() - 1))
            line = text.count("\n", 0, m.start()) + 1
            groups[s].append(f"{path}:{line} {m.group(1)} {m.group(2)}")
    for group in groups.values():
        if len(group) > 1:
            print(len(group), "; ".join(group))


def repeated():
    """Clauses and pairs of parameters that stand in three functions or more."""
    facts, pairs = defaultdict(set), defaultdict(set)
    for path, line, name, head, body in functions():
        at = f"{path}:{line} {name}"
        for m in re.finditer(r"(requires|ensures)\s*\w*\s*\{", head):
            clause = block(head, m.end() - 1)[1:-1]
            for part in re.split(r"→", clause):
                part = re.sub(r"\s+", " ", part).strip()
                part = re.sub(r"\.(old|now|new|entry)\b", "", part)
                if len(part) > 8 and "result" not in part:
                    facts[part].add(at)
        sig = head.split("requires")[0].split("ensures")[0]
        args = sorted(set(re.findall(r"(\w+): ((?:&(?:mut )?)?[\w\[\]<>; ]+)", sig)))
        args = [f"{n}: {t.replace('mut ', '')}" for n, t in args if n != "T"]
        for i, a in enumerate(args):
            for b in args[i + 1:]:
                pairs[a, b].add(at)
    for fact, places in sorted(facts.items()):
        if len(places) > 2:
            print("fact", fact, "|", len(places), "|", "; ".join(sorted(places)))
    for pair, places in sorted(pairs.items()):
        if len(places) > 2:
            print("pair", ", ".join(pair), "|", len(places), "|", "; ".join(sorted(places)))


def answers():
    """Each answer in a file of answers, of every crate."""
    for path in sorted(glob.glob(FOLDER + "/crates/*/proofs/**/Answers.antt", recursive=True)):
        for n, line in enumerate(open(path).read().split("\n"), 1):
            m = re.match(r"(?:abbrev )?pub ([^ :]+) : goal", line)
            if m:
                print(f"{path[len(FOLDER) + 8:]}:{n} {m.group(1)}")


POINTS = {
    "1": lambda: grep(r"\benum \w+|\(\w+, bool\)|^\s*(pub )?\w+: bool,|\b(kind|op|number|code): u8\b|\bfn (number|of)\b|_ => \w+::Absent|\[T\].*-> bool|Refused\(u"),
    "2": twins,
    "3": lambda: grep(r"^\s*(for|while|loop)\b"),
    "4": lambda: grep(r"matches!|\bfn (of|raw|node\(self|entry\(self|number\(self|from|fmt)\b|\bfn (put|print)\w*|fn \w+\(heap.*String|\.(kind|a|from|label) == .*&&|&& \w+\.(label|role) =="),
    "5": repeated,
    "6": lambda: grep(r"Vec<\w+>[,)]|^\s*(pub(\(crate\))? )?\w+: \[\w+; ?\d+\],|out: &mut \[u8\], (at|len)|list: &mut \[T\], (\w+: usize|len)|at: Counts|counts: Counts|\.len\(\) \{ \w+\[\w+\] \} else|if \w+ < (\d+|\w+\.len\(\)).*\{"),
    "7": lambda: grep(r"match (op|\(op|effect|step|kind)\b|\btrait \w+|: fn\b|dyn |\bF: Fn"),
    "8": answers,
}

if __name__ == "__main__":
    POINTS[sys.argv[1]]()
