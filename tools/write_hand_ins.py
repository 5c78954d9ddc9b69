#!/usr/bin/env python3
"""Writes hand-ins that stand in a text as the files that ./mark reads.

    python3 tools/write_hand_ins.py TEXT FOLDER

Each hand-in goes into a folder of its name in FOLDER, with dashes for spaces. crates/hand_ins/data/README.md says how
such a text is written; examples/hand_ins.txt is one.
"""
import sys
from pathlib import Path

# the file that a record belongs to, and the sizes in bytes of its numbers
RECORDS = {
    "nodes": ("book", [1, 2, 2]),
    "entries": ("book", [1, 2, 2, 2]),
    "trailer": ("book", [2, 2, 4]),
    "steps": ("steps", [1, 2, 2]),
    "pairs": ("pairs", [4]),
}

# where a field stands in an interpretation, and its size
FIELDS = {
    "elements": lambda: (0, 1),
    "names": lambda i: (1 + 4 * i, 4),
    "roles": lambda role, x: (257 + 4 * (32 * role + x), 4),
    "individuals": lambda i: (2305 + i, 1),
}


def little(number, size):
    return int(number).to_bytes(size, "little")


def hand_ins(text):
    """The name of each hand-in of the text, its files, and the line that is expected."""
    files = {part: bytearray() for part in ("book", "steps", "model", "pairs")}
    last = "book"
    for line in text.splitlines():
        key, _, rest = line.partition(" ")
        if key in ("", "#"):
            continue
        if key in ("tableau", "model"):
            name, parts = rest, ["book", "steps"] if key == "tableau" else ["book", "model", "pairs"]
            for part in ("steps", "model", "pairs"):
                files[part] = bytearray()
        elif key == "expect":
            yield name, {part: bytes(files[part]) for part in parts}, rest
        elif key == "book":
            last, files["book"] = "book", bytearray()
        elif key in RECORDS or key == "bytes":
            last, sizes = RECORDS.get(key, (last, [1]))
            for item in rest.split(","):
                record, _, times = item.partition("x")
                numbers = zip(record.split(), sizes, strict=True)
                files[last] += b"".join(little(n, size) for n, size in numbers) * int(times or 1)
        elif key in FIELDS or key == "set":
            if key != "set":
                last = "model"
            if key == "elements":
                files["model"] = bytearray(2337)
            for item in rest.split(","):
                *where, n = [int(word) for word in item.split()]
                at, size = (where[0], 1) if key == "set" else FIELDS[key](*where)
                assert at + size <= len(files[last]), line
                files[last][at:at + size] = little(n, size)
        elif key == "cut":
            del files[last][int(rest):]
        else:
            sys.exit(f"no such line: {line}")


def main():
    text, folder = sys.argv[1:]
    for name, files, _ in hand_ins(Path(text).read_text()):
        place = Path(folder) / name.replace(" ", "-")
        place.mkdir(parents=True, exist_ok=True)
        for part, contents in files.items():
            (place / f"{part}.bin").write_bytes(contents)


if __name__ == "__main__":
    main()
