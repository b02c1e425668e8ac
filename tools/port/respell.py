#!/usr/bin/env python3
"""tools/port/respell.py: gives the repository's own definitions and lemmas the spelling of today's Rattle, words in snake case, by the table tools/port/names.json.

Run once, at the top, after the kit's port.py and before any edit by hand. Functions of src/, types, exported names, strings, inputs and outputs keep their names.
A name is replaced where it stands whole, in the code of .antt files and in the clauses and `ghost use` lines of .rt files; in a comment where it stands in backticks, or has a capital inside (but squareRoot, which is IEEE 754's own word)."""
import json
import pathlib
import re

HERE = pathlib.Path(__file__).resolve().parent
TABLE = json.loads((HERE / "names.json").read_text())
NAMES = TABLE["map"]
# a name behind a dot is a step of a proof, and goes by the function that is called
KEPT_AFTER_DOT = set(TABLE["keep_after_dot"])
TOKEN = re.compile(r"(?<![^\s(){}\[\],;.λ\"`:∀])([^\s(){}\[\],;.λ\"`:∀]+)")
# a constructor of specs/EveryCall.antt that has the name of a variant of src/, which keeps its own
CALLS = ("B23Pressure", "B23Temperature")
# two names that fall together in one file, told apart there
APART = {
    "crates/vessel/proofs/Numbers.antt": [
        ("Saturation.{saturationPressure, saturationTemperature}", "Saturation.{saturation_pressure as saturation_pressure_formula, saturation_temperature as saturation_temperature_formula}"),
        ("saturationPressure ", "saturation_pressure_formula "),
        ("saturationTemperature ", "saturation_temperature_formula "),
    ],
}


def code(text, path):
    def put(m):
        name = m.group(1)
        if name in CALLS and (path.name != "EveryCall.antt" or text[: m.start()].endswith("TheVariants.")):
            return name
        if name in KEPT_AFTER_DOT and m.start() > 0 and text[m.start() - 1] == ".":
            return name
        return NAMES.get(name, name)

    return TOKEN.sub(put, text)


def comment(text, path):
    text = re.sub(r"`[^`]*`", lambda m: code(m.group(0), path), text)
    return TOKEN.sub(lambda m: NAMES[m.group(1)] if m.group(1) in NAMES and m.group(1) not in (*CALLS, "squareRoot") and re.search("[a-z][A-Z]", m.group(1)) else m.group(1), text)


def antt(text, path):
    lines = []
    for line in text.split("\n"):
        at = re.search(r"(^|\s)--(\s|$)", line)
        cut = at.start() if at else len(line)
        lines.append(code(line[:cut], path) + comment(line[cut:], path))
    return "\n".join(lines)


def rt(text, path):
    lines = []
    clause = False
    for line in text.split("\n"):
        stripped = line.strip()
        if stripped.startswith("//"):
            lines.append(comment(line, path))
            continue
        clause = clause or bool(re.match(r"(ghost use|ghost |requires|ensures)\b", stripped))
        lines.append(code(line, path) if clause else line)
        if clause and (stripped.endswith("}") or stripped.endswith(";")) and line.count("{") <= line.count("}"):
            clause = False
    return "\n".join(lines)


def main():
    for path in sorted(pathlib.Path("crates").rglob("*")):
        if path.suffix not in (".rt", ".antt") or "out" in path.parts:
            continue
        text = path.read_text()
        new = text
        for old, put in APART.get(path.as_posix(), []):
            new = new.replace(old, put)
        new = antt(new, path) if path.suffix == ".antt" else rt(new, path)
        if new != text:
            path.write_text(new)


main()
