#!/usr/bin/env python3
"""Counts the places in crates/*/src that a design pass looks at, by patterns on single lines.

    python3 tools/places.py [--list] [FOLDER]

A line for each pattern: the point, what the pattern looks for, how many lines of src/ it finds; with --list each place too.
A pattern finds lines to look at: what stands for a reason stays found, and its reason stands beside it.
"""
import re
import sys
from pathlib import Path

PATTERNS = [
    ("1", "a refusal or a kind as a number", r"fn \w*number\w*\(self\) -> u8|number: u8\b|Refused\(u8\)"),
    ("1", "a result in a result", r"Result<Result<|Ok\(Ok\(|Ok\(Err\("),
    ("1", "flags in fields", r"^\s+(pub )?\w+: (\[bool; \d+\]|bool),$"),
    ("1", "a value that stands for none", r"= \(0, 0, 0\)|_ => 0,$|None => 0,$|None => \(0, 0, 0\)"),
    ("3", "an index counted by a range", r"for \w+ in \(?[\w.()]+\)?\.\.(?!=255)"),
    ("3", "a while loop", r"\bwhile "),
    ("3", "eight places written out", r"\b(at|wants::<N>|at_or)\([^()]*\b[0-7]\),$"),
    ("4", "a conversion by as", r"\bas (u8|u16|u32|u64|usize)\b"),
    ("4", "a result passed on by hand", r"Ok\((\w+)\) => Ok\(\1\)|Err\((\w+)\) => Err\(\2\)|Err\(_\) => Err\("),
    ("4", "a comparison through a number", r"\.(number|index)\(\) (==|!=)"),
    ("4", "a text made or read by a function", r"fn \w*(_text|_words|_meaning|_line|_name|reason)\(|fn \w+_of\(word: &str\)|fn \w+_in\(word: &str\)"),
    ("4", "a conversion function between types", r"fn (fault_of|number_of|one_if|of_byte|of_stamp|of_shown|code_of|done_from|version_from|done_reply|version_reply)\("),
    ("5", "the three members of a rule together", r"rule_of N\.Naming"),
    ("5", "the bytes of a text that was made", r"IfOk result \(λ s\. string_bytes s ≡"),
    ("5", "a place within eight", r"place < 8 →|result ≤ 8|≤ 8 \}"),
    ("5", "calls with their answers as parameters", r"calls: &\[Call\], answers: &\[Answer\]|^\s+answers: &\[Answer\],$"),
    ("6", "a length beside a buffer", r"^\s+(count|length|end): (u8|usize),$|\], usize\)"),
    ("6", "arrays side by side in fields", r"^\s+(pub )?\w+: \[+(u8|u64|bool|\(u32, u64, u64\))(; \d+\])+,$|^\s+(pub )?\w+: Vec<(u8|u64|usize|Call)>,$"),
    ("7", "a switch on what to run", r"match (layout|rules|mode)\b"),
]


def main():
    args = [a for a in sys.argv[1:] if a != "--list"]
    top = Path(args[0] if args else ".")
    files = sorted(top.glob("crates/*/src/**/*.rt"))
    for point, what, pattern in PATTERNS:
        found = []
        for f in files:
            for number, line in enumerate(f.read_text().split("\n"), 1):
                if not line.lstrip().startswith("//") and re.search(pattern, line):
                    found.append((f.relative_to(top), number, line.strip()))
        print(f"{point}  {len(found):3d}  {what}")
        if "--list" in sys.argv:
            for f, number, line in found:
                print(f"        {f}:{number}: {line}")


if __name__ == "__main__":
    main()
