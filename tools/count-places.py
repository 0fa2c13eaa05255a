#!/usr/bin/env python3
"""Count the places in src/ that docs/DESIGN-PASS.md speaks of: `tools/count-places.py [-v] [CRATES_FOLDER]`.

Each row is a search for a form by its text; -v prints every place. Test modules count like other code.
"""
import collections
import pathlib
import re
import sys

verbose = "-v" in sys.argv
arguments = [a for a in sys.argv[1:] if a != "-v"]
root = pathlib.Path(arguments[0] if arguments else "crates")

ROWS = [
    ("1a", "a fault or a none handed on by hand",
     r"Err\((fault|_)\) => (return )?(Err\(fault\)|None|Ok\()|None => (return )?(None|Ok\(None\))|Some\((?P<same>\w+)\) => Some\((?P=same)\)|return if .* Some"
     r"|Err\(_\) => false|\b(?P<name>found|other|rest) => (?P=name),"),
    ("1b", "an enum of two variants, one with a value at most (read by hand: which have the shape of Option)",
     r"enum \w+[^{]*\{(?:\s*(?:///[^\n]*\n\s*)*\w+(?:\([^)]*\))?,){2}\s*\}"),
    ("1c", "a constant number for a kind", r"const [A-Z_]+: u8 = 0x|const KIND\b"),
    ("1d", "a number of a refusal written out", r"reader_told\(\d|number: \d|Flaw::\w+ => \d"),
    ("1e", "a hole by number, where 0 is none", r"hole == 0|hole != 0"),
    ("1f", "a test that hands on by hand",
     r"(?:Err\(_\)|Ok\(_\)|None) => (?:return )?Err\(Fail::new|assert!\(rt; false\)"),
    ("3a", "a count or an index stepped by hand", r"^\s+\w+ (?:-|\+)= 1;"),
    ("3b", "a loop over an index", r"for \w*[a-z]\w* in 0\.\."),
    ("3c", "a loop that looks for the first",
     r"^ +for \w+ in [^{;]*\{\n +(?:if|match) (?:[^\n]*\n){1,14}? +return (?:Some|true)"),
    ("4", "equality, order, conversion by hand",
     r"fn (same_key|granted|from_byte|of|number|told|reader_told|count_children|fault)\("),
    ("5a", "a function that takes forks, depth or place apart", r"(?:forks|depth): u8,[^)]*?place: usize|place: usize,[^)]*?depth: u8"),
    ("5b", "a clause on where what was read ends", r"ensures whole"),
    ("5c", "a bound on the lengths of two paths, in a clause", r"(?:requires|ensures)[^\n]*length [pqab]\.now ≤ 12"),
    ("6", "an array with a length beside it", r": \[\w+; \d+\],\s*pub len: usize"),
    ("7", "a switch that picks the types to run with", r"=> judge_by::<"),
]

for point, words, form in ROWS:
    found = collections.OrderedDict()
    for path in sorted(root.glob("*/src/*.rt")):
        text = path.read_text()
        lines = [text.count("\n", 0, match.start()) + 1 for match in re.finditer(form, text, re.M)]
        if lines:
            found[path] = lines
    print(f"{point:3} {sum(map(len, found.values())):3}  {words}")
    if verbose:
        for path, lines in found.items():
            print(f"         {path.relative_to(root)}: {', '.join(map(str, lines))}")

lines = sum(len(p.read_text().splitlines()) for p in root.glob("*/proofs/**/*.antt"))
answers = [p for p in root.glob("*/proofs/**/Answers.antt")]
print(f"8       {lines} lines in proofs/, {len(answers)} files of answers with {sum(len(re.findall(r'^pub ', p.read_text(), re.M)) for p in answers)} answers")
