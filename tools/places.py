#!/usr/bin/env python3
"""Lists the places in crates/*/src that read like the Rattle of before traits, iterators and closures, by patterns, for docs/DESIGN-PASS.md.

    tools/places.py [-v] [COMMIT]     counts by point and pattern; -v also names the places; without COMMIT the files as they lie here
"""
import re
import subprocess
import sys

POINTS = [
    (1, "an enum (read each: is it an Option or a Result?)", r"^[ ]*(?:pub(?:\(crate\))? )?enum \w+"),
    (1, "a call on `&mut self` that answers success by a bool", r"fn \w+\(&mut self[^{;]*?-> bool"),
    (1, "a refusal handed out as an Option", r"-> Option<\w*(?:Refusal|Fault)>"),
    (1, "a number for a kind or a refusal", r"fn number\((?:&)?self\) -> u8"),
    (1, "a number answered where there is nothing to answer", r"-> u8\n    ensures \{[^\n]*\}\n\{\n    0\n\}"),
    (1, "a count that goes one too far to say `too many`", r"self\.\w+ = MAX_\w+ \+ 1"),
    (1, "a field that is a flag (read each: does it go with a value?)", r"^    (?:pub(?:\(crate\))? )?\w+: bool,"),
    (2, "the test of one bit of a set", r">> \w+\) % 2 == 1"),
    (2, "a limit (read each: is it said twice?)", r"^(?:pub(?:\(crate\))? )?const [A-Z_]+: (?:u8|u16|usize) = [0-9_]+;"),
    (2, "a method `number`, `same`, `get` or `names` that other types have in the same words", r"fn (?:number|same|get|names|held)\(&?self"),
    (2, "a function that two programs both have", r"fn (?:file_name|printable|push_line|push_name|name_text|records|sets)\("),
    (2, "a record of zeros, spelled out", r"source: 0,\n\s*events: 0,\n\s*target: 0,"),
    (2, "a list in an array, spelled out for its type", r"^    (?:pub(?:\(crate\))? )?\w+: \[\w+; MAX_\w+\],|^    (?:pub(?:\(crate\))? )?\w+: \[\w+; \w+_LIMIT\],"),
    (3, "a `while` or `loop`", r"^[ ]*(?:while|loop)\b"),
    (3, "a `for` over numbers", r"^[ ]*for \w+ in [^{\n]*\.\.[^{\n]*\{"),
    (3, "a `for` over items (no index by hand)", r"^[ ]*for (?!\w+ in [^{\n]*\.\.)[^{\n]*\{"),
    (4, "equality by hand", r"fn (?:same\w*|is)\("),
    (4, "a call of equality by hand", r"(?<!fn )\b(?:same_bytes|same_names|same_records|same_sets)\(|\.same\("),
    (4, "a conversion or a printing by hand", r"fn (?:number|file_name|printable|complaint|push_name|name_text|push_line|copy)\("),
    (4, "`if` and index, or a `match`, for what `get`, `map` or `unwrap_or` says", r"if \(?\w+(?: as usize\))? < [\w.]+\.len\(\) \{|Some\((\w+)\) => Some\(\1[.)]"),
    (4, "an `as` that widens", r"\bas (?:u16|u32|u64|usize)\b"),
    (4, "derive(Clone, Copy) alone", r"#\[derive\(Clone, Copy\)\]"),
    (5, "`held` of a table of names in a clause", r"(?:requires|ensures)[^\n]*\bheld\b[^\n]*"),
    (5, "the five fields of a table in a clause", r"self\.now\.shape\.states self\.now\.shape\.initial self\.now\.shape\.moves"),
    (5, "the two sides of a pair in a clause", r"(?:requires|ensures)[^\n]*self\.now\.left\.now[^\n]*self\.now\.right\.now[^\n]*"),
    (5, "a sheet and the system below it in a clause", r"(?:requires|ensures)[^\n]*held self\.now\.sheet[^\n]*"),
    (5, "a count and places in a clause", r"(?:requires|ensures)[^\n]*count self\.\w+\.places[^\n]*"),
    (5, "a text and a place in it as parameters", r"\((?:line|text|file): &(?:'a )?\[u8\], (?:at|from|start): usize"),
    (5, "the two files as parameters", r"transitions: &(?:'a )?(?:\[u8\]|str),\s*labels: &"),
    (6, "a length kept beside an array", r"^    (?:pub(?:\(crate\))? )?(?:count|len|used): usize,"),
    (6, "parts of a tree by number", r"^    (?:Not|And|Or|Diamond|BoxAll|AllNext|Eventually|Always|ExistsUntil\w*|AllUntil\w*|Min|Max|Variable)\("),
    (7, "a trait whose impls are steps of one pass", r"^(?:pub(?:\(crate\))? )?trait Question|^impl Question"),
    (7, "a function pointer or a dyn", r"\bdyn \w|: fn\("),
]


def files(commit):
    """The source files, by name."""
    if commit is None:
        names = subprocess.check_output(["git", "ls-files", "crates/*/src/*.rt"], text=True).split()
        return {n: open(n).read() for n in names}
    names = subprocess.check_output(["git", "ls-tree", "-r", "--name-only", commit, "crates"], text=True).split()
    names = [n for n in names if re.match(r"crates/\w+/src/.*\.rt$", n)]
    return {n: subprocess.check_output(["git", "show", f"{commit}:{n}"], text=True) for n in names}


def main(args):
    verbose = "-v" in args
    commits = [a for a in args if a != "-v"]
    texts = files(commits[0] if commits else None)
    for point, what, pattern in POINTS:
        found = []
        for name, text in sorted(texts.items()):
            for m in re.finditer(pattern, text, re.M):
                line = text.count("\n", 0, m.start()) + 1
                found.append(f"{name}:{line}: {m.group(0).strip().splitlines()[0][:110]}")
        print(f"{point}  {len(found):4}  {what}")
        if verbose:
            for f in found:
                print(f"           {f}")


main(sys.argv[1:])
