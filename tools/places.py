#!/usr/bin/env python3
"""Places in crates/*/src that an older Rattle asked for, by the points of docs/DESIGN-PASS.md.

    python3 tools/places.py [POINT] [--list]

Counts for each crate, or with --list prints each place. A place with a line '// Stays:' right above it, or in the comment
that stands above its item, is counted as kept.
"""
import glob
import os
import re
import sys

TOP = os.path.join(os.path.dirname(os.path.abspath(__file__)), "..", "crates")


def files():
    for path in sorted(glob.glob(os.path.join(TOP, "*", "src", "**", "*.rt"), recursive=True)):
        yield os.path.relpath(path, TOP), open(path, encoding="utf-8").read().split("\n")


def item_head(lines, i):
    """The number of the line at which the item around line i begins."""
    while 0 < i and not re.match(r"(    )?(pub(\(crate\))? )?(const )?(extern \"C\" )?(fn|struct|enum|impl)\b", lines[i]):
        i -= 1
    return i


def kept(lines, i):
    """Whether a line '// Stays:' belongs to line i: right above it, in it, or above its item."""
    for start in (i, item_head(lines, i)):
        j = start
        if "// Stays:" in lines[j]:
            return True
        while 0 < j and re.match(r"\s*(//|#\[|ensures|requires)", lines[j - 1]):
            j -= 1
            if "// Stays:" in lines[j]:
                return True
    return False


def by_line(pattern, lines):
    for i, line in enumerate(lines):
        if not line.lstrip().startswith("//") and re.search(pattern, line):
            yield i


def functions(lines):
    """(line, head, body) of each function."""
    i = 0
    while i < len(lines):
        if re.match(r"\s*(pub(\(crate\))? )?(extern \"C\" )?fn ", lines[i]):
            j = i
            while j < len(lines) and not re.match(r"\s*\{$|.*\{$|.*\{ .* \}$", lines[j]):
                j += 1
            indent = re.match(r"\s*", lines[i]).group(0)
            k = j
            while k < len(lines) and lines[k] != indent + "}":
                k += 1
            yield i, " ".join(x.strip() for x in lines[i:j + 1]), lines[j:k + 1]
            i = j + 1
        else:
            i += 1


def point_1(lines):
    # an enum with a case that refuses or has nothing
    yield from by_line(r"^    (Refused|NotLoaded|Faulty)\(|^    (Malformed|Nothing|Overlaps),$", lines)
    # a flag or a number of a refusal, a kind or a code in a struct
    yield from by_line(r"^    pub (refused: u8|fits: bool|stops: bool|goes_on: bool|found: u8|verb: u8|code: u16|printed: bool),", lines)
    # a function that answers a number, 0 for none, and what takes one
    for i, head, body in functions(lines):
        if re.search(r"-> u(8|16|64)\b", head) and any(re.match(r"\s*(return )?0;?$", x) for x in body) and re.search(r"fault|refus|verb|join|load|claim", head):
            yield i
        if re.search(r"\b(k|number|refused): u8\b", head.split("->")[0]) and "extern" not in head:
            yield i


def point_2(lines):
    # functions or types of one file, or of its crate, whose text is alike but for a type, a size or a constant: the names of those found by
    # `duplicates --most 40 --min-lines 6` and by reading
    twins = r"^(pub )?(fn (first_holds|pair_ends_below|ends_below|zero_from|all_zero|clear|lesser|at_most|eight_at_most|of_entries|of_bytes|" \
        r"is_listening|is_connecting|read_some|show_claimed|show_doubtful|poke|poke_doubtful|put_word|to_buffer|copy|unfit|" \
        r"list_text_length|put_list|after_comma|put_comma|bytes|used_pairs|left|ended)\b|enum Parsed)"
    yield from by_line(twins, lines)


def point_3(lines):
    yield from by_line(r"^\s+(while|loop)\b", lines)


def point_4(lines):
    # a struct copied or made field by field from another
    for i, line in enumerate(lines):
        m = re.match(r"\s+(\w+): (\w+)\.\1,$", line)
        if m and not re.match(r"\s+\w+: \w+\.\w+,$", lines[i - 1]):
            yield i
    # a conversion, an equality, a choice or a print written out
    yield from by_line(r"^(pub )?fn (one_if\w*|\w+_code|\w+_meant|to_numbers|number_of|lesser|greater|at_most|eight_at_most|is_listening|is_connecting|"
                       r"upper|takes_no_argument|verdict_code|saturating_\w+|byte|number|hex|word|print_verdict|print_class)\b", lines)


def point_5(lines):
    # parameters that travel together, in functions that take two of them or more
    for i, head, body in functions(lines):
        names = re.findall(r"\b(claimed|doubtful|file|held|out|source): &(mut )?\[", head)
        if len(names) >= 3:
            yield i
    # a fact that stands in contracts of three functions or more
    yield from by_line(r"requires .*(obeys ledger\.(now|old) ≡ true|clean ≡ true → |length (file|claimed)\.old ≡ |\(0 < size\))", lines)
    yield from by_line(r"ensures .*\bobeys \w+\.(now|old) ≡ true →", lines)


def point_6(lines):
    yield from by_line(r"let mut \w+ = \[[^\]]*; \w+\];|: \[[^\]]*; \d+\],$", lines)
    yield from by_line(r"^\s+(starts|lengths): &\[u64\]|fn \w+\(.*starts: &\[u64\]", lines)


def point_7(lines):
    yield from by_line(r"^(pub )?enum (ByteKind|SecondNumber|Source|Form|Target)\b", lines)
    yield from by_line(r"match (source|form|target|second) \{", lines)


POINTS = {1: point_1, 2: point_2, 3: point_3, 4: point_4, 5: point_5, 6: point_6, 7: point_7}


def main():
    wanted = [int(a) for a in sys.argv[1:] if a.isdigit()] or sorted(POINTS)
    for p in wanted:
        found = {}
        for name, lines in files():
            for i in sorted(set(POINTS[p](lines))):
                found.setdefault(name.split(os.sep)[0], []).append((name, i, lines[i].strip(), kept(lines, i)))
        all_places = [x for xs in found.values() for x in xs]
        print(f"point {p}: {len(all_places)} places, {sum(1 for x in all_places if x[3])} with a reason")
        if "--list" in sys.argv:
            for name, i, text, stays in all_places:
                print(f"  {name}:{i + 1}: {text}{'   [stays]' if stays else ''}")
        else:
            print("  " + ", ".join(f"{c} {len(xs)}" for c, xs in sorted(found.items())))


main()
