#!/usr/bin/env python3
"""Counts the places of docs/DESIGN-PASS.md in the sources: run at the top of the checkout; -l lists them.

The crates are those of crates.txt, the files their src/*.rt; comments count only where a point says so."""
import glob
import re
import sys

CRATES = [line.split()[0].split(":")[0] for line in open("crates.txt") if line.strip() and not line.startswith("#")]
FILES = sorted(f for c in CRATES for f in glob.glob(f"crates/{c}/src/*.rt"))

# point: (what, pattern); a pattern is tried on each line, without its comment
POINTS = {
    "1a an enum with a refused case, a struct with a refusal or a flag beside values": r"^    Refused\(u8\)|^    (pub )?(refusal|fault): u8,|^    (pub )?(kept|sound|listed|passed|allowed|failed|over): bool,",
    "1b a refusal by its number": r"(Refused|refused|no_change|no_value)\(\s*[0-9]+\s*\)|(refusal|fault): [1-9][0-9]*,|return (1[0-9]|2[0-5]|35);",
    "1c a function that answers a refusal as a number, 0 for none": r"^\s*(pub )?fn \w*(fault|frame|middle|refusal)\w*\(.*-> u8$",
    "1d a function that answers 0, n, or a number of its own for none": r"^\s*(pub )?fn (names_end|name_table_end|place_of|root|root_by|enter|down|far|near|take_highest|highest|last_zero|first_below|latest|size_of_one|bits_size|integer_size|real_size|text_size|data_size|row_size)\(",
    "2 twins": r"^\s*(pub )?(extern \"C\" )?fn (lower|higher|greater|either|least|lesser|one_if|join16|join32|one|two|three|four|pack_bits|pack_pairs|pack_codes|put_real|put_text|symbols_in|root|root_by|packed_size|symbol_size|size_of|lxt_refused|refused|unlisted|give|give_\w+|start_number|read_all|read_full)\(",
    "3 loops that are no `for`": r"^\s*(while|loop)\b|= ('\w+: )?loop \{",
    "3' counters stepped by hand": r"\b(i|j|k|f|p|at|left|wanted|steps|count|visited) (\+|-)= 1;",
    "4a comparison, order, copying and printing by hand": r"^\s*(pub )?fn (lower|higher|greater|either|least|lesser|distance|one_if|chosen|pick|same|copy_part|clear|fill|exchange|move_down|put_in_order|room_for|lowest_near|is_real|is_text)\(",
    "4b conversion by hand": r"^\s*(pub )?fn (wide|join16|join32|be16|be32|be64|one|two|three|four|signed_of|signed_byte|bytes_of|with_bias|without_bias|biased|yes_no)\(",
    "4c casts by `as`": r"\bas (u8|u16|u32|u64|usize|i8|i32|i64|f64)\b",
    "5 a fact of a clause that three functions or more share": r"requires\b.*\b(Geometry|Sync|Times|Ready|Placed|Opened|Tree|Data|Setting|Known|Part|Listed|Resolved|Starting|Rooted)\b",
    "6 a buffer with its place or length beside it": r"\b(nodes: &(mut )?\[u32\], m: usize|values: &\[u8\], start: usize, end: usize|out: &mut \[u8\], at: usize|numbers: &(mut )?\[u32\])",
    "7 a switch on which step to run, a table of functions": r"\b(fn|Fn|FnMut)\(|dyn ",
}


def lines():
    for name in FILES:
        for number, line in enumerate(open(name), 1):
            yield name, number, line.split("//")[0].rstrip()


def main():
    listed = "-l" in sys.argv
    everything = list(lines())
    for what, pattern in POINTS.items():
        found = [(n, k, l) for n, k, l in everything for _ in re.findall(pattern, l)]
        print(f"{len(found):5d}  {what}")
        if listed:
            for name, number, line in found:
                print(f"         {name}:{number}: {line.strip()[:110]}")


main()
