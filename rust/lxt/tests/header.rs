//! The header and its example, in C programs that the machine's C compiler makes of them, against the
//! independent reader. Rust's linker is that compiler, so it is there.

use std::collections::BTreeSet;
use std::fmt::Write;
use std::path::{Path, PathBuf};
use std::process::Command;

use lxt_compare::judge::TRACE;
use lxt_compare::times::small_trace_09;
use lxt_compare::traces;
use lxt_compare::write::examples;
use lxt_reference::{Item, Judged, TextAt, Value, Which};

#[allow(dead_code)]
mod mixed;
#[allow(dead_code)]
mod padded;

/// An example of the header, by how its comment starts: its lines have five spaces, and words for the reader after
/// six or more.
fn example(header: &str, start: &str, calls: &[&str]) -> String {
    let from = header.find(start).expect("the comment");
    let comment = header[from..].split("*/").next().expect("its end");
    let lines = comment
        .lines()
        .filter_map(|line| line.strip_prefix(" *     "));
    let mut code = String::new();
    for line in lines {
        let start = line.len() - line.trim_start().len();
        let end = line[start..]
            .find("      ")
            .map_or(line.len(), |it| it + start);
        code += &line[..end];
        code.push('\n');
    }
    assert!(calls.iter().all(|call| code.contains(call)), "{code}");
    code
}

/// Where the bytes of a part are, as the header says it.
fn pointer(header: &str) -> &str {
    let mut lines = header
        .lines()
        .filter_map(|line| line.strip_prefix(" *     "));
    let line = lines.find(|line| line.contains("part.start"));
    line.expect("the line of the pointer")
}

/// Every question on each facility and its newest changes, then the header's column at two times, a line for each,
/// and the header's walk, a line for each answer.
const PROGRAM: &str = r#"
#include "lxt.h"
#include <stdio.h>
#include <stdlib.h>
#include <string.h>

static void use(uint32_t number, uint32_t offset) {
    printf("%lu %lu\n", (unsigned long)number, (unsigned long)offset);
}

static void walk(const uint8_t *file, size_t length, uint32_t n) {
WALK
    printf("walked %lu\n", (unsigned long)refused);
}

static void show_symbols(const uint8_t *symbols, uint64_t width) {
    printf(" bits:%.*s", (int)width, (const char *)symbols);
}

static void show_real(uint64_t real) { printf(" real:%llu", (unsigned long long)real); }

static void show_nothing(void) { printf(" nothing"); }

static void show_text(const uint8_t *text, uint64_t length) {
    uint64_t i;
    printf(" text:");
    for (i = 0; i < length; i++) printf("%02x", text[i]);
}

static void column(const uint8_t *file, size_t length, uint32_t n, int64_t time, const uint8_t *text,
                   size_t text_length) {
    printf("column");
COLUMN
    printf(" %lu %llu\n", (unsigned long)refused, (unsigned long long)visited);
}

static uint8_t names[LXT_LONGEST_NAME], bits[LXT_WIDEST];

static void show(const lxt_value *value) {
    switch (value->what) {
    case LXT_IS_BITS:
        printf("bits %llu %.*s", (unsigned long long)value->number, (int)value->number, (const char *)bits);
        break;
    case LXT_IS_REAL:
        printf("real %llu", (unsigned long long)value->number);
        break;
    case LXT_IS_TEXT:
        printf("text %llu", (unsigned long long)value->number);
        break;
    case LXT_NOT_DRIVEN:
        printf("not driven %llu", (unsigned long long)value->number);
        break;
    }
    printf(" %llu\n", (unsigned long long)value->length);
}

/* Which text it is, its start and length, and its bytes. */
static void show_part(const uint8_t *file, const uint8_t *text, lxt_part part) {
    const uint8_t *at = POINTER;
    uint64_t i;
    switch (part.from) {
    case LXT_FROM_FILE: printf(" file"); break;
    case LXT_FROM_LENT: printf(" lent"); break;
    case LXT_OTHER_KIND: printf(" other"); break;
    }
    printf(":%llu:%llu:", (unsigned long long)part.start, (unsigned long long)part.length);
    for (i = 0; i < part.length; i++) printf("%02x", at[i]);
}

static const char *kind(uint32_t kind) {
    switch (kind) {
    case LXT_BITS: return "bits";
    case LXT_INTEGER: return "integer";
    case LXT_REAL: return "real";
    case LXT_TEXT: return "text";
    }
    return "nothing";
}

static const int64_t times[] = {50, -1, 0, INT64_MIN, 4294967296, INT64_MAX};
static const uint8_t text[] = {'n', 0, 'n', 'e'};

int main(int count, char **words) {
    FILE *input = count > 1 ? fopen(words[1], "rb") : NULL;
    uint8_t *file = malloc(2000000);
    lxt_summary summary;
    uint32_t n, f, stray;
    int8_t timescale;
    size_t length;
    if (input == NULL || file == NULL) return 2;
    length = fread(file, 1, 2000000, input);
    n = lxt_judge(file, length, &summary, &timescale);
    if (n != 0) {
        printf("refused %lu\n", (unsigned long)n);
        return 0;
    }
    n = summary.facilities;
    printf("%lu %lu %lu %c %lu %d\n", (unsigned long)n, (unsigned long)summary.changes,
           (unsigned long)summary.end, LXT_SYMBOLS[summary.initial], (unsigned long)summary.clean, timescale);
    if (lxt_stray(file, length, &stray) == LXT_ACCEPTED) printf("stray %lu\n", (unsigned long)stray);
    for (f = 0; f <= n && f < 40; f++) {
        uint32_t root, size, before, clean, visited, offset, count = 0;
        int64_t time;
        lxt_facility facts;
        lxt_value value;
        lxt_part part = {7, 8, 9};
        int32_t msb, lsb;
        lxt_pair pair[LXT_MOST_FACILITIES];
        uint8_t asked[LXT_MOST_FACILITIES] = {0};
        if (lxt_facts(file, length, f, &facts, &msb, &lsb) == LXT_REFUSED_NO_FACILITY) {
            printf("%lu refused", (unsigned long)f);
            if (lxt_text_at(file, length, f, 0, text, sizeof text, &part) == LXT_REFUSED_NO_FACILITY)
                printf(" %d%d%d\n", (int)part.from, (int)part.start, (int)part.length);
            continue;
        }
        lxt_root(file, length, f, &root);
        lxt_name(file, length, f, names, sizeof names, &size);
        printf("%lu %s %ld %ld %lu %.*s\n", (unsigned long)facts.width, kind(facts.kind),
               (long)msb, (long)lsb, (unsigned long)root, (int)size, (const char *)names);
        asked[f] = 1;
        lxt_start_walk(file, length, asked, n, pair, n);
        offset = pair[root].offset;
        while (count++ < 4 && lxt_change_before(file, length, f, offset, &before) == 0) {
            lxt_change(file, length, f, offset, bits, sizeof bits, &time, &value, &clean);
            printf("%lu %lld %lu ", (unsigned long)before, (long long)time, (unsigned long)clean);
            show(&value);
            offset = before;
        }
        for (count = 0; count < sizeof times / sizeof times[0]; count++) {
            lxt_value_at(file, length, f, times[count], bits, sizeof bits, &value, &visited);
            printf("%lu ", (unsigned long)visited);
            show(&value);
        }
        printf("texts");
        for (count = 0; count < sizeof times / sizeof times[0]; count++) {
            lxt_text_at(file, length, f, times[count], text, sizeof text, &part);
            show_part(file, text, part);
        }
        printf("\n");
    }
    column(file, length, n, times[0], text, sizeof text);
    column(file, length, n, times[1], text, sizeof text);
    walk(file, length, n);
    return 0;
}
"#;

/// The times that the program asks about, the first two by columns too, and the text that it lends.
const TIMES: [i64; 6] = [50, -1, 0, i64::MIN, 0x1_0000_0000, i64::MAX];
const TEXT: &[u8] = b"n\0ne";

/// The line of the texts at these times.
fn texts_line(texts: [impl AsRef<str>; 6]) -> String {
    let texts = texts.each_ref().map(|it| it.as_ref());
    format!("texts {}\n", texts.join(" "))
}

/// The independent reader's text at a time.
fn shown(file: &[u8], text: TextAt) -> String {
    let (which, whole) = match text.which {
        Which::File => ("file", file),
        Which::Lent => ("lent", TEXT),
        Which::OtherKind => ("other", TEXT),
    };
    let TextAt { start, length, .. } = text;
    let bytes = whole[start..][..length].iter();
    let digits = String::from_iter(bytes.map(|byte| format!("{byte:02x}")));
    format!("{which}:{start}:{length}:{digits}")
}

/// The line of a column: its items, 0 and how many changes were visited.
fn column_line<T: AsRef<str>>(items: &[T], visited: u64) -> String {
    let items = items.iter().map(|it| format!(" {}", it.as_ref()));
    format!("column{} 0 {visited}\n", String::from_iter(items))
}

/// That of all facilities at a time, by the independent reader.
fn whole_column(file: &[u8], judged: &Judged, time: i64) -> String {
    let n = judged.summary().facilities;
    let all = Vec::from_iter(0..n);
    let (mut bits, mut items) = (vec![0; 4_096 * all.len()], vec![None; all.len()]);
    let visited = judged.column(time, &all, TEXT, &mut bits, &mut items);
    let digits = |text: &[u8]| String::from_iter(text.iter().map(|byte| format!("{byte:02x}")));
    let items = items.into_iter().map(|item| match item.expect("an item") {
        Item::Bits { start, width } => {
            let symbols = &bits[start..][..width as usize];
            format!("bits:{}", String::from_utf8_lossy(symbols))
        }
        Item::Real { bits } => format!("real:{bits}"),
        Item::Text { start, length } => {
            let text = &file[start as usize..][..length as usize];
            format!("text:{}", digits(text))
        }
        Item::LentText { length } => format!("text:{}", digits(&TEXT[..length])),
        Item::NotDriven => "nothing".to_string(),
    });
    column_line(&Vec::from_iter(items), visited.expect("a column"))
}

fn show(out: &mut String, value: Value, bits: &[u8]) {
    let line = match value {
        Value::Bits { width } => {
            let symbols = String::from_utf8_lossy(&bits[..width as usize]);
            writeln!(out, "bits {width} {symbols} 0")
        }
        Value::Real { bits } => writeln!(out, "real {bits} 0"),
        Value::Text { start, length } => writeln!(out, "text {start} {length}"),
        Value::NotDriven => writeln!(out, "not driven 0 0"),
    };
    line.expect("a line");
}

/// What the program is to print of a file.
fn expected(file: &[u8]) -> String {
    let judged = match Judged::new(file) {
        Ok(judged) => judged,
        Err(number) => return format!("refused {number}\n"),
    };
    let (it, mut bits) = (judged.summary(), vec![0; 4_096]);
    let n = it.facilities;
    let initial = char::from(b"01ZXHUWL-"[usize::from(it.initial)]);
    let clean = u32::from(it.clean);
    let mut out = format!("{n} {} {} {initial} {clean} ", it.changes, it.end);
    out += &format!("{}\nstray {}\n", it.timescale, judged.stray_bytes());
    for facility in (0..=n).take(40) {
        let Ok(facts) = judged.facts(facility) else {
            out += &format!("{facility} refused 789\n");
            continue;
        };
        let root = judged.root(facility).expect("a root");
        let name = String::from_utf8_lossy(judged.name_of(facility));
        let kind = format!("{:?}", facts.kind).to_lowercase();
        let (msb, lsb) = (facts.msb, facts.lsb);
        out += &format!("{} {kind} {msb} {lsb} {root} {name}\n", facts.width);
        for offset in judged.chains()[root as usize].iter().take(4) {
            let before = judged.change_before(facility, *offset).expect("a change");
            let read = judged.change(facility, *offset, &mut bits);
            let read = read.expect("a change");
            out += &format!("{before} {} {} ", read.time, u32::from(read.clean));
            show(&mut out, read.value, &bits);
        }
        for time in TIMES {
            let lookup = judged.value_at(facility, time, &mut bits);
            let lookup = lookup.expect("a value");
            out += &format!("{} ", lookup.visited);
            show(&mut out, lookup.value, &bits);
        }
        let texts = TIMES.map(|time| judged.text_at(facility, time, TEXT));
        out += &texts_line(texts.map(|it| shown(file, it.expect("an answer"))));
    }
    for time in &TIMES[..2] {
        out += &whole_column(file, &judged, *time);
    }
    for (root, offset) in judged.full_list(&vec![1; n as usize]).expect("a list") {
        out += &format!("{root} {offset}\n");
    }
    out + "walked 0\n"
}

fn repository() -> PathBuf {
    Path::new(env!("CARGO_MANIFEST_DIR")).join("../..")
}

/// The archive of proved functions, in the folder that the crate's build script links it from.
fn archive() -> PathBuf {
    let folder = std::env::var_os("LXT_ARCHIVE_DIR").map(PathBuf::from);
    let folder = folder.unwrap_or_else(|| repository().join("crates/lxt_c/out"));
    folder.join("liblxt_c.a")
}

/// Makes a program of a source with the header and the archive.
fn made(name: &str, compiler: &str, standard: &str, code: &str) -> PathBuf {
    let folder = PathBuf::from(env!("CARGO_TARGET_TMPDIR"));
    let extension = if compiler == "c++" { "cpp" } else { "c" };
    let source = folder.join(name).with_extension(extension);
    let program = folder.join(name);
    std::fs::write(&source, code).expect("a place for the program");
    let made = Command::new(compiler)
        .args([standard, "-Wall", "-Wextra", "-Wpedantic", "-Werror", "-O1"])
        .arg("-I")
        .arg(repository().join("include"))
        .arg(&source)
        .arg(archive())
        .arg("-o")
        .arg(&program)
        .output()
        .expect("a C compiler");
    assert!(
        made.status.success(),
        "{}",
        String::from_utf8_lossy(&made.stderr)
    );
    program
}

#[test]
fn a_c_program_answers_as_the_independent_reader() {
    let header = include_str!("../../../include/lxt.h");
    let walk = example(header, "The walk:", &["lxt_start_walk", "lxt_carry_on"]);
    let column = example(header, "A column:", &["lxt_column"]);
    let code = PROGRAM.replace("WALK\n", &walk);
    let code = code.replace("COLUMN\n", &column);
    let code = code.replace("POINTER", pointer(header));
    let program = made("header", "cc", "-std=c99", &code);
    let mut compared = 0;
    for (name, file) in traces(100_000) {
        let path = repository().join("traces").join(&name);
        let ran = Command::new(&program).arg(path).output().expect("a run");
        assert!(ran.status.success(), "{name}: {:?}", ran.status);
        assert_eq!(
            String::from_utf8_lossy(&ran.stdout),
            expected(&file),
            "{name}"
        );
        compared += 1;
    }
    assert!(compared >= 20, "{compared}");

    for (name, file, lines) in by_hand() {
        let path = PathBuf::from(env!("CARGO_TARGET_TMPDIR")).join(format!("{name}.lxt"));
        std::fs::write(&path, &file).expect("a place for a trace");
        let ran = Command::new(&program).arg(path).output().expect("a run");
        assert_eq!(String::from_utf8_lossy(&ran.stdout), lines, "{name}");
        assert_eq!(expected(&file), lines, "{name}");
    }
}

/// Files and the lines of the program, worked out by hand.
fn by_hand() -> [(&'static str, Vec<u8>, String); 5] {
    // The values at 50, -1, 0, the least number, 2^32 and the greatest number: the number of changes visited, and
    // the symbols. They are no texts.
    let values = |lookups: [(u32, &str); 6]| {
        let lines = lookups.map(|(visited, it)| format!("{visited} bits {} {it} 0\n", it.len()));
        lines.concat() + &texts_line(["other:0:0:"; 6])
    };
    let newest = |symbols: &'static str| {
        let (before, last) = ((2, "XXX"), (1, symbols));
        values([last, before, before, before, last, last])
    };
    // Rubbish in the padding of every packing; the times are 3 and 7.
    let padded = [
        "3 4 139 X 0 -9\nstray 0\n",
        "3 bits 2 0 0 one\n4 7 1 bits 3 101 0\n0 3 0 bits 3 011 0\n",
        &newest("101"),
        "3 bits 2 0 1 two\n7 7 1 bits 3 01Z 0\n0 3 0 bits 3 ZX1 0\n",
        &newest("01Z"),
        "3 bits 2 0 2 four\n10 7 1 bits 3 -LW 0\n0 3 0 bits 3 01Z 0\n",
        &newest("-LW"),
        "3 refused 789\n",
        &column_line(&["bits:101", "bits:01Z", "bits:-LW"], 3),
        &column_line(&["bits:XXX"; 3], 6),
        "2 20\n1 17\n0 14\n2 10\n1 7\n0 4\nwalked 0\n",
    ];
    // 64-bit times: -5 and 5, and the least number and -1.
    let small = |times: [&str; 2], lookups: [(u32, &str); 6]| {
        let [newer, older] = times;
        let changes = format!("4 {newer} 1 bits 1 0 0\n0 {older} 1 bits 1 1 0\n");
        let head = "1 4 84 X 1 -9\nstray 0\n1 bits 0 0 0 a\n";
        let [first, second, ..] = lookups.map(|(visited, symbol)| {
            let item = format!("bits:{symbol}");
            column_line(&[item], visited.into())
        });
        let tail = format!("1 refused 789\n{first}{second}0 6\n0 4\nwalked 0\n");
        format!("{head}{changes}{}{tail}", values(lookups))
    };
    let (least, most) = (i64::MIN, i64::MAX);
    // The change at 6 is the only one, so the two bytes of that at 4 are stray.
    let mut one_change = TRACE;
    one_change[7] = 4;
    let stray = [
        "1 4 68 X 1 -9\nstray 2\n1 bits 0 0 0 a\n0 5 1 bits 1 0 0\n",
        &values([(1, "0"), (1, "X"), (1, "X"), (1, "X"), (1, "0"), (1, "0")]),
        "1 refused 789\n",
        "column bits:0 0 1\ncolumn bits:X 0 1\n",
        "0 6\nwalked 0\n",
    ];
    [
        ("mixed", mixed::file(), mixed_lines()),
        ("padded", padded::file(), padded.concat()),
        ("stray", one_change.to_vec(), stray.concat()),
        (
            "wide",
            small_trace_09(-5, 5, &[4, 2], &[-5, 10]),
            small(
                ["5", "-5"],
                [(1, "0"), (2, "1"), (2, "1"), (2, "X"), (1, "0"), (1, "0")],
            ),
        ),
        (
            "widest",
            small_trace_09(least, most, &[4, 2], &[least, most]),
            small(
                ["-1", "-9223372036854775808"],
                [(1, "0"), (1, "0"), (1, "0"), (2, "1"), (1, "0"), (1, "0")],
            ),
        ),
    ]
}

/// Those of the trace with every kind, an alias and a facility without changes.
fn mixed_lines() -> String {
    // At 50, then three times before all changes, then twice after them.
    let six =
        |last: &str, before: &str| [last, before, before, before, last, last].map(String::from);
    let values = |last: &str, before: &str| six(last, before).map(|it| it + "\n").concat();
    let no_texts = texts_line(["other:0:0:"; 6]);
    let bits = [
        "4 30 1 bits 3 ZX1 0\n0 10 1 bits 3 011 0\n",
        &values("1 bits 3 ZX1 0", "2 bits 3 ZZZ 0"),
        &no_texts,
    ];
    let bits = bits.concat();
    let real = "real 4609434218613702656 0";
    let z = "Z".repeat(32);
    let unchanged = format!("0 bits 32 {z} 0");
    let lines = [
        "5 4 198 Z 1 -9\nstray 0\n",
        &format!("3 bits 2 0 0 a\n{bits}"),
        &format!("0 real 0 0 1 r\n0 20 1 {real}\n"),
        &values(&format!("1 {real}"), "1 not driven 0 0"),
        &no_texts,
        "0 text 0 0 2 s\n0 20 1 text 9 2\n",
        &values("1 text 9 2", "1 not driven 0 0"),
        &texts_line(six("file:9:2:6869", "lent:0:4:6e006e65")),
        &format!("3 bits 2 0 0 b\n{bits}"),
        "32 integer 31 0 4 i\n",
        &values(&unchanged, &unchanged),
        &no_texts,
        "5 refused 789\n",
        &format!("column bits:ZX1 real:4609434218613702656 text:6869 bits:ZX1 bits:{z} 0 4\n"),
        &format!("column bits:ZZZ nothing text:6e006e65 bits:ZZZ bits:{z} 0 6\n"),
        "0 22\n1 12\n2 7\n0 4\nwalked 0\n",
    ];
    lines.concat()
}

/// The structs are the numbers that the functions write, in their order, and the constants the limits.
const LAYOUT: &str = r#"
#include "lxt.h"
#ifdef __cplusplus
#define ASSERT(that) static_assert(that, #that)
#else
#define ASSERT(that) _Static_assert(that, #that)
#endif
#define FIELD(of, name, at, size) \
    ASSERT(offsetof(of, name) == at); \
    ASSERT(sizeof(((of *)0)->name) == size)
ASSERT(sizeof(lxt_summary) == 5 * sizeof(uint32_t));
FIELD(lxt_summary, facilities, 0, 4);
FIELD(lxt_summary, changes, 4, 4);
FIELD(lxt_summary, end, 8, 4);
FIELD(lxt_summary, initial, 12, 4);
FIELD(lxt_summary, clean, 16, 4);
ASSERT(sizeof(lxt_facility) == 2 * sizeof(uint32_t));
FIELD(lxt_facility, width, 0, 4);
FIELD(lxt_facility, kind, 4, 4);
ASSERT(sizeof(lxt_value) == 3 * sizeof(uint64_t));
FIELD(lxt_value, what, 0, 8);
FIELD(lxt_value, number, 8, 8);
FIELD(lxt_value, length, 16, 8);
ASSERT(sizeof(lxt_part) == 3 * sizeof(uint64_t));
FIELD(lxt_part, from, 0, 8);
FIELD(lxt_part, start, 8, 8);
FIELD(lxt_part, length, 16, 8);
ASSERT(LXT_FROM_FILE == 0 && LXT_FROM_LENT == 1 && LXT_OTHER_KIND == 2);
ASSERT(sizeof(lxt_item) == 4 * sizeof(uint64_t));
FIELD(lxt_item, what, 0, 8);
FIELD(lxt_item, start, 8, 8);
FIELD(lxt_item, length, 16, 8);
FIELD(lxt_item, real, 24, 8);
ASSERT(LXT_IS_BITS == 0 && LXT_IS_REAL == 1 && LXT_IS_TEXT == 2 && LXT_NOT_DRIVEN == 3);
ASSERT(LXT_IS_LENT_TEXT == 4);
ASSERT(sizeof(lxt_handed) == 2 * sizeof(uint32_t));
FIELD(lxt_handed, count, 0, 4);
FIELD(lxt_handed, done, 4, 4);
ASSERT(sizeof(lxt_pair) == 2 * sizeof(uint32_t));
FIELD(lxt_pair, number, 0, 4);
FIELD(lxt_pair, offset, 4, 4);
ASSERT(sizeof(lxt_new_facility) == 5 * sizeof(uint32_t));
FIELD(lxt_new_facility, name_start, 0, 4);
FIELD(lxt_new_facility, name_length, 4, 4);
FIELD(lxt_new_facility, kind, 8, 4);
FIELD(lxt_new_facility, msb, 12, 4);
FIELD(lxt_new_facility, lsb, 16, 4);
ASSERT(sizeof(lxt_new_change) == 4 * sizeof(uint32_t));
FIELD(lxt_new_change, facility, 0, 4);
FIELD(lxt_new_change, time, 4, 4);
FIELD(lxt_new_change, value_start, 8, 4);
FIELD(lxt_new_change, value_length, 12, 4);
ASSERT(LXT_SHORTEST_FILE == 6 && LXT_LONGEST_FILE == 16777216);
ASSERT(LXT_MOST_FACILITIES == 4096 && LXT_LONGEST_NAME == 1023 && LXT_WIDEST == 4096);
ASSERT(LXT_LONGEST_COLUMN == 4096 && LXT_REFUSED_LONG_COLUMN == 35);
ASSERT(sizeof(LXT_SYMBOLS) == 9 + 1);

uint32_t (*const stray)(const uint8_t *, size_t, uint32_t *) = lxt_stray;
/* Times are signed numbers of 64 bits, whether answered or asked for. */
uint32_t (*const change)(const uint8_t *, size_t, uint32_t, uint32_t, uint8_t *, size_t, int64_t *, lxt_value *,
                         uint32_t *) = lxt_change;
uint32_t (*const value_at)(const uint8_t *, size_t, uint32_t, int64_t, uint8_t *, size_t, lxt_value *,
                           uint32_t *) = lxt_value_at;
uint32_t (*const text_at)(const uint8_t *, size_t, uint32_t, int64_t, const uint8_t *, size_t,
                          lxt_part *) = lxt_text_at;
/* A sum of visited changes has 64 bits. */
uint32_t (*const column)(const uint8_t *, size_t, int64_t, const uint32_t *, size_t, const uint8_t *, size_t,
                         uint8_t *, size_t, lxt_item *, size_t, uint64_t *) = lxt_column;
uint32_t (*const write)(const lxt_new_facility *, size_t, const uint8_t *, size_t, const lxt_new_change *, size_t,
                        const uint8_t *, size_t, uint8_t, int8_t, uint8_t *, size_t, uint32_t *) = lxt_write;

int main(void) {
    static const uint8_t file[7] = {0};
    lxt_summary summary;
    int8_t timescale;
    /* Seven bytes of a wrong start: a call is linked and answers. */
    return lxt_judge(file, sizeof file, &summary, &timescale) == LXT_REFUSED_FIRST_BYTES ? 0 : 1;
}
"#;

#[test]
fn structs_and_constants_are_as_documented_in_c_and_cpp() {
    for (name, compiler, standard) in [
        ("layout_c11", "cc", "-std=c11"),
        ("layout_cpp", "c++", "-std=c++11"),
    ] {
        if compiler == "c++" && Command::new(compiler).arg("--version").output().is_err() {
            println!("skipped: there is no C++ compiler");
            continue;
        }
        let program = made(name, compiler, standard, LAYOUT);
        let ran = Command::new(&program).status().expect("a run");
        assert!(ran.success(), "{name}: {ran:?}");
    }
}

/// Every pointer that has a length beside it is null, with a length of 0. Prints each answer.
const NULLS: &str = r#"
#include "lxt.h"
#include <stdio.h>

static uint8_t file[4096];

static void all(const uint8_t *file, size_t length) {
    lxt_summary summary;
    lxt_facility facts;
    lxt_value value;
    lxt_part part = {7, 8, 9};
    lxt_handed handed;
    int8_t timescale;
    int32_t msb, lsb;
    int64_t time;
    uint32_t one, clean, visited;
    lxt_pair pair = {0, 0};
    uint8_t asked = 1;
    static const uint32_t list[LXT_LONGEST_COLUMN + 1] = {0};
    lxt_item item = {6, 7, 8, 9};
    uint64_t sum = 7;
    printf("%d", (int)lxt_judge(file, length, &summary, &timescale));
    printf(" %d", (int)lxt_stray(file, length, &one));
    printf(" %d", (int)lxt_facts(file, length, 0, &facts, &msb, &lsb));
    printf(" %d", (int)lxt_root(file, length, 0, &one));
    printf(" %d", (int)lxt_name(file, length, 0, NULL, 0, &one));
    printf(" %d", (int)lxt_change_before(file, length, 0, 6, &one));
    printf(" %d", (int)lxt_change(file, length, 0, 6, NULL, 0, &time, &value, &clean));
    printf(" %d", (int)lxt_value_at(file, length, 0, INT64_MAX, NULL, 0, &value, &visited));
    printf(" %d", (int)lxt_text_at(file, length, 0, INT64_MAX, NULL, 0, &part));
    printf(":%d%d%d", (int)part.from, (int)part.start, (int)part.length);
    printf(" %d", (int)lxt_column(file, length, 0, NULL, 0, NULL, 0, NULL, 0, NULL, 0, &sum));
    printf(":%d", (int)sum);
    sum = 7;
    printf(" %d", (int)lxt_column(file, length, 0, list, 1, NULL, 0, NULL, 0, NULL, 0, &sum));
    printf(" %d", (int)lxt_column(file, length, 0, list, 4096, NULL, 0, NULL, 0, NULL, 0, &sum));
    printf(" %d", (int)lxt_column(file, length, 0, list, 4097, NULL, 0, NULL, 0, NULL, 0, &sum));
    printf(" %d", (int)lxt_column(file, length, 0, list, 1, NULL, 0, NULL, 0, &item, 1, &sum));
    printf(":%d%d%d%d:%d", (int)item.what, (int)item.start, (int)item.length, (int)item.real, (int)sum);
    printf(" %d", (int)lxt_start_walk(file, length, NULL, 0, NULL, 0));
    printf(" %d", (int)lxt_start_walk(file, length, NULL, 0, &pair, 1));
    printf(" %d", (int)lxt_start_walk(file, length, &asked, 1, NULL, 0));
    printf(" %d", (int)lxt_carry_on(file, length, NULL, 0, 0, NULL, 0, &handed));
    printf(" %d", (int)lxt_carry_on(file, length, &pair, 1, 0, NULL, 0, &handed));
    printf(" %d\n", (int)lxt_carry_on(file, length, &pair, 1, 1, NULL, 0, &handed));
}

int main(int count, char **words) {
    int i;
    all(NULL, 0);
    for (i = 1; i < count; i++) {
        FILE *input = fopen(words[i], "rb");
        size_t length;
        if (input == NULL) return 2;
        length = fread(file, 1, sizeof file, input);
        fclose(input);
        all(file, length);
    }
    return 0;
}
"#;

#[test]
fn a_null_pointer_with_length_0_is_an_empty_slice() {
    let program = made("nulls", "cc", "-std=c99", NULLS);
    let folder = PathBuf::from(env!("CARGO_TARGET_TMPDIR"));
    // The small trace; the same with no facility, and of a text that has no change.
    let mut none = TRACE;
    none[11] = 0;
    let mut text = TRACE;
    text[35] = 4;
    text[39] = 0;
    let mut command = Command::new(&program);
    for (name, file) in [("one", TRACE), ("none", none), ("text", text)] {
        let path = folder.join(format!("nulls_{name}.lxt"));
        std::fs::write(&path, file).expect("a place for a trace");
        command.arg(path);
    }
    let ran = command.output().expect("a run");
    assert!(ran.status.success(), "{:?}", ran.status);
    let expected = [
        "1 1 1 1 1 1 1 1 1:789 1:7 1 1 1 1:6789:7 1 1 1 1 1 1",
        "0 0 0 0 21 0 21 21 0:200 0:0 21 21 35 21:6789:7 21 22 21 21 0 21",
        "0 0 18 18 18 18 18 18 18:789 0:0 18 18 35 18:6789:7 0 0 22 0 0 21",
        "0 0 0 0 21 19 19 0 0:100 0:0 21 21 35 0:4000:0 21 22 21 21 0 21",
    ];
    let printed = String::from_utf8_lossy(&ran.stdout);
    assert_eq!(Vec::from_iter(printed.lines()), expected);
}

/// Writes one bit that becomes 1 at time 0 and 0 at time 5, prints the file, and reads it. Then the refusals, and
/// nothing at all from null pointers.
const WRITING: &str = r#"
#include "lxt.h"
#include <stdio.h>

static const lxt_new_facility facilities[] = {{0, 1, LXT_BITS, 0, 0}};
static const lxt_new_change changes[] = {{0, 0, 0, 1}, {0, 5, 1, 1}};
static const uint8_t names[] = "a", values[] = "10";
static uint8_t file[1000];

static uint32_t written(size_t count, int8_t timescale, size_t room, uint32_t *length) {
    return lxt_write(facilities, 1, names, 1, changes, count, values, 2, 3, timescale, file, room, length);
}

int main(void) {
    uint32_t length = 77, number, size, clean, i, offset[] = {4, 6};
    lxt_summary summary;
    lxt_facility facts;
    lxt_value value;
    int8_t timescale;
    int32_t msb, lsb;
    int64_t time;
    uint8_t bits[1], name[LXT_LONGEST_NAME];
    number = written(2, 3, sizeof file, &length);
    printf("%d %lu\n", number == LXT_REFUSED_WRITER_INPUT, (unsigned long)length);
    number = written(2, -9, 106, &length);
    printf("%d %lu %d\n", number == LXT_REFUSED_WRITER_ROOM, (unsigned long)length, file[0]);
    number = written(2, -9, 107, &length);
    printf("%lu %lu\n", (unsigned long)number, (unsigned long)length);
    for (i = 0; i < length; i++) printf("%02X", file[i]);
    printf("\n%lu", (unsigned long)lxt_judge(file, length, &summary, &timescale));
    printf(" %lu %c %d %lu", (unsigned long)summary.facilities, LXT_SYMBOLS[summary.initial], timescale,
           (unsigned long)summary.clean);
    lxt_facts(file, length, 0, &facts, &msb, &lsb);
    lxt_name(file, length, 0, name, sizeof name, &size);
    printf(" %.*s %lu\n", (int)size, (const char *)name, (unsigned long)facts.width);
    for (i = 0; i < 2; i++) {
        lxt_change(file, length, 0, offset[i], bits, 1, &time, &value, &clean);
        printf("%lld %c %lu\n", (long long)time, bits[0], (unsigned long)clean);
    }
    number = lxt_write(NULL, 0, NULL, 0, NULL, 0, NULL, 0, 9, 0, NULL, 0, &length);
    printf("%lu", (unsigned long)number);
    number = lxt_write(NULL, 0, NULL, 0, NULL, 0, NULL, 0, 0, 0, NULL, 0, &length);
    printf(" %lu", (unsigned long)number);
    number = lxt_write(NULL, 0, NULL, 0, NULL, 0, NULL, 0, 0, 0, file, 63, &length);
    printf(" %lu %lu\n", (unsigned long)number, (unsigned long)length);
    return 0;
}
"#;

#[test]
fn a_c_program_writes_a_trace_and_reads_it() {
    let program = made("writing", "cc", "-std=c99", WRITING);
    let ran = Command::new(&program).output().expect("a run");
    assert!(ran.status.success(), "{:?}", ran.status);
    let [first, ..] = examples();
    let bytes = first.file.iter().map(|byte| format!("{byte:02X}"));
    let expected = [
        "1 77",
        "1 77 0",
        "0 107",
        &bytes.collect::<String>(),
        "0 1 X -9 1 a 1",
        "0 1 1",
        "5 0 1",
        "24 25 0 63",
    ];
    let printed = String::from_utf8_lossy(&ran.stdout);
    assert_eq!(Vec::from_iter(printed.lines()), expected);
}

#[test]
fn the_archive_needs_memcpy_and_memset_alone() {
    let archive = archive();
    let symbols = |word: &str| {
        let listed = Command::new("nm").arg(word).arg(&archive).output();
        let listed = listed.expect("nm, which comes with the linker");
        assert!(listed.status.success(), "{:?}", listed.status);
        let text = String::from_utf8_lossy(&listed.stdout).into_owned();
        let names = text.lines().filter_map(|it| it.rsplit_once(' '));
        BTreeSet::from_iter(names.map(|(_, name)| name.to_string()))
    };
    let needed = &symbols("--undefined-only") - &symbols("--defined-only");
    let expected = ["memcpy", "memset"].map(String::from);
    assert_eq!(needed, BTreeSet::from(expected));
}
