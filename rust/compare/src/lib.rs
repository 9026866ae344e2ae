//! Compares the proved functions with the independent reader and writer, call by call: every answer, and all of
//! the lent memory and around it. A difference panics with what is needed to repeat it.

#![forbid(unsafe_code)]

pub mod column;
pub mod judge;
pub mod overlays;
pub mod questions;
pub mod stray;
pub mod times;
pub mod walk;
pub mod write;

use std::collections::BTreeMap;
use std::fs;
use std::io;
use std::ops::Range;
use std::path::Path;

use lxt_generate::{Case, InputCase};

/// The traces of the repository by name, those of at most so many bytes.
pub fn traces(longest: usize) -> Vec<(String, Vec<u8>)> {
    let folder = Path::new(env!("CARGO_MANIFEST_DIR")).join("../../traces");
    let mut traces = traces_in(&folder).expect("the folder of traces");
    traces.retain(|(_, file)| file.len() <= longest);
    traces
}

/// The traces of a folder by name: its files `*.lxt`.
pub fn traces_in(folder: &Path) -> io::Result<Vec<(String, Vec<u8>)>> {
    let mut traces = Vec::new();
    for entry in fs::read_dir(folder)? {
        let path = entry?.path();
        if path.extension().is_some_and(|extension| extension == "lxt") {
            let name = path.file_name().unwrap_or_default().to_string_lossy();
            traces.push((name.into_owned(), fs::read(&path)?));
        }
    }
    traces.sort();
    Ok(traces)
}

/// Generated files by their origin, those of so many bytes at most.
pub fn generated(seeds: Range<u64>, longest: usize) -> impl Iterator<Item = (String, Vec<u8>)> {
    seeds.filter_map(move |seed| {
        let case = lxt_generate::case(seed);
        let what = format!("seed {seed}, {}", case.origin);
        (case.bytes.len() <= longest).then_some((what, case.bytes))
    })
}

/// A making of files by seeds, with its name.
pub type Making = (&'static str, fn(u64) -> Case);

/// The makings of files for judging fast.
pub const MADE: [Making; 4] = [
    ("edges", lxt_generate::edges),
    ("joined", lxt_generate::joined),
    ("codes", lxt_generate::codes),
    ("aliases", lxt_generate::aliases),
];

/// The thirteen calls.
pub const CALLS: [&str; 13] = [
    "judge",
    "stray",
    "facts",
    "root",
    "name",
    "change_before",
    "change",
    "value_at",
    "text_at",
    "column",
    "start",
    "carry on",
    "write",
];

/// Whether a call can give a refusal: one of the checks of the file that it makes, or of its question, or of
/// what it is to write.
pub fn can_refuse(call: &str, number: u8) -> bool {
    // Of the file 1 up to this.
    let of_file = match call {
        "write" => 0,
        "carry on" => 14,
        _ => 17,
    };
    let question: &[u8] = match call {
        "judge" | "stray" => &[],
        "facts" | "root" | "text_at" => &[18],
        "name" | "value_at" => &[18, 21],
        "column" => &[18, 21, 35],
        "change_before" => &[18, 19],
        "change" => &[18, 19, 21],
        "start" => &[21, 22],
        "write" => &[24, 25],
        _ => &[20, 21],
    };
    (1..=of_file).contains(&number) || question.contains(&number)
}

/// Files about which all calls were compared, inputs that were written, and what was seen.
#[derive(Default)]
pub struct Compared {
    pub files: u64,
    pub inputs: u64,
    judged: judge::Seen,
    stray: stray::Seen,
    questions: questions::Seen,
    columns: column::Seen,
    walks: walk::Seen,
    written: write::Seen,
}

impl Compared {
    /// Compares writing an input with every room, and reads the file back.
    pub fn input(&mut self, case: &InputCase, what: &str) {
        self.inputs += 1;
        write::compare(case, what, &mut self.written);
    }

    /// Compares all calls about a file. Of a large one only some facilities and changes are asked about.
    pub fn file(&mut self, file: &[u8], what: &str) {
        let (facilities, changes) = match file.len() {
            0..=800 => (usize::MAX, usize::MAX),
            801..=4_000 => (6, 4),
            _ => (3, 3),
        };
        let most = questions::Most {
            facilities,
            changes,
        };
        self.files += 1;
        judge::compare(file, what, &mut self.judged);
        let _ = stray::compare(file, what, &mut self.stray);
        questions::compare(file, what, most, &mut self.questions);
        column::compare(file, what, &mut self.columns);
        walk::start_refusals(file, what, &mut self.walks);
        if file.len() <= 30_000 {
            walk::whole_walks(file, what, &mut self.walks);
            walk::wider(file, what, &mut self.walks);
        }
        if file.len() <= 3_000 {
            walk::altered_records(file, what, &mut self.walks);
        }
        if file.len() <= 60_000 {
            walk::pending_anywhere(file, what, &mut self.walks);
        }
    }

    /// How many times each call gave each answer: 0, or a refusal's number.
    pub fn answers(&self) -> BTreeMap<(&'static str, u8), u64> {
        let mut answers = BTreeMap::new();
        let judged = self.judged.answers.iter();
        let judged = judged.map(|(number, count)| ("judge", *number, u64::from(*count)));
        let stray = self.stray.answers.iter();
        let stray = stray.map(|(number, count)| ("stray", *number, *count));
        let written = self.written.answers.iter();
        let written = written.map(|(number, count)| ("write", *number, *count));
        let columns = self.columns.answers();
        let columns = columns.map(|(number, count)| ("column", number, count));
        let others = self.questions.answers().chain(self.walks.answers());
        let others = others.chain(columns);
        for (call, number, count) in judged.chain(stray).chain(others).chain(written) {
            *answers.entry((call, number)).or_default() += count;
        }
        answers
    }

    /// What was said of padding, by call: how many times clean, and how many times not.
    pub fn padding(&self) -> [(&'static str, [u64; 2]); 2] {
        let judged = |clean| self.judged.padding.get(&clean).copied().unwrap_or(0);
        let judged = [true, false].map(|clean| u64::from(judged(clean)));
        [("judge", judged), ("change", self.questions.padding())]
    }

    /// How many accepted files had stray bytes, and how many had none.
    pub fn stray(&self) -> [(&'static str, u64); 2] {
        [
            ("accepted files with stray bytes", self.stray.with),
            ("accepted files without stray bytes", self.stray.without),
        ]
    }

    /// How many inputs of each origin were written, and what the files had that were read back.
    pub fn written(&self) -> Vec<(String, u64)> {
        self.written.met()
    }

    /// How many times zero deltas of the times were met: in accepted files, and where it shows which of the
    /// entries at one position decides.
    pub fn zero_deltas(&self) -> [(&'static str, u64); 5] {
        let files = self.judged.times;
        let [after, before, between] = self.questions.shared();
        [
            ("files with entries at one position", files.shared.into()),
            ("files with entries of one time", files.equal.into()),
            ("changes after a shared position", after),
            ("changes before a shared first position", before),
            ("values between the times of one position", between),
        ]
    }

    /// How many values at a time were met by the changes visited.
    pub fn visited(&self) -> [(&'static str, u64); 4] {
        let [all, none, one, several] = self.questions.visited();
        [
            ("values before all changes, each visited", all),
            ("values without changes to visit", none),
            ("values with one change visited", one),
            ("values with several visited, the last answered", several),
        ]
    }

    /// How many texts at a time were met by the answer.
    pub fn texts(&self) -> [(&'static str, u64); 8] {
        let [file, empty, before, unchanged, empty_lent, in_file, driven, undriven] =
            self.questions.texts();
        [
            ("texts of the file", file),
            ("texts of the file, empty", empty),
            ("lent texts before later changes", before),
            ("lent texts of facilities without changes", unchanged),
            ("lent texts, empty", empty_lent),
            ("lent texts that lie in the file", in_file),
            ("texts asked of another kind, driven", driven),
            ("texts asked of another kind, not driven", undriven),
        ]
    }

    /// How many columns and items of each sort were met.
    pub fn columns(&self) -> impl Iterator<Item = (&'static str, u64)> + '_ {
        self.columns.met()
    }

    /// How many times 64-bit times were met: accepted files with them, and times outside 32 bits.
    pub fn long_times(&self) -> [(&'static str, u64); 6] {
        let [below, past, asked_below, asked_past, asked_outside] = self.questions.outside();
        [
            ("files with 64-bit times", self.judged.times.long.into()),
            ("changes of times below 0", below),
            ("changes of times past 32 bits", past),
            ("values below 0 by 64-bit times", asked_below),
            ("values past 32 bits by 64-bit times", asked_past),
            ("values outside 32 bits by 32-bit times", asked_outside),
        ]
    }
}
