//! Columns: the values of many facilities at one time by one call, beside judging alone, beside asking one by one, and
//! beside safe Rust that judges once.

use std::collections::BTreeSet;
use std::hint::black_box;

use crate::ratios::{shape, MB};
use crate::timing::{grouped, median, seconds, shown, used};
use lxt::Item;
use lxt_generate::large;
use lxt_reference::{Judged, Kind};

/// How many numbers of a list are asked one by one at most; the time of all is worked out from theirs.
const SAMPLE: usize = 64;

/// A file and the column that is asked of it.
struct Asked {
    name: &'static str,
    file: Vec<u8>,
    list: Vec<u32>,
    time: i64,
    /// Of each number of the list: whether it is a text.
    texts: Vec<bool>,
    bits: Vec<u8>,
    items: Vec<Item>,
    visited: u64,
    /// How many roots the list leads to.
    roots: usize,
}

impl Asked {
    fn new(name: &'static str, file: Vec<u8>, list: Vec<u32>, time: i64) -> Self {
        let judged = Judged::new(&file).expect("an accepted trace");
        let facts = |facility: &u32| judged.facts(*facility).expect("facts");
        let texts = list.iter().map(|it| facts(it).kind == Kind::Text);
        let texts = Vec::from_iter(texts);
        let roots = list.iter().map(|it| judged.root(*it).expect("a root"));
        let roots = BTreeSet::from_iter(roots).len();
        let widths = list.iter().map(|it| facts(it).width).sum::<u32>();
        let mut bits = vec![0; widths as usize];
        let mut items = vec![None; list.len()];
        let sum = judged.column(time, &list, b"none", &mut bits, &mut items);
        let mut asked = Asked {
            name,
            bits: vec![0; widths as usize],
            items: vec![Item::default(); list.len()],
            visited: sum.expect("a column"),
            roots,
            texts,
            time,
            list,
            file,
        };
        assert_eq!(asked.column(), asked.visited);
        assert!(asked.bits == bits);
        asked
    }

    /// All facilities at the time of the change in the middle of all.
    fn of_all(name: &'static str, file: Vec<u8>) -> Self {
        let judged = Judged::new(&file).expect("an accepted trace");
        let n = judged.summary().facilities;
        let all = judged.full_list(&vec![1; n as usize]).expect("a list");
        let (facility, offset) = all[all.len() / 2];
        let middle = judged.change(facility, offset, &mut [0; 4_096]);
        let time = middle.expect("a change").time;
        Asked::new(name, file, Vec::from_iter(0..n), time)
    }

    fn column(&mut self) -> u64 {
        let (file, list) = (black_box(&self.file), &self.list);
        let (bits, items) = (&mut self.bits, &mut self.items);
        let sum = lxt::column(file, self.time, list, b"none", bits, items);
        sum.expect("a column")
    }

    /// Safe Rust that judges once.
    fn safe(&mut self, items: &mut [Option<lxt_reference::Item>]) {
        let file = black_box(&self.file);
        let judged = Judged::new(file).expect("an accepted trace");
        used(judged.column(self.time, &self.list, b"none", &mut self.bits, items));
    }

    /// The places of the list that are asked one by one: all, or some evenly.
    fn places(&self) -> Vec<usize> {
        let places = Vec::from_iter(0..self.list.len());
        lxt_compare::questions::sample(&places, SAMPLE)
    }

    /// The value of a text with the default, or the value of another facility.
    fn one(&mut self, place: usize) {
        let (file, facility) = (black_box(&self.file), self.list[place]);
        match self.texts[place] {
            true => used(lxt::text_at(file, facility, self.time, b"none")),
            false => used(lxt::value_at(file, facility, self.time, &mut self.bits)),
        }
    }
}

fn inputs() -> Vec<Asked> {
    let mut inputs = Vec::new();
    for (name, file) in lxt_compare::traces(usize::MAX) {
        if name.starts_with("des") {
            inputs.push(Asked::of_all("des", file));
        }
    }
    let many = large(&shape(MB, 4_096, 8));
    inputs.push(Asked::of_all("8-bit signals", many));
    // One root with all changes, before all of them and in their middle.
    let one = large(&shape(MB, 1, 8));
    let middle = Asked::of_all("", one.clone()).time;
    for (name, time) in [
        ("one signal, from its middle", middle),
        ("one signal, before all", i64::MIN),
    ] {
        inputs.push(Asked::new(name, one.clone(), vec![0; 4_096], time));
    }
    inputs
}

/// The median seconds of judging, of the column, of all numbers one by one and of safe Rust, in turn.
fn times(asked: &mut Asked) -> [f64; 4] {
    let mut items = vec![None; asked.list.len()];
    let (places, count) = (asked.places(), asked.list.len());
    let mut times = [(); 4].map(|()| Vec::new());
    for _ in 0..9 {
        times[0].push(seconds(|| used(lxt::judge(black_box(&asked.file)))));
        times[1].push(seconds(|| used(asked.column())));
        let some = seconds(|| places.iter().for_each(|place| asked.one(*place)));
        times[2].push(some * count as f64 / places.len() as f64);
        times[3].push(seconds(|| asked.safe(&mut items)));
    }
    times.map(median)
}

pub fn print() {
    println!("\nColumns: all values of a list at one time, by one call");
    println!("One by one: {SAMPLE} numbers of the list, evenly, were asked, and their time scaled to all\n");
    println!(
        "| Input | Bytes | Numbers | Roots | Visited | Judging | Column | Column / judging | One by one | One by one / column | Safe Rust, judging once | Column / safe Rust |"
    );
    println!("|---|---|---|---|---|---|---|---|---|---|---|---|");
    for mut asked in inputs() {
        let [judging, column, single, safe] = times(&mut asked);
        println!(
            "| {} | {} | {} | {} | {} | {} | {} | {:.2} | {} | {:.0} | {} | {:.2} |",
            asked.name,
            grouped(asked.file.len()),
            grouped(asked.list.len()),
            grouped(asked.roots),
            grouped(asked.visited as usize),
            shown(judging),
            shown(column),
            column / judging,
            shown(single),
            single / column,
            shown(safe),
            column / safe,
        );
    }
}
