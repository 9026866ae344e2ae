//! The proved column against the independent reader: every answer, and every byte and item of the lent memory and
//! around it; and its items beside the proved single questions.

use std::collections::{BTreeMap, BTreeSet};

use lxt::{Item, Refusal, TextAt, Value, LONGEST_COLUMN};
use lxt_generate::Random;
use lxt_reference::{Judged, Kind};

use crate::questions::{lent, marked, sample};

/// Items on either side of the lent ones, which nothing may write.
const AROUND: usize = 3;

/// The most bytes of bits that are lent for a column here.
const LONGEST_BITS: usize = 1 << 20;

/// What columns are to be met, besides the refusals.
const MET: [&str; 29] = [
    "columns of an empty list",
    "columns of an empty list without facilities",
    "columns with repeats",
    "columns with an alias",
    "columns with an alias and its root",
    "columns of one kind",
    "columns of several kinds",
    "columns of 4,096 numbers",
    "columns with exactly the room of their bits",
    "columns with room for more bits",
    "columns with room for more items",
    "items of bits",
    "items of initial symbols",
    "items of reals",
    "items of texts of the file",
    "items of empty texts of the file",
    "items of lent texts",
    "items of empty lent texts",
    "items that are not driven",
    "items beside single questions",
    "columns refused for the first number",
    "columns refused for a middle number",
    "columns refused for the last number",
    "columns refused for a number, with too little room too",
    "columns refused for a byte of room",
    "columns refused for an item of room",
    "columns refused for a byte and an item of room",
    "columns of 4,097 numbers, all below n",
    "columns of 4,097 numbers of a refused file",
];

/// What was compared.
#[derive(Default)]
pub struct Seen {
    /// How many columns by their answer, 0 or a refusal's number.
    answers: BTreeMap<u8, u64>,
    met: BTreeMap<&'static str, u64>,
}

impl Seen {
    /// How many columns were answered, as 0, or refused, as the number.
    pub fn answers(&self) -> impl Iterator<Item = (u8, u64)> + '_ {
        self.answers.iter().map(|(number, count)| (*number, *count))
    }

    /// How many columns and items of each sort were met.
    pub fn met(&self) -> impl Iterator<Item = (&'static str, u64)> + '_ {
        MET.iter()
            .map(|what| (*what, self.met.get(what).copied().unwrap_or(0)))
    }

    pub fn report(&self, what: &str) {
        let total: u64 = self.answers.values().sum();
        println!("{what}: {total} columns {:?}", self.answers);
        for (what, count) in self.met() {
            println!("  {count:8} {what}");
        }
    }

    fn meet(&mut self, what: &'static str, met: bool) {
        assert!(MET.contains(&what), "{what}");
        if met {
            *self.met.entry(what).or_default() += 1;
        }
    }
}

/// The independent reader's item as the numbers of C.
fn plain(item: lxt_reference::Item) -> Item {
    use lxt_reference::Item as Of;
    let (what, start, length, real) = match item {
        Of::Bits { start, width } => (0, start as u64, width.into(), 0),
        Of::Real { bits } => (1, 0, 0, bits),
        Of::Text { start, length } => (2, start.into(), length.into(), 0),
        Of::NotDriven => (3, 0, 0, 0),
        Of::LentText { length } => (4, 0, length as u64, 0),
    };
    Item {
        what,
        start,
        length,
        real,
    }
}

/// Items of marks, none of whose numbers a column writes, with `room` of them lent in their middle.
fn marked_items(room: usize) -> Vec<Item> {
    let mark = |at: usize| 0x8000_0000_0000_0000 | (at as u64).wrapping_mul(0x9E37_79B9) << 8;
    let item = |at: usize| Item {
        what: mark(4 * at),
        start: mark(4 * at + 1),
        length: mark(4 * at + 2),
        real: mark(4 * at + 3),
    };
    (0..AROUND + room + AROUND).map(item).collect()
}

/// What a column asks for, and the room that is lent for it.
#[derive(Clone, Copy)]
struct Question<'q> {
    list: &'q [u32],
    time: i64,
    text: &'q [u8],
    room: usize,
    items_room: usize,
}

/// What the independent reader knows of an accepted file.
struct Known<'a> {
    judged: Judged<'a>,
    n: u32,
    /// Of each facility the time of its root's oldest change.
    oldest: Vec<Option<i64>>,
}

impl<'a> Known<'a> {
    fn of(file: &'a [u8]) -> Result<Self, u8> {
        let judged = Judged::new(file)?;
        let chains = judged.chains();
        let mut bits = vec![0; lxt::WIDEST];
        let mut oldest = |facility| {
            let root = judged.root(facility).expect("a root");
            let offset = chains[root as usize].last()?;
            let read = judged.change(facility, *offset, &mut bits);
            Some(read.expect("a change").time)
        };
        let n = chains.len() as u32;
        Ok(Known {
            oldest: (0..n).map(&mut oldest).collect(),
            judged,
            n,
        })
    }

    /// The width of a facility; 0 where there is none.
    fn width(&self, facility: u32) -> usize {
        self.judged
            .facts(facility)
            .map_or(0, |it| it.width as usize)
    }

    fn widths(&self, list: &[u32]) -> usize {
        list.iter().map(|facility| self.width(*facility)).sum()
    }

    fn kind(&self, facility: u32) -> Kind {
        self.judged.facts(facility).expect("facts").kind
    }

    fn root(&self, facility: u32) -> u32 {
        self.judged.root(facility).expect("a root")
    }

    fn is_alias(&self, facility: u32) -> bool {
        self.root(facility) != facility
    }

    /// Whether a change of the facility is there at a time.
    fn is_driven(&self, facility: u32, time: i64) -> bool {
        self.oldest[facility as usize].is_some_and(|oldest| oldest <= time)
    }
}

/// A file that columns are asked of, and what was compared.
struct Asked<'a> {
    file: &'a [u8],
    known: &'a Result<Known<'a>, u8>,
    what: &'a str,
    seen: &'a mut Seen,
}

impl Asked<'_> {
    /// Asks both for a column, and gives the proved items and symbols where it is not refused.
    fn column(&mut self, asked: Question) -> Option<(Vec<Item>, Vec<u8>)> {
        let Question {
            list,
            time,
            text,
            room,
            items_room,
        } = asked;
        let (mut bits, mut items) = (marked(room), marked_items(items_room));
        let lent_items = &mut items[AROUND..AROUND + items_room];
        let proved = lxt::column(self.file, time, list, text, lent(&mut bits), lent_items);
        let proved = proved.map_err(Refusal::number);

        let (mut expected_bits, mut expected_items) = (marked(room), vec![None; items_room]);
        let expected = self.known.as_ref().map_err(|number| *number);
        let expected = expected.and_then(|it| {
            let (bits, items) = (lent(&mut expected_bits), &mut expected_items);
            it.judged.column(time, list, text, bits, items)
        });
        let mut all = marked_items(items_room);
        for (item, expected) in all[AROUND..].iter_mut().zip(&expected_items) {
            *item = expected.map_or(*item, plain);
        }
        if proved != expected || bits != expected_bits || items != all {
            panic!(
                "a column of {}\nlist {:?} at {time}, {} bytes of text, room {room}, {items_room}\n\
                 proved   {proved:?} {:02X?} {:?}\nexpected {expected:?} {:02X?} {:?}\nfile {:02X?}",
                self.what,
                &list[..list.len().min(100)],
                text.len(),
                &bits[..bits.len().min(1_000)],
                &items[..items.len().min(100)],
                &expected_bits[..bits.len().min(1_000)],
                &all[..items.len().min(100)],
                &self.file[..self.file.len().min(10_000)]
            );
        }
        let number = expected.err().unwrap_or(0);
        *self.seen.answers.entry(number).or_default() += 1;
        self.count(&asked, number, &expected_items);
        expected.ok().map(|_| {
            items.drain(..AROUND);
            items.truncate(list.len());
            (items, lent(&mut bits).to_vec())
        })
    }

    /// Counts what a column shows.
    fn count(&mut self, asked: &Question, number: u8, items: &[Option<lxt_reference::Item>]) {
        let (list, count, seen) = (asked.list, asked.list.len(), &mut *self.seen);
        let Ok(known) = self.known else {
            let long = count > LONGEST_COLUMN;
            return seen.meet("columns of 4,097 numbers of a refused file", long);
        };
        let widths = known.widths(list);
        match number {
            18 => {
                let first = list.iter().position(|it| *it >= known.n);
                let first = first.expect("a number that is refused");
                let last = first > 0 && first + 1 == count;
                seen.meet("columns refused for the first number", first == 0);
                let middle = first > 0 && !last;
                seen.meet("columns refused for a middle number", middle);
                seen.meet("columns refused for the last number", last);
                let short = asked.room < widths || asked.items_room < count;
                let what = "columns refused for a number, with too little room too";
                seen.meet(what, short);
            }
            21 => {
                let byte = asked.room + 1 == widths;
                let item = asked.items_room + 1 == count;
                let (bits, items) = (asked.room >= widths, asked.items_room >= count);
                seen.meet("columns refused for a byte of room", byte && items);
                seen.meet("columns refused for an item of room", item && bits);
                let what = "columns refused for a byte and an item of room";
                seen.meet(what, byte && item);
            }
            35 => {
                let below = list.iter().all(|it| *it < known.n);
                seen.meet("columns of 4,097 numbers, all below n", below);
            }
            _ => {
                let items = items.iter().map_while(|it| *it);
                self.count_answered(asked, known, widths, Vec::from_iter(items));
            }
        }
    }

    fn count_answered(
        &mut self,
        asked: &Question,
        known: &Known,
        widths: usize,
        items: Vec<lxt_reference::Item>,
    ) {
        use lxt_reference::Item as Of;
        let (list, seen) = (asked.list, &mut *self.seen);
        assert_eq!(items.len(), list.len());
        let numbers = BTreeSet::from_iter(list.iter().copied());
        let aliases = || numbers.iter().filter(|it| known.is_alias(**it));
        let with_root = aliases().any(|it| numbers.contains(&known.root(*it)));
        let kinds = BTreeSet::from_iter(numbers.iter().map(|it| known.kind(*it)));
        let exact = widths > 0 && asked.room == widths;
        for (what, met) in [
            ("columns of an empty list", list.is_empty()),
            ("columns of an empty list without facilities", known.n == 0),
            ("columns with repeats", numbers.len() < list.len()),
            ("columns with an alias", aliases().count() > 0),
            ("columns with an alias and its root", with_root),
            ("columns of one kind", kinds.len() == 1),
            ("columns of several kinds", kinds.len() > 1),
            ("columns of 4,096 numbers", list.len() == LONGEST_COLUMN),
            ("columns with exactly the room of their bits", exact),
            ("columns with room for more bits", asked.room > widths),
            (
                "columns with room for more items",
                asked.items_room > list.len(),
            ),
        ] {
            seen.meet(what, met);
        }
        // Of a list that repeats one number some items say it all.
        for (facility, item) in list.iter().zip(items).take(32) {
            let driven = known.is_driven(*facility, asked.time);
            let what = match item {
                Of::Bits { .. } if driven => "items of bits",
                Of::Bits { .. } => "items of initial symbols",
                Of::Real { .. } => "items of reals",
                Of::Text { length: 1.., .. } => "items of texts of the file",
                Of::Text { .. } => "items of empty texts of the file",
                Of::LentText { length: 1.. } => "items of lent texts",
                Of::LentText { .. } => "items of empty lent texts",
                Of::NotDriven => "items that are not driven",
            };
            seen.meet(what, true);
        }
    }

    /// Compares so many items of a column with the proved single questions.
    fn one_by_one(&mut self, asked: Question, items: &[Item], bits: &[u8], most: usize) {
        let (file, time, text) = (self.file, asked.time, asked.text);
        let mut room = vec![0; lxt::WIDEST];
        for place in sample(&Vec::from_iter(0..items.len()), most) {
            let (facility, item) = (asked.list[place], items[place]);
            let lookup = lxt::value_at(file, facility, time, &mut room);
            let single = match lookup.expect("a value").value {
                Value::Bits { width } => {
                    let symbols = &bits[item.start as usize..][..width as usize];
                    assert_eq!(symbols, &room[..width as usize], "{}", self.what);
                    [0, item.start, width.into(), 0]
                }
                Value::Real { bits, .. } => [1, 0, 0, bits],
                Value::Text { start, length } => [2, start.into(), length.into(), 0],
                _ => match lxt::text_at(file, facility, time, text) {
                    Ok(TextAt::Lent(lent)) => [4, 0, lent.len() as u64, 0],
                    Ok(TextAt::OtherKind) => [3, 0, 0, 0],
                    other => panic!("{other:?} of {}", self.what),
                },
            };
            let ours = [item.what, item.start, item.length, item.real];
            assert_eq!(ours, single, "{facility} at {time} of {}", self.what);
            self.seen.meet("items beside single questions", true);
        }
    }

    /// A list with room that is enough, more, one short of each and of both, and the list with a number that is not
    /// below n at the start, in the middle and at the end.
    fn list(&mut self, list: &[u32], known: &Known, random: &mut Random) {
        let (widths, count) = (known.widths(list), list.len());
        if widths > LONGEST_BITS {
            return;
        }
        let third = self.file.len() / 3;
        let in_file = &self.file[third..][..third.min(64)];
        let texts = [&b""[..], b"none", b"\0two\0\0", in_file];
        for time in times(&known.judged, random) {
            let question = Question {
                list,
                time,
                text: random.pick(&texts),
                room: widths,
                items_room: count,
            };
            if let Some((items, bits)) = self.column(question) {
                let most = if self.file.len() <= 4_000 { 12 } else { 2 };
                self.one_by_one(question, &items, &bits, most);
            }
            self.column(Question {
                room: widths + random.below(9),
                items_room: count + random.below(9),
                ..question
            });
        }
        for (less, items_less) in [(1, 0), (0, 1), (1, 1)] {
            self.column(Question {
                list,
                room: widths.saturating_sub(less),
                items_room: count.saturating_sub(items_less),
                ..NOTHING
            });
        }
        let wrong = random.pick(&[known.n, known.n + 1, u32::MAX]);
        let right = &list[..count.min(LONGEST_COLUMN - 1)];
        for place in [0, right.len() / 2, right.len()] {
            let mut list = right.to_vec();
            list.insert(place, wrong);
            for (room, items_room) in [(0, 0), (widths, list.len())] {
                self.column(Question {
                    list: &list,
                    room,
                    items_room,
                    ..NOTHING
                });
            }
        }
    }
}

/// A column of an empty list, without room.
const NOTHING: Question = Question {
    list: &[],
    time: 0,
    text: b"none",
    room: 0,
    items_room: 0,
};

/// Lists that are asked of an accepted file: some of its facilities in any order with repeats, an alias and its root,
/// those of one kind, and sometimes one number as often as a column takes it.
fn lists(known: &Known, random: &mut Random) -> Vec<Vec<u32>> {
    let all = Vec::from_iter(0..known.n);
    let mut some = sample(&all, 24);
    if let Some(alias) = all.iter().find(|it| known.is_alias(**it)) {
        some.extend([*alias, known.root(*alias)]);
    }
    for _ in 0..random.below(4) {
        some.extend(some.first().copied());
        random.shuffle(&mut some);
    }
    let kind = random.pick(&[Kind::Bits, Kind::Integer, Kind::Real, Kind::Text]);
    let of_kind = all.iter().copied().filter(|it| known.kind(*it) == kind);
    let mut lists = vec![some, of_kind.take(9).collect()];
    let narrow = all.iter().rfind(|it| known.width(**it) <= 64);
    if let (Some(facility), true) = (narrow, random.chance(1, 8)) {
        lists.push(vec![*facility; LONGEST_COLUMN]);
    }
    lists
}

/// Times that are asked about: one of the ends of the ranges, and next to entries of the file's times.
fn times(judged: &Judged, random: &mut Random) -> Vec<i64> {
    let entries = Vec::from_iter(judged.entries().into_iter().map(|it| it.1));
    let ends = [i64::MIN, -1, 0, 0xFFFF_FFFF, 0x1_0000_0000, i64::MAX];
    let mut times = vec![random.pick(&ends)];
    if !entries.is_empty() {
        let time = random.pick(&entries);
        times.extend([time, time.saturating_sub(1)]);
        times.push(random.pick(&entries).saturating_add(1));
    }
    times
}

/// Asks for columns of a file.
pub fn compare(file: &[u8], what: &str, seen: &mut Seen) {
    let known = Known::of(file);
    let mut asked = Asked {
        file,
        known: &known,
        what,
        seen,
    };
    for (room, items_room) in [(0, 0), (3, 2)] {
        asked.column(Question {
            room,
            items_room,
            ..NOTHING
        });
    }
    // Too many numbers, all of them facilities or none.
    let n = known.as_ref().map_or(1, |it| it.n);
    for number in [0, n] {
        asked.column(Question {
            list: &[number; LONGEST_COLUMN + 1],
            ..NOTHING
        });
    }
    match &known {
        Ok(known) => {
            let mut random = Random::new(file.len() as u64);
            for list in lists(known, &mut random) {
                asked.list(&list, known, &mut random);
            }
        }
        Err(_) => {
            for list in [&[0][..], &[0, u32::MAX]] {
                for (room, items_room) in [(0, 0), (40, 2)] {
                    asked.column(Question {
                        list,
                        room,
                        items_room,
                        ..NOTHING
                    });
                }
            }
        }
    }
}
