//! Valid traces with stray bytes, which belong to no change and to no section, and with sections that may
//! lie anywhere: at the ends of the file, over other sections and over changes.

use crate::draft::{least_k, Change, Draft, Facility, Kind};
use crate::edges::WINDOW;
use crate::random::Random;
use crate::times::{table_length, LONG_TIMES, SHORT_TIMES};
use crate::valid::{valid_of, Shape};
use crate::Case;

/// A draft, and what the question for its stray bytes is to answer.
#[derive(Clone, Debug)]
pub struct Strays {
    pub draft: Draft,
    /// What is in it, each in a few words.
    pub made: Vec<String>,
    /// How many stray bytes there are, or the refusal.
    pub expected: Result<u32, u8>,
}

impl Strays {
    pub fn case(&self) -> Case {
        Case {
            origin: format!("strays: {}", self.made.join(", ")),
            bytes: self.draft.bytes(),
            expected: Some(self.expected.map(|_| ())),
        }
    }
}

/// A trace for any seed, mostly a small one. It is accepted, unless a timescale or an initial value is out of
/// bounds.
pub fn strays(seed: u64) -> Strays {
    let mut random = Random::new(seed);
    let mut made = Vec::new();
    let mut draft = match random.below(16) {
        0..=3 => in_zeros(&mut random),
        4 => valid_of(&mut random, &Shape::MIDDLE),
        _ => valid_of(&mut random, &Shape::TINY),
    };
    for _ in 0..random.pick(&[0, 0, 1, 2, 4]) {
        let (words, edit) = random.pick(&EDITS);
        if edit(&mut random, &mut draft) {
            made.push(words.to_string());
        }
    }
    let outside = put_sections(&mut random, &mut draft, &mut made);
    let expected = match outside {
        true => Err(8),
        false => Ok(draft.stray_bytes() as u32),
    };
    Strays {
        draft,
        made,
        expected,
    }
}

/// Facilities of one bit without names and changes, and times without entries: after the head of the names
/// all tables are zeros, and may lie over each other in any way.
fn in_zeros(random: &mut Random) -> Draft {
    let n = random.below(6);
    let mut draft = Draft::new(4);
    gap(random, &mut draft);
    let names = draft.append_words(&[n as u32, n as u32]);
    let named_at = |number: usize| names + 8 + 3 * number;
    draft.facilities = (0..n)
        .map(|number| unnamed(number, named_at(number)))
        .collect();
    let room = 16 * n + 20 + random.below(30);
    let zeros = draft.append(&vec![0; room]);
    let end = draft.end();
    let times_tag = random.pick(&[SHORT_TIMES, LONG_TIMES]);
    draft.items = vec![(0x03, names as u32)];
    let mut starts = vec![zeros];
    let mut ends = vec![end, zeros + 3 * n];
    for (tag, length) in [
        (0x04, 16 * n),
        (0x02, 4 * n),
        (times_tag, table_length(times_tag, 0)),
    ] {
        // Where another starts, ends at its end, touches it, or anywhere.
        let start = match random.below(4) {
            0 => random.pick(&starts),
            1 => random.pick(&ends).saturating_sub(length),
            2 => random.pick(&ends),
            _ => random.within(zeros as u64, end as u64) as usize,
        };
        let start = start.clamp(zeros, end - length);
        starts.push(start);
        ends.push(start + length);
        draft.items.push((tag, start as u32));
    }
    let c = random.within(4, end as u64);
    draft.items.push((0x01, c as u32));
    random.shuffle(&mut draft.items);
    draft
}

/// A facility of one bit with an empty name.
fn unnamed(number: usize, name_at: usize) -> Facility {
    Facility {
        name: Vec::new(),
        name_at,
        target: None,
        root: number,
        kind: Kind::Bits,
        width: 1,
        msb: 0,
        lsb: 0,
    }
}

/// Edits that leave the file accepted, in words. Each tells whether the draft had what it needs.
type Edit = (&'static str, fn(&mut Random, &mut Draft) -> bool);

const EDITS: [Edit; 6] = [
    ("a gap before END", gap_before_end),
    ("a newest change is off its chain", leave_out_newest),
    ("older changes are off their chain", leave_out_older),
    ("a change that nothing leads to", copy_change),
    ("a section has left its place", move_section),
    ("an unknown section", add_unknown),
];

/// No byte, one, or some.
fn gap(random: &mut Random, draft: &mut Draft) {
    for _ in 0..random.pick(&[0, 1, 2, 9]) {
        draft.body.push(random.pick(&[0, random.clone().byte()]));
    }
}

fn gap_before_end(random: &mut Random, draft: &mut Draft) -> bool {
    let end = draft.end();
    gap(random, draft);
    draft.end() > end
}

/// Any change with this.
fn any_change(
    random: &mut Random,
    draft: &Draft,
    with: impl Fn(&Change) -> bool,
) -> Option<Change> {
    let changes = Vec::from_iter(draft.changes.iter().filter(|change| with(change)));
    match changes.is_empty() {
        true => None,
        false => Some(changes[random.below(changes.len())].clone()),
    }
}

/// The sync entry leads to the change before the newest one.
fn leave_out_newest(random: &mut Random, draft: &mut Draft) -> bool {
    let newest = |draft: &Draft, root| draft.word(draft.sync_at(root)) as usize;
    let is_newest = |change: &Change| newest(draft, change.root) == change.offset;
    let Some(change) = any_change(random, draft, is_newest) else {
        return false;
    };
    let sync = draft.sync_at(change.root);
    draft.set_word(sync, change.previous as u32);
    draft.changes.retain(|other| other.offset != change.offset);
    true
}

/// A change leads to 0, though its root had older ones.
fn leave_out_older(random: &mut Random, draft: &mut Draft) -> bool {
    let can_end = |change: &Change| change.previous != 0 && least_k(change.offset - 2) <= change.k;
    let Some(change) = any_change(random, draft, can_end) else {
        return false;
    };
    let delta = (change.offset as u32 - 2).to_be_bytes();
    draft.set(change.offset + 1, &delta[4 - change.k..]);
    let stays = |other: &Change| other.root != change.root || other.offset >= change.offset;
    draft.changes.retain(stays);
    for other in &mut draft.changes {
        if other.offset == change.offset {
            other.previous = 0;
        }
    }
    true
}

/// The bytes of a change once more before END.
fn copy_change(random: &mut Random, draft: &mut Draft) -> bool {
    let Some(change) = any_change(random, draft, |_| true) else {
        return false;
    };
    let copy = draft.body[change.offset..change.end].to_vec();
    draft.append(&copy);
    true
}

/// A section that is read lies before END now; where it was nothing points to.
fn move_section(random: &mut Random, draft: &mut Draft) -> bool {
    let tag = random.pick(&draft.needed()[1..]);
    draft.move_to_end(tag);
    true
}

/// A tag that has no section, with an offset in bounds.
fn add_unknown(random: &mut Random, draft: &mut Draft) -> bool {
    let tag = random.within(0x15, 0xFF) as u8;
    let value = random.within(4, draft.end() as u64 - 1);
    draft.add_nearest_end(tag, value as u32);
    true
}

/// Where a section is put.
#[derive(Clone, Copy, Debug, PartialEq, Eq)]
enum Put {
    /// It stays where it is, if it is there.
    Stays,
    Absent,
    /// In bounds, but absent by a 0 nearer END.
    TakenBack,
    /// In bytes of its own.
    Own,
    Anywhere,
    OverAChange,
    /// Over an edge of windows, or next to it.
    AtAnEdge,
    From4,
    EndsAtT,
    Below4,
    OnePastT,
    Outside,
}

const PUTS: [(Put, &str); 12] = [
    (Put::Stays, "stays"),
    (Put::Absent, "absent"),
    (Put::TakenBack, "taken back"),
    (Put::Own, "by itself"),
    (Put::Anywhere, "anywhere"),
    (Put::OverAChange, "over a change"),
    (Put::AtAnEdge, "at an edge"),
    (Put::From4, "from 4"),
    (Put::EndsAtT, "up to T"),
    (Put::Below4, "from below 4"),
    (Put::OnePastT, "one past T"),
    (Put::Outside, "outside"),
];

/// Counts of a section 13, and how many bytes up to T it then has.
const COUNTS: [(&str, u32, usize); 10] = [
    ("counts 0", 0, 4),
    ("counts 0, then a gap", 0, 9),
    ("counts 1", 1, 20),
    ("counts 1, then a gap", 1, 25),
    ("counts 3", 3, 52),
    ("counts 1,100", 1_100, 4 + 16 * 1_100),
    ("counts 1 of 15 bytes", 1, 19),
    ("counts 2 of 16 bytes", 2, 20),
    ("counts FFFFFFFF", u32::MAX, 20),
    // 16 times this is 2^32.
    ("counts 10000000", 0x1000_0000, 20),
];

/// A section to be put, with the least length that a body of it has.
struct Section {
    tag: u8,
    length: usize,
    put: Put,
    /// Where its own bytes start.
    own: usize,
}

/// Puts the sections that may lie anywhere. Tells whether one that is read is out of bounds.
fn put_sections(random: &mut Random, draft: &mut Draft, made: &mut Vec<String>) -> bool {
    let has_real = draft.facilities.iter().any(|it| it.kind == Kind::Real);
    let mut sections = Vec::new();
    for (tag, length) in [(0x05, 1), (0x07, 1), (0x08, 8), (0x14, 8), (0x13, 4)] {
        let (put, words) = any_put(random, tag, has_real);
        let own = draft.end();
        let mut words = words;
        if put == Put::Own && tag == 0x13 {
            words = lay_13(random, draft);
        } else if put == Put::Own {
            let bytes = Vec::from_iter((0..length).map(|_| random.byte()));
            draft.append(&bytes);
        }
        made.push(format!("{tag:02X} {words}"));
        sections.push(Section {
            tag,
            length,
            put,
            own,
        });
    }
    for section in &sections {
        put_section(random, draft, section);
    }
    sections.iter().any(|it| it.tag < 0x08 && is_wrong(it.put))
}

/// Whether a section that is read is refused there.
fn is_wrong(put: Put) -> bool {
    matches!(put, Put::Below4 | Put::OnePastT | Put::Outside)
}

/// Where a section is put. Real facilities need their test as it is, few files are to be refused, and 13 is often
/// one with a count of its own.
fn any_put(random: &mut Random, tag: u8, has_real: bool) -> (Put, &'static str) {
    let (mut put, mut words) = random.pick(&PUTS);
    if tag == 0x13 && random.chance(1, 3) {
        (put, words) = (Put::Own, "");
    }
    let stays = match tag {
        0x08 => has_real,
        0x13 | 0x14 => false,
        _ => is_wrong(put) && random.chance(7, 8),
    };
    match stays || random.chance(1, 4) {
        true => PUTS[0],
        false => (put, words),
    }
}

/// Own bytes of a section 13, the last before END. Gives what it counts.
fn lay_13(random: &mut Random, draft: &mut Draft) -> &'static str {
    let (words, count, room) = random.pick(&COUNTS);
    draft.append_words(&[count]);
    let rest = Vec::from_iter((4..room).map(|_| random.byte()));
    draft.append(&rest);
    words
}

/// Makes the item of a section, nearer END than the others of its tag.
fn put_section(random: &mut Random, draft: &mut Draft, section: &Section) {
    let Section { tag, length, .. } = *section;
    let last = draft.end() - length;
    let anywhere = random.within(4, last as u64) as usize;
    let value = match section.put {
        Put::Stays => return,
        Put::Absent => return draft.items.retain(|(other, _)| *other != tag),
        Put::TakenBack => {
            draft.add_nearest_end(tag, anywhere as u32);
            0
        }
        Put::Own => section.own,
        Put::Anywhere => anywhere,
        Put::OverAChange => over_a_change(random, draft, length).clamp(4, last),
        Put::AtAnEdge => {
            let edge = WINDOW * random.below(draft.end() / WINDOW + 1);
            let start = edge + random.below(2);
            start
                .saturating_sub(random.below(length + 1))
                .clamp(4, last)
        }
        Put::From4 => from_4(random, draft, tag),
        Put::EndsAtT => last,
        Put::Below4 => random.within(1, 3) as usize,
        Put::OnePastT => last + 1,
        Put::Outside => {
            let end = draft.end();
            let past = random.pick(&[end, end + 1, u32::MAX as usize]);
            // All but the first byte, where there are more.
            random.pick(&[end - (length - 1).min(1), past])
        }
    };
    draft.add_nearest_end(tag, value as u32);
}

/// From the start of a change on, up to its end, or with any byte in it; anywhere without a change.
fn over_a_change(random: &mut Random, draft: &Draft, length: usize) -> usize {
    let Some(change) = any_change(random, draft, |_| true) else {
        return random.below(draft.end());
    };
    let first = (change.offset + 1).saturating_sub(length);
    let any = random.within(first as u64, change.end as u64 - 1) as usize;
    let last = change.end.saturating_sub(length);
    random.pick(&[change.offset, last, any, any])
}

/// From 4 on; where nothing has its count yet, 13 may count nearly all bytes up to T.
fn from_4(random: &mut Random, draft: &mut Draft, tag: u8) -> usize {
    let free = draft.stray()[4..8].iter().all(|stray| *stray);
    if tag == 0x13 && free && random.chance(3, 4) {
        draft.set_word(4, (draft.end() as u32 - 8) / 16);
    }
    4
}
