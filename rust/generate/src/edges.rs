//! Changes that touch or share bytes: within windows of 8,192 bytes, across their edges, and over several.

use crate::draft::{change_bytes, least_k, unused_bits, Draft};
use crate::random::Random;
use crate::tables::{append_tables, bits, Geometry, INTEGER, REAL, TEXT};
use crate::valid::{pack, rubbish};
use crate::Case;

/// Windows have so many bytes and start at multiples of it.
pub const WINDOW: usize = 8_192;

/// How two changes lie that follow each other.
#[derive(Clone, Copy, Debug, PartialEq, Eq)]
enum Meeting {
    Apart,
    Touch,
    /// The last byte of the lower one is the command byte of the upper one.
    ShareOne,
    /// The zero of a text is the first delta byte of the change above it.
    ShareTwo,
    /// The upper one starts within the data of the lower one.
    Within,
}

/// Where two changes meet.
#[derive(Clone, Copy)]
enum Place {
    /// The upper one starts here from an edge.
    UpperAt(isize),
    /// The lower one starts here from an edge.
    LowerAt(isize),
    Anywhere,
}

/// A change before it is placed.
struct Event {
    root: usize,
    command: u8,
    data: Vec<u8>,
}

struct Laying<'a> {
    random: &'a mut Random,
    draft: Draft,
    forms: Vec<Geometry>,
    /// The offset of the newest change of each root, or 0.
    newest: Vec<usize>,
    /// The offset of the lowest change.
    lowest: usize,
    /// How bytes are shared, if they are.
    shared: Option<Meeting>,
}

/// A trace whose changes meet as said, which is accepted unless two share a byte.
pub fn edges(seed: u64) -> Case {
    let mut random = Random::new(seed);
    let forms = forms(&mut random);
    let mut draft = Draft::new(4);
    let tables_first = random.chance(1, 2);
    if tables_first {
        append_tables(&mut draft, &forms);
    }
    let mut laying = Laying {
        newest: vec![0; forms.len()],
        random: &mut random,
        draft,
        forms,
        lowest: usize::MAX,
        shared: None,
    };
    laying.lay();
    let Laying {
        mut draft,
        forms,
        newest,
        lowest,
        shared,
        ..
    } = laying;
    if !tables_first {
        append_tables(&mut draft, &forms);
    }
    draft.set_item(0x01, random.pick(&[4, lowest]) as u32);
    for (root, offset) in newest.iter().enumerate() {
        draft.set_word(draft.sync_at(root), *offset as u32);
    }
    let (origin, expected) = match shared {
        None => ("edges, apart", Ok(())),
        Some(Meeting::ShareOne) => ("edges, one byte shared", Err(17)),
        Some(Meeting::ShareTwo) => ("edges, two bytes shared", Err(17)),
        Some(_) => ("edges, one within another", Err(17)),
    };
    Case {
        origin: origin.to_string(),
        bytes: draft.bytes(),
        expected: Some(expected),
    }
}

fn forms(random: &mut Random) -> Vec<Geometry> {
    let n = match random.below(10) {
        0 => random.within(20, 60),
        _ => random.within(1, 7),
    };
    let widths = [1, 2, 3, 7, 8, 9, 31, 32, 33, 64, 1_001, 4_095, 4_096];
    let mut form = || match random.below(10) {
        0 => INTEGER,
        1 => REAL,
        2 | 3 => TEXT,
        4 => bits(random.within(1, 4_096) as u32),
        _ => bits(random.pick(&widths)),
    };
    (0..n).map(|_| form()).collect()
}

impl Laying<'_> {
    fn lay(&mut self) {
        // One place, if any, where bytes are shared; all others only touch or lie apart.
        let scenes = self.random.within(1, 6) as usize;
        let sharing = match self.random.chance(1, 2) {
            true => self.random.below(scenes),
            false => scenes,
        };
        let edges = self.random.pick(&[1, 1, 1, 2, 3]);
        let at_edges: Vec<usize> = (0..edges).map(|_| self.random.below(scenes)).collect();
        for scene in 0..scenes {
            let meeting = match scene == sharing {
                true => self.random.pick(&[
                    Meeting::ShareOne,
                    Meeting::ShareOne,
                    Meeting::ShareOne,
                    Meeting::ShareTwo,
                    Meeting::Within,
                ]),
                false => self
                    .random
                    .pick(&[Meeting::Touch, Meeting::Touch, Meeting::Apart]),
            };
            let from_edge = self.random.within_signed(-3, 3) as isize;
            let place = match at_edges.contains(&scene) {
                true if self.random.chance(1, 3) => Place::LowerAt(from_edge),
                true => Place::UpperAt(from_edge),
                false => Place::Anywhere,
            };
            self.scene(meeting, place);
            for _ in 0..self.random.below(4) {
                self.single();
            }
        }
        let rest = match self.random.below(16) {
            // T at an edge, where the tables lie before.
            0 => self.draft.end().next_multiple_of(WINDOW) + self.random.below(2),
            1..=8 => self.draft.end() + self.random.below(5),
            _ => self.draft.end(),
        };
        self.gap_to(rest);
    }

    /// Bytes that nothing points to, up to an offset.
    fn gap_to(&mut self, offset: usize) {
        let any = self.random.chance(1, 2);
        let byte = self.random.byte();
        while self.draft.end() < offset {
            let next = if any { self.random.byte() } else { byte };
            self.draft.append(&[next]);
        }
    }

    fn any_event(&mut self, root: usize, long: bool) -> Event {
        let random = &mut *self.random;
        let (command, data) = match self.forms[root] {
            INTEGER if random.chance(2, 3) => (0, random.word().to_be_bytes().to_vec()),
            INTEGER => (random.pick(&[3, 4]), Vec::new()),
            REAL => (random.below(16) as u8, random.any().to_be_bytes().to_vec()),
            TEXT => {
                let length = match long {
                    true => {
                        let windows = random.pick(&[1, 1, 2]) * WINDOW;
                        windows + random.below(20) - random.below(20)
                    }
                    false => random.below(30),
                };
                let mut data: Vec<u8> = (0..length).map(|_| random.byte().max(1)).collect();
                data.push(0);
                (random.below(16) as u8, data)
            }
            [_, msb, _, _] => {
                let command = random.pick(&[0, 1, 2, 2, 3, 4, 7, 11]);
                let data = match [(1, 2), (2, 4), (4, 9)].get(command) {
                    Some((symbol, count)) => {
                        let codes = (0..=msb).map(|_| random.below(*count) as u8);
                        let mut data = pack(&Vec::from_iter(codes), *symbol);
                        let unused = unused_bits((msb as usize + 1) * symbol);
                        if let (Some(last), 1.., true) =
                            (data.last_mut(), unused, random.chance(1, 4))
                        {
                            *last |= rubbish(random, unused);
                        }
                        data
                    }
                    None => Vec::new(),
                };
                (command as u8, data)
            }
        };
        Event {
            root,
            command,
            data,
        }
    }

    /// Puts a change at an offset, over bytes that are there already, and gives its end.
    fn put(&mut self, event: &Event, offset: usize, k: usize) -> usize {
        let previous = self.newest[event.root];
        let bytes = change_bytes(offset, previous, event.command, k, &event.data);
        let here = self.draft.end() - offset;
        self.draft.set(offset, &bytes[..here.min(bytes.len())]);
        if bytes.len() > here {
            self.draft.append(&bytes[here..]);
        }
        self.newest[event.root] = offset;
        self.lowest = self.lowest.min(offset);
        offset + bytes.len()
    }

    /// The least number of delta bytes of a root's next change at an offset.
    fn least(&self, root: usize, offset: usize) -> usize {
        least_k(offset - self.newest[root] - 2)
    }

    fn any_k(&mut self, root: usize, offset: usize) -> usize {
        let least = self.least(root, offset) as u64;
        self.random.within(least, 4) as usize
    }

    /// A change that touches what is below, or nearly.
    fn single(&mut self) {
        let root = self.random.below(self.forms.len());
        let event = self.any_event(root, false);
        // A jump over some windows now and then.
        let gap = match self.random.below(60) {
            0 => self.random.below(3 * WINDOW),
            1..=30 => 0,
            _ => self.random.below(4),
        };
        self.gap_to(self.draft.end() + gap);
        let offset = self.draft.end();
        let k = self.any_k(root, offset);
        self.put(&event, offset, k);
    }

    /// Two changes that meet.
    fn scene(&mut self, mut meeting: Meeting, place: Place) {
        let lower = match meeting {
            Meeting::ShareTwo => self.root_of(|form| form == TEXT),
            // Any bytes serve as a real number or as symbols of one bit.
            Meeting::Within => self.root_of(|form| form == REAL || form[3] == 0 && form[1] > 40),
            _ => None,
        };
        if lower.is_none() && matches!(meeting, Meeting::ShareTwo | Meeting::Within) {
            meeting = Meeting::ShareOne;
        }
        let lower = lower.unwrap_or_else(|| self.random.below(self.forms.len()));
        let mut upper = self.random.below(self.forms.len());
        let long = self.random.chance(1, 4) && meeting != Meeting::ShareOne;
        let mut event = self.any_event(lower, long);
        if meeting == Meeting::Within && self.forms[lower] != REAL {
            let width = self.forms[lower][1] as usize + 1;
            event.command = 0;
            event.data = vec![self.random.byte(); width.div_ceil(8)];
        }
        // The zero of a short text is the command byte of the same root's next change.
        if meeting == Meeting::ShareOne && self.forms[lower] == TEXT {
            upper = lower;
        }

        // Room below for one more change of the lower root.
        let least = self.draft.end() + 80;
        let length = 5 + event.data.len();
        let edge = |least: usize| (least + 4).next_multiple_of(WINDOW);
        let offset = match place {
            Place::UpperAt(from) => (edge(least + length) as isize + from) as usize - length,
            Place::LowerAt(from) => (edge(least) as isize + from) as usize,
            Place::Anywhere => least + self.random.below(20),
        };
        // The lower one's length may be less than the greatest: it goes up by what is missing.
        let k = self.any_k(lower, offset);
        let up = match place {
            Place::UpperAt(_) => 4 - k,
            _ => 0,
        };
        self.meet(meeting, (event, offset + up, k), upper, place);
    }

    fn root_of(&mut self, of: fn(Geometry) -> bool) -> Option<usize> {
        let roots: Vec<usize> = (0..self.forms.len())
            .filter(|root| of(self.forms[*root]))
            .collect();
        match roots.is_empty() {
            true => None,
            false => Some(self.random.pick(&roots)),
        }
    }

    /// Puts the lower change and the upper one. Where they cannot share a byte, they touch.
    fn meet(
        &mut self,
        meeting: Meeting,
        (mut event, mut offset, mut k): (Event, usize, usize),
        upper: usize,
        place: Place,
    ) {
        let mut next = self.any_event(upper, false);
        let text = self.forms[event.root] == TEXT;
        if let (Place::UpperAt(_), Meeting::ShareOne) = (place, meeting) {
            offset += 1;
        }
        let mut upper_k = None;
        if meeting == Meeting::ShareOne && event.data.is_empty() {
            // The last delta byte of the lower one is the command byte of the upper one: a change of the
            // lower root below makes it so. The length is 2 now.
            if let Place::UpperAt(_) = place {
                offset += k - 1;
            }
            let byte = 0x30 | next.command;
            let below = offset - 2 - usize::from(byte);
            self.gap_to(below);
            let step = Event {
                root: event.root,
                command: 3,
                data: Vec::new(),
            };
            self.put(&step, below, 4);
            k = 1;
            upper_k = Some(4);
        }
        if meeting == Meeting::ShareTwo && text {
            // Without its zero.
            event.data.pop();
        }
        self.gap_to(offset);
        let end = self.put(&event, offset, k);

        let start = match meeting {
            Meeting::ShareOne => end - 1,
            Meeting::Within => end - 2 - self.random.below(event.data.len() - 3),
            Meeting::Apart => end + 1 + self.random.below(3),
            _ => end,
        };
        let reach = start >= self.newest[upper] + 2;
        match meeting {
            Meeting::ShareOne if reach => {
                let k = upper_k.unwrap_or_else(|| self.least(upper, start));
                if text {
                    next.command = 0;
                }
                let byte = (k as u8 - 1) << 4 | next.command;
                let codes = event.command == 2 && self.forms[event.root][3] == 0;
                let possible = match () {
                    _ if text => byte == 0,
                    _ if event.data.is_empty() => self.draft.byte(start) == byte,
                    // Of an odd width the last nibble is no code.
                    _ if codes => byte & 0x0F <= 8 || self.forms[event.root][1].is_multiple_of(2),
                    _ => true,
                };
                match possible {
                    true => {
                        self.put(&next, start, k);
                        self.shared = Some(meeting);
                    }
                    false => self.touch(&next),
                }
            }
            Meeting::ShareTwo if text => {
                // The command byte is not 0, and of four delta bytes the first is.
                self.put(&next, start, 4);
                self.shared = Some(meeting);
            }
            Meeting::Within if reach => {
                let k = self.any_k(upper, start);
                self.put(&next, start, k);
                self.shared = Some(meeting);
            }
            Meeting::Apart => {
                self.gap_to(start);
                let k = self.any_k(upper, start);
                self.put(&next, start, k);
            }
            _ => self.touch(&next),
        }
    }

    fn touch(&mut self, event: &Event) {
        let offset = self.draft.end();
        let k = self.any_k(event.root, offset);
        self.put(event, offset, k);
    }
}
