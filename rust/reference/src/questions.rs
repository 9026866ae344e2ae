//! What can be asked about a file, besides the walk. Every call judges the file first; after that
//! the refusals are tested in the order 35, 18, 19, 21.

use crate::chains::{bits_a_symbol, read_chains, spans_of, Chains, Change};
use crate::tables::{read_tables, Trace};
use crate::{
    Changed, Facts, Item, Kind, Lookup, Summary, TextAt, Value, Which, LONGEST_COLUMN,
    LONGEST_NAME, SYMBOLS,
};

/// A file that passed the checks 1 to 17. Its methods answer as the calls of the same name do,
/// without judging the file again.
#[derive(Debug)]
pub struct Judged<'a> {
    trace: Trace<'a>,
    chains: Chains,
}

impl<'a> Judged<'a> {
    /// Does the checks 1 to 17 in their order.
    pub fn new(file: &'a [u8]) -> Result<Self, u8> {
        let trace = read_tables(file)?;
        let chains = read_chains(&trace)?;
        Ok(Judged { trace, chains })
    }

    pub fn summary(&self) -> Summary {
        Summary {
            facilities: self.trace.count() as u32,
            changes: self.trace.changes as u32,
            end: self.trace.end as u32,
            timescale: self.trace.timescale,
            initial: self.trace.initial,
            clean: self.chains.iter().flatten().all(|change| change.clean),
        }
    }

    /// 18: facility number not below n.
    fn facility(&self, facility: u32) -> Result<usize, u8> {
        if (facility as usize) < self.trace.count() {
            Ok(facility as usize)
        } else {
            Err(18)
        }
    }

    /// 19: offset is not on that root's chain. An alias is asked as its root.
    fn on_chain(&self, facility: usize, offset: u32) -> Result<&Change, u8> {
        // Offsets fall along a chain.
        let chain = &self.chains[self.trace.roots[facility]];
        match chain.binary_search_by(|change| offset.cmp(&change.offset)) {
            Ok(found) => Ok(&chain[found]),
            Err(_) => Err(19),
        }
    }

    /// 21: bits and integers need their width, reals and texts no room.
    fn bits_room(&self, facility: usize, bits: &[u8]) -> Result<(), u8> {
        if bits.len() < self.trace.facts[facility].width as usize {
            Err(21)
        } else {
            Ok(())
        }
    }

    pub fn facts(&self, facility: u32) -> Result<Facts, u8> {
        Ok(self.trace.facts[self.facility(facility)?])
    }

    pub fn root(&self, facility: u32) -> Result<u32, u8> {
        Ok(self.trace.roots[self.facility(facility)?] as u32)
    }

    pub fn name(&self, facility: u32, names: &mut [u8]) -> Result<usize, u8> {
        let facility = self.facility(facility)?;
        if names.len() < LONGEST_NAME {
            return Err(21);
        }
        // The rest up to 1,023 becomes zero, bytes from there on stay.
        let name = &self.trace.names[facility];
        names[..name.len()].copy_from_slice(name);
        names[name.len()..LONGEST_NAME].fill(0);
        Ok(name.len())
    }

    pub fn change_before(&self, facility: u32, offset: u32) -> Result<u32, u8> {
        let facility = self.facility(facility)?;
        Ok(self.on_chain(facility, offset)?.previous)
    }

    pub fn change(&self, facility: u32, offset: u32, bits: &mut [u8]) -> Result<Changed, u8> {
        let facility = self.facility(facility)?;
        let change = self.on_chain(facility, offset)?;
        self.bits_room(facility, bits)?;
        Ok(Changed {
            time: self.trace.time(offset),
            value: self.write_value(facility, change, bits),
            clean: change.clean,
        })
    }

    /// The change of highest offset with time <= `time`. An alias is asked as its root.
    fn latest(&self, facility: usize, time: i64) -> Option<&Change> {
        // The chain's first change is that of highest offset.
        let mut chain = self.chains[self.trace.roots[facility]].iter();
        chain.find(|change| self.trace.time(change.offset) <= time)
    }

    pub fn value_at(&self, facility: u32, time: i64, bits: &mut [u8]) -> Result<Lookup, u8> {
        let facility = self.facility(facility)?;
        self.bits_room(facility, bits)?;
        let answered = self.latest(facility, time);
        // All of that root's changes with time after t, plus the change answered, if any.
        let chain = self.chains[self.trace.roots[facility]].iter();
        let later = chain.filter(|change| self.trace.time(change.offset) > time);
        let visited = later.count() + usize::from(answered.is_some());
        Ok(Lookup {
            value: match answered {
                Some(change) => self.write_value(facility, change, bits),
                None => self.write_initial(facility, bits),
            },
            visited: visited as u32,
        })
    }

    /// Ask 11: no bits are written or need room, so that 18 is the only refusal after the file's.
    pub fn text_at(&self, facility: u32, time: i64, text: &[u8]) -> Result<TextAt, u8> {
        let facility = self.facility(facility)?;
        if self.trace.facts[facility].kind != Kind::Text {
            return Ok(TextAt {
                which: Which::OtherKind,
                start: 0,
                length: 0,
            });
        }
        Ok(match self.latest(facility, time) {
            // The zero that ends its data is not part of the text.
            Some(change) => TextAt {
                which: Which::File,
                start: change.data as usize,
                length: (change.end - change.data) as usize - 1,
            },
            None => TextAt {
                which: Which::Lent,
                start: 0,
                length: text.len(),
            },
        })
    }

    /// Ask 4, with the text of Ask 11 and the sum of Ask 7: the values of a list of facilities at one time, a record
    /// for each. Bits lie one after the other. A record that is not written is as it was; so are bytes past the
    /// bits.
    pub fn column(
        &self,
        time: i64,
        facilities: &[u32],
        text: &[u8],
        bits: &mut [u8],
        items: &mut [Option<Item>],
    ) -> Result<u64, u8> {
        if facilities.len() > LONGEST_COLUMN {
            return Err(35);
        }
        // All numbers are tested before any room.
        let numbers = facilities.iter().map(|number| self.facility(*number));
        let numbers = numbers.collect::<Result<Vec<usize>, u8>>()?;
        let widths = numbers
            .iter()
            .map(|number| self.trace.facts[*number].width as usize);
        if bits.len() < widths.sum::<usize>() || items.len() < numbers.len() {
            return Err(21);
        }
        // The chain of each root asked for is gone through once.
        let mut found = vec![None; self.trace.count()];
        let (mut start, mut sum) = (0, 0);
        for (number, item) in numbers.into_iter().zip(items) {
            let root = self.trace.roots[number];
            let (answered, visited) = *found[root].get_or_insert_with(|| self.look_up(root, time));
            let room = &mut bits[start..];
            let value = match answered {
                Some(change) => self.write_value(number, change, room),
                None => self.write_initial(number, room),
            };
            let is_text = self.trace.facts[number].kind == Kind::Text;
            *item = Some(match value {
                Value::Bits { width } => Item::Bits { start, width },
                Value::Real { bits } => Item::Real { bits },
                Value::Text { start, length } => Item::Text { start, length },
                Value::NotDriven if is_text => Item::LentText { length: text.len() },
                Value::NotDriven => Item::NotDriven,
            });
            if let Value::Bits { width } = value {
                start += width as usize;
            }
            sum += visited;
        }
        Ok(sum)
    }

    /// The change of a root that a time answers, if any, and how many changes are visited: those with time after
    /// it, plus the change answered.
    fn look_up(&self, root: usize, time: i64) -> (Option<&Change>, u64) {
        let (mut answered, mut later) = (None, 0);
        // The chain's first change is that of highest offset.
        for change in &self.chains[root] {
            if self.trace.time(change.offset) > time {
                later += 1;
            } else if answered.is_none() {
                answered = Some(change);
            }
        }
        (answered, later + u64::from(answered.is_some()))
    }

    /// The value where no change is answered; symbols are written into the lent bits, which have the room.
    fn write_initial(&self, facility: usize, bits: &mut [u8]) -> Value {
        let facts = self.trace.facts[facility];
        match facts.kind {
            Kind::Bits | Kind::Integer => {
                bits[..facts.width as usize].fill(SYMBOLS[usize::from(self.trace.initial)]);
                Value::Bits { width: facts.width }
            }
            Kind::Real | Kind::Text => Value::NotDriven,
        }
    }

    /// The value of a change; symbols are written into the lent bits, which have the room.
    fn write_value(&self, facility: usize, change: &Change, bits: &mut [u8]) -> Value {
        let facts = self.trace.facts[facility];
        let data = &self.trace.file[change.data as usize..change.end as usize];
        match facts.kind {
            Kind::Bits | Kind::Integer => {
                let symbol_bits = bits_a_symbol(change.command);
                for (place, symbol) in bits[..facts.width as usize].iter_mut().enumerate() {
                    let code = if symbol_bits == 0 {
                        // Commands 3 to B: all 0 1 Z X H U W L -.
                        change.command - 3
                    } else {
                        // Symbols are packed from the top bit.
                        let first_bit = place * symbol_bits;
                        let shift = 8 - symbol_bits - first_bit % 8;
                        data[first_bit / 8] >> shift & (0xFF >> (8 - symbol_bits))
                    };
                    *symbol = SYMBOLS[usize::from(code)];
                }
                Value::Bits { width: facts.width }
            }
            Kind::Real => {
                let order = &self.trace.real_order;
                let lowest_first = std::array::from_fn(|byte| data[order[byte]]);
                Value::Real {
                    bits: u64::from_le_bytes(lowest_first),
                }
            }
            // A text is answered without its zero.
            Kind::Text => Value::Text {
                start: change.data,
                length: data.len() as u32 - 1,
            },
        }
    }

    /// The name of a facility below n.
    pub fn name_of(&self, facility: u32) -> &[u8] {
        &self.trace.names[facility as usize]
    }

    /// The offsets of each facility's own chain, newest first; none for an alias.
    pub fn chains(&self) -> Vec<Vec<u32>> {
        self.chains
            .iter()
            .map(|chain| chain.iter().map(|change| change.offset).collect())
            .collect()
    }

    /// Position and time of each entry of the times, in the order of the table.
    pub fn entries(&self) -> Vec<(u32, i64)> {
        let entries = self.trace.times.iter();
        entries.map(|entry| (entry.position, entry.time)).collect()
    }

    /// Whether the times are those of tag 09.
    pub fn has_long_times(&self) -> bool {
        self.trace.long_times
    }

    /// The full list of a walk (paper 01, "The whole walk"): the chain of each root asked for,
    /// itself or by an alias, once; all pairs of root number and offset by falling offset.
    pub fn full_list(&self, asked: &[u8]) -> Result<Vec<(u32, u32)>, u8> {
        if asked.len() != self.trace.count() {
            return Err(22);
        }
        let mut list = Vec::new();
        for (number, chain) in self.chains.iter().enumerate() {
            if self.trace.asks_for(asked, number) {
                list.extend(chain.iter().map(|change| (number as u32, change.offset)));
            }
        }
        list.sort_unstable_by_key(|(_, offset)| std::cmp::Reverse(*offset));
        Ok(list)
    }

    pub(crate) fn trace(&self) -> &Trace<'a> {
        &self.trace
    }

    /// Start and end of each change on the chain of a root.
    pub(crate) fn spans(&self) -> Vec<(u32, u32)> {
        spans_of(&self.chains)
    }
}

/// n, C, T, timescale, initial symbol, and whether all padding is clean.
pub fn judge(file: &[u8]) -> Result<Summary, u8> {
    Ok(Judged::new(file)?.summary())
}

/// The facts of a facility; an alias answers its root's.
pub fn facts(file: &[u8], facility: u32) -> Result<Facts, u8> {
    Judged::new(file)?.facts(facility)
}

/// The root of a facility; a root's root is itself.
pub fn root(file: &[u8], facility: u32) -> Result<u32, u8> {
    Judged::new(file)?.root(facility)
}

/// Writes the expanded name into the lent names buffer and answers its length.
pub fn name(file: &[u8], facility: u32, names: &mut [u8]) -> Result<usize, u8> {
    Judged::new(file)?.name(facility, names)
}

/// The offset of the change before a given change; 0 if none.
pub fn change_before(file: &[u8], facility: u32, offset: u32) -> Result<u32, u8> {
    Judged::new(file)?.change_before(facility, offset)
}

/// A change's time and value, and whether its padding is clean.
pub fn change(file: &[u8], facility: u32, offset: u32, bits: &mut [u8]) -> Result<Changed, u8> {
    Judged::new(file)?.change(facility, offset, bits)
}

/// The value at a time, that of the change of highest offset with time <= `time`, and the number of
/// changes visited.
pub fn value_at(file: &[u8], facility: u32, time: i64, bits: &mut [u8]) -> Result<Lookup, u8> {
    Judged::new(file)?.value_at(facility, time, bits)
}

/// The text at a time, that of the change of highest offset with time <= `time`, or else the lent text.
pub fn text_at(file: &[u8], facility: u32, time: i64, text: &[u8]) -> Result<TextAt, u8> {
    Judged::new(file)?.text_at(facility, time, text)
}

/// The values of a list of facilities at a time, a record for each, and the number of changes visited in all.
pub fn column(
    file: &[u8],
    time: i64,
    facilities: &[u32],
    text: &[u8],
    bits: &mut [u8],
    items: &mut [Option<Item>],
) -> Result<u64, u8> {
    Judged::new(file)?.column(time, facilities, text, bits, items)
}

/// The offsets of each facility's own chain, newest first; none for an alias.
pub fn chains(file: &[u8]) -> Result<Vec<Vec<u32>>, u8> {
    Ok(Judged::new(file)?.chains())
}

/// Start and end of each change, by rising offset.
pub fn spans(file: &[u8]) -> Result<Vec<(u32, u32)>, u8> {
    let mut spans = Judged::new(file)?.spans();
    spans.sort_unstable();
    Ok(spans)
}
