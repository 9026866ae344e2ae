//! Deterministic trace files for comparing readers: valid ones, neighbours of every rule's boundary,
//! and hostile ones; and such inputs of writers. A seed always gives the same.

#![forbid(unsafe_code)]

mod aliases;
mod codes;
mod damage;
mod dense;
mod draft;
mod edges;
mod hostile;
mod inputs;
mod joined;
mod large;
mod random;
mod records;
mod strays;
mod tables;
mod times;
mod valid;

pub use aliases::aliases;
pub use codes::codes;
pub use damage::{blind, clean_and_dirty, Damage, Neighbours, DAMAGES};
pub use dense::dense;
pub use draft::{change_bytes, Change, Draft, Facility, Kind, Meant};
pub use edges::{edges, WINDOW};
pub use hostile::{hostile, hostile_chains, hostile_large, most_visits, widest_sharing, Hostile};
pub use inputs::{
    input_case, nonsense_input, sound_input, Input, InputCase, InputDamage, InputNeighbours, BITS,
    INPUT_DAMAGES, INTEGER, REAL, TEXT,
};
pub use joined::joined;
pub use large::{large, large_with_gaps, Large};
pub use random::Random;
pub use records::{record, Landmarks, Pending};
pub use strays::{strays, Strays};
pub use times::{head_length, other_times, time_length, LONG_TIMES, SHORT_TIMES};
pub use valid::{pack, valid, valid_of, Shape, REAL_TEST};

/// A file and where it comes from.
#[derive(Clone, Debug)]
pub struct Case {
    pub origin: String,
    pub bytes: Vec<u8>,
    /// What judging answers, where the making of the file settles it: accepted, or the refusal.
    pub expected: Option<Result<(), u8>>,
}

/// A file for any seed: valid, with stray bytes, with clean or dirty padding, near a boundary, over it, over two
/// boundaries, dense, blindly damaged, or of changes that meet, chains that join, codes or aliases.
pub fn case(seed: u64) -> Case {
    let mut random = Random::new(seed ^ 0x4C58_5400_0000_0000);
    match random.below(24) {
        0..=2 => Case {
            origin: "valid".to_string(),
            bytes: valid(random.any()).bytes(),
            expected: Some(Ok(())),
        },
        3 => strays(random.any()).case(),
        4 => one_dirty(&mut random),
        5..=7 => {
            let (damage, neighbours) = any_damage(&mut random);
            Case {
                origin: format!("near {} {}", damage.number, damage.name),
                bytes: neighbours.near.bytes(),
                expected: Some(neighbours.near_answer),
            }
        }
        8..=12 => {
            let (damage, neighbours) = any_damage(&mut random);
            Case {
                origin: format!("over {} {}", damage.number, damage.name),
                bytes: neighbours.over.bytes(),
                expected: Some(Err(damage.number)),
            }
        }
        13..=14 => two_damages(&mut random),
        15..=16 => Case {
            origin: "dense".to_string(),
            bytes: dense(random.any()).bytes(),
            expected: None,
        },
        17 => edges(random.any()),
        18 | 19 => joined(random.any()),
        20 => codes(random.any()),
        21 => aliases(random.any()),
        _ => {
            let base = valid(random.any());
            Case {
                origin: "blind".to_string(),
                bytes: blind(&base, &mut random),
                expected: None,
            }
        }
    }
}

/// A valid trace of which one change at most is dirty.
fn one_dirty(random: &mut Random) -> Case {
    loop {
        let base = valid(random.any());
        if let Some([clean, dirty]) = clean_and_dirty(&base, random) {
            let (origin, draft) = match random.chance(1, 4) {
                true => ("all padding clean", clean),
                false => ("one change dirty", dirty),
            };
            return Case {
                origin: origin.to_string(),
                bytes: draft.bytes(),
                expected: Some(Ok(())),
            };
        }
    }
}

/// A damage of a valid trace that has what is needed for it. Each refusal is as likely as any other.
pub fn any_damage(random: &mut Random) -> (&'static Damage, Neighbours) {
    let number = random.within(1, 17) as u8;
    let of_number: Vec<&Damage> = DAMAGES.iter().filter(|it| it.number == number).collect();
    let damage = of_number[random.below(of_number.len())];
    loop {
        let base = valid(random.any());
        if let Some(neighbours) = (damage.apply)(&base, random) {
            return (damage, neighbours);
        }
    }
}

/// Two damages in one file, the one of the higher number first, since the map of the draft then
/// serves the other one better. Where two refusals apply, the order decides, so mostly the lower
/// number is given; but the second damage may undo the first or move what it was about.
fn two_damages(random: &mut Random) -> Case {
    loop {
        let (first, neighbours) = any_damage(random);
        let second = &DAMAGES[random.below(DAMAGES.len())];
        // Too short a file or one without END has no map for a second damage.
        if second.number > first.number || first.number == 1 || first.number == 4 {
            continue;
        }
        if let Some(both) = (second.apply)(&neighbours.over, random) {
            return Case {
                origin: format!(
                    "over {} {} and {} {}",
                    second.number, second.name, first.number, first.name
                ),
                bytes: both.over.bytes(),
                expected: None,
            };
        }
    }
}
