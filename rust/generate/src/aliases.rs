//! Aliases in lines, rings and trees.

use crate::draft::Draft;
use crate::random::Random;
use crate::tables::{alias, append_tables, bits, Geometry, INTEGER, REAL, TEXT};
use crate::Case;

/// How aliases lead to each other.
#[derive(Clone, Copy, Debug, PartialEq, Eq)]
pub enum Shape {
    /// Each is an alias of the next one.
    Upwards,
    /// Each is an alias of the one before.
    Downwards,
    /// One line through all, in any order.
    AnyOrder,
    /// Each is an alias of any that comes before it in some order.
    Tree,
}

/// `n` facilities, of which the last in the line is the only root.
pub fn alias_line(shape: Shape, n: usize, random: &mut Random) -> Vec<Geometry> {
    let mut order: Vec<usize> = (0..n).collect();
    match shape {
        Shape::Downwards => {}
        Shape::Upwards => order.reverse(),
        Shape::AnyOrder | Shape::Tree => random.shuffle(&mut order),
    }
    let mut geometry = vec![bits(1); n];
    for place in 1..n {
        let target = match shape {
            Shape::Tree => random.below(place),
            _ => place - 1,
        };
        geometry[order[place]] = alias(order[target]);
    }
    geometry
}

/// The aliases from a facility to its root, and that.
fn line(geometry: &[Geometry], facility: usize) -> impl Iterator<Item = usize> + '_ {
    std::iter::successors(Some(facility), |at| {
        let [target, _, _, flags] = geometry[*at];
        (flags & 8 != 0).then_some(target as usize)
    })
}

fn root_of(geometry: &[Geometry], facility: usize) -> usize {
    line(geometry, facility).last().unwrap_or(facility)
}

fn steps_to_root(geometry: &[Geometry], facility: usize) -> usize {
    line(geometry, facility).count()
}

/// Aliases that lead to roots, or in one place to a ring of any length or out of bounds.
pub fn aliases(seed: u64) -> Case {
    let mut random = Random::new(seed);
    let random = &mut random;
    let n = match random.below(12) {
        0 => random.within(200, 400),
        1..=3 => random.within(20, 70),
        _ => random.within(1, 9),
    } as usize;
    let shape = random.pick(&[
        Shape::Upwards,
        Shape::Downwards,
        Shape::AnyOrder,
        Shape::Tree,
    ]);
    let mut geometry = alias_line(shape, n, random);
    for facility in &mut geometry {
        // More roots: the line is cut there.
        if facility[3] == 0 || random.chance(1, 40) {
            *facility = random.pick(&[bits(1), bits(9), INTEGER, REAL, TEXT]);
        }
    }
    let (end, expected) = match random.below(3) {
        0 => ("roots", Ok(())),
        _ => (damage(random, &mut geometry), Err(12)),
    };
    // What an alias ignores.
    for facility in &mut geometry {
        if facility[3] == 8 && random.chance(1, 2) {
            *facility = [facility[0], random.word(), random.word(), random.word() | 8];
        }
    }

    let mut draft = Draft::new(4);
    append_tables(&mut draft, &geometry);
    if expected.is_ok() {
        for (root, form) in geometry.iter().enumerate() {
            match *form {
                // A sync entry that is ignored.
                [_, _, _, flags] if flags & 8 != 0 => {
                    draft.set_word(draft.sync_at(root), random.pick(&[0, 3, 77]))
                }
                REAL => _ = draft.append_change(root, 5, 1, &[1; 8]),
                TEXT => _ = draft.append_change(root, 5, 1, b"text\0"),
                _ => _ = draft.append_change(root, 3, 1, &[]),
            }
        }
    }
    Case {
        origin: format!("aliases {shape:?}, {end}"),
        bytes: draft.bytes(),
        expected: Some(expected),
    }
}

/// Leads one facility out of bounds, or into a ring of one, of two, of some or of all that lead to it. Tells
/// which.
fn damage(random: &mut Random, geometry: &mut [Geometry]) -> &'static str {
    let n = geometry.len();
    let mut place = random.below(n);
    match random.below(4) {
        0 => {
            geometry[place] = alias(random.pick(&[n, n, n + 1, u32::MAX as usize]));
            return "out of bounds";
        }
        1 => geometry[place] = alias(place),
        2 => {
            let other = (place + 1) % n;
            geometry[place] = alias(other);
            geometry[other] = alias(place);
        }
        _ => {
            // The root of the farthest, or of any, becomes an alias of it.
            let steps = |facility: &usize| steps_to_root(geometry, *facility);
            let farthest = (0..n).max_by_key(steps).unwrap_or(place);
            place = random.pick(&[farthest, place]);
            geometry[root_of(geometry, place)] = alias(place);
        }
    }
    // Back to the place.
    let next = |facility: &usize| Some(geometry[*facility][0] as usize);
    let others = std::iter::successors(next(&place), next).take_while(|it| *it != place);
    let length = 1 + others.count();
    match length {
        1 => "a ring of one",
        2 => "a ring of two",
        _ if length == n => "a ring of all",
        _ => "a longer ring",
    }
}
