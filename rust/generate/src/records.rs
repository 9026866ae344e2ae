//! Records of walks that no start wrote, by where their pending offsets lie.

use crate::edges::WINDOW;
use crate::random::Random;

/// What there is to point to in a file.
#[derive(Clone, Debug)]
pub struct Landmarks {
    /// T
    pub end: u32,
    /// Of each facility the offsets of its changes, newest first, as far as its chain is sound; none of an
    /// alias.
    pub chains: Vec<Vec<u32>>,
    /// Whether each facility is a root.
    pub roots: Vec<bool>,
}

/// Where the pending offsets of a record lie.
#[derive(Clone, Copy, Debug, PartialEq, Eq, PartialOrd, Ord)]
pub enum Pending {
    /// All at one change.
    OneChange,
    /// On one chain, each anywhere.
    OneChain,
    /// In the middle of each root's own chain.
    OwnChain,
    /// On any chain.
    AnyChain,
    /// On one chain, but one of them next to a change.
    BesideAChange,
    /// Around the edges of windows.
    Edges,
    /// Anywhere.
    Anywhere,
    /// An alias has one.
    OfAnAlias,
}

impl Pending {
    pub const ALL: [Pending; 8] = [
        Pending::OneChange,
        Pending::OneChain,
        Pending::OwnChain,
        Pending::AnyChain,
        Pending::BesideAChange,
        Pending::Edges,
        Pending::Anywhere,
        Pending::OfAnAlias,
    ];
}

/// A record of a pair for each facility, or none where the file has no such offsets.
pub fn record(
    random: &mut Random,
    landmarks: &Landmarks,
    pending: Pending,
) -> Option<Vec<(u32, u32)>> {
    let chains: Vec<&Vec<u32>> = landmarks
        .chains
        .iter()
        .filter(|chain| !chain.is_empty())
        .collect();
    let n = landmarks.roots.len();
    if n == 0 || chains.is_empty() {
        return None;
    }
    // The longest or any.
    let longest = chains.iter().copied().max_by_key(|chain| chain.len())?;
    let one = match random.chance(1, 2) {
        true => longest,
        false => chains[random.below(chains.len())],
    };
    let change = one[random.below(one.len())];
    // All roots, most, or few of them, have one.
    let part = random.pick(&[8, 8, 7, 2]);
    let mut offsets = vec![0; n];
    for (facility, offset) in offsets.iter_mut().enumerate() {
        if !landmarks.roots[facility] || !random.chance(part, 8) {
            continue;
        }
        let own = &landmarks.chains[facility];
        *offset = match pending {
            Pending::OneChange => change,
            Pending::OneChain | Pending::BesideAChange => one[random.below(one.len())],
            Pending::OwnChain if own.is_empty() => 0,
            Pending::OwnChain => own[random.below(own.len())],
            Pending::AnyChain | Pending::OfAnAlias => {
                let chain = chains[random.below(chains.len())];
                chain[random.below(chain.len())]
            }
            Pending::Edges => {
                let edge = WINDOW * random.below(landmarks.end as usize / WINDOW + 1);
                let around = random.within_signed(-2, 2);
                (edge as i64 + around).max(0) as u32
            }
            Pending::Anywhere => random.within(1, u64::from(landmarks.end) + 1) as u32,
        };
    }
    let of = |is_root: bool| Vec::from_iter((0..n).filter(|it| landmarks.roots[*it] == is_root));
    let (roots, aliases) = (of(true), of(false));
    match pending {
        Pending::BesideAChange => {
            let place = random.pick(&[0, roots.len() - 1, random.clone().below(roots.len())]);
            let beside = random.pick(&[change + 1, change - 1]);
            offsets[roots[place]] = beside;
        }
        Pending::OfAnAlias => {
            if aliases.is_empty() {
                return None;
            }
            offsets[random.pick(&aliases)] = random.pick(&[change, change, 1]);
        }
        _ => {}
    }
    Some((0..n as u32).zip(offsets).collect())
}
