//! Chains that several roots share, with changes that are at fault for some of these roots and not for others.

use crate::draft::{change_bytes, Draft};
use crate::edges::WINDOW;
use crate::random::Random;
use crate::tables::{append_tables, bits, Geometry, INTEGER, REAL, TEXT};
use crate::Case;

/// Why a change is at fault, and for whom.
#[derive(Clone, Copy, Debug, PartialEq, Eq)]
enum Cause {
    /// A 4-bit code above 8 at this place: bits that are wider, and integers (16).
    Code(u32),
    /// A command for reals and texts alone (16).
    NotForBits,
    /// A command that integers have not (16).
    NotForIntegers,
    /// The high bits of the command byte, for all (16).
    HighBits,
    /// No zero from here up to T, for texts (15).
    NoZero,
    /// So many bytes are left before T for data of so many bits a symbol (15).
    FewBytes {
        left: u32,
        symbol: u32,
    },
    /// The previous offset, for all (15).
    BelowC,
    Below0,
}

impl Cause {
    /// The refusal that the change itself gives a root of this form.
    fn refusal(self, form: Geometry) -> Option<u8> {
        let width = form[1] + 1;
        let is_bits = form[3] == 0;
        if let (Cause::FewBytes { symbol: 2.., .. }, INTEGER) = (self, form) {
            return Some(16);
        }
        let hit = match self {
            Cause::Code(place) => form == INTEGER || is_bits && width > place,
            Cause::NotForBits => form == INTEGER || is_bits,
            Cause::NotForIntegers => form == INTEGER,
            Cause::HighBits | Cause::BelowC | Cause::Below0 => true,
            Cause::NoZero => form == TEXT,
            Cause::FewBytes { left, symbol } => match form {
                INTEGER => 4 * symbol > left,
                REAL => 8 > left,
                TEXT => left == 0,
                _ => (width * symbol).div_ceil(8) > left,
            },
        };
        let number = match self {
            Cause::Code(_) | Cause::NotForBits | Cause::NotForIntegers | Cause::HighBits => 16,
            _ => 15,
        };
        hit.then_some(number)
    }

    /// Whether it is found before that a text has no zero.
    fn is_of_the_command_byte(self) -> bool {
        matches!(
            self,
            Cause::NotForBits | Cause::NotForIntegers | Cause::HighBits
        )
    }
}

/// A change, on the chain of every root that starts at or above it.
struct Node {
    offset: usize,
    tree: usize,
    /// The change below.
    below: Option<usize>,
    cause: Option<Cause>,
}

/// Chains that end in one lowest change, or one chain.
struct Tree {
    /// After so many of its changes comes one with this cause.
    causes: Vec<(usize, Cause)>,
    /// The newest change of each of its lines.
    lines: Vec<usize>,
    size: usize,
}

/// Where a new line joins its tree.
#[derive(Clone, Copy)]
enum Join {
    /// At the lowest change.
    Last,
    /// At any change.
    Any,
    /// At the newest one of another line.
    Newest,
}

pub fn joined(seed: u64) -> Case {
    let mut random = Random::new(seed);
    let random = &mut random;
    let causes = causes(random);
    let n = match random.below(20) {
        0 => random.within(100, 300),
        1..=4 => random.within(20, 60),
        _ => random.within(2, 9),
    } as usize;
    let roots = roots(random, &causes, n);

    let mut draft = Draft::new(4);
    let forms: Vec<Geometry> = roots.iter().map(|root| root.form).collect();
    append_tables(&mut draft, &forms);
    let codes = with_codes(random, &causes);
    let edge = random.chance(1, 4).then(|| lowest_edge(&draft));
    let mut growing = Growing {
        edge,
        no_zero: None,
        join: random.pick(&[Join::Last, Join::Any, Join::Newest]),
        gap: random.pick(&[0, 1, 6, 40]),
        longest: forms.iter().map(longest_data).max().unwrap_or(0),
        nodes: Vec::new(),
        trees: causes.iter().map(|causes| Tree::of(causes)).collect(),
        commands: commands(codes, causes.len(), &roots),
        codes,
        random,
        draft,
    };
    growing.grow();
    let Growing {
        mut draft,
        nodes,
        no_zero,
        random,
        ..
    } = growing;

    let starts: Vec<usize> = roots
        .iter()
        .map(|root| start(random, &nodes, root))
        .collect();
    for (root, start) in starts.iter().enumerate() {
        draft.set_word(draft.sync_at(root), nodes[*start].offset as u32);
    }
    Case {
        origin: format!("joined, {}", names(&causes)),
        bytes: draft.bytes(),
        expected: expected(&nodes, &roots, &starts, no_zero),
    }
}

/// The causes on each tree: mostly one in all, at the lowest change or some changes above it.
fn causes(random: &mut Random) -> Vec<Vec<(usize, Cause)>> {
    let trees = random.pick(&[1, 1, 1, 2, 3]);
    let mut causes = vec![Vec::new(); trees];
    let count = match trees {
        1 => random.pick(&[0, 1, 1, 1, 2]),
        _ => random.within(0, trees as u64) as usize,
    };
    for cause in 0..count {
        let code = random.pick(&[1, 2, 3, 4, 7, 8, 63, 64, 301, 4_095]);
        let few = Cause::FewBytes {
            left: random.within(1, 9) as u32,
            symbol: random.pick(&[0, 1, 2, 4]),
        };
        let all = random.pick(&[Cause::HighBits, Cause::BelowC, Cause::Below0]);
        // The last zero is at one place.
        let has_zero = causes
            .iter()
            .flatten()
            .all(|it: &(usize, Cause)| it.1 != Cause::NoZero);
        let no_zero = if has_zero { Cause::NoZero } else { all };
        let some = random.pick(&[
            Cause::Code(code),
            Cause::Code(code),
            Cause::NotForBits,
            Cause::NotForIntegers,
            no_zero,
            few,
            all,
        ]);
        let tree: usize = random.below(trees);
        let at = match random.chance(1, 2) {
            true => cause,
            false => random.below(12),
        };
        causes[tree].push((at, some));
    }
    causes
}

fn names(causes: &[Vec<(usize, Cause)>]) -> String {
    let all = causes.iter().flatten();
    let names = all.map(|(_, cause)| match cause {
        Cause::Code(_) => "a code above 8".to_string(),
        Cause::FewBytes { .. } => "few bytes".to_string(),
        cause => format!("{cause:?}"),
    });
    match Vec::from_iter(names) {
        names if names.is_empty() => "no cause".to_string(),
        names => names.join(" and "),
    }
}

/// A root before its start is settled.
struct Root {
    form: Geometry,
    tree: usize,
    /// Whether it is to be refused, if that can be.
    at_fault: bool,
}

/// Roots of which none, one, some or all are at fault.
fn roots(random: &mut Random, causes: &[Vec<(usize, Cause)>], n: usize) -> Vec<Root> {
    let style = random.below(7);
    let middle = random.within(0, n as u64 - 1) as usize;
    let widest = random.pick(&[9, 70, 70, 4_096]);
    let no_zero = |tree: usize| causes[tree].iter().any(|it| it.1 == Cause::NoZero);
    let texts_stay = (0..causes.len()).any(no_zero);
    let mut roots = Vec::new();
    for root in 0..n {
        let tree: usize = random.below(causes.len());
        let at_fault = match style {
            0 => false,
            1 => root == 0,
            2 => root == n - 1,
            3 => root == middle,
            4 => root >= middle,
            5 => random.chance(1, 4),
            _ => true,
        };
        // A form that the causes of the tree hit, or none of them hits.
        let mut form = any_form(random, widest);
        for _ in 0..60 {
            let hit = causes[tree].iter().any(|it| it.1.refusal(form).is_some());
            let text_stays = form != TEXT || no_zero(tree) || !texts_stay;
            // Now and then one that is hit, and starts below.
            if text_stays && (hit == at_fault || random.chance(1, 20)) {
                break;
            }
            form = any_form(random, widest);
        }
        if form == TEXT && texts_stay && !no_zero(tree) {
            form = bits(1);
        }
        roots.push(Root {
            form,
            tree,
            at_fault,
        });
    }
    roots
}

fn any_form(random: &mut Random, widest: u64) -> Geometry {
    match random.below(8) {
        0 => INTEGER,
        1 => REAL,
        2 => TEXT,
        3 => bits(random.pick(&[1, 2, 3, 4, 5, 8, 9])),
        4 => bits(widest as u32 - random.below(2) as u32),
        _ => bits(random.within(1, widest) as u32),
    }
}

/// The most bytes of data that a form has.
fn longest_data(form: &Geometry) -> usize {
    match *form {
        INTEGER => 4,
        REAL => 8,
        TEXT => 1,
        [_, msb, _, _] => (msb as usize + 1).div_ceil(2),
    }
}

/// Whether there are 4-bit values that run over all that is above them: not where that has to be a bad code.
fn with_codes(random: &mut Random, causes: &[Vec<(usize, Cause)>]) -> bool {
    let spoils =
        |cause: Cause| matches!(cause, Cause::Code(_) | Cause::NotForBits | Cause::HighBits);
    let spoilt = causes.iter().flatten().any(|it| spoils(it.1));
    !spoilt && random.chance(1, 2)
}

/// The commands that all roots of a tree can have, for each tree.
fn commands(codes: bool, trees: usize, roots: &[Root]) -> Vec<Vec<u8>> {
    let of_tree = |tree: usize| {
        let has = |of: fn(Geometry) -> bool| roots.iter().any(|it| it.tree == tree && of(it.form));
        let mut commands = match () {
            _ if has(|form| form == INTEGER) => vec![0, 3, 4],
            _ if has(|form| form[3] == 0) => (0..=11).collect(),
            _ => Vec::from_iter(0..=15),
        };
        commands.retain(|command| match codes {
            true => *command <= 8,
            false => *command != 2,
        });
        commands
    };
    (0..trees).map(of_tree).collect()
}

impl Tree {
    fn of(causes: &[(usize, Cause)]) -> Self {
        Tree {
            causes: causes.to_vec(),
            lines: Vec::new(),
            size: 0,
        }
    }
}

struct Growing<'a> {
    random: &'a mut Random,
    draft: Draft,
    nodes: Vec<Node>,
    trees: Vec<Tree>,
    commands: Vec<Vec<u8>>,
    /// Whether 4-bit values run over command and delta bytes.
    codes: bool,
    join: Join,
    /// The widest gap between two changes.
    gap: usize,
    /// The most bytes of data that any root has.
    longest: usize,
    /// The edge of a window around which all but the lowest changes lie.
    edge: Option<usize>,
    /// No zero lies from this offset on.
    no_zero: Option<usize>,
}

/// Changes so far below an edge have offsets, and deltas from the edge on, whose bytes are codes up to 8.
pub(crate) const BELOW_EDGE: usize = 0x1800;

/// The lowest edge that leaves so much room.
pub(crate) fn lowest_edge(draft: &Draft) -> usize {
    (draft.end() + BELOW_EDGE).next_multiple_of(WINDOW)
}

impl Growing<'_> {
    fn grow(&mut self) {
        let causes = self.trees.iter().flat_map(|tree| tree.causes.iter());
        let highest = causes.map(|cause| cause.0 + 1).max().unwrap_or(1);
        let more = self.random.within(1, 25) as usize;
        // Few bytes are left for the newest of all alone.
        let mut last = None;
        if let Some(edge) = self.edge {
            self.fill(edge - BELOW_EDGE - self.draft.end());
        }
        while self.trees.iter().any(|tree| tree.size < highest) || self.nodes.len() < more {
            let tree = self.random.below(self.trees.len());
            let size = self.trees[tree].size;
            if let (Some(edge), true) = (self.edge, self.trees.iter().all(|it| it.size > 0)) {
                let start = edge - self.random.below(90);
                self.fill(start.saturating_sub(self.draft.end()));
                self.edge = None;
            }
            let found = self.trees[tree].causes.iter().find(|it| it.0 == size);
            match found.map(|it| it.1) {
                Some(few @ Cause::FewBytes { .. }) => {
                    last = Some((tree, few));
                    self.add(tree, None);
                }
                cause => self.add(tree, cause),
            }
        }
        let rest = self.longest + self.random.below(4);
        if let Some((tree, few)) = last {
            self.fill(rest);
            self.add(tree, Some(few));
        } else {
            self.fill(rest);
            let zero = u8::from(self.no_zero.is_some());
            self.draft.append(&[zero]);
        }
    }

    /// Bytes of codes up to 8, and none of them 0 where no zero is to come.
    fn fill(&mut self, count: usize) {
        let least = usize::from(self.no_zero.is_some());
        for _ in 0..count {
            let codes = [0, 0].map(|_| least + self.random.below(9 - least));
            self.draft.append(&[(codes[0] << 4 | codes[1]) as u8]);
        }
    }

    /// Whether bytes can be read as codes up to 8 where they are, and as a text where no zero is to come.
    fn serve(&self, bytes: &[u8]) -> bool {
        let code = |byte: u8| !self.codes || byte >> 4 <= 8 && byte & 0x0F <= 8;
        let zero_free = self.no_zero.is_none() || !bytes.contains(&0);
        bytes[1..].iter().all(|byte| code(*byte)) && zero_free
    }

    /// Adds a change to one of a tree's lines, or starts a new line.
    fn add(&mut self, tree: usize, cause: Option<Cause>) {
        let lines = self.trees[tree].lines.len();
        let new_line = lines == 0 || self.random.chance(1, 5);
        let line = if new_line {
            lines
        } else {
            self.random.below(lines)
        };
        let below = match (new_line, self.join) {
            (false, _) => Some(self.trees[tree].lines[line]),
            _ if lines == 0 => None,
            (_, Join::Newest) => Some(self.random.pick(&self.trees[tree].lines)),
            (_, join) => {
                let nodes = 0..self.nodes.len();
                let all = nodes.filter(|node| self.nodes[*node].tree == tree);
                let all = Vec::from_iter(all);
                match join {
                    Join::Last => Some(all[0]),
                    _ => Some(self.random.pick(&all)),
                }
            }
        };
        let gap = self.random.below(self.gap + 1);
        self.fill(gap);
        if cause == Some(Cause::NoZero) {
            // Texts of the changes below end here.
            self.draft.append(&[0]);
        }
        let node = self.put(tree, below, cause);
        self.trees[tree].size += 1;
        match new_line {
            true => self.trees[tree].lines.push(node),
            false => self.trees[tree].lines[line] = node,
        }
    }

    fn put(&mut self, tree: usize, below: Option<usize>, mut cause: Option<Cause>) -> usize {
        // A command byte of 0 would be a zero.
        if let (Some(Cause::FewBytes { symbol, .. }), Some(_)) = (&mut cause, self.no_zero) {
            *symbol = if *symbol == 1 { 2 } else { *symbol };
        }
        let mut command = self.random.pick(&self.commands[tree]);
        match cause {
            Some(Cause::Code(_)) => command = 2,
            Some(Cause::NotForBits) => command = self.random.within(12, 15) as u8,
            Some(Cause::NotForIntegers) => command = self.random.pick(&[1, 5, 6, 8]),
            Some(Cause::FewBytes { symbol, .. }) => {
                command = [3, 0, 1, 3, 2][symbol as usize];
            }
            _ => {}
        }
        let previous = below.map_or(0, |below| self.nodes[below].offset);
        let changes = self.draft.start(0x01);
        let mut bytes;
        loop {
            let offset = self.draft.end();
            if self.no_zero.is_some() && command == 0 {
                command = 3;
            }
            let previous = match cause {
                Some(Cause::BelowC) => self.random.within(1, changes as u64 - 1) as usize,
                _ => previous,
            };
            let k = match self.no_zero {
                Some(_) => 1,
                None => self.random.pick(&[1, 1, 2, 4]),
            };
            bytes = change_bytes(offset, previous, command, k, &[]);
            if cause == Some(Cause::Below0) {
                let delta = offset as u32 - 1 + self.random.below(300) as u32;
                bytes = vec![0x10 | command];
                bytes.extend(&delta.to_be_bytes()[2..]);
            }
            if self.serve(&bytes) {
                break;
            }
            self.fill(1);
        }
        if cause == Some(Cause::HighBits) {
            bytes[0] |= self.random.pick(&[0x40, 0x80, 0xC0]);
        }
        let offset = self.draft.append(&bytes);
        match cause {
            Some(Cause::NoZero) => self.no_zero = Some(offset),
            Some(Cause::Code(place)) => self.bad_code(place as usize),
            Some(Cause::FewBytes { left, .. }) => {
                self.fill(left as usize - 1);
                let zero = u8::from(self.no_zero.is_some());
                self.draft.append(&[zero]);
            }
            _ => {}
        }
        self.nodes.push(Node {
            offset,
            tree,
            below,
            cause,
        });
        self.nodes.len() - 1
    }

    /// Codes of which the one at this place is above 8.
    fn bad_code(&mut self, place: usize) {
        let start = self.draft.end();
        self.fill(place / 2 + 1);
        let at = start + place / 2;
        let shift = 4 * (1 - place % 2);
        let bad = self.random.within(9, 15) as u8;
        let byte = self.draft.byte(at) & !(0x0F << shift) | bad << shift;
        self.draft.set(at, &[byte]);
    }
}

/// The nodes of a chain, from its newest change down.
fn path(nodes: &[Node], start: usize) -> Vec<usize> {
    std::iter::successors(Some(start), |node| nodes[*node].below).collect()
}

/// Where a root starts: on a change that leads to a cause of its tree or on one that does not, by whether it
/// is to be at fault; on any where there is none such.
fn start(random: &mut Random, nodes: &[Node], root: &Root) -> usize {
    let all = (0..nodes.len()).filter(|node| nodes[*node].tree == root.tree);
    let all = Vec::from_iter(all);
    let hits = |node: usize| nodes[node].cause.and_then(|it| it.refusal(root.form));
    let leads = |start: usize| path(nodes, start).iter().any(|it| hits(*it).is_some());
    let some: Vec<usize> = all
        .iter()
        .copied()
        .filter(|node| leads(*node) == root.at_fault)
        .collect();
    let some = if some.is_empty() { all } else { some };
    match random.chance(1, 3) {
        true => some[some.len() - 1],
        false => random.pick(&some),
    }
}

/// What the making settles: the first root's fault; else 17, where two roots meet.
fn expected(
    nodes: &[Node],
    roots: &[Root],
    starts: &[usize],
    no_zero: Option<usize>,
) -> Option<Result<(), u8>> {
    let refusal = |form: Geometry, node: &Node| {
        let own = node
            .cause
            .and_then(|cause| Some((cause, cause.refusal(form)?)));
        let ends = no_zero.is_none_or(|from| form != TEXT || node.offset < from);
        match own {
            Some((cause, number)) if ends || cause.is_of_the_command_byte() => Some(number),
            _ if !ends => Some(15),
            _ => None,
        }
    };
    let mut met = vec![0; nodes.len()];
    for (root, start) in roots.iter().zip(starts) {
        for node in path(nodes, *start) {
            met[node] += 1;
            if let Some(number) = refusal(root.form, &nodes[node]) {
                return Some(Err(number));
            }
        }
    }
    met.iter().any(|count| *count > 1).then_some(Err(17))
}
