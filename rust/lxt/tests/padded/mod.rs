//! A trace with rubbish in the padding of each packing, and what is answered of it.

/// Where the bits are that no symbol uses, and which of them are rubbish.
pub const RUBBISH: [(usize, u8); 3] = [(6, 0x10), (9, 0x01), (13, 0x0F)];

/// A change: root, offset, time, symbols, and whether its padding is clean.
pub type Answer = (u32, u32, i64, &'static str, bool);

/// The changes in the order of the walk.
pub const CHANGES: [Answer; 6] = [
    (2, 20, 7, "-LW", true),
    (1, 17, 7, "01Z", true),
    (0, 14, 7, "101", true),
    (2, 10, 3, "01Z", false),
    (1, 7, 3, "ZX1", false),
    (0, 4, 3, "011", false),
];

/// C and T.
pub const CHANGES_START: u32 = 4;
pub const END: u32 = 139;

/// Three facilities of three bits: `one`, `two` and `four`, with changes of so many bits a symbol. The
/// older change of each has rubbish: in the highest unused bit alone, in the lowest alone, and an unused
/// nibble that is no code.
pub fn file() -> Vec<u8> {
    let mut file = vec![0x01, 0x38, 0x00, 0x04];
    file.extend([0x00, 0x02, 0x60 | 0x10]);
    file.extend([0x01, 0x05, 0xB4 | 0x01]);
    file.extend([0x02, 0x08, 0x01, 0x20 | 0x0F]);
    file.extend([0x00, 0x08, 0xA0]);
    file.extend([0x01, 0x08, 0x18]);
    file.extend([0x02, 0x08, 0x87, 0x60]);

    let mut items = vec![(0x01, CHANGES_START)];
    let words = |file: &mut Vec<u8>, words: &[u32]| {
        file.extend(words.iter().flat_map(|word| word.to_be_bytes()));
    };
    items.push((0x03, file.len() as u32));
    words(&mut file, &[3, 13]);
    for name in ["one", "two", "four"] {
        file.extend([0, 0]);
        file.extend(name.bytes());
        file.push(0);
    }
    items.push((0x04, file.len() as u32));
    words(&mut file, &[0, 2, 0, 0].repeat(3));
    items.push((0x02, file.len() as u32));
    words(&mut file, &[14, 17, 20]);
    // Two entries: from 4 on the time is 3, from 14 on it is 7.
    items.push((0x06, file.len() as u32));
    words(&mut file, &[2, 0, 9, 4, 10, 3, 4]);

    assert_eq!(file.len() as u32, END);
    file.push(0);
    for (tag, start) in items {
        words(&mut file, &[start]);
        file.push(tag);
    }
    file.push(0xB4);
    file
}

/// The same with rubbish in some changes alone: bit i of `kept` is for entry i of `RUBBISH`.
pub fn with_rubbish(kept: u8) -> Vec<u8> {
    let mut file = file();
    for (place, (at, rubbish)) in RUBBISH.into_iter().enumerate() {
        if kept >> place & 1 == 0 {
            file[at] &= !rubbish;
        }
    }
    file
}

/// What is then answered: the changes, with those clean whose rubbish was taken out.
pub fn changes_with(kept: u8) -> Vec<Answer> {
    let mut changes = CHANGES;
    for (root, offset, _, _, clean) in &mut changes {
        *clean = *offset >= 14 || kept >> *root & 1 == 0;
    }
    changes.to_vec()
}
