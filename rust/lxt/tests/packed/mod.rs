//! Traces of one facility with one change, at offset 4 and time 7, whose data is given byte by byte.

/// The flags of a facility.
pub const BITS: u32 = 0;
pub const INTEGER: u32 = 1;

/// The facility `a` of so many symbols; an integer has 32 whatever its ends.
pub fn one_change(flags: u32, width: u32, command: u8, data: &[u8]) -> Vec<u8> {
    let mut file = vec![0x01, 0x38, 0x00, 0x04];
    let words = |file: &mut Vec<u8>, words: &[u32]| {
        let start = file.len() as u32;
        file.extend(words.iter().flat_map(|word| word.to_be_bytes()));
        start
    };
    // One delta byte: the change before is at 4 - 2 - 2, so there is none.
    file.extend([command, 2]);
    file.extend(data);
    let names = words(&mut file, &[1, 2]);
    file.extend([0, 0, b'a', 0]);
    let geometry = words(&mut file, &[0, width - 1, 0, flags]);
    let sync = words(&mut file, &[4]);
    let times = words(&mut file, &[1, 7, 7, 4, 7]);
    file.push(0);
    for (tag, start) in [
        (0x03, names),
        (0x04, geometry),
        (0x02, sync),
        (0x06, times),
        (0x01, 4),
    ] {
        words(&mut file, &[start]);
        file.push(tag);
    }
    file.push(0xB4);
    file
}

/// How many bits a symbol of the commands 0, 1 and 2 takes.
pub const SIZES: [usize; 3] = [1, 2, 4];

/// How many bytes of data so many symbols of a command take.
pub fn data_length(command: u8, width: usize) -> usize {
    (SIZES[usize::from(command)] * width).div_ceil(8)
}

/// Data of any symbols that the command can hold, and any unused bits.
pub fn any_data(command: u8, width: usize, mut random: impl FnMut(usize) -> usize) -> Vec<u8> {
    let mut data = Vec::from_iter((0..data_length(command, width)).map(|_| random(256) as u8));
    if command == 2 {
        // The codes 9 to 15 are none; an unused half may be any.
        for place in 0..width {
            let shift = 4 - place % 2 * 4;
            let byte = &mut data[place / 2];
            *byte = *byte & !(15 << shift) | (random(9) as u8) << shift;
        }
    }
    data
}

/// The symbols, one by one.
pub fn symbols(command: u8, width: usize, data: &[u8]) -> Vec<u8> {
    let size = SIZES[usize::from(command)];
    let symbol = |place: usize| {
        let bit = |bit: usize| usize::from(data[bit / 8] >> (7 - bit % 8) & 1);
        let bits = place * size..(place + 1) * size;
        b"01ZXHUWL-"[bits.fold(0, |code, at| 2 * code + bit(at))]
    };
    (0..width).map(symbol).collect()
}
