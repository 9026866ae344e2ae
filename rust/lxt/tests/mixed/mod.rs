//! A trace with every kind of facility, an alias, and one without changes.

const DIGITS: &str = "\
    013800040002600005686900000a000000000000f83f0110b4000000050000000a00006100000072\
    00000073000000620000006900000000000000000200000000000000000000000000000000000000\
    00000000020000000000000000000000000000000400000000000000000000000000000008000000\
    000000001f0000000000000001000000160000000c00000007000000000000000000000003000000\
    0a0000001e00000004000000030000000f0000000a0000000a0000000a026e861bf0f92109400000\
    000004010000008502000000190300000035040000009906000000bd07000000be08b4";

/// Facilities 0 `a` of three bits, 1 `r` a real, 2 `s` a text, 3 `b` an alias of 0, 4 `i` an integer without
/// changes. The initial symbol is Z. Changes by facility, offset, time and value: 0 4 10 011, 2 7 20 `hi`,
/// 1 12 20 1.5, 0 22 30 ZX1.
pub fn file() -> Vec<u8> {
    let byte = |at: usize| u8::from_str_radix(&DIGITS[2 * at..2 * at + 2], 16);
    let bytes = (0..DIGITS.len() / 2).map(|at| byte(at).expect("a byte"));
    bytes.collect()
}

/// The same with its facilities 3 and 4 as aliases of these.
pub fn with_aliases(third: u8, fourth: u8) -> Vec<u8> {
    let mut file = file();
    for (facility, target) in [(3, third), (4, fourth)] {
        let (geometry, sync) = (0x35 + 16 * facility, 0x85 + 4 * facility);
        // The last bytes of the rows and of the flags.
        file[geometry + 3] = target;
        file[geometry + 15] = 8;
        // An alias's own entry counts for nothing: here a change of the bits.
        file[sync + 3] = 22;
    }
    file
}
