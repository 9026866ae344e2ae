//! Traces of one bit with as many changes as fit.

use lxt_generate::{change_bytes, Draft};

/// A bit whose changes, of two bytes each, fill all bytes from C on, but for so many at their end. The tables stand
/// before C. All changes have the time 10, or the oldest alone and the others 20.
pub fn filled(changes: usize, rest: usize, two_times: bool) -> Vec<u8> {
    let mut draft = Draft::new(4);
    let names = draft.append_words(&[1, 3]);
    draft.append(&[0, 0, b'a', b'b', 0]);
    let geometry = draft.append_words(&[0; 4]);
    let sync = draft.append_words(&[0]);
    let times = draft.end();
    match two_times {
        true => draft.append_words(&[2, 10, 20, times as u32 + 28, 2, 10, 10]),
        false => draft.append_words(&[1, 10, 10, 4, 10]),
    };
    let start = draft.end();
    draft.items = [(1, start), (2, sync), (3, names), (4, geometry), (6, times)]
        .map(|(tag, start)| (tag, start as u32))
        .to_vec();
    if changes > 0 {
        let oldest = change_bytes(start, 0, 4, 1, &[]);
        assert_eq!(oldest.len(), 2);
        draft.append(&oldest);
        // To 0 and to 1 in turn, each right behind the change before it.
        let turn = [3, 0, 4, 0].into_iter().cycle();
        draft.append(&Vec::from_iter(turn.take(2 * (changes - 1))));
        draft.set_word(sync, (start + 2 * (changes - 1)) as u32);
    }
    draft.append(&vec![0xFF; rest]);
    draft.bytes()
}
