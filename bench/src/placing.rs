//! A field put into bytes in two ways, both proved (`crates/bench_placing`): a word at a time, as the library's header
//! writer does, and one bit after the other, as it did.

unsafe extern "C" {
    fn placing_word(buffer: *mut u8, length: usize, at: usize, width: u32, value: u32) -> usize;
    fn placing_bits(buffer: *mut u8, length: usize, at: usize, width: u32, value: u32) -> usize;
}

#[derive(Clone, Copy)]
pub enum Way {
    Word,
    OneByOne,
}

/// A width and a value.
pub type Field = (u32, u32);

/// Fields one behind the other, from a position on; the position behind them.
pub fn place(way: Way, fields: &[Field], buffer: &mut [u8], at: usize) -> usize {
    fields.iter().fold(at, |at, &(width, value)| {
        assert!(width <= 32 && at + width as usize <= 8 * buffer.len());
        let (start, length) = (buffer.as_mut_ptr(), buffer.len());
        // SAFETY: the slice's own pointer and length; the field's width and room, which the calls ask for, hold.
        unsafe {
            match way {
                Way::Word => placing_word(start, length, at, width, value),
                Way::OneByOne => placing_bits(start, length, at, width, value),
            }
        }
    })
}

/// Fields over six bytes that are all alike: that byte, the bit to begin at, width and value, and the bytes then.
const WORKED: [(u8, usize, Field, [u8; 6]); 9] = [
    (0xff, 3, (7, 0x55), [0xf5, 0x7f, 0xff, 0xff, 0xff, 0xff]),
    (0xff, 0, (32, 0xdead_beef), [0xde, 0xad, 0xbe, 0xef, 0xff, 0xff]),
    (0xff, 7, (32, 0x8000_0001), [0xff, 0x00, 0x00, 0x00, 0x03, 0xff]),
    (0xff, 5, (0, 9), [0xff; 6]),
    (0xff, 1, (1, 2), [0xbf, 0xff, 0xff, 0xff, 0xff, 0xff]),
    (0x00, 3, (7, 0x55), [0x15, 0x40, 0x00, 0x00, 0x00, 0x00]),
    (0x00, 7, (32, 0x8000_0001), [0x01, 0x00, 0x00, 0x00, 0x02, 0x00]),
    (0x00, 6, (3, 0xff), [0x03, 0x80, 0x00, 0x00, 0x00, 0x00]),
    (0x00, 15, (2, 7), [0x00, 0x01, 0x80, 0x00, 0x00, 0x00]),
];

/// Both ways leave the worked bytes, and the same ones for every width at every bit of the first two bytes.
pub fn compare() {
    let both = |old: [u8; 6], at: usize, field: Field| {
        let (mut word, mut one_by_one) = (old, old);
        assert_eq!(place(Way::Word, &[field], &mut word, at), at + field.0 as usize);
        assert_eq!(place(Way::OneByOne, &[field], &mut one_by_one, at), at + field.0 as usize);
        assert_eq!(word, one_by_one, "{field:?} at bit {at} over {old:x?}");
        word
    };
    for (old, at, field, bytes) in WORKED {
        assert_eq!(both([old; 6], at, field), bytes);
    }
    for (width, at) in (0..=32).flat_map(|width| (0..16).map(move |at| (width, at))) {
        for (old, value) in [(0x00, u32::MAX), (0xff, 0), (0xa5, 0x9e37_79b1), (0x3c, 0x8000_0001)] {
            both([old; 6], at, (width, value));
        }
    }
}
