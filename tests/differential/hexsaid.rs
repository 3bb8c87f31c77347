//! Texts of Intel HEX and kernels whose answers follow from the words of the request, one by one.

use crate::exported;
use crate::hexreading::Reading;
use crate::hextexts::{Known, Text};
use crate::plain::calls;
use crate::random::Random;
use crate::report::Report;

/// Texts and their kernels.
const KERNELS: [(&str, &[u8]); 12] = [
    (":00000001FF\n", &[]),
    (":00000001ff\n", &[]),
    (":00000001fF\r\n", &[]),
    (":0000000000\n:00000001FF\n", &[]),
    (":0000000000\n:0000000000\r\n:00000001FF\n", &[]),
    (":01000000629D\n:00000001FF\n", &[0x62]),
    (":040000006204341250\n:00000001FF\n", &[0x62, 0x04, 0x34, 0x12]),
    (":040000006204341250\r\n:00000001FF\r\n", &[0x62, 0x04, 0x34, 0x12]),
    (":02000000620498\n:00000200fe\n:020002003412b6\n:00000001FF\n", &[0x62, 0x04, 0x34, 0x12]),
    (":02000000fFFe01\n:00000001FF\n", &[0xFF, 0xFE]),
    (":0200000000FFFF\n:00000001FF\n", &[0x00, 0xFF]),
    (
        ":11000000000102030405060708090A0B0C0D0E0F1067\n:00000001FF\n",
        &[0, 1, 2, 3, 4, 5, 6, 7, 8, 9, 10, 11, 12, 13, 14, 15, 16],
    ),
];

/// Texts, the refusal and the bad row.
#[rustfmt::skip]
const REFUSED: [(&str, u8, usize); 53] = [
    // a bad character
    ("\n", 12, 1), ("\r\n", 12, 1), ("\n:00000001FF\n", 12, 1), ("00000001FF\n", 12, 1), (" :00000001FF\n", 12, 1),
    (":00000001FG\n", 12, 1), (":0000 0001FF\n", 12, 1), (":00000001FF \n", 12, 1), (":00000001FF\r\r\n", 12, 1),
    ("\r:00000001FF\n", 12, 1), (":0000\r0001FF\n", 12, 1), (":00000001FF\r \n", 12, 1), ("::00000001FF\n", 12, 1),
    (":01000000629D\n\n:00000001FF\n", 12, 2), (":01000000629D\n\r:00000001FF\n", 12, 2),
    (":01000000629D:00000001FF\n", 12, 1), (":01000000629D\r:00000001FF\n", 12, 1), (":-1000000629D\n", 12, 1), (":0x000001FF\n", 12, 1),
    // the length of a row
    (":\n", 12, 1), (":0\n", 12, 1), (":00\n", 12, 1), (":00000001\n", 12, 1), (":00000001F\n", 12, 1), (":00000001FF0\n", 12, 1),
    (":00000001FF00\n", 12, 1), (":01000000FF\n", 12, 1), (":00000000629E\n", 12, 1), (":02000000629C\n", 12, 1),
    // a missing line feed
    (":00000001FF", 12, 1), (":00000001FF\r", 12, 1), (":01000000629D\n:00000001FF", 12, 2), (":01000000629D\n:", 12, 2),
    // a bad sum; also of an end row, of another type and of a gap
    (":01000000629C\n:00000001FF\n", 13, 1), (":01000000629D\n:00000001FE\n", 13, 2), (":0400000300001234B2\n", 13, 1),
    (":01000100629D\n", 13, 1), (":00000101FF\n", 13, 1),
    // a gap, an overlap, another type
    (":01000100629C\n:00000001FF\n", 14, 1), (":01000000629D\n:01000000629D\n:00000001FF\n", 14, 2), (":00000100FF\n", 14, 1),
    (":020000020000FC\n:00000001FF\n", 14, 1), (":0400000300001234B3\n", 14, 1), (":020000040000FA\n", 14, 1),
    (":0400000500001234B1\n", 14, 1),
    // an end row with address or data
    (":00000101FE\n", 14, 1), (":00010001FE\n", 14, 1), (":01000001629C\n", 14, 1),
    // none, and text after it
    ("", 14, 1), (":01000000629D\n", 14, 2), (":00000001FF\n\n", 14, 2), (":00000001FF\n:00000001FF\n", 14, 2), (":00000001FF\n:", 14, 2),
];

/// Kernels and their texts.
const WRITTEN: [(&[u8], &str); 5] = [
    (&[], ":00000001FF\n"),
    (&[0x62], ":01000000629D\n:00000001FF\n"),
    (&[0x62, 0x04, 0x34, 0x12], ":040000006204341250\n:00000001FF\n"),
    (
        &[0, 1, 2, 3, 4, 5, 6, 7, 8, 9, 10, 11, 12, 13, 14, 15],
        ":10000000000102030405060708090A0B0C0D0E0F78\n:00000001FF\n",
    ),
    (
        &[0, 1, 2, 3, 4, 5, 6, 7, 8, 9, 10, 11, 12, 13, 14, 15, 16],
        ":10000000000102030405060708090A0B0C0D0E0F78\n:0100100010DF\n:00000001FF\n",
    ),
];

pub fn read_compared(report: &mut Report, reading: &mut Reading) {
    let kernels = KERNELS.iter().map(|(text, kernel)| (*text, Known::Kernel(kernel.to_vec())));
    let refused = REFUSED.iter().map(|(text, refusal, row)| (*text, Known::Bad { row: *row, refusal: *refusal }));
    let texts: Vec<Text> =
        kernels.chain(refused).map(|(text, known)| Text { characters: text.into(), known }).collect();
    report.compare("hex read, texts of which each is known", texts.len() as u64, |number| {
        // in several buffers
        (0..20).find_map(|times| reading.held(&mut Random::of_case(0, times, number), &texts[number as usize]))
    });
}

pub fn write_compared(report: &mut Report) {
    report.compare("hex write, kernels of which each text is known", WRITTEN.len() as u64, |number| {
        let (code, text) = WRITTEN[number as usize];
        let [mut plain, mut proved] = [[0xA5; 100]; 2];
        let answers = [calls::hex_write(code, &mut plain), exported::hex_write(code, &mut proved)];
        let written = [plain, proved].iter().all(|left| left.starts_with(text.as_bytes()));
        let good = answers == [text.len() as i32; 2] && written;
        let told = || format!("{answers:?}, \"{}\" and \"{}\"", plain.escape_ascii(), proved.escape_ascii());
        (!good).then(told)
    });
}
