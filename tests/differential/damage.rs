//! Byte forms to encode: those of decoded instructions, those with a field just out of its range, and bytes that are near a form.

use crate::instructions::{any_form, decodable, fields, flip, ANY};
use crate::plain::decode::decode;
use crate::plain::form::{spelled, Fields, Operand, FORM_BYTES};
use crate::random::Random;

/// A form, and the encoding that it was decoded from where it is whole.
pub fn form(random: &mut Random) -> (Vec<u8>, Option<Vec<u8>>) {
    let (mut form, encoding) = decoded(random);
    match random.below(10) {
        0..=2 => return (form, Some(encoding)),
        3 | 4 => replace(random, &mut form),
        5 | 6 => form = pushed(random),
        7 => flip(random, &mut form),
        8 => form = likely(random),
        _ => form = resized(random, form),
    }
    (form, None)
}

fn decoded(random: &mut Random) -> (Vec<u8>, Vec<u8>) {
    let bytes = decodable(random);
    let instruction = decode(&bytes).expect("bytes that decode");
    (Fields::of(&instruction).to_bytes().to_vec(), bytes)
}

/// Puts other numbers into one to three bytes.
fn replace(random: &mut Random, form: &mut [u8]) {
    for _ in 0..1 + random.below(3) {
        let at = random.below(form.len());
        form[at] = random.pick(&[0, 1, 2, 3, 4, 5, 6, 7, 8, 0x7F, 0x80, 0xFF, form[at].wrapping_add(1)]);
    }
}

/// A kind and its length, and behind them random bytes, or small ones.
fn likely(random: &mut Random) -> Vec<u8> {
    let diagram = any_form(random);
    let mut form = random.bytes(FORM_BYTES);
    if random.bit() == 1 {
        form.iter_mut().for_each(|byte| *byte &= 3);
    }
    form[0] = diagram.name.kind();
    form[1] = diagram.length as u8;
    form
}

fn resized(random: &mut Random, mut form: Vec<u8>) -> Vec<u8> {
    let length = random.pick(&[0, 1, 2, 24, 46, 47, 49, 50, 64, 96]);
    form.resize(length, 0);
    form
}

/// Fields that have an encoding, but for one or two that are pushed out of range or to its edge. Most pushes that leave bytes which spell
/// nothing are tried again, so that the instruction itself decides.
fn pushed(random: &mut Random) -> Vec<u8> {
    loop {
        let diagram = any_form(random);
        let mut f = fields(random, diagram, ANY);
        for _ in 0..1 + random.below(2) {
            push(random, &mut f);
        }
        let form = f.to_bytes();
        if spelled(&form).is_some() || random.once_in(10) {
            return form.to_vec();
        }
    }
}

fn push(random: &mut Random, f: &mut Fields) {
    let wide = random.pick(&[1, 2, 3, 4, 7, 8, 9, 31, 32, 128, 255]);
    match random.below(17) {
        0 => f.l = wide,
        1 => (f.l, f.length) = (1 - f.l.min(1), random.pick(&[4, 6, 8])),
        2 => f.m = wide,
        3 => f.saturate = wide,
        4 => f.negate = wide,
        5 => f.signs[random.below(3)] = wide,
        6 => f.shift = wide,
        7 => f.tt[random.below(4)] = wide,
        8 => f.cc = wide,
        9 => f.ccn = wide,
        10 => f.n = wide,
        11 => f.reserved[random.below(3)] = wide,
        12 => f.immediate = random.pick(&[0xFF, 0x100, 0xFFFF, 0x1_0000, u32::MAX]),
        13 => f.kept ^= 1 << random.below(64),
        14 => push_operand(random, &mut f.d),
        15 => (f.kind, f.length) = (random.below(25) as u8, random.pick(&[4, 6, 8, f.length])),
        _ => {
            let which = random.below(3);
            push_operand(random, &mut f.sources[which]);
        }
    }
}

fn push_operand(random: &mut Random, operand: &mut Operand) {
    const EDGES: [u16; 16] = [0, 1, 63, 64, 65, 126, 127, 128, 254, 255, 256, 257, 510, 511, 512, 65535];
    match random.below(4) {
        0 => operand.kind = random.below(9) as u8,
        1 => operand.hint = random.below(4) as u8,
        2 => operand.number = random.pick(&EDGES),
        _ => (operand.kind, operand.number) = (random.below(9) as u8, random.pick(&EDGES)),
    }
}
