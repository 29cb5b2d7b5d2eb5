//! Texts that are damaged byte by byte, cut off or drawn out.

use super::rng::Rng;

/// A byte that matters to the format, or any.
fn byte(rng: &mut Rng) -> u8 {
    if rng.once_in(5) {
        rng.bits() as u8
    } else {
        rng.pick(b" \n-+0123456789.\t\r\0ADELMRSWabhlo\xC3")
    }
}

pub fn replaced(rng: &mut Rng, mut text: Vec<u8>) -> Vec<u8> {
    let place = rng.below(text.len());
    text[place] = byte(rng);
    text
}

pub fn deleted(rng: &mut Rng, mut text: Vec<u8>) -> Vec<u8> {
    text.remove(rng.below(text.len()));
    text
}

pub fn inserted(rng: &mut Rng, mut text: Vec<u8>) -> Vec<u8> {
    text.insert(rng.below(text.len() + 1), byte(rng));
    text
}

pub fn cut_off(rng: &mut Rng, mut text: Vec<u8>) -> Vec<u8> {
    text.truncate(rng.below(text.len()));
    text
}

/// Several bytes damaged at once.
pub fn worn(rng: &mut Rng, mut text: Vec<u8>) -> Vec<u8> {
    for _ in 0..=rng.below(4) {
        let change = rng.pick(&[replaced, deleted, inserted]);
        text = change(rng, text);
    }
    text
}

/// Lines exchanged, dropped or said twice.
pub fn disordered(rng: &mut Rng, text: Vec<u8>) -> Vec<u8> {
    let mut lines: Vec<&[u8]> = text.split_inclusive(|byte| *byte == b'\n').collect();
    let (a, b) = (rng.below(lines.len()), rng.below(lines.len()));
    match rng.below(3) {
        0 => lines.swap(a, b),
        1 => lines.insert(a, lines[b]),
        _ => drop(lines.remove(a)),
    }
    lines.concat()
}

/// Drawn out to between 4,095 and 4,200 bytes: behind the end, before it, or within a line.
pub fn drawn_out(rng: &mut Rng, mut text: Vec<u8>) -> Vec<u8> {
    let len = if rng.once_in(2) {
        rng.pick(&[4095, 4096, 4097])
    } else {
        rng.within(4095..=4200) as usize
    };
    let inside = rng.below(text.len() + 1);
    let place = rng.pick(&[text.len(), inside, 0]);
    let fill = rng.pick(b"\n 0Ax");
    let more = len.saturating_sub(text.len());
    text.splice(place..place, std::iter::repeat_n(fill, more));
    text
}

/// Bytes of the format in no order.
pub fn noise(rng: &mut Rng) -> Vec<u8> {
    let words: [&[u8]; 16] = [
        b"1 bar\n",
        b"200 12 A36 30\n",
        b"1 bolt\n",
        b"M20 330 1\n",
        b"1 holes\n",
        b"40 50 22\n",
        b"7 loads\n",
        b"D 5\n",
        b"bar",
        b"7",
        b" ",
        b"\n",
        b"-",
        b"0",
        b"L",
        b"E 0\n",
    ];
    let mut text = Vec::new();
    if rng.once_in(2) {
        text.extend_from_slice(
            b"1 bar\n200 12 A36 30\n1 bolt\nM20 330 1\n1 holes\n40 50 22\n7 loads\n",
        );
    }
    for _ in 0..rng.below(12) {
        text.extend_from_slice(rng.pick(&words));
    }
    text
}
