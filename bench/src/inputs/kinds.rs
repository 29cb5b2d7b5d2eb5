//! The kinds of inputs, and how many of each are made.

use super::rng::Rng;
use super::sheets::{self, Frame, Hole};
use super::{damage, faults, form::Form, holes, holes::Grid};
use crate::plain;

/// A text, and how many bytes are lent for the answer.
pub struct Input {
    pub text: Vec<u8>,
    pub room: usize,
}

pub struct Kind {
    pub name: &'static str,
    pub many: usize,
    /// Up to how many chains of a sheet all are tried.
    pub trying: u64,
    pub make: fn(&mut Rng) -> Input,
}

const fn kind(name: &'static str, many: usize, make: fn(&mut Rng) -> Input) -> Kind {
    Kind {
        name,
        many,
        trying: 20_000,
        make,
    }
}

pub static KINDS: [Kind; 23] = [
    kind("lawful, 0 to 32 holes anywhere", 25_000, |rng| {
        whole(lawful(rng).1.text())
    }),
    Kind {
        trying: 300_000,
        ..kind("lawful, 13 to 18 holes, every chain tried", 300, |rng| {
            whole(many_chains(rng))
        })
    },
    kind("lawful, 32 holes", 4_000, |rng| whole(full(rng))),
    kind("grids of holes", 10_000, |rng| whole(grid(rng))),
    kind("grids in which a zigzag gives back a hole", 15_000, |rng| {
        whole(tied_grid(rng))
    }),
    kind("zigzags, long chains", 5_000, |rng| whole(zigzag(rng))),
    kind("extremes: ends of ranges, corners", 10_000, |rng| {
        whole(extreme(rng).1.text())
    }),
    kind(
        "one number at or next to an end of its range",
        20_000,
        |rng| whole(at_an_end(rng)),
    ),
    kind("greatest row at the least strength", 5_000, |rng| {
        whole(at_strength(rng))
    }),
    kind("least row at zero", 4_000, |rng| whole(at_zero(rng))),
    kind("two strengths equal", 2_000, |rng| {
        whole(equal_strengths(rng))
    }),
    kind("one fault, two or three", 30_000, |rng| whole(faulty(rng))),
    kind("several faults on one line", 10_000, |rng| {
        whole(faulty_line(rng))
    }),
    kind("one byte replaced", 15_000, |rng| {
        whole(damaged(rng, damage::replaced))
    }),
    kind("one byte deleted", 10_000, |rng| {
        whole(damaged(rng, damage::deleted))
    }),
    kind("one byte inserted", 10_000, |rng| {
        whole(damaged(rng, damage::inserted))
    }),
    kind("several bytes damaged", 5_000, |rng| {
        whole(damaged(rng, damage::worn))
    }),
    kind("cut off", 6_000, |rng| whole(damaged(rng, damage::cut_off))),
    kind("lines out of order, dropped or doubled", 5_000, |rng| {
        whole(damaged(rng, damage::disordered))
    }),
    kind("4,095 to 4,200 bytes", 5_000, |rng| {
        whole(damaged(rng, damage::drawn_out))
    }),
    kind("a page as the text", 1_000, |rng| whole(page(rng))),
    kind("pieces of the format in no order", 5_000, |rng| {
        whole(damage::noise(rng))
    }),
    kind("small buffers", 12_000, small_buffer),
];

fn whole(text: Vec<u8>) -> Input {
    Input { text, room: 4096 }
}

/// Any lawful sheet.
fn lawful(rng: &mut Rng) -> (Frame, Form) {
    let frame = if rng.once_in(2) {
        Frame::any(rng)
    } else {
        Frame::roomy(rng)
    };
    let most = rng.below(33);
    let holes = holes::scattered(rng, &frame, most);
    let loads = sheets::loads(rng);
    (frame, frame.form(rng, &holes, loads))
}

/// A sheet with few holes, so that damage falls anywhere.
fn small(rng: &mut Rng) -> (Frame, Form) {
    let frame = Frame::any(rng);
    let most = rng.below(6);
    let holes = holes::scattered(rng, &frame, most);
    let loads = sheets::loads(rng);
    (frame, frame.form(rng, &holes, loads))
}

/// A text of this frame with these holes and any loads.
fn drilled(rng: &mut Rng, frame: &Frame, holes: &[Hole]) -> Vec<u8> {
    let loads = sheets::loads(rng);
    frame.form(rng, holes, loads).text()
}

/// A lawful text with just so many holes.
pub fn with_holes(rng: &mut Rng, many: usize) -> Vec<u8> {
    loop {
        let frame = Frame::roomy(rng);
        let holes = holes::scattered(rng, &frame, many);
        if holes.len() == many {
            return drilled(rng, &frame, &holes);
        }
    }
}

fn many_chains(rng: &mut Rng) -> Vec<u8> {
    let many = rng.within(13..=18) as usize;
    with_holes(rng, many)
}

fn full(rng: &mut Rng) -> Vec<u8> {
    with_holes(rng, 32)
}

fn grid(rng: &mut Rng) -> Vec<u8> {
    let frame = if rng.once_in(2) {
        Frame::any(rng)
    } else {
        Frame::roomy(rng)
    };
    let diameters = [holes::diameter(rng, &frame), holes::diameter(rng, &frame)];
    let used = rng.pick(&[&diameters[..1], &diameters[..]]);
    let holes = Grid::any(rng, &frame).holes(rng, &frame, used);
    drilled(rng, &frame, &holes)
}

fn tied_grid(rng: &mut Rng) -> Vec<u8> {
    let frame = Frame::roomy(rng);
    let diameter = holes::diameter(rng, &frame);
    let holes = Grid::balanced(rng, &frame, diameter).holes(rng, &frame, &[diameter]);
    drilled(rng, &frame, &holes)
}

fn zigzag(rng: &mut Rng) -> Vec<u8> {
    let frame = if rng.once_in(2) {
        Frame::largest()
    } else {
        Frame::roomy(rng)
    };
    let many = rng.within(10..=32) as usize;
    let holes = holes::zigzag(rng, &frame, many);
    drilled(rng, &frame, &holes)
}

fn extreme(rng: &mut Rng) -> (Frame, Form) {
    let frame = Frame::extreme(rng);
    let holes = holes::cornered(rng, &frame);
    let loads = sheets::extreme_loads(rng);
    (frame, frame.form(rng, &holes, loads))
}

fn at_an_end(rng: &mut Rng) -> Vec<u8> {
    let (frame, mut form) = if rng.once_in(2) {
        extreme(rng)
    } else {
        small(rng)
    };
    faults::end_of_range(rng, &frame, &mut form);
    form.text()
}

/// Loads that bring row 2, the greatest, to the least strength, one below it or one above it.
fn at_strength(rng: &mut Rng) -> Vec<u8> {
    let frame = Frame {
        thickness: rng.within(3..=12),
        width: rng.within(100..=400),
        ..Frame::roomy(rng)
    };
    let most = 1 + rng.below(8);
    let holes = holes::scattered(rng, &frame, most);
    let unloaded = frame.form(rng, &holes, [0; 7]).text();
    let Ok(verdict) = plain::answer(&unloaded, plain::chains::search).outcome else {
        return unloaded;
    };
    let target = verdict.judgment.least_strength + rng.within(-1..=1);
    // 12 D + 16 L + 5 A is the target
    let a = target.rem_euclid(4);
    let quarter = (target - 5 * a) / 4;
    let d = (3 * quarter).rem_euclid(4);
    let l = (quarter - 3 * d) / 4;
    frame.form(rng, &holes, [d, l, a, 0, 0, 0, 0]).text()
}

/// Loads that bring row 17 or row 19 to zero or just under it.
fn at_zero(rng: &mut Rng) -> Vec<u8> {
    let (frame, k) = (Frame::any(rng), rng.within(0..=20_000));
    let under = rng.within(0..=1);
    let holes = holes::scattered(rng, &frame, 3);
    let loads = match rng.below(2) {
        0 => [13 * k, 0, 0, 0, 0, 9 * k + under, 0],
        _ => [10 * k + under, 0, 0, 0, 0, 0, 9 * k + under],
    };
    frame.form(rng, &holes, loads).text()
}

/// One hole in a bar of A36 that is four times as wide as the hole counts, so that gross yielding and net rupture are equal.
fn equal_strengths(rng: &mut Rng) -> Vec<u8> {
    let frame = Frame {
        steel: "A36",
        thickness: rng.within(3..=6),
        edge: 24,
        stress: 1000,
        planes: 2,
        ..Frame::any(rng)
    };
    let diameter = holes::diameter(rng, &frame);
    let frame = Frame {
        width: 4 * (diameter + 2),
        ..frame
    };
    let step = 3 * frame.diameter;
    let holes: Vec<Hole> = (0..rng.within(1..=10))
        .map(|k| [48 + k * step, 36, diameter])
        .collect();
    drilled(rng, &frame, &holes)
}

fn faulty(rng: &mut Rng) -> Vec<u8> {
    let (frame, mut form) = if rng.once_in(3) {
        lawful(rng)
    } else {
        small(rng)
    };
    faults::any(rng, &frame, &mut form);
    form.text()
}

fn faulty_line(rng: &mut Rng) -> Vec<u8> {
    let (frame, mut form) = if rng.once_in(3) {
        lawful(rng)
    } else {
        small(rng)
    };
    faults::of_one_line(rng, &frame, &mut form);
    form.text()
}

fn damaged(rng: &mut Rng, damage: fn(&mut Rng, Vec<u8>) -> Vec<u8>) -> Vec<u8> {
    let (_, form) = if rng.once_in(3) {
        lawful(rng)
    } else {
        small(rng)
    };
    damage(rng, form.text())
}

fn page(rng: &mut Rng) -> Vec<u8> {
    let (_, form) = lawful(rng);
    plain::answer(&form.text(), plain::chains::search).bytes
}

/// A buffer that is just long enough, one byte longer or shorter, or much shorter.
fn small_buffer(rng: &mut Rng) -> Input {
    let text = match rng.below(3) {
        0 => faulty(rng),
        1 => small(rng).1.text(),
        _ => lawful(rng).1.text(),
    };
    let len = plain::answer(&text, plain::chains::search).bytes.len();
    let shorter = rng.below(len);
    let room = rng.pick(&[0, 1, len - 1, len - 1, len, len, len + 1, shorter]);
    Input { text, room }
}
