//! Lawful sheets.

use super::form::Form;
use super::rng::Rng;

/// A hole by x, y and diameter.
pub type Hole = [i64; 3];

/// The bar and the bolt of a sheet.
#[derive(Clone, Copy)]
pub struct Frame {
    pub width: i64,
    pub thickness: i64,
    pub steel: &'static str,
    pub edge: i64,
    pub size: &'static str,
    pub diameter: i64,
    pub stress: i64,
    pub planes: i64,
}

pub const STEELS: [&str; 6] = ["A36", "A529", "A572-42", "A572-50", "A572-60", "A572-65"];
pub const SIZES: [(&str, i64); 4] = [("M16", 16), ("M20", 20), ("M22", 22), ("M24", 24)];

impl Frame {
    /// Any bar that has a place for holes, and any bolt.
    pub fn any(rng: &mut Rng) -> Self {
        let edge = if rng.once_in(4) {
            rng.within(24..=200)
        } else {
            rng.within(24..=40)
        };
        let (size, diameter) = rng.pick(&SIZES);
        Frame {
            width: rng.within((2 * edge).max(50)..=1000),
            thickness: rng.within(3..=50),
            steel: rng.pick(&STEELS),
            edge,
            size,
            diameter,
            stress: rng.within(1..=1000),
            planes: rng.within(1..=2),
        }
    }

    /// A bar with room for 32 holes.
    pub fn roomy(rng: &mut Rng) -> Self {
        let edge = rng.within(24..=40);
        Frame {
            width: rng.within(500..=1000),
            edge,
            ..Frame::any(rng)
        }
    }

    /// The widest bar with the smallest bolt and edge distance.
    pub fn largest() -> Self {
        let (size, diameter) = SIZES[0];
        let steel = STEELS[0];
        Frame {
            width: 1000,
            thickness: 12,
            steel,
            edge: 24,
            size,
            diameter,
            stress: 330,
            planes: 1,
        }
    }

    /// Every number at one end of its range.
    pub fn extreme(rng: &mut Rng) -> Self {
        let (size, diameter) = rng.pick(&SIZES);
        let width = rng.pick(&[50, 1000]);
        Frame {
            width,
            thickness: rng.pick(&[3, 50]),
            steel: rng.pick(&STEELS),
            edge: if width == 50 {
                rng.pick(&[24, 25])
            } else {
                rng.pick(&[24, 200])
            },
            size,
            diameter,
            stress: rng.pick(&[1, 1000]),
            planes: rng.pick(&[1, 2]),
        }
    }

    /// Whether a hole may stand beside these.
    pub fn allows(&self, holes: &[Hole], [x, y, _]: Hole) -> bool {
        let inside =
            (self.edge..=1200).contains(&x) && (self.edge..=self.width - self.edge).contains(&y);
        let far =
            |[a, b, _]: &Hole| 9 * ((a - x).pow(2) + (b - y).pow(2)) >= 64 * self.diameter.pow(2);
        inside && holes.iter().all(far)
    }

    /// The sheet with holes and loads, each in a random order.
    pub fn form(&self, rng: &mut Rng, holes: &[Hole], loads: [i64; 7]) -> Form {
        let mut holes = holes.to_vec();
        rng.shuffle(&mut holes);
        let mut loads: Vec<(char, i64)> = "DLASRWE".chars().zip(loads).collect();
        rng.shuffle(&mut loads);
        let mut text = format!(
            "1 bar\n{} {} {} {}\n",
            self.width, self.thickness, self.steel, self.edge
        );
        text += &format!(
            "1 bolt\n{} {} {}\n{} holes\n",
            self.size,
            self.stress,
            self.planes,
            holes.len()
        );
        for [x, y, diameter] in &holes {
            text += &format!("{x} {y} {diameter}\n");
        }
        text += "7 loads\n";
        for (letter, newtons) in &loads {
            text += &format!("{letter} {newtons}\n");
        }
        let pieces = |line: &str| line.split(' ').map(String::from).collect();
        Form {
            lines: text.lines().map(pieces).collect(),
        }
    }
}

/// Seven loads: all of one order of size, or at the ends of their range, or small; mostly in tension.
pub fn loads(rng: &mut Rng) -> [i64; 7] {
    let most = rng.pick(&[3, 1_000, 30_000, 100_000, 300_000, 1_000_000, 10_000_000]);
    let least = if rng.once_in(3) { -most } else { 0 };
    let sparse = rng.once_in(2);
    [0; 7].map(|_: i64| {
        if sparse && rng.once_in(2) {
            0
        } else if rng.once_in(10) {
            rng.pick(&[least, most])
        } else {
            rng.within(least..=most)
        }
    })
}

/// Seven loads at the ends of their range, or next to them, or 0.
pub fn extreme_loads(rng: &mut Rng) -> [i64; 7] {
    let ends = [-10_000_000, -9_999_999, -1, 0, 1, 9_999_999, 10_000_000];
    [0; 7].map(|_: i64| rng.pick(&ends))
}
