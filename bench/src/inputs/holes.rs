//! Where the holes of a sheet stand.

use super::rng::Rng;
use super::sheets::{Frame, Hole};

/// A diameter that suits the bolt.
pub fn diameter(rng: &mut Rng, frame: &Frame) -> i64 {
    frame.diameter + rng.within(0..=8)
}

/// At most so many holes, anywhere.
pub fn scattered(rng: &mut Rng, frame: &Frame, most: usize) -> Vec<Hole> {
    let mut holes = Vec::new();
    for _ in 0..60 * most {
        let x = rng.within(frame.edge..=1200);
        let y = rng.within(frame.edge..=frame.width - frame.edge);
        let hole = [x, y, diameter(rng, frame)];
        if holes.len() < most && frame.allows(&holes, hole) {
            holes.push(hole);
        }
    }
    holes
}

/// Holes of one diameter, or of two, in rows that are `g` apart, every second one shifted by `s`.
pub struct Grid {
    pub columns: i64,
    pub rows: i64,
    pub pitch: i64,
    pub s: i64,
    pub g: i64,
}

impl Grid {
    pub fn any(rng: &mut Rng, frame: &Frame) -> Self {
        let d = frame.diameter;
        Grid {
            columns: rng.within(1..=8),
            rows: rng.within(1..=10),
            pitch: rng.within(2 * d..=4 * d),
            s: rng.pick(&[0, d, 2 * d, 3 * d]),
            g: rng.within(d..=4 * d),
        }
    }

    /// One in which a zigzag gives back just what a hole of this diameter takes.
    pub fn balanced(rng: &mut Rng, frame: &Frame, diameter: i64) -> Self {
        let mut pairs = Vec::new();
        for g in 1..=160 {
            let s = ((4 * g * (diameter + 2)) as f64).sqrt() as i64;
            if s * s == 4 * g * (diameter + 2) {
                pairs.push((s, g));
            }
        }
        let (s, g) = rng.pick(&pairs);
        Grid {
            s,
            g,
            pitch: rng.pick(&[s, 2 * s, 3 * s]),
            ..Grid::any(rng, frame)
        }
    }

    pub fn holes(&self, rng: &mut Rng, frame: &Frame, diameters: &[i64]) -> Vec<Hole> {
        let left = rng.within(frame.edge..=frame.edge + 60);
        let mut holes = Vec::new();
        for row in 0..self.rows {
            for column in 0..self.columns {
                let x = left + column * self.pitch + row % 2 * self.s;
                let hole = [x, frame.edge + row * self.g, rng.pick(diameters)];
                if holes.len() < 32 && frame.allows(&holes, hole) {
                    holes.push(hole);
                }
            }
        }
        holes
    }
}

/// Holes at the ends of what is allowed: the corners first, then along the edges, up to 32.
pub fn cornered(rng: &mut Rng, frame: &Frame) -> Vec<Hole> {
    let (low, high) = (frame.edge, frame.width - frame.edge);
    let diameters = [frame.diameter, frame.diameter + 8];
    let mut holes = Vec::new();
    for y in [low, high] {
        for x in [low, 1200] {
            holes.push([x, y, rng.pick(&diameters)]);
        }
    }
    let mut kept: Vec<Hole> = Vec::new();
    let most = rng.pick(&[1, 2, 4, 31, 32]);
    let step = (8 * frame.diameter + 2) / 3;
    let along = (0..40).flat_map(|k| {
        [
            [low + k * step, low],
            [low, low + k * step],
            [low + k * step, high],
            [1200 - k * step, high],
        ]
    });
    let along = along
        .map(|[x, y]| [x, y, rng.pick(&diameters)])
        .collect::<Vec<_>>();
    for hole in holes.into_iter().chain(along) {
        if kept.len() < most && frame.allows(&kept, hole) {
            kept.push(hole);
        }
    }
    kept
}

/// A zigzag of so many holes, each higher than the one before, mostly so narrow that one chain takes them all.
pub fn zigzag(rng: &mut Rng, frame: &Frame, many: usize) -> Vec<Hole> {
    let room = frame.width - 2 * frame.edge;
    let rise = room / (many as i64 - 1);
    let least = (64 * frame.diameter.pow(2) - 9 * rise.pow(2)).max(0) as f64;
    let side = (least.sqrt() / 3.0).ceil() as i64;
    let loose = rng.within(0..=8);
    let mut holes = Vec::new();
    for place in 0..many as i64 {
        let x = frame.edge + place % 2 * (side + loose) + rng.within(0..=loose);
        let hole = [x, frame.edge + place * rise, diameter(rng, frame)];
        if frame.allows(&holes, hole) {
            holes.push(hole);
        }
    }
    holes
}
