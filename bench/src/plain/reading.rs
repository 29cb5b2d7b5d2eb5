//! The first four sections of a page, read line by line up to the first fault.

use std::ops::RangeInclusive;

use super::sheet::{Bar, Bolt, Hole, LETTERS, SIZES, STEELS, Sheet};

pub struct Refusal {
    pub number: u8,
    pub line: usize,
}

/// The lines that are left, and the number of the line that is looked at.
struct Reader<I> {
    lines: I,
    line: usize,
}

/// The sheet that a text describes, with nothing behind it and at least one hole.
pub fn read(text: &[u8]) -> Result<Sheet, Refusal> {
    let lines = text.split_inclusive(|byte| *byte == b'\n');
    let mut reader = Reader { lines, line: 0 };
    reader.need(text.len() <= 4096, 21)?;
    let bar = reader.bar()?;
    let bolt = reader.bolt()?;
    let mut holes = reader.holes(&bar, &bolt)?;
    let loads = reader.loads()?;
    reader.end()?;
    if holes.is_empty() {
        return Err(Refusal {
            number: 12,
            line: 0,
        });
    }
    holes.sort_unstable_by_key(|hole| (hole.y, hole.x));
    Ok(Sheet {
        bar,
        bolt,
        holes,
        loads,
    })
}

impl<'a, I: Iterator<Item = &'a [u8]>> Reader<I> {
    fn need(&self, holds: bool, number: u8) -> Result<(), Refusal> {
        if holds {
            Ok(())
        } else {
            Err(Refusal {
                number,
                line: self.line,
            })
        }
    }

    fn some<T>(&self, value: Option<T>, number: u8) -> Result<T, Refusal> {
        value.ok_or(Refusal {
            number,
            line: self.line,
        })
    }

    /// The next line, which has so many pieces.
    fn pieces<const N: usize>(&mut self) -> Result<[&'a [u8]; N], Refusal> {
        self.line += 1;
        let line = self.lines.next();
        self.some(line.and_then(pieces), 22)
    }

    fn natural(&self, piece: &[u8]) -> Result<u32, Refusal> {
        self.some(natural(piece), 22)
    }

    /// The first line of a section, and its count.
    fn header(&mut self, name: &str, counts: RangeInclusive<u32>) -> Result<u32, Refusal> {
        let [count, word] = self.pieces()?;
        let count = self.natural(count)?;
        self.need(word == name.as_bytes() && counts.contains(&count), 23)?;
        Ok(count)
    }

    fn bar(&mut self) -> Result<Bar, Refusal> {
        self.header("bar", 1..=1)?;
        let [width, thickness, name, edge] = self.pieces()?;
        let width = self.natural(width)?;
        let thickness = self.natural(thickness)?;
        let edge = self.natural(edge)?;
        let steel = STEELS.iter().find(|steel| steel.name.as_bytes() == name);
        let steel = self.some(steel, 2)?;
        self.need((50..=1000).contains(&width), 1)?;
        self.need((3..=50).contains(&thickness), 1)?;
        self.need((24..=200).contains(&edge), 1)?;
        Ok(Bar {
            width,
            thickness,
            steel,
            edge,
        })
    }

    fn bolt(&mut self) -> Result<Bolt, Refusal> {
        self.header("bolt", 1..=1)?;
        let [name, stress, planes] = self.pieces()?;
        let stress = self.natural(stress)?;
        let planes = self.natural(planes)?;
        let size = SIZES.iter().find(|size| size.name.as_bytes() == name);
        let size = self.some(size, 2)?;
        self.need((1..=1000).contains(&stress), 1)?;
        self.need((1..=2).contains(&planes), 1)?;
        Ok(Bolt {
            size,
            stress,
            planes,
        })
    }

    fn holes(&mut self, bar: &Bar, bolt: &Bolt) -> Result<Vec<Hole>, Refusal> {
        let count = self.header("holes", 0..=32)?;
        let mut holes = Vec::with_capacity(count as usize);
        for _ in 0..count {
            let [x, y, diameter] = self.pieces()?;
            let hole = Hole {
                x: self.natural(x)?,
                y: self.natural(y)?,
                diameter: self.natural(diameter)?,
            };
            let d = bolt.size.diameter;
            self.need((d..=d + 8).contains(&hole.diameter), 6)?;
            self.need((bar.edge..=1200).contains(&hole.x), 7)?;
            self.need(hole.y >= bar.edge && hole.y + bar.edge <= bar.width, 7)?;
            self.need(holes.iter().all(|other| apart(&hole, other, d)), 8)?;
            holes.push(hole);
        }
        Ok(holes)
    }

    fn loads(&mut self) -> Result<[i32; 7], Refusal> {
        self.header("loads", 7..=7)?;
        let mut loads = [None; 7];
        for _ in 0..7 {
            let [letter, newtons] = self.pieces()?;
            let newtons = self.some(integer(newtons), 22)?;
            let place = LETTERS.iter().position(|known| letter == [*known]);
            let load = &mut loads[self.some(place, 10)?];
            self.need(load.is_none(), 24)?;
            self.need((-10_000_000..=10_000_000).contains(&newtons), 11)?;
            *load = Some(newtons);
        }
        Ok(loads.map(Option::unwrap_or_default))
    }

    /// No line is left.
    fn end(&mut self) -> Result<(), Refusal> {
        self.line += 1;
        let more = self.lines.next().is_some();
        self.need(!more, 25)
    }
}

/// The pieces of a line that ends as it should and has so many.
fn pieces<const N: usize>(line: &[u8]) -> Option<[&[u8]; N]> {
    let mut rest = line.strip_suffix(b"\n")?.split(|byte| *byte == b' ');
    let mut pieces = [line; N];
    for piece in &mut pieces {
        *piece = rest.next().filter(|piece| !piece.is_empty())?;
    }
    rest.next().is_none().then_some(pieces)
}

/// A number without sign, in at most nine digits and without a leading zero.
fn natural(piece: &[u8]) -> Option<u32> {
    match piece {
        [b'0'] => Some(0),
        [b'1'..=b'9', rest @ ..] if rest.len() <= 8 && rest.iter().all(u8::is_ascii_digit) => Some(
            piece
                .iter()
                .fold(0, |number, digit| 10 * number + u32::from(digit - b'0')),
        ),
        _ => None,
    }
}

/// The same, or with a minus before a number that is not 0.
fn integer(piece: &[u8]) -> Option<i32> {
    match piece {
        [b'-', b'0', ..] => None,
        [b'-', digits @ ..] => natural(digits).map(|number| -(number as i32)),
        _ => natural(piece).map(|number| number as i32),
    }
}

/// The centres are at least 2 2/3 bolt diameters apart.
fn apart(a: &Hole, b: &Hole, d: u32) -> bool {
    let (dx, dy) = (a.x.abs_diff(b.x), a.y.abs_diff(b.y));
    9 * (dx * dx + dy * dy) >= 64 * d * d
}
