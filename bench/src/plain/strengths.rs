//! The four strengths, each an exact fraction that is rounded down once.

use super::sheet::{Hole, Sheet};

/// `over` parts of `under`, in newtons.
struct Fraction {
    over: i128,
    under: i128,
}

impl Fraction {
    /// In whole tenths of a newton.
    fn tenths(self) -> i64 {
        (10 * self.over).div_euclid(self.under) as i64
    }
}

pub fn strengths(sheet: &Sheet, net_width: i64) -> [i64; 4] {
    let yield_stress = i128::from(sheet.bar.steel.yield_stress);
    let tensile_stress = i128::from(sheet.bar.steel.tensile_stress);
    let width = i128::from(sheet.bar.width);
    let thickness = i128::from(sheet.bar.thickness);
    let net_width = i128::from(net_width.max(0));
    let bolts = sheet.holes.len() as i128 * i128::from(sheet.bolt.planes);
    let bolt = i128::from(sheet.bolt.stress) * i128::from(sheet.bolt.size.area);
    let lengths = i128::from(bearing_lengths(
        &sheet.holes,
        i64::from(sheet.bolt.size.diameter),
    ));
    let gross_yielding = Fraction {
        over: 90 * yield_stress * width * thickness,
        under: 100,
    };
    // the net width is in thousandths of a millimetre, the lengths are in tenths of one
    let net_rupture = Fraction {
        over: 75 * tensile_stress * net_width * thickness,
        under: 100 * 1000,
    };
    let bolt_shear = Fraction {
        over: 75 * bolt * bolts,
        under: 100,
    };
    let bearing = Fraction {
        over: 75 * tensile_stress * thickness * lengths,
        under: 100 * 10,
    };
    [gross_yielding, net_rupture, bolt_shear, bearing].map(Fraction::tenths)
}

/// The sum of the lengths in bearing, in tenths of a millimetre.
fn bearing_lengths(holes: &[Hole], d: i64) -> i64 {
    holes
        .chunk_by(|a, b| a.y == b.y)
        .map(|line| line_lengths(line, d))
        .sum()
}

fn line_lengths(line: &[Hole], d: i64) -> i64 {
    let first = i64::from(line[0].x);
    let spacings = || line.windows(2).map(|two| i64::from(two[1].x - two[0].x));
    let most = 24 * d;
    if line.len() >= 2 && 10 * first >= 15 * d && spacings().all(|spacing| spacing >= 3 * d) {
        return most * line.len() as i64;
    }
    let others = spacings().map(|spacing| (10 * spacing - 5 * d).min(most));
    (10 * first).min(most) + others.sum::<i64>()
}
