//! The seven numbers of the verdict.

use super::chains::Chain;
use super::rows::rows;
use super::sheet::Sheet;
use super::strengths::strengths;

pub struct Judgment {
    pub kind: u8,
    pub row: usize,
    pub limit_state: usize,
    pub greatest_row: i64,
    pub least_strength: i64,
    pub net_width: i64,
    pub least_row: i64,
}

pub fn judge(sheet: &Sheet, chain: &Chain) -> Judgment {
    let rows = rows(&sheet.loads);
    let strengths = strengths(sheet, chain.width);
    let (row, greatest_row) = first(&rows, |value, best| value > best);
    let (limit_state, least_strength) = first(&strengths, |value, best| value < best);
    let (_, least_row) = first(&rows, |value, best| value < best);
    let kind = if least_row < 0 {
        2
    } else if greatest_row > least_strength {
        1
    } else {
        0
    };
    let net_width = chain.width;
    Judgment {
        kind,
        row,
        limit_state,
        greatest_row,
        least_strength,
        net_width,
        least_row,
    }
}

/// The number, from 1, and the value of the first that nothing beats.
fn first(values: &[i64], beats: impl Fn(i64, i64) -> bool) -> (usize, i64) {
    let mut best = (1, values[0]);
    for (place, value) in values.iter().enumerate() {
        if beats(*value, best.1) {
            best = (place + 1, *value);
        }
    }
    best
}
