//! A page worked out a second time, by the rules in docs/ and without any code of the proved crates.

pub mod chains;
pub mod judgment;
mod page;
mod reading;
mod rows;
pub mod sheet;
mod strengths;

use chains::Chain;
use judgment::Judgment;
pub use reading::Refusal;
use sheet::Sheet;

/// What is written for a text, and what it was worked out from.
pub struct Answer {
    pub bytes: Vec<u8>,
    pub outcome: Result<Verdict, Refusal>,
}

pub struct Verdict {
    pub sheet: Sheet,
    pub chain: Chain,
    pub judgment: Judgment,
}

/// The answer to a text, where the least chain is found by `find`.
pub fn answer(text: &[u8], find: impl Fn(&Sheet) -> Chain) -> Answer {
    let outcome = reading::read(text).map(|sheet| {
        let chain = find(&sheet);
        let judgment = judgment::judge(&sheet, &chain);
        Verdict {
            sheet,
            chain,
            judgment,
        }
    });
    let bytes = match &outcome {
        Ok(verdict) => page::page(verdict),
        Err(refusal) => page::refused(refusal),
    };
    Answer { bytes, outcome }
}

/// The same call as the proved one: how many bytes of `out` are the answer, or none where it does not fit.
pub fn check(text: &[u8], out: &mut [u8]) -> Option<usize> {
    let Answer { bytes, .. } = answer(text, chains::search);
    out.get_mut(..bytes.len())?.copy_from_slice(&bytes);
    Some(bytes.len())
}
