//! The proved check and the plain one on the same inputs.

use std::borrow::Cow;

use crate::bridge;
use crate::inputs::kinds::{Input, KINDS, Kind};
use crate::inputs::rng::Rng;
use crate::plain::chains::{self, Chain};
use crate::plain::sheet::{LETTERS, Sheet};
use crate::plain::{self, Answer};
use crate::tally::Tally;

/// Bytes before and behind the lent buffer, which have to stay too.
const MARGIN: usize = 64;

/// The texts of examples/ with their pages.
const EXAMPLES: [(&[u8], &[u8]); 4] = [
    (
        include_bytes!("../../examples/three-holes.txt"),
        include_bytes!("../../examples/three-holes.page"),
    ),
    (
        include_bytes!("../../examples/wide-plate.txt"),
        include_bytes!("../../examples/wide-plate.page"),
    ),
    (
        include_bytes!("../../examples/overstressed.txt"),
        include_bytes!("../../examples/overstressed.page"),
    ),
    (
        include_bytes!("../../examples/reverses.txt"),
        include_bytes!("../../examples/reverses.page"),
    ),
];

/// Compares the two on every kind of input, and says whether they agree on all and everything was seen.
pub fn compare(seed: u64) -> bool {
    println!("comparison, generator started at {seed}");
    let mut tally = Tally::default();
    let mut differences = examples(&mut tally);
    for (place, kind) in KINDS.iter().enumerate() {
        let mut rng = Rng::new(seed.wrapping_mul(1000).wrapping_add(place as u64));
        let different = compare_kind(kind, &mut rng, &mut tally);
        println!(
            "{:>8}  {}{}",
            kind.many,
            kind.name,
            if different > 0 { "  DIFFERENT" } else { "" }
        );
        differences += different;
    }
    println!("{:>8}  in all", tally.inputs);
    tally.print();
    println!("differences                {differences:>8}");
    if !tally.is_full() {
        println!("something that can be answered was never seen");
    }
    differences == 0 && tally.is_full()
}

/// How many of the examples have another page, by either.
fn examples(tally: &mut Tally) -> usize {
    let mut rng = Rng::new(0);
    let mut different = 0;
    for (text, page) in EXAMPLES {
        let input = Input {
            text: text.to_vec(),
            room: 4096,
        };
        let plain_page = plain::answer(text, chains::try_all).bytes;
        let compared = compare_one(&input, 20_000, &mut rng, tally);
        different += usize::from(plain_page != page || compared.is_err());
    }
    println!("{:>8}  examples of the repository", EXAMPLES.len());
    different
}

fn compare_kind(kind: &Kind, rng: &mut Rng, tally: &mut Tally) -> usize {
    let mut different = 0;
    for _ in 0..kind.many {
        let input = (kind.make)(rng);
        if let Err(what) = compare_one(&input, kind.trying, rng, tally) {
            different += 1;
            if different <= 3 {
                println!(
                    "{what}, room {}, text:\n{}",
                    input.room,
                    input.text.escape_ascii()
                );
            }
        }
    }
    different
}

fn compare_one(input: &Input, trying: u64, rng: &mut Rng, tally: &mut Tally) -> Result<(), String> {
    let answer = plain::answer(&input.text, |sheet| least_chain(sheet, trying));
    if let Ok(verdict) = &answer.outcome {
        if chains::count(&verdict.sheet.holes) <= trying {
            let equals = chains::count_of_width(&verdict.sheet, verdict.chain.width);
            tally.all_tried += 1;
            tally.ties += usize::from(equals > 1);
        }
        if chains::search(&verdict.sheet) != verdict.chain {
            return Err("the plain search misses the least chain".into());
        }
    }
    let fits = answer.bytes.len() <= input.room;
    tally.add(&answer, fits);
    let mut before = vec![0; input.room + 2 * MARGIN];
    rng.fill(&mut before);
    let mut after = before.clone();
    let told = bridge::check(&input.text, &mut after[MARGIN..MARGIN + input.room]);
    if told != fits.then_some(answer.bytes.len()) {
        return Err(format!(
            "{told:?} bytes, and not {} as plainly worked out",
            answer.bytes.len()
        ));
    }
    let told = told.unwrap_or(0);
    let (margin, rest) = after.split_at(MARGIN);
    if *margin != before[..MARGIN] || rest[told..] != before[MARGIN + told..] {
        return Err("bytes beyond the answer are changed".into());
    }
    same_bytes(&rest[..told], &answer, tally)
}

/// By trying all chains where they are few.
fn least_chain(sheet: &Sheet, trying: u64) -> Chain {
    if chains::count(&sheet.holes) <= trying {
        chains::try_all(sheet)
    } else {
        chains::search(sheet)
    }
}

/// The order of the load lines is left open; everything else has to be the same.
fn same_bytes(ours: &[u8], answer: &Answer, tally: &mut Tally) -> Result<(), String> {
    if ours.is_empty() || *ours == answer.bytes {
        return Ok(());
    }
    if answer.outcome.is_ok() && in_letter_order(ours) == answer.bytes {
        tally.other_order += 1;
        return Ok(());
    }
    Err(format!(
        "{}\nand not as plainly worked out\n{}",
        ours.escape_ascii(),
        answer.bytes.escape_ascii()
    ))
}

/// A page with its load lines in the order of the letters.
fn in_letter_order(page: &[u8]) -> Cow<'_, [u8]> {
    let mut lines: Vec<&[u8]> = page.split_inclusive(|byte| *byte == b'\n').collect();
    let Some(header) = lines.iter().position(|line| *line == b"7 loads\n") else {
        return Cow::Borrowed(page);
    };
    if let Some(loads) = lines.get_mut(header + 1..header + 8) {
        loads.sort_by_key(|line| {
            LETTERS
                .iter()
                .position(|letter| line.first() == Some(letter))
        });
    }
    Cow::Owned(lines.concat())
}
