//! What was seen in a comparison.

use std::collections::BTreeMap;

use crate::plain::{Answer, Verdict};

/// The numbers of the refusals that a check can give; 20 is the one to the caller.
const REFUSALS: [u8; 14] = [1, 2, 6, 7, 8, 10, 11, 12, 20, 21, 22, 23, 24, 25];

#[derive(Default)]
pub struct Tally {
    pub inputs: usize,
    pub all_tried: usize,
    pub ties: usize,
    pub other_order: usize,
    pages: usize,
    kinds: BTreeMap<u8, usize>,
    rows: BTreeMap<usize, usize>,
    limit_states: BTreeMap<usize, usize>,
    holes: BTreeMap<usize, usize>,
    longest_chain: usize,
    refusals: BTreeMap<u8, usize>,
    pages_without_room: usize,
}

impl Tally {
    pub fn add(&mut self, answer: &Answer, fits: bool) {
        self.inputs += 1;
        match &answer.outcome {
            Ok(_) if !fits => self.pages_without_room += 1,
            Ok(verdict) => self.add_page(verdict),
            Err(_) if !fits => {}
            Err(refusal) => *self.refusals.entry(refusal.number).or_default() += 1,
        }
        if !fits {
            *self.refusals.entry(20).or_default() += 1;
        }
    }

    fn add_page(&mut self, verdict: &Verdict) {
        self.pages += 1;
        *self.kinds.entry(verdict.judgment.kind).or_default() += 1;
        *self.rows.entry(verdict.judgment.row).or_default() += 1;
        *self
            .limit_states
            .entry(verdict.judgment.limit_state)
            .or_default() += 1;
        *self.holes.entry(verdict.sheet.holes.len()).or_default() += 1;
        self.longest_chain = self.longest_chain.max(verdict.chain.numbers.len());
    }

    /// Whether every refusal, verdict, row, limit state and number of holes was seen.
    pub fn is_full(&self) -> bool {
        REFUSALS
            .iter()
            .all(|number| self.refusals.contains_key(number))
            && self.pages_without_room > 0
            && self.kinds.len() == 3
            && self.rows.len() == 19
            && self.limit_states.len() == 4
            && self.holes.len() == 32
            && self.ties > 0
    }

    pub fn print(&self) {
        println!("pages                      {:>8}", self.pages);
        print_counts("  by the verdict's kind", &self.kinds);
        print_counts("  by the greatest row", &self.rows);
        print_counts("  by the weakest limit state", &self.limit_states);
        print_counts("  by how many holes", &self.holes);
        println!("  longest chain            {:>8}", self.longest_chain);
        println!("  every chain was tried    {:>8}", self.all_tried);
        println!("  and several were least   {:>8}", self.ties);
        println!(
            "  load lines in another order than D L A S R W E  {}",
            self.other_order
        );
        println!(
            "refused                    {:>8}",
            self.refusals.values().sum::<usize>()
        );
        print_counts("  by number", &self.refusals);
        println!("  of those with 20, pages  {:>8}", self.pages_without_room);
    }
}

fn print_counts<K: std::fmt::Display>(what: &str, counts: &BTreeMap<K, usize>) {
    let each: Vec<String> = counts
        .iter()
        .map(|(key, count)| format!("{key}: {count}"))
        .collect();
    println!("{what}");
    for line in each.chunks(8) {
        println!("    {}", line.join(", "));
    }
}
