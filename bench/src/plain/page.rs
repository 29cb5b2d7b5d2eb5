//! What is written: the page, or the refused line.

use super::sheet::LETTERS;
use super::{Refusal, Verdict};

/// A text that is written piece by piece.
struct Page(Vec<u8>);

impl Page {
    fn text(&mut self, text: &str) -> &mut Self {
        self.0.extend_from_slice(text.as_bytes());
        self
    }

    fn number(&mut self, number: i64) -> &mut Self {
        let mut digits = [b'0'; 20];
        let mut start = digits.len() - 1;
        let mut left = number.unsigned_abs();
        while left >= 10 {
            digits[start] += (left % 10) as u8;
            left /= 10;
            start -= 1;
        }
        digits[start] += left as u8;
        if number < 0 {
            self.0.push(b'-');
        }
        self.0.extend_from_slice(&digits[start..]);
        self
    }

    /// Numbers with one space between each two, and the end of the line.
    fn line(&mut self, numbers: &[i64]) {
        for (place, number) in numbers.iter().enumerate() {
            if place > 0 {
                self.0.push(b' ');
            }
            self.number(*number);
        }
        self.0.push(b'\n');
    }
}

pub fn page(verdict: &Verdict) -> Vec<u8> {
    let mut page = Page(Vec::with_capacity(1024));
    write_bar_and_bolt(&mut page, verdict);
    write_holes_and_loads(&mut page, verdict);
    write_verdict_and_chain(&mut page, verdict);
    page.0
}

fn write_bar_and_bolt(page: &mut Page, Verdict { sheet, .. }: &Verdict) {
    let (bar, bolt) = (&sheet.bar, &sheet.bolt);
    page.text("1 bar\n").number(bar.width.into());
    page.text(" ").number(bar.thickness.into());
    page.text(" ").text(bar.steel.name);
    page.text(" ").number(bar.edge.into());
    page.text("\n1 bolt\n").text(bolt.size.name);
    page.text(" ").number(bolt.stress.into());
    page.text(" ").number(bolt.planes.into()).text("\n");
}

fn write_holes_and_loads(page: &mut Page, Verdict { sheet, .. }: &Verdict) {
    page.number(sheet.holes.len() as i64).text(" holes\n");
    for hole in &sheet.holes {
        page.line(&[hole.x, hole.y, hole.diameter].map(i64::from));
    }
    page.text("7 loads\n");
    for (letter, newtons) in LETTERS.iter().zip(sheet.loads) {
        page.0.extend_from_slice(&[*letter, b' ']);
        page.line(&[newtons.into()]);
    }
}

fn write_verdict_and_chain(page: &mut Page, verdict: &Verdict) {
    let Verdict {
        judgment, chain, ..
    } = verdict;
    page.text("1 verdict\n").line(&[
        judgment.kind.into(),
        judgment.row as i64,
        judgment.limit_state as i64,
        judgment.greatest_row,
        judgment.least_strength,
        judgment.net_width,
        judgment.least_row,
    ]);
    page.number(chain.numbers.len() as i64).text(" chain\n");
    for number in &chain.numbers {
        page.line(&[*number as i64]);
    }
}

pub fn refused(refusal: &Refusal) -> Vec<u8> {
    let mut page = Page(Vec::with_capacity(32));
    page.text("refused ")
        .line(&[refusal.number.into(), refusal.line as i64]);
    page.0
}
