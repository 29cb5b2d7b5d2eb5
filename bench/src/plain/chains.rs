//! The least chain of holes: by trying every chain, and by a search.

use std::cmp::Ordering;

use super::sheet::{Hole, Sheet};

/// The numbers of its holes, first hole first, and its width in thousandths of a millimetre.
#[derive(Clone, Debug, PartialEq, Eq)]
pub struct Chain {
    pub numbers: Vec<usize>,
    pub width: i64,
}

/// What a hole takes from the width.
fn cut(hole: &Hole) -> i64 {
    1000 * i64::from(hole.diameter + 2)
}

/// What two neighbours give back: s² / 4g, rounded down to thousandths.
fn stagger(low: &Hole, high: &Hole) -> i64 {
    let s = low.x.abs_diff(high.x);
    let g = high.y - low.y;
    i64::from(250 * s * s / g)
}

/// How many chains the holes have.
pub fn count(holes: &[Hole]) -> u64 {
    let mut ending: Vec<u64> = Vec::new();
    for high in holes {
        let longer = holes.iter().zip(&ending).filter(|(low, _)| low.y < high.y);
        ending.push(1 + longer.map(|(_, chains)| chains).sum::<u64>());
    }
    ending.iter().sum()
}

/// The least chain, by measuring every one.
pub fn try_all(sheet: &Sheet) -> Chain {
    let mut best: Option<Chain> = None;
    visit(&sheet.holes, &mut Vec::new(), &mut |numbers| {
        let width = measured(sheet, numbers);
        let better = best.as_ref().is_none_or(|best| {
            width
                .cmp(&best.width)
                .then_with(|| named_first(numbers, &best.numbers))
                .is_lt()
        });
        if better {
            best = Some(Chain {
                numbers: numbers.to_vec(),
                width,
            });
        }
    });
    best.expect("there is a hole")
}

/// How many chains are just so wide.
pub fn count_of_width(sheet: &Sheet, width: i64) -> usize {
    let mut count = 0;
    visit(&sheet.holes, &mut Vec::new(), &mut |numbers| {
        count += usize::from(measured(sheet, numbers) == width);
    });
    count
}

/// Hands over each chain that goes on from these numbers.
fn visit(holes: &[Hole], numbers: &mut Vec<usize>, each: &mut impl FnMut(&[usize])) {
    let low = numbers.last().map(|last| holes[last - 1].y);
    for (place, hole) in holes.iter().enumerate() {
        if low.is_none_or(|low| low < hole.y) {
            numbers.push(place + 1);
            each(numbers);
            visit(holes, numbers, each);
            numbers.pop();
        }
    }
}

/// The width of a chain, from its definition.
fn measured(sheet: &Sheet, numbers: &[usize]) -> i64 {
    let hole = |number: usize| &sheet.holes[number - 1];
    let cuts: i64 = numbers.iter().map(|number| cut(hole(*number))).sum();
    let staggers: i64 = numbers
        .windows(2)
        .map(|two| stagger(hole(two[0]), hole(two[1])))
        .sum();
    1000 * i64::from(sheet.bar.width) - cuts + staggers
}

/// Which of two chains comes first: from the last hole backwards, the smaller number at the first difference, where no hole counts as 0.
fn named_first(a: &[usize], b: &[usize]) -> Ordering {
    a.iter().rev().cmp(b.iter().rev())
}

/// The best chain that ends in a hole: its width, and the place of the hole before.
struct Link {
    width: i64,
    before: Option<usize>,
}

/// The least chain, by the least one that ends in each hole.
pub fn search(sheet: &Sheet) -> Chain {
    let holes = &sheet.holes;
    let whole = 1000 * i64::from(sheet.bar.width);
    let mut links: Vec<Link> = Vec::with_capacity(holes.len());
    for high in holes {
        let mut best = Link {
            width: whole - cut(high),
            before: None,
        };
        for (place, (low, link)) in holes.iter().zip(&links).enumerate() {
            if low.y < high.y {
                let width = link.width + stagger(low, high) - cut(high);
                let longer = Link {
                    width,
                    before: Some(place),
                };
                if compare(&links, &longer, &best).is_lt() {
                    best = longer;
                }
            }
        }
        links.push(best);
    }
    let ends = (0..links.len()).map(|end| Link {
        width: links[end].width,
        before: Some(end),
    });
    let least = ends
        .min_by(|a, b| compare(&links, a, b))
        .expect("there is a hole");
    let mut numbers: Vec<usize> = backwards(&links, &least).collect();
    numbers.reverse();
    Chain {
        numbers,
        width: least.width,
    }
}

/// The numbers of the holes before a link, last hole first.
fn backwards<'a>(links: &'a [Link], link: &Link) -> impl Iterator<Item = usize> + use<'a> {
    std::iter::successors(link.before, |place| links[*place].before).map(|place| place + 1)
}

/// By width, and of equally wide ones by the whole chain, from the last hole backwards.
fn compare(links: &[Link], a: &Link, b: &Link) -> Ordering {
    a.width
        .cmp(&b.width)
        .then_with(|| backwards(links, a).cmp(backwards(links, b)))
}
