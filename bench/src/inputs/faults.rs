//! What can be wrong with a sheet, one fault for each way to go wrong.

use super::form::{BAR, BOLT, Form, HOLES};
use super::rng::Rng;
use super::sheets::Frame;

pub type Fault = fn(&mut Rng, &Frame, &mut Form);

pub const FAULTS: [Fault; 18] = [
    range_of_bar,
    range_of_bolt,
    unknown_steel,
    unknown_size,
    diameter,
    centre,
    too_close,
    unknown_load,
    letter_again,
    load_range,
    no_holes,
    bad_number,
    bad_number,
    pieces,
    section_name,
    section_count,
    holes_count,
    behind,
];

/// One fault, or now and then two or three at once.
pub fn any(rng: &mut Rng, frame: &Frame, form: &mut Form) {
    let times = rng.pick(&[1, 1, 2, 3]);
    for _ in 0..times {
        rng.pick(&FAULTS)(rng, frame, form);
    }
}

/// Several faults of one hole line or of one load line.
pub fn of_one_line(rng: &mut Rng, frame: &Frame, form: &mut Form) {
    let (line, faults): (_, &[Fault]) = match a_hole(rng, form) {
        Some(line) if rng.once_in(2) => (line, &[diameter, centre, too_close, bad_number]),
        _ => (
            a_load(rng, form),
            &[unknown_load, letter_again, load_range, bad_number],
        ),
    };
    let mut wrong = form.clone();
    for _ in 0..2 * form.lines.len() {
        rng.pick(faults)(rng, frame, &mut wrong);
    }
    form.lines[line] = wrong.lines.swap_remove(line);
}

/// One number at an end of its range, or next to it.
pub fn end_of_range(rng: &mut Rng, frame: &Frame, form: &mut Form) {
    let (edge, d) = (frame.edge, frame.diameter);
    let hole = a_hole(rng, form).unwrap_or(HOLES);
    let load = a_load(rng, form);
    let numbers = [
        (BAR, 0, 50, 1000),
        (BAR, 1, 3, 50),
        (BAR, 3, 24, 200),
        (BOLT, 1, 1, 1000),
        (BOLT, 2, 1, 2),
        (hole, 0, edge, 1200),
        (hole, 1, edge, frame.width - edge),
        (hole, 2, d, d + 8),
        (load, 1, -10_000_000, 10_000_000),
    ];
    let (line, place, least, most) = rng.pick(&numbers);
    put(
        form,
        line,
        place,
        rng.pick(&[least - 1, least, least + 1, most - 1, most, most + 1]),
    );
}

fn a_hole(rng: &mut Rng, form: &Form) -> Option<usize> {
    (form.holes() > 0).then(|| HOLES + 1 + rng.below(form.holes()))
}

fn a_load(rng: &mut Rng, form: &Form) -> usize {
    form.loads() + 1 + rng.below(7)
}

fn put(form: &mut Form, line: usize, place: usize, piece: impl ToString) {
    if let Some(old) = form.lines[line].get_mut(place) {
        *old = piece.to_string();
    }
}

fn range_of_bar(rng: &mut Rng, _: &Frame, form: &mut Form) {
    let (place, values) = rng.pick(&[(0, [49, 1001]), (1, [2, 51]), (3, [23, 201])]);
    let value = rng.pick(&[values[0], values[1], 0, 999_999_999]);
    put(form, BAR, place, value);
}

fn range_of_bolt(rng: &mut Rng, _: &Frame, form: &mut Form) {
    let (place, value) = rng.pick(&[(1, 0), (1, 1001), (2, 0), (2, 3), (2, 999_999_999)]);
    put(form, BOLT, place, value);
}

fn unknown_steel(rng: &mut Rng, _: &Frame, form: &mut Form) {
    put(
        form,
        BAR,
        2,
        rng.pick(&[
            "A37", "a36", "A3", "A360", "A572", "A572-", "A572-55", "1", "-", "M20",
        ]),
    );
}

fn unknown_size(rng: &mut Rng, _: &Frame, form: &mut Form) {
    put(
        form,
        BOLT,
        0,
        rng.pick(&["M18", "m20", "M2", "M200", "M", "20", "A36", "-1"]),
    );
}

fn diameter(rng: &mut Rng, frame: &Frame, form: &mut Form) {
    let d = frame.diameter;
    if let Some(line) = a_hole(rng, form) {
        put(form, line, 2, rng.pick(&[d - 1, d + 9, 0, 999_999_999]));
    }
}

fn centre(rng: &mut Rng, frame: &Frame, form: &mut Form) {
    let (low, high) = (frame.edge - 1, frame.width - frame.edge + 1);
    let (place, value) = rng.pick(&[
        (0, low),
        (0, 1201),
        (0, 0),
        (1, low),
        (1, high),
        (1, 0),
        (0, 999_999_999),
        (1, 999_999_999),
    ]);
    if let Some(line) = a_hole(rng, form) {
        put(form, line, place, value);
    }
}

/// A hole is moved next to another, near the least distance.
fn too_close(rng: &mut Rng, frame: &Frame, form: &mut Form) {
    let (Some(line), Some(other)) = (a_hole(rng, form), a_hole(rng, form)) else {
        return;
    };
    let centre: Vec<i64> = form.lines[other]
        .iter()
        .filter_map(|piece| piece.parse().ok())
        .collect();
    let [x, y, ..] = centre[..] else { return };
    let least = 8 * frame.diameter / 3;
    let (dx, dy) = rng.pick(&[
        (0, 0),
        (least, 0),
        (0, least),
        (-least, 0),
        (least + 1, 0),
        (0, -least),
        (1, 1),
    ]);
    put(form, line, 0, x.saturating_add(dx).max(0));
    put(form, line, 1, y.saturating_add(dy).max(0));
}

fn unknown_load(rng: &mut Rng, _: &Frame, form: &mut Form) {
    let line = a_load(rng, form);
    put(
        form,
        line,
        0,
        rng.pick(&["Q", "d", "DL", "0", "-", "é", "Д", "7", "D\t"]),
    );
}

fn letter_again(rng: &mut Rng, _: &Frame, form: &mut Form) {
    let (line, other) = (a_load(rng, form), a_load(rng, form));
    if let Some(letter) = form.lines[other].first().cloned() {
        put(form, line, 0, letter);
    }
}

fn load_range(rng: &mut Rng, _: &Frame, form: &mut Form) {
    let line = a_load(rng, form);
    put(
        form,
        line,
        1,
        rng.pick(&[-10_000_001, 10_000_001, -999_999_999, 999_999_999]),
    );
}

fn no_holes(_: &mut Rng, _: &Frame, form: &mut Form) {
    let loads = form.loads();
    form.lines.drain(HOLES + 1..loads);
    put(form, HOLES, 0, 0);
}

/// A piece that is no number, or none that may stand there.
fn bad_number(rng: &mut Rng, _: &Frame, form: &mut Form) {
    let line = rng.below(form.lines.len());
    let place = rng.below(4);
    let Some(old) = form.lines[line].get(place).cloned() else {
        return;
    };
    let more = [
        format!("0{old}"),
        format!("+{old}"),
        format!("-{old}"),
        format!("{old}x"),
        format!("{old}0000000"),
        format!("{old}.0"),
    ];
    let bad = [
        "",
        "-",
        "--1",
        "-0",
        "00",
        "+0",
        "0x1",
        "1e3",
        "1000000000",
        "-1000000000",
        "０",
        "1_0",
        "\u{b2}",
        "-01",
    ];
    if rng.once_in(2) {
        put(form, line, place, &more[rng.below(more.len())]);
    } else {
        put(form, line, place, rng.pick(&bad));
    }
}

/// A piece too many or too few, or a wrong gap.
fn pieces(rng: &mut Rng, _: &Frame, form: &mut Form) {
    let line = rng.below(form.lines.len());
    let pieces = &mut form.lines[line];
    let place = rng.below(pieces.len() + 1);
    match rng.below(6) {
        0 => pieces.insert(place, "7".into()),
        1 => pieces.insert(place, String::new()),
        2 => drop(pieces.pop()),
        3 => pieces.push("\r".into()),
        4 => *pieces = vec![pieces.join("\t")],
        _ => *pieces = vec![String::new()],
    }
}

fn section_name(rng: &mut Rng, _: &Frame, form: &mut Form) {
    let line = rng.pick(&[0, 2, HOLES, form.loads()]);
    put(
        form,
        line,
        1,
        rng.pick(&[
            "bar", "bolt", "holes", "loads", "bars", "Bar", "hole", "load", "verdict", "ba", "7",
        ]),
    );
}

fn section_count(rng: &mut Rng, _: &Frame, form: &mut Form) {
    let line = rng.pick(&[0, 2, HOLES, form.loads()]);
    put(
        form,
        line,
        0,
        rng.pick(&[0, 1, 2, 6, 7, 8, 33, 999_999_999]),
    );
}

/// One hole more or fewer than there are lines.
fn holes_count(rng: &mut Rng, _: &Frame, form: &mut Form) {
    let count = form.holes() as i64 + rng.pick(&[-1, 1]);
    put(form, HOLES, 0, count);
}

/// Something behind the loads.
fn behind(rng: &mut Rng, _: &Frame, form: &mut Form) {
    let more = rng.pick(&["", " ", "1 verdict", "E 0", "x"]);
    form.lines.push(more.split(' ').map(String::from).collect());
}
