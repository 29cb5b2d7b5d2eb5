//! The nineteen rows, in tenths of a newton.

pub fn rows(loads: &[i32; 7]) -> [i64; 19] {
    let [d, l, a, s, r, w, e] = loads.map(i64::from);
    [
        14 * d,
        12 * d + 16 * l + 5 * a,
        12 * d + 16 * l + 5 * s,
        12 * d + 16 * l + 5 * r,
        12 * d + 5 * l + 16 * a,
        12 * d + 8 * w + 16 * a,
        12 * d + 5 * l + 16 * s,
        12 * d + 8 * w + 16 * s,
        12 * d + 5 * l + 16 * r,
        12 * d + 8 * w + 16 * r,
        12 * d + 13 * w + 5 * l + 5 * a,
        12 * d + 13 * w + 5 * l + 5 * s,
        12 * d + 13 * w + 5 * l + 5 * r,
        12 * d + 5 * l + 2 * s + 10 * e,
        12 * d + 5 * l + 2 * s - 10 * e,
        9 * d + 13 * w,
        9 * d - 13 * w,
        9 * d + 10 * e,
        9 * d - 10 * e,
    ]
}
