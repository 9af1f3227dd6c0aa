//! The price of sheets with every pair of stage counts, at every size.

use crate::comparison::Comparison;
use crate::model::SIDE_PLACES;
use crate::random::Random;
use crate::sheets::{all_sizes, put_stages, random_bit_order, well_formed};

pub fn compare(c: &mut Comparison) {
    for (n, k) in all_sizes() {
        // At t = 0 there is no control, so no stage.
        let most = if n > k { 8 } else { 0 };
        for write in 0..=most {
            for read in 0..=most {
                controls_mixed(c, n, k, [write, read]);
                controls_alike(c, n, k, [write, read]);
            }
        }
    }
}

/// Each control with any number of ones; the sums are compared with the model's alone.
fn controls_mixed(c: &mut Comparison, n: u32, k: u32, counts: [u32; 2]) {
    let sheet = sheet_with(&mut c.random, n, k, counts, (1, n - k));
    let (answer, _) = c.price(n, k, &sheet, 3);
    let what = format!("price at n {n}, k {k} of {counts:?} stages");
    c.expect(&what, answer, 0);
}

/// All controls with one number of ones, so that the sums are products.
fn controls_alike(c: &mut Comparison, n: u32, k: u32, counts: [u32; 2]) {
    let stages = counts[0] + counts[1];
    let switches = stages << (k - 1);
    for ones in 1..=n - k {
        let sheet = sheet_with(&mut c.random, n, k, counts, (ones, ones));
        let price = c.price(n, k, &sheet, 3);
        let sums = vec![switches, 2 * switches, stages * (ones - 1)];
        let what = format!("price at n {n}, k {k} of {counts:?} stages, ones {ones}");
        c.expect(&what, price, (0, sums));
    }
}

/// A sheet that keeps the layout, with these counts of write and read stages; each control has `fewest` to `most` ones.
fn sheet_with(
    random: &mut Random,
    n: u32,
    k: u32,
    counts: [u32; 2],
    (fewest, most): (u32, u32),
) -> Vec<u16> {
    let mut sheet = well_formed(random, n, k);
    for (side, count) in sheet.chunks_mut(SIDE_PLACES).zip(counts) {
        let mut stage = || {
            let direction = random.from_to(1, (1 << k) - 1) as u16;
            let ones = random.from_to(fewest, most) as usize;
            let bits = random_bit_order(random, n - k);
            (direction, bits[..ones].iter().sum())
        };
        let stages: Vec<(u16, u16)> = (0..count).map(|_| stage()).collect();
        put_stages(side, &stages);
    }
    sheet
}
