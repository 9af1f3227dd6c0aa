//! Planner, inverse and mover over every small list of columns, and over random ones of every size.

use crate::comparison::Comparison;
use crate::model::{apply, dependent};
use crate::sheets::{
    all_lists, all_orders, all_sizes, dependent_columns, gray_code, random_bit_order,
    random_columns, random_order, too_large_columns,
};

pub fn compare(c: &mut Comparison) {
    every_small_list(c);
    every_small_order_against_the_others(c);
    every_list_of_four(c);
    random_lists(c);
}

fn every_small_list(c: &mut Comparison) {
    for n in 1..=3 {
        for columns in all_lists(n) {
            for k in 1..=n {
                c.plan(n, k, &columns, 64);
            }
            inverse_and_move(c, n, &columns);
        }
    }
}

fn inverse_and_move(c: &mut Comparison, n: u32, columns: &[u16]) {
    let frame = c.random.words(1 << n);
    let (answer, inverse) = c.inverse(n, columns, n as usize);
    let (_, moved) = c.mover(n, columns, &frame, 1 << n);
    if answer == 0 {
        let (answer, back) = c.mover(n, &inverse, &moved, 1 << n);
        c.expect("the inverse moves a frame back", (answer, back), (0, frame));
    }
}

fn every_small_order_against_the_others(c: &mut Comparison) {
    for n in 1..=3 {
        let orders = all_orders(n);
        for k in 1..=n {
            for columns in &orders {
                let (_, sheet) = c.plan(n, k, columns, 64);
                c.price(n, k, &sheet, 3);
                for other in &orders {
                    let verdict = c.inspect(n, k, other, &sheet);
                    let expected = if columns == other { 0 } else { 9 };
                    c.expect("a plan passes for its own order", verdict, expected);
                }
            }
        }
    }
}

fn every_list_of_four(c: &mut Comparison) {
    for columns in all_lists(4) {
        if dependent(&columns) {
            let k = c.random.from_to(1, 4);
            c.plan(4, k, &columns, 64);
            c.inverse(4, &columns, 4);
        } else {
            planned_and_inspected(c, 4, &columns);
            inverse_and_move(c, 4, &columns);
        }
    }
}

fn planned_and_inspected(c: &mut Comparison, n: u32, columns: &[u16]) {
    for k in 1..=n.min(5) {
        let (answer, sheet) = c.plan(n, k, columns, 64);
        let verdict = c.inspect(n, k, columns, &sheet);
        c.expect("a plan passes", (answer, verdict), (0, 0));
        c.price(n, k, &sheet, 3);
        let stages = u32::from(sheet[32 + 15]);
        c.expect("read stages", stages, k - rank_of_p1(k, columns));
    }
}

/// By counting: 2^rank different images.
fn rank_of_p1(k: u32, columns: &[u16]) -> u32 {
    let mut images: Vec<u32> = (0..1 << k).map(|p| apply(columns, p) % (1 << k)).collect();
    images.sort_unstable();
    images.dedup();
    images.len().ilog2()
}

fn random_lists(c: &mut Comparison) {
    for n in 1..=10 {
        planned_and_inspected(c, n, &gray_code(n));
        inverse_and_move(c, n, &gray_code(n));
        for _ in 0..150 {
            for columns in [
                random_order(&mut c.random, n),
                random_bit_order(&mut c.random, n),
            ] {
                planned_and_inspected(c, n, &columns);
                inverse_and_move(c, n, &columns);
            }
        }
    }
    for (n, k) in all_sizes() {
        for _ in 0..150 {
            for columns in [
                random_columns(&mut c.random, n),
                dependent_columns(&mut c.random, n),
                too_large_columns(&mut c.random, n),
            ] {
                let (_, sheet) = c.plan(n, k, &columns, 64);
                c.inspect(n, k, &columns, &sheet);
                inverse_and_move(c, n, &columns);
            }
        }
    }
}
