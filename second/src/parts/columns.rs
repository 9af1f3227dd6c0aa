//! Which column refusal 4 names, and the sum that it is: every tool that takes an order, over dependent lists.

use super::cards::card_of;
use crate::comparison::Comparison;
use crate::model::{apply, dependent, size_n, sizes};
use crate::random::Random;
use crate::sheets::{
    all_lists, all_orders, all_sizes, dependent_columns, gray_code, random_bit_order,
    random_columns, random_order, too_large_columns, well_formed,
};
use std::collections::BTreeSet;

pub fn compare(c: &mut Comparison) {
    named_by_hand(c);
    every_small_list(c);
    every_sum(c);
    every_set_of_places(c);
    random_lists(c);
    said_is_kept(c);
    wrong_lengths(c);
}

/// An answer, and what stands in said after it.
type Answer = (u32, Vec<u32>);

/// Planner, inspector and listing, with a said of so many places.
fn with_k(c: &mut Comparison, n: u32, k: u32, columns: &[u16], said: usize) -> [Answer; 3] {
    let sheet = match sizes(n, k) {
        true => well_formed(&mut c.random, n, k),
        false => vec![0; 64],
    };
    let (planned, _, said_by_plan) = c.plan_saying(n, k, columns, 64, said);
    let inspected = c.inspect_saying(n, k, columns, &sheet, said);
    let (listed, _, _, said_by_list) = c.list_saying(&card_of(n, k, columns), 8192, 1, said);
    [(planned, said_by_plan), inspected, (listed, said_by_list)]
}

/// Mover and inverse, with a said of so many places.
fn without_k(c: &mut Comparison, n: u32, columns: &[u16], said: usize) -> [Answer; 2] {
    let frame = c.random.words(1 << n);
    let (moved, _, said_by_move) = c.mover_saying(n, columns, &frame, 1 << n, said);
    let (inverted, _, said_by_inverse) = c.inverse_saying(n, columns, n as usize, said);
    [(moved, said_by_move), (inverted, said_by_inverse)]
}

/// All five at one k.
fn every_tool(c: &mut Comparison, n: u32, k: u32, columns: &[u16]) -> Vec<Answer> {
    let mut answers = with_k(c, n, k, columns, 3).to_vec();
    answers.extend(without_k(c, n, columns, 3));
    answers
}

/// All five, those that take k at every k.
fn every_tool_and_k(c: &mut Comparison, n: u32, columns: &[u16]) -> Vec<Answer> {
    let mut answers = without_k(c, n, columns, 3).to_vec();
    for k in 1..=n.min(5) {
        answers.extend(with_k(c, n, k, columns, 3));
    }
    answers
}

/// Refusal 4 with this column and mask, from each.
fn expect_named(c: &mut Comparison, columns: &[u16], answers: &[Answer], named: (u32, u32)) {
    let what = format!("what 4 names for columns {columns:?}");
    for (answer, said) in answers {
        c.expect(&what, (*answer, (said[1], said[2])), (4, named));
    }
}

fn named_by_hand(c: &mut Comparison) {
    let cases: [(&[u16], (u32, u32)); 13] = [
        (&[0], (0, 0)),
        (&[1, 1], (1, 1)),
        (&[0, 0], (0, 0)),
        (&[0, 1], (0, 0)),
        (&[1, 2, 1], (2, 1)),
        (&[1, 2, 2], (2, 2)),
        (&[1, 2, 3], (2, 3)),
        (&[4, 2, 0], (2, 0)),
        (&[3, 3, 3], (1, 1)),
        (&[1, 3, 2], (2, 3)),
        (&[1, 1, 2, 2], (1, 1)),
        (&[9, 10, 12, 15], (3, 7)),
        (&[1, 2, 4, 8, 16, 32, 64, 128, 256, 511], (9, 511)),
    ];
    for (columns, named) in cases {
        let answers = every_tool_and_k(c, columns.len() as u32, columns);
        expect_named(c, columns, &answers, named);
    }
}

/// With the earlier columns independent, no earlier column is a sum and no other mask gives this one.
fn names_the_first_sum(columns: &[u16], said: &[u32]) -> bool {
    let (column, mask) = (said[1] as usize, said[2]);
    column < columns.len()
        && mask < 1 << column
        && apply(columns, mask) == columns[column].into()
        && !dependent(&columns[..column])
}

fn every_small_list(c: &mut Comparison) {
    for n in 1..=3 {
        let mut tried = 0;
        for columns in all_lists(n).filter(|list| dependent(list)) {
            let what = format!("a sum of earlier columns in {columns:?}");
            for (answer, said) in every_tool_and_k(c, n, &columns) {
                let named = names_the_first_sum(&columns, &said);
                c.expect(&what, (answer, named), (4, true));
            }
            tried += 1;
        }
        // The next column of an order is none of the 2^i sums of the i before it.
        let orders: u64 = (0..n).map(|i| (1 << n) - (1 << i)).product();
        c.expect("dependent lists tried", tried, (1 << (n * n)) - orders);
    }
}

/// Every column as every sum of earlier ones, which are independent; the later ones are anything.
fn every_sum(c: &mut Comparison) {
    for n in 1..=10 {
        let mut named = BTreeSet::new();
        for column in 0..n {
            for mask in 0..1 << column {
                let columns = first_sum_at(&mut c.random, n, column as usize, mask);
                let answers = every_tool_and_k(c, n, &columns);
                expect_named(c, &columns, &answers, (column, mask));
                let saids = answers.into_iter().map(|(_, said)| (said[1], said[2]));
                named.extend(saids.enumerate());
            }
        }
        let tools = 2 + 3 * n.min(5) as usize;
        c.expect(
            "sums named by each tool and k",
            named.len(),
            tools * ((1 << n) - 1),
        );
    }
}

fn first_sum_at(random: &mut Random, n: u32, column: usize, mask: u32) -> Vec<u16> {
    let mut columns = random_order(random, n);
    columns[column] = apply(&columns, mask) as u16;
    for later in &mut columns[column + 1..] {
        *later = random.below(1 << n) as u16;
    }
    columns
}

/// Of `j` earlier columns, a mask of none, one, all, or any.
const SUMS: [fn(&mut Random, u32) -> u32; 4] = [
    |_, _| 0,
    |random, j| if j == 0 { 0 } else { 1 << random.below(j) },
    |_, j| (1 << j) - 1,
    |random, j| random.below(1 << j),
];

/// Every set of places whose columns are sums of earlier ones: of these the first is named.
fn every_set_of_places(c: &mut Comparison) {
    for n in 1..=10 {
        for places in 1..1u32 << n {
            for sum in SUMS {
                let random = &mut c.random;
                let masks: Vec<u32> = (0..n).map(|j| sum(random, j)).collect();
                let columns = with_sums(random_order(random, n), places, &masks);
                let sums = n - rank(&columns);
                c.expect("columns that are sums", sums, places.count_ones());

                let k = c.random.from_to(1, n.min(5));
                let answers = every_tool(c, n, k, &columns);
                let first = places.trailing_zeros();
                expect_named(c, &columns, &answers, (first, masks[first as usize]));
            }
        }
    }
}

/// The columns at the set bits of `places` replaced by sums of earlier ones.
fn with_sums(mut columns: Vec<u16>, places: u32, masks: &[u32]) -> Vec<u16> {
    for j in 0..columns.len() {
        if places >> j & 1 == 1 {
            columns[j] = apply(&columns, masks[j]) as u16;
        }
    }
    columns
}

/// By counting: 2^rank different images.
fn rank(columns: &[u16]) -> u32 {
    let images: BTreeSet<u32> = (0..1 << columns.len()).map(|i| apply(columns, i)).collect();
    images.len().ilog2()
}

/// One column a sum of others, earlier or later; and columns that are anything.
fn random_lists(c: &mut Comparison) {
    for (n, k) in all_sizes() {
        for _ in 0..60 {
            for columns in [
                dependent_columns(&mut c.random, n),
                random_columns(&mut c.random, n),
            ] {
                every_tool(c, n, k, &columns);
            }
        }
    }
}

/// Independent lists, and dependent ones with a column made too large: nothing is named.
fn said_is_kept(c: &mut Comparison) {
    for n in 1..=3 {
        for columns in all_orders(n) {
            every_tool_and_k(c, n, &columns);
        }
    }
    for (n, k) in all_sizes() {
        every_tool(c, n, k, &gray_code(n));
        for _ in 0..10 {
            let random = &mut c.random;
            let order = random_bit_order(random, n);
            let mut too_large = dependent_columns(random, n);
            too_large[random.below(n) as usize] |= 1 << n;
            every_tool(c, n, k, &order);
            for (answer, _) in every_tool(c, n, k, &too_large) {
                c.expect("3 before 4", answer, 3);
            }
        }
    }
}

/// A said of other than 3 places is 2: after 15 and 1, before 3 and 4.
fn wrong_lengths(c: &mut Comparison) {
    for (n, k) in all_sizes() {
        for said in [0, 1, 2, 4] {
            for columns in [
                random_order(&mut c.random, n),
                dependent_columns(&mut c.random, n),
                too_large_columns(&mut c.random, n),
            ] {
                for (n, k) in [(n, k), (n, 0), (n, n.min(5) + 1), (0, k), (11, k)] {
                    wrong_length(c, n, k, &columns, said);
                }
            }
        }
    }
}

fn wrong_length(c: &mut Comparison, n: u32, k: u32, columns: &[u16], said: usize) {
    let what = format!("n {n}, k {k}, columns {columns:?}, said of {said} places");
    let number = if sizes(n, k) { 2 } else { 1 };
    for (answer, _) in with_k(c, n, k, columns, said) {
        c.expect(&what, answer, number);
    }
    let number = if size_n(n) { 2 } else { 1 };
    for (answer, _) in without_k(c, n, columns, said) {
        c.expect(&what, answer, number);
    }
    let card = card_of(n, k, columns);
    let unended = &card[..card.len() - 1];
    let (answer, _, _, _) = c.list_saying(unended, 8192, 1, said);
    c.expect(&what, answer, 15);
}
