//! The benchmark's straightforward tools against the model, so that it compares tools that agree.
//! These are no calls of the board and count only where they differ.

use super::runs::{spoil_state, standing};
use crate::comparison::{unsaid, Comparison};
use crate::random::Random;
use crate::sheets::{
    break_place, change_one, dependent_columns, other_passing, random_order, random_sizes,
    spoil_wiring, too_large_columns, well_formed,
};
use crate::{model, plain};

pub fn compare(c: &mut Comparison) {
    for _ in 0..4000 {
        let (n, k) = sizes(&mut c.random);
        let columns = columns(&mut c.random, n);
        plan(c, n, k, &columns);
        let sheet = sheet(&mut c.random, n, k, &columns);
        inspect(c, n, k, &columns, &sheet);
        mover(c, n, &columns);
        tick(c, n, k, &sheet);
    }
}

/// Now and then outside the paper's sizes by k alone.
fn sizes(random: &mut Random) -> (u32, u32) {
    let (n, k) = random_sizes(random);
    match random.below(20) {
        0 => (n, n.min(5) + 1),
        1 => (n, 0),
        _ => (n, k),
    }
}

fn columns(random: &mut Random, n: u32) -> Vec<u16> {
    let mut columns = match random.below(6) {
        0 => dependent_columns(random, n),
        1 => too_large_columns(random, n),
        _ => random_order(random, n),
    };
    if random.one_in(16) {
        columns.push(1);
    }
    columns
}

fn sheet(random: &mut Random, n: u32, k: u32, columns: &[u16]) -> Vec<u16> {
    let mut before = vec![0; 64];
    if !model::sizes(n, k) || model::plan(n, k, columns, &mut before, &mut [0; 3]) != 0 {
        return before;
    }
    let mut sheet = match random.below(4) {
        0 => well_formed(random, n, k),
        1 => other_passing(random, n, k, columns),
        _ => before,
    };
    match random.below(6) {
        0 => change_one(random, n, k, &mut sheet),
        1 => {
            let place = random.below(64) as usize;
            break_place(random, n, k, place, &mut sheet);
        }
        2 => {
            let side = random.below(2) as usize;
            spoil_wiring(random, k, side, &mut sheet);
        }
        _ => {}
    }
    sheet
}

/// A said, mostly of its 3 places, for plain and for model.
fn two_saids(random: &mut Random) -> (Vec<u32>, Vec<u32>) {
    let length = random.pick(&[3, 3, 3, 3, 3, 3, 2, 4]);
    let said = unsaid(random, length);
    (said.clone(), said)
}

fn plan(c: &mut Comparison, n: u32, k: u32, columns: &[u16]) {
    let length = c.random.pick(&[64, 64, 64, 63]);
    let mut by_plain = c.random.halfwords(length);
    let mut by_model = by_plain.clone();
    let (mut plain_said, mut model_said) = two_saids(&mut c.random);
    let plain = plain::plan(n, k, columns, &mut by_plain, &mut plain_said);
    let model = model::plan(n, k, columns, &mut by_model, &mut model_said);
    c.expect(
        "plain planner and model",
        (plain, by_plain, plain_said),
        (model, by_model, model_said),
    );
}

fn inspect(c: &mut Comparison, n: u32, k: u32, columns: &[u16], sheet: &[u16]) {
    let (mut plain_said, mut model_said) = two_saids(&mut c.random);
    let plain = plain::inspect(n, k, columns, sheet, &mut plain_said);
    let model = model::inspect(n, k, columns, sheet, &mut model_said);
    c.expect(
        "plain inspector and model",
        (plain, plain_said),
        (model, model_said),
    );
}

fn mover(c: &mut Comparison, n: u32, columns: &[u16]) {
    let frame = c.random.words(1 << n);
    let mut by_plain = c.random.words(1 << n);
    let mut by_model = by_plain.clone();
    let (mut plain_said, mut model_said) = two_saids(&mut c.random);
    let plain = plain::mover(n, columns, &frame, &mut by_plain, &mut plain_said);
    let model = model::mover(n, columns, &frame, &mut by_model, &mut model_said);
    c.expect(
        "plain mover and model",
        (plain, by_plain, plain_said),
        (model, by_model, model_said),
    );
}

fn tick(c: &mut Comparison, n: u32, k: u32, sheet: &[u16]) {
    if !model::sizes(n, k) {
        return;
    }
    let random = &mut c.random;
    let (words_came, reading) = (!random.one_in(4), !random.one_in(4));
    let mut before = standing(random, n, k, sheet, words_came, reading);
    match random.below(8) {
        0 => spoil_state(random, &mut before),
        1 => before.marks.fill(0),
        2 => before.marks.fill(1),
        3 => before.said.push(0),
        _ => {}
    }
    let mut by_plain = before.clone();
    let mut by_model = before.clone();
    let plain = plain::tick(
        n,
        k,
        sheet,
        &mut by_plain.state,
        &before.tick,
        &mut by_plain.out,
        &mut by_plain.words,
        &mut by_plain.marks,
        &mut by_plain.said,
    );
    let model = model::tick(
        n,
        k,
        sheet,
        &mut by_model.state,
        &before.tick,
        &mut by_model.out,
        &mut by_model.words,
        &mut by_model.marks,
        &mut by_model.said,
    );
    c.expect("plain tick and model", (plain, by_plain), (model, by_model));
}
