//! The run: every state, every fault with its pair, and whole series from fresh.

use crate::comparison::{unsaid, Comparison, TickCall};
use crate::model::{apply, planned, sizes};
use crate::random::Random;
use crate::sheets::{
    all_sizes, change_one, gray_code, of_read_map, other_passing, random_columns, random_order,
    random_sizes, small_sizes, spoil_wiring, well_formed,
};
use std::collections::VecDeque;

pub fn compare(c: &mut Comparison) {
    every_state(c);
    random_memories(c);
    every_pair(c);
    series(c);
}

/// A first call with words: marks zero, nothing coming in, half 0, reader idle.
pub fn fresh(random: &mut Random, n: u32, k: u32, sheet: &[u16]) -> TickCall {
    let (mut frame, mut ports, mut ticks) = (2, 2, 1);
    if sizes(n, k) {
        (frame, ports, ticks) = (1 << n, 1 << k, 1 << (n - k));
    }
    TickCall {
        n,
        k,
        sheet: sheet.to_vec(),
        state: vec![0, 0, ticks],
        tick: random.words(ports),
        out: random.words(ports),
        words: random.words(2 * frame),
        marks: vec![0; 2 * frame],
        said: unsaid(random, 3),
    }
}

/// That first call, compared.
pub fn first_tick(c: &mut Comparison, n: u32, k: u32, sheet: &[u16]) -> u32 {
    let mut call = fresh(&mut c.random, n, k, sheet);
    c.tick(&mut call)
}

pub fn blank(call: &mut TickCall) {
    call.tick.clear();
}

/// A call in a possible state that no mark forbids: the half to be written empty, the other filled.
pub fn standing(
    random: &mut Random,
    n: u32,
    k: u32,
    sheet: &[u16],
    words_came: bool,
    reading: bool,
) -> TickCall {
    let mut call = fresh(random, n, k, sheet);
    let ticks = 1 << (n - k);
    let r = if reading { random.below(ticks) } else { ticks };
    let a = random.below((r + 1).min(ticks));
    call.state = vec![a, random.below(2), r];
    set_marks(random, &mut call);
    if !words_came {
        blank(&mut call);
    }
    call
}

/// The half of the state empty, the other filled with marks of any byte.
fn set_marks(random: &mut Random, call: &mut TickCall) {
    let frame = call.marks.len() / 2;
    for (place, mark) in call.marks.iter_mut().enumerate() {
        let filled = u32::from(place >= frame) != call.state[1];
        *mark = match (filled, random.one_in(4)) {
            (false, _) => 0,
            (true, false) => 1,
            (true, true) => random.from_to(1, 255) as u8,
        };
    }
}

/// Replaces the state by an impossible one.
pub fn spoil_state(random: &mut Random, call: &mut TickCall) {
    let ticks = 1 << (call.n - call.k);
    let far = [1 << 31, (1 << 31) + 1, u32::MAX - 1, u32::MAX];
    let (a, h, r) = (call.state[0], call.state[1], call.state[2]);
    call.state = match random.below(8) {
        0 => vec![ticks, h, ticks],
        1 => vec![ticks + random.below(3), h, ticks + random.below(3)],
        2 if ticks > 1 => {
            let a = random.from_to(1, ticks - 1);
            vec![a, h, random.below(a)]
        }
        3 => vec![a, h, ticks + 1],
        4 => vec![a, h, random.pick(&far)],
        5 => vec![random.pick(&far), h, r],
        6 => vec![a, random.pick(&[3, 4, 255, 256, u32::MAX]), r],
        _ => vec![a, 2, r],
    };
}

/// Every state at small sizes and some far ones, on a memory where nothing else is wrong.
fn every_state(c: &mut Comparison) {
    for (n, k) in all_sizes().into_iter().filter(|&(n, k)| n - k <= 4) {
        let ticks = 1u32 << (n - k);
        let far = [1 << 31, (1 << 31) + 1, u32::MAX];
        let order = random_order(&mut c.random, n);
        let sheet = planned(n, k, &order);
        for a in (0..ticks + 2).chain(far) {
            for r in (0..ticks + 3).chain(far) {
                for h in [0, 1, 2, 3, u32::MAX] {
                    let mut call = fresh(&mut c.random, n, k, &sheet);
                    call.state = vec![a, h, r];
                    set_marks(&mut c.random, &mut call);
                    c.tick(&mut call.clone());
                    blank(&mut call);
                    c.tick(&mut call);
                }
            }
        }
    }
}

/// Single calls on memories of every kind, some nearly right, some all random.
fn random_memories(c: &mut Comparison) {
    for _ in 0..200_000 {
        let random = &mut c.random;
        let (n, k) = match random.one_in(32) {
            true => random_sizes(random),
            false => small_sizes(random),
        };
        let order = random_order(random, n);
        let mut sheet = match random.below(3) {
            0 => planned(n, k, &order),
            1 => other_passing(random, n, k, &order),
            _ => well_formed(random, n, k),
        };
        if random.one_in(8) {
            let side = random.below(2) as usize;
            spoil_wiring(random, k, side, &mut sheet);
        }
        let (words_came, reading) = (!random.one_in(4), !random.one_in(4));
        let mut call = standing(random, n, k, &sheet, words_came, reading);
        match random.below(4) {
            0 => {}
            1 => change_marks(random, &mut call, 1),
            2 => change_marks(random, &mut call, 2 << n),
            _ => spoil_marks_of_one_half(random, &mut call),
        }
        if random.one_in(16) {
            spoil_state(random, &mut call);
        }
        c.tick(&mut call);
    }
}

fn change_marks(random: &mut Random, call: &mut TickCall, times: u32) {
    for _ in 0..times {
        let place = random.below(call.marks.len() as u32) as usize;
        call.marks[place] = random.pick(&[0, 0, 1, 2, 128, 255]);
    }
}

fn spoil_marks_of_one_half(random: &mut Random, call: &mut TickCall) {
    let frame = call.marks.len() as u32 / 2;
    let start = frame * random.below(2);
    for _ in 0..random.from_to(1, 3) {
        let place = (start + random.below(frame)) as usize;
        call.marks[place] = if call.marks[place] == 0 { 1 } else { 0 };
    }
}

/// Every wiring of one or two port bits, and random wider ones, on either side: the first pair is named.
fn every_pair(c: &mut Comparison) {
    let wiring_1_1 = clash_sheet(3, 2, 0, &[1, 1]);
    let mut call = fresh(&mut c.random, 3, 2, &wiring_1_1);
    let answer = c.tick(&mut call);
    let named = (answer, call.said[1], call.said[2]);
    c.expect("wiring columns 1 1 at k 2", named, (11, 0, 3));

    for n in 1..=6 {
        for k in 1..=n.min(5) {
            for code in 0..200u32 {
                let wiring: Vec<u16> = match k {
                    1 => vec![code as u16 & 1],
                    2 => vec![code as u16 & 3, code as u16 >> 2 & 3],
                    _ => random_columns(&mut c.random, k),
                };
                for side in 0..2 {
                    let sheet = clash_sheet(n, k, side, &wiring);
                    let mut call = standing(&mut c.random, n, k, &sheet, true, true);
                    c.tick(&mut call);
                }
            }
        }
    }
}

/// The identity's plan with one side's wiring replaced.
fn clash_sheet(n: u32, k: u32, side: usize, wiring: &[u16]) -> Vec<u16> {
    let identity: Vec<u16> = (0..n).map(|j| 1 << j).collect();
    let mut sheet = planned(n, k, &identity);
    let start = 32 * side + 10;
    sheet[start..start + wiring.len()].copy_from_slice(wiring);
    sheet
}

/// Whole series from fresh with random blank ticks over several frames.
fn series(c: &mut Comparison) {
    for (n, k) in all_sizes() {
        let rounds = 240 >> (n - k).min(5);
        for round in 0..rounds.max(3) {
            let order = match round {
                0 => gray_code(n),
                _ => random_order(&mut c.random, n),
            };
            passed_series(c, n, k, &order, &planned(n, k, &order));
            let other = other_passing(&mut c.random, n, k, &order);
            passed_series(c, n, k, &order, &other);
        }
    }
    for _ in 0..12_000 {
        let random = &mut c.random;
        let (n, k) = small_sizes(random);
        let order = random_order(random, n);
        let mut sheet = planned(n, k, &order);
        match random.below(4) {
            0 => sheet = well_formed(random, n, k),
            1 => {
                let read = random_order(random, n);
                sheet = of_read_map(k, &order, &read);
            }
            _ => change_one(random, n, k, &mut sheet),
        }
        any_series(c, n, k, &sheet);
    }
}

/// How often a series' ticks are blank: never, seldom, often.
fn blank_chance(random: &mut Random) -> u32 {
    random.pick(&[0, 1, 3])
}

fn next_tick(random: &mut Random, call: &mut TickCall, blank_of_four: u32) {
    call.tick = match random.below(4) < blank_of_four {
        true => vec![],
        false => random.words(call.out.len()),
    };
}

fn filled(call: &TickCall) -> usize {
    call.marks.iter().filter(|&&mark| mark != 0).count()
}

/// A passed sheet, checked by the paper's promise from outside, without state, words or marks of the board.
fn passed_series(c: &mut Comparison, n: u32, k: u32, order: &[u16], sheet: &[u16]) {
    let ticks = 1usize << (n - k);
    let frames = if ticks > 64 { 3 } else { 5 };
    let mut call = fresh(&mut c.random, n, k, sheet);
    let mut incoming: Vec<u32> = vec![];
    let mut due: VecDeque<Vec<u32>> = VecDeque::new();
    let (mut taken, mut handed) = (0, 0);
    let blank_of_four = blank_chance(&mut c.random);
    let mut completed = 0;
    // After the last frame, blank ticks until it is out and a few more.
    let mut last_calls = ticks + 3;
    while last_calls > 0 {
        if completed < frames {
            next_tick(&mut c.random, &mut call, blank_of_four);
        } else {
            blank(&mut call);
            last_calls -= 1;
        }
        let before = call.out.clone();
        let answer = c.tick(&mut call);
        let expected = match due.pop_front() {
            Some(tick_out) => (0, 1, tick_out),
            None => (0, 0, before),
        };
        handed += expected.1 * call.out.len();
        let gave = (answer, call.said[0] as usize, call.out.clone());
        c.expect("the due tick of a passed sheet", gave, expected);

        incoming.extend(&call.tick);
        taken += call.tick.len();
        if incoming.len() == 1 << n {
            let mut in_order = vec![0; 1 << n];
            for (i, &word) in incoming.iter().enumerate() {
                in_order[apply(order, i as u32) as usize] = word;
            }
            due.extend(in_order.chunks(1 << k).map(<[u32]>::to_vec));
            incoming.clear();
            completed += 1;
        }
        c.expect("filled marks", filled(&call), taken - handed);
        // Random content again, so that an untouched out buffer is seen.
        call.out = c.random.words(1 << k);
        call.said = unsaid(&mut c.random, 3);
    }
}

/// Any sheet: refused calls change nothing, and the successful ones keep count of the filled marks.
fn any_series(c: &mut Comparison, n: u32, k: u32, sheet: &[u16]) {
    let mut call = fresh(&mut c.random, n, k, sheet);
    let (mut taken, mut handed, mut refused) = (0, 0, 0);
    let blank_of_four = blank_chance(&mut c.random);
    for _ in 0..5usize << (n - k) {
        next_tick(&mut c.random, &mut call, blank_of_four);
        if c.tick(&mut call) == 0 {
            taken += call.tick.len();
            handed += call.said[0] as usize * call.out.len();
        } else {
            refused += 1;
        }
        c.expect(
            "filled marks",
            filled(&call) as i64,
            taken as i64 - handed as i64,
        );
        call.said = unsaid(&mut c.random, 3);
        if refused > 12 {
            return;
        }
    }
}
