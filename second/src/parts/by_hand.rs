//! The section 'Frames we tried by hand', with the paper's own numbers, and the listing of `3 1 4 2 1`.

use super::runs::{blank, first_tick, fresh};
use crate::comparison::Comparison;

type Stages = &'static [(u16, u16)];

struct Tried {
    n: u32,
    k: u32,
    columns: &'static [u16],
    write_stages: Stages,
    read_stages: Stages,
    frame_out: &'static [u32],
}

/// An empty `frame_out` where the paper names none.
const TRIED: [Tried; 6] = [
    Tried {
        n: 1,
        k: 1,
        columns: &[1],
        write_stages: &[],
        read_stages: &[],
        frame_out: &[],
    },
    Tried {
        n: 2,
        k: 1,
        columns: &[2, 1],
        write_stages: &[(1, 1)],
        read_stages: &[(1, 1)],
        frame_out: &[0, 2, 1, 3],
    },
    Tried {
        n: 2,
        k: 1,
        columns: &[1, 3],
        write_stages: &[(1, 1)],
        read_stages: &[],
        frame_out: &[0, 1, 3, 2],
    },
    Tried {
        n: 2,
        k: 2,
        columns: &[2, 1],
        write_stages: &[],
        read_stages: &[],
        frame_out: &[0, 2, 1, 3],
    },
    Tried {
        n: 3,
        k: 1,
        columns: &[4, 2, 1],
        write_stages: &[(1, 2)],
        read_stages: &[(1, 2)],
        frame_out: &[],
    },
    Tried {
        n: 4,
        k: 2,
        columns: &[2, 4, 8, 1],
        write_stages: &[(1, 2)],
        read_stages: &[(1, 1)],
        frame_out: &[],
    },
];

const BIT_REVERSAL: [u16; 3] = [4, 2, 1];

pub fn compare(c: &mut Comparison) {
    for tried in &TRIED {
        tried_frame(c, tried);
    }
    bit_reversal(c);
    numbers(c);
    stage_counts(c);
    listing(c);
}

fn stages(side: &[u16]) -> Vec<(u16, u16)> {
    let used = side[16..].chunks(2).take(side[15].into());
    used.map(|pair| (pair[0], pair[1])).collect()
}

fn tried_frame(c: &mut Comparison, tried: &Tried) {
    let Tried { n, k, columns, .. } = *tried;
    let (answer, sheet) = c.plan(n, k, columns, 64);
    c.expect("plan", answer, 0);
    let what = format!("stages of {columns:?}");
    c.expect(&what, stages(&sheet[..32]), tried.write_stages.to_vec());
    c.expect(&what, stages(&sheet[32..]), tried.read_stages.to_vec());
    let verdict = c.inspect(n, k, columns, &sheet);
    c.expect("verdict", verdict, 0);
    if tried.frame_out.is_empty() {
        return;
    }
    let frame: Vec<u32> = (0..1 << n).collect();
    let (answer, moved) = c.mover(n, columns, &frame, 1 << n);
    c.expect("mover", answer, 0);
    c.expect("frame out of the mover", moved, tried.frame_out.to_vec());
    let run = run_frame(c, n, k, &sheet);
    c.expect("frame out of the run", run, tried.frame_out.to_vec());
}

/// Words 0 to 2^n - 1 through the board's run.
fn run_frame(c: &mut Comparison, n: u32, k: u32, sheet: &[u16]) -> Vec<u32> {
    let mut call = fresh(&mut c.random, n, k, sheet);
    let frame: Vec<u32> = (0..1 << n).collect();
    for words in frame.chunks(1 << k) {
        call.tick = words.to_vec();
        let answer = c.tick(&mut call);
        c.expect("tick in", (answer, call.said[0]), (0, 0));
    }
    let mut frame_out = vec![];
    for _ in 0..1 << (n - k) {
        blank(&mut call);
        let answer = c.tick(&mut call);
        c.expect("tick out", (answer, call.said[0]), (0, 1));
        frame_out.extend(&call.out);
    }
    frame_out
}

fn bit_reversal(c: &mut Comparison) {
    let (_, sheet) = c.plan(3, 1, &BIT_REVERSAL, 64);
    c.expect("write addresses", &sheet[0..3], &[2, 1, 0]);
    c.expect("read addresses", &sheet[32..35], &[0, 1, 2]);
    c.expect("wirings", (sheet[10], sheet[42]), (1, 1));
    for (what, place, number, verdict) in [
        ("write control 1 for 2", 17, 1, 8),
        ("write wiring 0", 10, 0, 6),
        ("read wiring 0", 42, 0, 7),
    ] {
        let mut changed = sheet.clone();
        changed[place] = number;
        let board = c.inspect(3, 1, &BIT_REVERSAL, &changed);
        c.expect(what, board, verdict);
    }
}

fn numbers(c: &mut Comparison) {
    let identity: Vec<u16> = (0..11).map(|j| 1 << j).collect();
    let cases: [(u32, u32, &[u16], u32); 9] = [
        (1, 1, &[0], 4),
        (1, 1, &[2], 3),
        (10, 5, &identity[..10], 0),
        (11, 5, &identity[..11], 1),
        (10, 6, &identity[..10], 1),
        (10, 0, &identity[..10], 1),
        (2, 3, &identity[..2], 1),
        (2, 1, &[4, 4], 3),
        (2, 1, &[1, 1], 4),
    ];
    for (n, k, columns, number) in cases {
        let (answer, _) = c.plan(n, k, columns, 64);
        c.expect(&format!("plan {n} {k} {columns:?}"), answer, number);
    }
    let (_, sheet) = c.plan(2, 1, &[1, 2], 64);
    let verdict = c.inspect(2, 1, &[1, 3], &sheet);
    c.expect("the plan for 1 2 against 1 3", verdict, 9);
}

/// Eight times the stage (1,1) cancels out, so the plan for columns 1 2 still passes.
fn stage_counts(c: &mut Comparison) {
    let (_, mut sheet) = c.plan(2, 1, &[1, 2], 64);
    sheet[15..32].copy_from_slice(&[8, 1, 1, 1, 1, 1, 1, 1, 1, 1, 1, 1, 1, 1, 1, 1, 1]);
    let mut nine = sheet.clone();
    nine[15] = 9;
    let mut control_0 = sheet.clone();
    control_0[31] = 0;
    for (what, sheet, number) in [
        ("eight stages", sheet, 0),
        ("nine stages", nine, 5),
        ("a control of 0", control_0, 5),
    ] {
        let verdict = c.inspect(2, 1, &[1, 2], &sheet);
        c.expect(what, verdict, number);
        let (answer, _) = c.price(2, 1, &sheet, 3);
        c.expect(what, answer, number);
        let answer = first_tick(c, 2, 1, &sheet);
        c.expect(what, answer, number);
    }
}

fn listing(c: &mut Comparison) {
    let expected = b"order 3 1
write 1 1 2
read 1 1 2
0: 0 4
1: 2 6
2: 1 5
3: 3 7
";
    let (answer, text, length) = c.list(b"3 1 4 2 1\n", 8192, 1);
    c.expect("listing", answer, 0);
    c.expect("length of the listing", length, vec![expected.len() as u32]);
    c.expect("text of the listing", &text[..expected.len()], expected);
}
