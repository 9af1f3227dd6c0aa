//! Calls the board and the model with the same inputs, compares answers and every buffer, and counts.
//!
//! Each method lends buffers filled with random content and returns what the board gave.
//! A method `_saying` lends a `said` of any number of places and returns it too; the method without lends its 3 places.

use crate::model::SAID_PLACES;
use crate::random::Random;
use crate::{board, model};
use std::collections::BTreeSet;
use std::fmt::{Debug, Write};
use std::hint::black_box;

#[derive(Clone, Copy, Debug, PartialEq)]
pub enum Tool {
    Plan,
    Inspect,
    Tick,
    Move,
    Inverse,
    Price,
    List,
}

/// Each tool with the numbers that the paper gives it.
const TOOLS: [(Tool, &[usize]); 7] = [
    (Tool::Plan, &[0, 1, 2, 3, 4]),
    (Tool::Inspect, &[0, 1, 2, 3, 4, 5, 6, 7, 8, 9]),
    (Tool::Tick, &[0, 1, 2, 5, 10, 11, 12, 13, 14]),
    (Tool::Move, &[0, 1, 2, 3, 4]),
    (Tool::Inverse, &[0, 1, 2, 3, 4]),
    (Tool::Price, &[0, 1, 2, 5]),
    (Tool::List, &[0, 1, 2, 3, 4, 15]),
];

const WANTED_OF_EACH: u64 = 1000;
const WANTED_IN_ALL: u64 = 1_000_000;
const SHOWN: usize = 5;

/// n, k, and the numbers of write and read stages of a sheet.
type StageCounts = (u32, u32, usize, usize);

/// Every n and k with every pair that the layout allows there: at t = 0 there is no control, so no stage.
fn all_stage_counts() -> BTreeSet<StageCounts> {
    let mut all = BTreeSet::new();
    for n in 1..=10 {
        for k in 1..=n.min(5) {
            let most = if n > k { 8 } else { 0 };
            for write in 0..=most {
                all.extend((0..=most).map(|read| (n, k, write, read)));
            }
        }
    }
    all
}

/// Everything that one tick of the run is lent.
#[derive(Clone, Debug, PartialEq)]
pub struct TickCall {
    pub n: u32,
    pub k: u32,
    pub sheet: Vec<u16>,
    pub state: Vec<u32>,
    pub tick: Vec<u32>,
    pub out: Vec<u32>,
    pub words: Vec<u32>,
    pub marks: Vec<u8>,
    pub said: Vec<u32>,
}

/// Content for `said`: each number differs from the others, and from all that a tool may say.
pub fn unsaid(random: &mut Random, length: usize) -> Vec<u32> {
    let mut content = random.words(length);
    for (place, word) in content.iter_mut().enumerate() {
        *word = 1 << 31 | *word << 8 | place as u32;
    }
    content
}

const GUARD: usize = 8;

/// A buffer lent to the board, between guard places that nobody may touch.
struct Lent<T> {
    all: Vec<T>,
    guard: T,
}

impl<T: Copy + PartialEq> Lent<T> {
    fn new(content: &[T], guard: T) -> Self {
        let mut all = Vec::with_capacity(content.len() + 2 * GUARD);
        all.resize(GUARD, guard);
        all.extend_from_slice(content);
        all.resize(content.len() + 2 * GUARD, guard);
        Lent { all, guard }
    }

    fn places(&mut self) -> &mut [T] {
        let end = self.all.len() - GUARD;
        black_box(&mut self.all[GUARD..end])
    }

    fn content(&self) -> &[T] {
        &black_box(&self.all)[GUARD..self.all.len() - GUARD]
    }

    fn guarded(&self) -> bool {
        let end = self.all.len() - GUARD;
        let mut guards = self.all[..GUARD].iter().chain(&self.all[end..]);
        guards.all(|&place| place == self.guard)
    }

    fn holds(&self, expected: &[T]) -> bool {
        self.content() == expected && self.guarded()
    }
}

impl<T: Copy + PartialEq + Debug> Lent<T> {
    /// For the report: says where this buffer isn't as expected.
    fn tell(&self, name: &str, expected: &[T], report: &mut String) {
        let pairs = self.content().iter().zip(expected).enumerate();
        for (place, (board, model)) in pairs.filter(|(_, (b, m))| b != m).take(8) {
            let _ = writeln!(
                report,
                "  {name}[{place}]: board {board:?}, model {model:?}"
            );
        }
        if !self.guarded() {
            let _ = writeln!(report, "  {name}: written outside its places");
        }
    }
}

pub struct Comparison {
    pub random: Random,
    counts: [[u64; 16]; TOOLS.len()],
    /// Of the prices that were answered 0.
    priced: BTreeSet<StageCounts>,
    agreed: u64,
    differed: u64,
    facts_broken: u64,
    differences: Vec<String>,
}

impl Comparison {
    pub fn new(seed: u64) -> Self {
        Comparison {
            random: Random::new(seed),
            counts: [[0; 16]; TOOLS.len()],
            priced: BTreeSet::new(),
            agreed: 0,
            differed: 0,
            facts_broken: 0,
            differences: vec![],
        }
    }

    /// Counts one comparison. `tell` writes the inputs and the buffers that differ.
    fn count(
        &mut self,
        tool: Tool,
        (board, model): (u32, u32),
        same_buffers: bool,
        tell: impl FnOnce(&mut String),
    ) {
        self.counts[tool as usize][model as usize] += 1;
        if board == model && same_buffers {
            self.agreed += 1;
            return;
        }
        self.differed += 1;
        if self.differences.len() < SHOWN {
            let mut report = format!("{tool:?}: board answers {board}, model answers {model}\n");
            tell(&mut report);
            self.differences.push(report);
        }
    }

    /// A fact that the paper states outright, judged on what the board gave.
    pub fn expect<T: PartialEq + Debug>(&mut self, what: &str, board: T, paper: T) {
        if board != paper {
            self.facts_broken += 1;
            if self.differences.len() < SHOWN {
                let report = format!("{what}: board {board:?}, paper {paper:?}\n");
                self.differences.push(report);
            }
        }
    }

    fn guard(&mut self) -> u64 {
        self.random.any()
    }

    pub fn plan(&mut self, n: u32, k: u32, columns: &[u16], length: usize) -> (u32, Vec<u16>) {
        let (answer, sheet, _) = self.plan_saying(n, k, columns, length, SAID_PLACES);
        (answer, sheet)
    }

    /// `length` and `said` are the numbers of places lent.
    pub fn plan_saying(
        &mut self,
        n: u32,
        k: u32,
        columns: &[u16],
        length: usize,
        said: usize,
    ) -> (u32, Vec<u16>, Vec<u32>) {
        let guard = self.guard();
        let before = self.random.halfwords(length);
        let said_before = unsaid(&mut self.random, said);
        let mut expected = before.clone();
        let mut expected_said = said_before.clone();
        let model = model::plan(n, k, columns, &mut expected, &mut expected_said);

        let mut lent_columns = Lent::new(columns, guard as u16);
        let mut sheet = Lent::new(&before, guard as u16);
        let mut said = Lent::new(&said_before, guard as u32);
        let board = board::plan(n, k, lent_columns.places(), sheet.places(), said.places());

        let same =
            lent_columns.holds(columns) && sheet.holds(&expected) && said.holds(&expected_said);
        self.count(Tool::Plan, (board, model), same, |report| {
            let _ = writeln!(report, "  n {n}, k {k}, columns {columns:?}");
            let _ = writeln!(report, "  sheet before {before:?}, said {said_before:?}");
            lent_columns.tell("columns", columns, report);
            sheet.tell("sheet", &expected, report);
            said.tell("said", &expected_said, report);
        });
        (board, sheet.content().to_vec(), said.content().to_vec())
    }

    pub fn inspect(&mut self, n: u32, k: u32, columns: &[u16], sheet: &[u16]) -> u32 {
        self.inspect_saying(n, k, columns, sheet, SAID_PLACES).0
    }

    /// `said` is the number of places lent.
    pub fn inspect_saying(
        &mut self,
        n: u32,
        k: u32,
        columns: &[u16],
        sheet: &[u16],
        said: usize,
    ) -> (u32, Vec<u32>) {
        let guard = self.guard();
        let said_before = unsaid(&mut self.random, said);
        let mut expected_said = said_before.clone();
        let model = model::inspect(n, k, columns, sheet, &mut expected_said);

        let mut lent_columns = Lent::new(columns, guard as u16);
        let mut lent_sheet = Lent::new(sheet, guard as u16);
        let mut said = Lent::new(&said_before, guard as u32);
        let board = board::inspect(
            n,
            k,
            lent_columns.places(),
            lent_sheet.places(),
            said.places(),
        );

        let same =
            lent_columns.holds(columns) && lent_sheet.holds(sheet) && said.holds(&expected_said);
        self.count(Tool::Inspect, (board, model), same, |report| {
            let _ = writeln!(report, "  n {n}, k {k}, columns {columns:?}");
            let _ = writeln!(report, "  sheet {sheet:?}, said before {said_before:?}");
            lent_columns.tell("columns", columns, report);
            lent_sheet.tell("sheet", sheet, report);
            said.tell("said", &expected_said, report);
        });
        (board, said.content().to_vec())
    }

    /// `call` afterwards holds what the board left.
    pub fn tick(&mut self, call: &mut TickCall) -> u32 {
        let guard = self.guard();
        let mut expected = call.clone();
        let model = model::tick(
            call.n,
            call.k,
            &call.sheet,
            &mut expected.state,
            &call.tick,
            &mut expected.out,
            &mut expected.words,
            &mut expected.marks,
            &mut expected.said,
        );

        let mut sheet = Lent::new(&call.sheet, guard as u16);
        let mut state = Lent::new(&call.state, guard as u32);
        let mut tick = Lent::new(&call.tick, guard as u32);
        let mut out = Lent::new(&call.out, guard as u32);
        let mut words = Lent::new(&call.words, guard as u32);
        let mut marks = Lent::new(&call.marks, guard as u8);
        let mut said = Lent::new(&call.said, guard as u32);
        let board = board::tick(
            call.n,
            call.k,
            sheet.places(),
            state.places(),
            tick.places(),
            out.places(),
            words.places(),
            marks.places(),
            said.places(),
        );

        let same = sheet.holds(&call.sheet)
            && state.holds(&expected.state)
            && tick.holds(&call.tick)
            && out.holds(&expected.out)
            && words.holds(&expected.words)
            && marks.holds(&expected.marks)
            && said.holds(&expected.said);
        self.count(Tool::Tick, (board, model), same, |report| {
            let _ = writeln!(report, "  {call:?}");
            sheet.tell("sheet", &call.sheet, report);
            state.tell("state", &expected.state, report);
            tick.tell("tick", &call.tick, report);
            out.tell("out", &expected.out, report);
            words.tell("words", &expected.words, report);
            marks.tell("marks", &expected.marks, report);
            said.tell("said", &expected.said, report);
        });
        call.state.copy_from_slice(state.content());
        call.out.copy_from_slice(out.content());
        call.words.copy_from_slice(words.content());
        call.marks.copy_from_slice(marks.content());
        call.said.copy_from_slice(said.content());
        board
    }

    pub fn mover(
        &mut self,
        n: u32,
        columns: &[u16],
        frame: &[u32],
        length: usize,
    ) -> (u32, Vec<u32>) {
        let (answer, out, _) = self.mover_saying(n, columns, frame, length, SAID_PLACES);
        (answer, out)
    }

    /// `length` and `said` are the numbers of places lent.
    pub fn mover_saying(
        &mut self,
        n: u32,
        columns: &[u16],
        frame: &[u32],
        length: usize,
        said: usize,
    ) -> (u32, Vec<u32>, Vec<u32>) {
        let guard = self.guard();
        let before = self.random.words(length);
        let said_before = unsaid(&mut self.random, said);
        let mut expected = before.clone();
        let mut expected_said = said_before.clone();
        let model = model::mover(n, columns, frame, &mut expected, &mut expected_said);

        let mut lent_columns = Lent::new(columns, guard as u16);
        let mut lent_frame = Lent::new(frame, guard as u32);
        let mut out = Lent::new(&before, guard as u32);
        let mut said = Lent::new(&said_before, guard as u32);
        let board = board::mover(
            n,
            lent_columns.places(),
            lent_frame.places(),
            out.places(),
            said.places(),
        );

        let same = lent_columns.holds(columns)
            && lent_frame.holds(frame)
            && out.holds(&expected)
            && said.holds(&expected_said);
        self.count(Tool::Move, (board, model), same, |report| {
            let _ = writeln!(report, "  n {n}, columns {columns:?}, frame {frame:?}");
            let _ = writeln!(report, "  out before {before:?}, said {said_before:?}");
            lent_columns.tell("columns", columns, report);
            lent_frame.tell("frame", frame, report);
            out.tell("out", &expected, report);
            said.tell("said", &expected_said, report);
        });
        (board, out.content().to_vec(), said.content().to_vec())
    }

    pub fn inverse(&mut self, n: u32, columns: &[u16], length: usize) -> (u32, Vec<u16>) {
        let (answer, out, _) = self.inverse_saying(n, columns, length, SAID_PLACES);
        (answer, out)
    }

    /// `length` and `said` are the numbers of places lent.
    pub fn inverse_saying(
        &mut self,
        n: u32,
        columns: &[u16],
        length: usize,
        said: usize,
    ) -> (u32, Vec<u16>, Vec<u32>) {
        let guard = self.guard();
        let before = self.random.halfwords(length);
        let said_before = unsaid(&mut self.random, said);
        let mut expected = before.clone();
        let mut expected_said = said_before.clone();
        let model = model::inverse(n, columns, &mut expected, &mut expected_said);

        let mut lent_columns = Lent::new(columns, guard as u16);
        let mut out = Lent::new(&before, guard as u16);
        let mut said = Lent::new(&said_before, guard as u32);
        let board = board::inverse(n, lent_columns.places(), out.places(), said.places());

        let same =
            lent_columns.holds(columns) && out.holds(&expected) && said.holds(&expected_said);
        self.count(Tool::Inverse, (board, model), same, |report| {
            let _ = writeln!(report, "  n {n}, columns {columns:?}");
            let _ = writeln!(report, "  out before {before:?}, said {said_before:?}");
            lent_columns.tell("columns", columns, report);
            out.tell("out", &expected, report);
            said.tell("said", &expected_said, report);
        });
        (board, out.content().to_vec(), said.content().to_vec())
    }

    pub fn price(&mut self, n: u32, k: u32, sheet: &[u16], length: usize) -> (u32, Vec<u32>) {
        let guard = self.guard();
        let before = self.random.words(length);
        let mut expected = before.clone();
        let model = model::price(n, k, sheet, &mut expected);

        let mut lent_sheet = Lent::new(sheet, guard as u16);
        let mut sums = Lent::new(&before, guard as u32);
        let board = board::price(n, k, lent_sheet.places(), sums.places());

        let same = lent_sheet.holds(sheet) && sums.holds(&expected);
        self.count(Tool::Price, (board, model), same, |report| {
            let _ = writeln!(report, "  n {n}, k {k}, sheet {sheet:?}");
            let _ = writeln!(report, "  sums before {before:?}");
            lent_sheet.tell("sheet", sheet, report);
            sums.tell("sums", &expected, report);
        });
        if (board, model) == (0, 0) {
            let sides = [
                model::write_side(n, k, sheet),
                model::read_side(n, k, sheet),
            ];
            let [write, read] = sides.map(|side| side.stages().count());
            self.priced.insert((n, k, write, read));
        }
        (board, sums.content().to_vec())
    }

    /// `text` and `length` are the numbers of places lent; the content past the listing is random.
    pub fn list(&mut self, card: &[u8], text: usize, length: usize) -> (u32, Vec<u8>, Vec<u32>) {
        let (answer, text, length, _) = self.list_saying(card, text, length, SAID_PLACES);
        (answer, text, length)
    }

    /// `text`, `length` and `said` are the numbers of places lent.
    pub fn list_saying(
        &mut self,
        card: &[u8],
        text: usize,
        length: usize,
        said: usize,
    ) -> (u32, Vec<u8>, Vec<u32>, Vec<u32>) {
        let guard = self.guard();
        let text_before = self.random.bytes(text);
        let length_before = self.random.words(length);
        let said_before = unsaid(&mut self.random, said);
        let mut expected_text = text_before.clone();
        let mut expected_length = length_before.clone();
        let mut expected_said = said_before.clone();
        let model = model::list(
            card,
            &mut expected_text,
            &mut expected_length,
            &mut expected_said,
        );

        let mut lent_card = Lent::new(card, guard as u8);
        let mut text = Lent::new(&text_before, guard as u8);
        let mut length = Lent::new(&length_before, guard as u32);
        let mut said = Lent::new(&said_before, guard as u32);
        let board = board::list(
            lent_card.places(),
            text.places(),
            length.places(),
            said.places(),
        );

        let same = lent_card.holds(card)
            && text.holds(&expected_text)
            && length.holds(&expected_length)
            && said.holds(&expected_said);
        self.count(Tool::List, (board, model), same, |report| {
            let _ = writeln!(report, "  card {:?}", String::from_utf8_lossy(card));
            let _ = writeln!(report, "  text has {} places", text_before.len());
            let _ = writeln!(
                report,
                "  length before {length_before:?}, said {said_before:?}"
            );
            lent_card.tell("card", card, report);
            text.tell("text", &expected_text, report);
            length.tell("length", &expected_length, report);
            said.tell("said", &expected_said, report);
        });
        let [length, said] = [length, said].map(|lent| lent.content().to_vec());
        (board, text.content().to_vec(), length, said)
    }

    /// Prints the table, the first differences and the last line; true if nothing failed.
    pub fn report(&self) -> bool {
        let mut failed = self.differed + self.facts_broken;
        print!("{:<8}", "");
        for number in 0..16 {
            print!("{number:>8}");
        }
        println!();
        for (tool, numbers) in TOOLS {
            print!("{:<8}", format!("{tool:?}").to_lowercase());
            for (number, &count) in self.counts[tool as usize].iter().enumerate() {
                let given = numbers.contains(&number);
                if given && count < WANTED_OF_EACH {
                    failed += 1;
                }
                if given || count > 0 {
                    print!("{count:>8}");
                } else {
                    print!("{:>8}", "-");
                }
            }
            println!();
        }
        let wanted = all_stage_counts();
        let missing: Vec<_> = wanted.difference(&self.priced).collect();
        failed += missing.len() as u64;
        let (all, priced) = (wanted.len(), wanted.len() - missing.len());
        println!("\nprices of {priced} of the {all} pairs of stage counts, over all sizes");
        for (n, k, write, read) in missing.into_iter().take(SHOWN) {
            println!("  none at n {n}, k {k} with {write} write and {read} read stages");
        }
        for difference in &self.differences {
            print!("\n{difference}");
        }
        if self.agreed + self.differed < WANTED_IN_ALL {
            failed += 1;
        }
        println!("\n{} passed, {failed} failed", self.agreed);
        failed == 0
    }
}
