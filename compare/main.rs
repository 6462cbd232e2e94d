// Compares the proved library with the plain implementation of bench/plain.rs on random and damaged texts and schedules
// (cases.rs), the same ones in every run. From the project's root:
//
// sh tools/static_library.sh
// rustc -O compare/main.rs -L target/staticlib -l static=public_point_memory -o target/compare && target/compare
//
// A case is a text, or a plan's text and records, with a lent buffer of some room. Both checks are asked of the text,
// and it is run; the answers have to be the same, and so has every byte of the buffer and beside it. More cases are for
// the writer (writing.rs). All are shared by two threads, whose stacks are as long as include/point_memory.h asks for.
// Printed are the counts of cases and differences, how often runs of steps, stopped sums, each number, each order of
// judgement about 17 and each late store were met, and what the writer met. The status is 1 where something differs or
// was hardly met. The first case that differs is then in target/difference.txt, and `target/compare NUMBER` runs it
// alone.

mod cases;
#[path = "../bench/library.rs"]
mod library;
#[path = "../bench/plain.rs"]
mod plain;
mod writing;

use cases::{Case, Random};
use plain::{Answer, Counts, Ended, Late};
use std::thread;

/// The cases, those for the writer, which are numbered on, and the threads that share them.
const CASES: u64 = 200_000;
const CASES_TO_WRITE: u64 = 100_000;
const THREADS: u64 = 2;

/// The stack of each thread.
const STACK: usize = 256 * 1024;

/// In how many cases each number, each order about 17 and each late store has to be met, in how many runs of steps,
/// their 16, 17, and each thing that the writer can show, and in how many a sum that stops.
const OFTEN: usize = 100;
const MORE_OFTEN: usize = 500;
const MOST_OFTEN: usize = 1_000;

/// The length of a buffer that is enough for every report and every text, and the bytes kept on both sides of a lent
/// one.
const ROOM: usize = 80_000;
const MARGIN: usize = 16;

/// What stands in memory behind a text: it would count if the text were read past its end.
const BEHIND: &[u8] = b"1\nstep\t0\n";

/// What the check can answer at an update's line to show an order of judgement about 17, as `order_shown` counts it.
const ORDERS: [&str; 4] = [
    "3 behind an entry, the number wrong",
    "3 behind an entry, the fields bad",
    "4, and it is a 33rd update",
    "5, and the number is wrong",
];

/// The late stores, in the order of `late_counts`.
const LATE: [&str; 7] = [
    "A12, V is not ver",
    "H25, V is not ver",
    "H25, Stat[hid] is not -1",
    "H41, V is not ver",
    "H41, the bank entry is not old",
    "H42, V is not ver",
    "H42, Stat[hid] is not wid",
];

/// The counts of a run's late stores.
fn late_counts(late: Late) -> [usize; 7] {
    let Late { a12, h25_moved, h25_status, h41_moved, h41_bank, h42_moved, h42_status } = late;
    [a12, h25_moved, h25_status, h41_moved, h41_bank, h42_moved, h42_status]
}

/// What was met so far. The numbers are counted by function: check, check_plan, run, run_schedule.
#[derive(Default)]
struct Tally {
    texts: usize,
    schedules: usize,
    numbers: [[usize; 18]; 4],
    runs: [usize; 2], // accepted texts with a run of steps, and texts with 14 in a run
    orders: [usize; 4],
    late: [usize; 7],
    late_cases: [usize; 7],
    stopped_sums: usize,
    stopped_sum_cases: usize,
    differences: usize,
    first: Option<(u64, String)>, // the first case that differs, and how
}

impl Tally {
    /// Adds another thread's tally.
    fn add(&mut self, other: Tally) {
        self.texts += other.texts;
        self.schedules += other.schedules;
        for (numbers, others) in self.numbers.iter_mut().zip(&other.numbers) {
            add_all(numbers, others);
        }
        add_all(&mut self.runs, &other.runs);
        add_all(&mut self.orders, &other.orders);
        add_all(&mut self.late, &other.late);
        add_all(&mut self.late_cases, &other.late_cases);
        self.stopped_sums += other.stopped_sums;
        self.stopped_sum_cases += other.stopped_sum_cases;
        self.differences += other.differences;
        self.first = self.first.take().into_iter().chain(other.first).min_by_key(|first| first.0);
    }

    /// Whether runs of steps, stopped sums, each number, each order about 17 and each late store were met often. A
    /// plan's text has no runs, so that nothing beside it is refused with 16.
    fn is_enough(&self) -> bool {
        let [check, check_plan, run, schedule] = &self.numbers;
        let checks = check[..11].iter().chain(&check_plan[..11]);
        let numbers = checks.chain(&run[..16]).chain(&schedule[..16]);
        let more = [check[16], run[16], check[17], check_plan[17], run[17], schedule[17]];
        numbers.chain(&self.orders).chain(&self.late_cases).all(|&met| met >= OFTEN)
            && self.runs.iter().chain(&more).all(|&met| met >= MORE_OFTEN)
            && self.stopped_sum_cases >= MOST_OFTEN
    }

    /// Prints everything.
    fn print(&self) {
        let cases = self.texts + self.schedules;
        println!("{cases} cases: {} texts, {} schedules of records", self.texts, self.schedules);
        println!("{} differences", self.differences);
        println!("{} accepted texts with runs of steps, {} texts with 14 in a run", self.runs[0], self.runs[1]);
        println!();
        println!("{:10} {:>12} {:>12} {:>12} {:>12}", "number", "check", "check_plan", "run", "run_schedule");
        for number in 0..18 {
            let [check, check_plan, run, schedule] = [0, 1, 2, 3].map(|function| self.numbers[function][number]);
            println!("{number:<10} {check:>12} {check_plan:>12} {run:>12} {schedule:>12}");
        }
        println!();
        println!("{:36} {:>12}", "the check's answer at an update", "in cases");
        for (name, met) in ORDERS.iter().zip(&self.orders) {
            println!("{name:36} {met:>12}");
        }
        println!();
        println!("{:36} {:>12} {:>12}", "late store", "times", "in cases");
        for (place, name) in LATE.iter().enumerate() {
            println!("{name:36} {:>12} {:>12}", self.late[place], self.late_cases[place]);
        }
        println!();
        println!("{:36} {:>12} {:>12}", "sum", "times", "in cases");
        println!("{:36} {:>12} {:>12}", "stops at 4,294,967,295", self.stopped_sums, self.stopped_sum_cases);
    }
}

/// Adds other counts to the counts.
fn add_all(counts: &mut [usize], others: &[usize]) {
    for (count, other) in counts.iter_mut().zip(others) {
        *count += other;
    }
}

/// Whether a line is a run of steps.
fn is_run(line: &[u8]) -> bool {
    line.starts_with(b"step\t") && line.iter().filter(|&&byte| byte == b'\t').count() == 2
}

/// The number of an update's line, if it has one good number and nothing else.
fn update_number(line: &str) -> Option<usize> {
    let field = line.strip_prefix("update\t")?;
    field.parse().ok().filter(|number: &u32| number.to_string() == field).map(|number| number as usize)
}

/// Which place of ORDERS the check's answer belongs to, if its line is an update's. The update's right number is the
/// count of updates before it.
fn order_shown(text: &[u8], answer: Answer) -> Option<usize> {
    if !(3..=5).contains(&answer.number) {
        return None;
    }
    let mut lines = text.split(|&byte| byte == b'\n').map(String::from_utf8_lossy);
    let is_update = |line: &str| line == "update" || line.starts_with("update\t");
    let before: Vec<_> = lines.by_ref().take(answer.line.checked_sub(1)?).collect();
    let right = before.iter().filter(|line| is_update(line)).count();
    let behind_entry = before.last().is_some_and(|line| line.starts_with("call\t") || line.starts_with("step\t"));
    let line = lines.next().filter(|line| is_update(line))?;
    match (answer.number, update_number(&line)) {
        (3, Some(number)) if behind_entry && number != right => Some(0),
        (3, None) if behind_entry => Some(1),
        (4, None) if right == 32 => Some(2),
        (5, Some(number)) if number != right => Some(3),
        _ => None,
    }
}

/// The room to lend for a report or a text of a length: none, too little, exactly as much, or more.
fn room(random: &mut Random, length: usize) -> usize {
    match random.below(16) {
        0 => 0,
        1 | 2 => length,
        3 | 4 => length.saturating_sub(1),
        5 => random.between(0, length),
        6 => ROOM,
        _ => length + random.between(1, 400),
    }
}

/// What comes out of a case: the answers of both checks and of the run, and the buffer with its margins.
#[derive(PartialEq)]
struct Outcome {
    checks: [Answer; 2],
    ended: Ended,
    buffer: Vec<u8>,
}

/// The plain implementation's outcome, and what it counts.
fn plain_outcome(case: &Case, text: &[u8], mut buffer: Vec<u8>) -> (Outcome, Counts) {
    let checks = [plain::check(text), plain::check_plan(text)];
    let end = buffer.len() - MARGIN;
    let (ended, counts) = match &case.records {
        None => plain::run_counting(text, &mut buffer[MARGIN..end]),
        Some(records) => plain::run_schedule_counting(text, records, &mut buffer[MARGIN..end]),
    };
    (Outcome { checks, ended, buffer }, counts)
}

/// The library's outcome.
fn library_outcome(case: &Case, text: &[u8], mut buffer: Vec<u8>) -> Outcome {
    let checks = [library::check(text), library::check_plan(text)];
    let end = buffer.len() - MARGIN;
    let ended = match &case.records {
        None => library::run(text, &mut buffer[MARGIN..end]),
        Some(records) => library::run_schedule(text, records, &mut buffer[MARGIN..end]),
    };
    Outcome { checks, ended, buffer }
}

/// A case that differs, in full.
fn difference(number: u64, case: &Case, plain: &Outcome, library: &Outcome) -> String {
    let mut told = format!("case {number}, room {}\n", plain.buffer.len() - 2 * MARGIN);
    for (name, outcome) in [("plain", plain), ("library", library)].iter() {
        let buffer = String::from_utf8_lossy(&outcome.buffer);
        told += &format!("\n{name}: {:?} {:?}, buffer with margins:\n{buffer}\n", outcome.checks, outcome.ended);
    }
    told + &format!("\nrecords: {:?}\n\ntext:\n{}", case.records, String::from_utf8_lossy(&case.text))
}

/// Compares one case. The ample buffer serves to find the report's length, so that the room can be chosen by it.
fn compare(number: u64, ample: &mut [u8], tally: &mut Tally) {
    let mut random = Random::new(number);
    let case = cases::case(&mut random);
    let held = [&case.text[..], BEHIND].concat();
    let text = &held[..case.text.len()];
    let (function, ended) = match &case.records {
        None => (2, plain::run(text, ample)),
        Some(records) => (3, plain::run_schedule(text, records, ample)),
    };
    let room = room(&mut random, ended.length);
    let mut buffer = vec![0; room + 2 * MARGIN];
    for bytes in buffer.chunks_mut(8) {
        bytes.copy_from_slice(&random.next().to_le_bytes()[..bytes.len()]);
    }

    let (plain, counts) = plain_outcome(&case, text, buffer.clone());
    let library = library_outcome(&case, text, buffer);
    if plain != library {
        tally.differences += 1;
        tally.first.get_or_insert_with(|| (number, difference(number, &case, &plain, &library)));
    }

    let mut lines = text.split(|&byte| byte == b'\n');
    match ended.number {
        0 => tally.runs[0] += usize::from(lines.any(is_run)),
        14 if function == 2 => tally.runs[1] += usize::from(lines.nth(ended.line - 1).is_some_and(is_run)),
        _ => (),
    }
    if let Some(order) = order_shown(text, plain.checks[0]) {
        tally.orders[order] += 1;
    }
    tally.texts += usize::from(case.records.is_none());
    tally.schedules += usize::from(case.records.is_some());
    tally.numbers[0][plain.checks[0].number] += 1;
    tally.numbers[1][plain.checks[1].number] += 1;
    tally.numbers[function][plain.ended.number] += 1;
    let late = late_counts(counts.late);
    add_all(&mut tally.late, &late);
    add_all(&mut tally.late_cases, &late.map(|times| times.min(1)));
    tally.stopped_sums += counts.stopped_sums;
    tally.stopped_sum_cases += counts.stopped_sums.min(1);
}

/// Compares the cases from the first to before the end that fall to one thread: those that are run, and those that are
/// written.
fn compare_some(first: u64, end: u64) -> (Tally, writing::Tally) {
    let mut ample = vec![0; ROOM];
    let (mut ran, mut written) = (Tally::default(), writing::Tally::default());
    for number in (first..end).step_by(THREADS as usize) {
        if number < CASES {
            compare(number, &mut ample, &mut ran);
        } else {
            writing::compare(number, &mut written);
        }
    }
    (ran, written)
}

/// Compares all cases, or one by its number.
fn main() {
    let alone: Option<u64> = std::env::args().nth(1).map(|number| number.parse().expect("a case's number"));
    let (first, end) = alone.map_or((0, CASES + CASES_TO_WRITE), |number| (number, number + 1));
    let mut threads = Vec::new();
    for thread in 0..THREADS {
        let builder = thread::Builder::new().stack_size(STACK);
        threads.push(builder.spawn(move || compare_some(first + thread, end)).expect("a thread"));
    }
    let (mut ran, mut written) = (Tally::default(), writing::Tally::default());
    for thread in threads {
        let (ran_there, written_there) = thread.join().expect("a thread's tallies");
        ran.add(ran_there);
        written.add(written_there);
    }
    ran.print();
    println!();
    written.print();
    let enough = alone.is_some() || ran.is_enough() && written.is_enough();
    if !enough {
        println!("\nA number, an order about 17 or a late store was met in fewer than {OFTEN} cases,");
        println!("or runs of steps, 16, 17 or what the writer can show in fewer than {MORE_OFTEN},");
        println!("or a sum that stops in fewer than {MOST_OFTEN}.");
    }
    if let Some((number, how)) = ran.first.as_ref().or(written.first.as_ref()) {
        println!("\nCase {number} differs: see target/difference.txt.");
        std::fs::write("target/difference.txt", how).expect("target/difference.txt, from the project's root");
    }
    let same = ran.differences + written.differences == 0;
    std::process::exit(if same && enough { 0 } else { 1 });
}
