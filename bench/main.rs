// Times the proved machine and writer against the plain ones of plain.rs, on a full plan with 4,000 accepted entries,
// as a text and as records beside the plan's text. From the project's root:
//
// sh tools/static_library.sh
// rustc -O bench/main.rs -L target/staticlib -l static=public_point_memory -o target/bench && target/bench
//
// Both have to give the report in bench-full.report before anything is timed; as records its last line counts those. A
// run is the whole way from the text, or from the plan's text and the records, to the report; writing is the way to the
// one text for them, with the run that it needs. Both have to write the same text from either, and its report has to be
// that one, its last line aside. The schedule is then cut to its first 400 entries, to see that the time an entry does
// not grow with the schedule, and to none, to see what the plan's lines and the report take.
//
// The peak memory of the process is read before and after the library's first runs and writings, which come before
// anything else runs. Text, records and buffer are in memory by then, so that the growth is what the library itself
// takes: its stack, and its code where that is loaded at its first use.

// The benchmark does not use all of these.
#[allow(dead_code)]
mod library;
#[allow(dead_code)]
mod plain;

use plain::{Ended, Record};
use std::hint::black_box;
use std::time::Instant;

/// Rounds that count, rounds before them that do not, and runs in a round.
const ROUNDS: usize = 7;
const WARM_UP: usize = 2;
const RUNS: usize = 300;

/// The length of the lent buffers, enough for every report and every text.
const ROOM: usize = 80_000;

/// A way to run a schedule, or to write it, into a lent buffer.
type Run<'a> = &'a dyn Fn(&mut [u8]) -> Ended;

/// A plan and its schedule, as one text, and as the plan's text and records.
struct Schedule {
    text: Vec<u8>,
    plan: Vec<u8>,
    records: Vec<Record>,
}

/// The record of a line, if it is an entry.
fn record(line: &[u8]) -> Option<Record> {
    let line = std::str::from_utf8(line).ok()?;
    let mut fields = line.trim_end().split('\t');
    let first = fields.next()?;
    let kind = ["call", "step"].iter().position(|&kind| kind == first)? as u32;
    let mut number = || fields.next().and_then(|field| field.parse().ok());
    Some(Record { kind, first: number()?, second: number().unwrap_or(0) })
}

/// The schedule of a text, with its first so many entries.
fn schedule(text: &[u8], most: usize) -> Schedule {
    let mut schedule = Schedule { text: Vec::new(), plan: Vec::new(), records: Vec::new() };
    for line in text.split_inclusive(|&byte| byte == b'\n') {
        match record(line) {
            Some(_) if schedule.records.len() == most => break,
            Some(record) => schedule.records.push(record),
            None => schedule.plan.extend_from_slice(line),
        }
        schedule.text.extend_from_slice(line);
    }
    schedule
}

/// The peak memory of the process so far, in kilobytes: VmHWM of /proc/self/status.
fn peak_memory() -> usize {
    let status = std::fs::read_to_string("/proc/self/status").expect("/proc/self/status");
    let line = status.lines().find_map(|line| line.strip_prefix("VmHWM:")).expect("VmHWM");
    line.trim().trim_end_matches(" kB").parse().expect("a count of kilobytes")
}

/// The report of an accepted run, or the text that is written.
fn written(run: Run) -> Vec<u8> {
    let mut buffer = vec![0; ROOM];
    let ended = run(&mut buffer);
    assert!(ended.number == 0, "refused: {} in line {}", ended.number, ended.line);
    buffer.truncate(ended.length);
    buffer
}

/// The nanoseconds a run takes, over one round.
fn round(run: Run, buffer: &mut [u8]) -> f64 {
    buffer.fill(0);
    let start = Instant::now();
    for _ in 0..RUNS {
        black_box(run(black_box(buffer)));
    }
    start.elapsed().as_nanos() as f64 / RUNS as f64
}

/// The least and the median nanoseconds a run, of the proved and of the plain machine, their rounds taken in turn.
fn times(runs: [Run; 2]) -> [[f64; 2]; 2] {
    let mut buffers = [vec![0; ROOM], vec![0; ROOM]];
    let mut taken = [Vec::new(), Vec::new()];
    for number in 0..WARM_UP + ROUNDS {
        for which in 0..2 {
            let time = round(runs[which], &mut buffers[which]);
            if number >= WARM_UP {
                taken[which].push(time);
            }
        }
    }
    taken.map(|mut all| {
        all.sort_by(f64::total_cmp);
        [all[0], all[ROUNDS / 2]]
    })
}

/// Times the proved run against the plain one and prints their lines, each time divided by the given count.
fn print(heading: &str, proved: Run, plain: Run, parts: usize) {
    assert!(written(proved) == written(plain), "the reports, or the texts, differ");
    let [proved, plain] = times([proved, plain]).map(|pair| pair.map(|time| time / parts as f64));
    println!("{heading:36} {:>10} {:>10}", "least", "median");
    println!("{:>36} {:>10.1} {:>10.1}", "proved", proved[0], proved[1]);
    println!("{:>36} {:>10.1} {:>10.1}", "plain", plain[0], plain[1]);
    println!("{:>36} {:>10.2} {:>10.2}", "proved / plain", proved[0] / plain[0], proved[1] / plain[1]);
}

/// Reads the memory about the library's first runs and writings, compares the reports and the texts, then times the
/// whole schedule, its first 400 entries, and the plan alone.
fn main() {
    let text = std::fs::read("bench/bench-full.txt").expect("bench/bench-full.txt, from the project's root");
    let expected = std::fs::read("bench/bench-full.report").expect("bench/bench-full.report");
    let expected = String::from_utf8(expected).expect("a report");
    let expected_of_records = expected.replace("end\t0\t4105\n", "end\t0\t4000\n");
    let whole = schedule(&text, usize::MAX);

    // The buffer is written, so that its pages are in memory; the first reading loads what a reading needs.
    let mut buffer = vec![1; ROOM];
    peak_memory();
    let before = peak_memory();
    library::run(&whole.text, &mut buffer);
    let after_text = peak_memory();
    library::run_schedule(&whole.plan, &whole.records, &mut buffer);
    let after_records = peak_memory();
    library::write(&whole.text, &mut buffer);
    library::write_schedule(&whole.plan, &whole.records, &mut buffer);
    let after_writing = peak_memory();

    for (run, expected) in [
        (&(|buffer: &mut [u8]| library::run(&whole.text, buffer)) as Run, &expected),
        (&|buffer| plain::run(&whole.text, buffer), &expected),
        (&|buffer| library::run_schedule(&whole.plan, &whole.records, buffer), &expected_of_records),
        (&|buffer| plain::run_schedule(&whole.plan, &whole.records, buffer), &expected_of_records),
    ] {
        assert!(written(run) == expected.as_bytes(), "a report differs from bench-full.report");
    }
    let one_text = written(&|buffer| library::write(&whole.text, buffer));
    for run in [
        &(|buffer: &mut [u8]| plain::write(&whole.text, buffer)) as Run,
        &|buffer| library::write_schedule(&whole.plan, &whole.records, buffer),
        &|buffer| plain::write_schedule(&whole.plan, &whole.records, buffer),
    ] {
        assert!(written(run) == one_text, "the texts differ");
    }
    let lines = one_text.iter().filter(|&&byte| byte == b'\n').count();
    let expected_of_one_text = expected.replace("end\t0\t4105\n", &format!("end\t0\t{lines}\n"));
    let report_of_one_text = written(&|buffer| library::run(&one_text, buffer));
    assert!(report_of_one_text == expected_of_one_text.as_bytes(), "the text that is written has another report");
    println!("Both give bench-full.report, as text and as records, and write one text of {lines} lines.");
    println!("{ROUNDS} rounds of {RUNS} runs each.");
    for most in [usize::MAX, 400, 0] {
        let Schedule { text, plan, records } = schedule(&text, most);
        let (count, unit) = match records.len() {
            0 => (1, "in all"),
            count => (count, "an entry"),
        };
        print(
            &format!("{} entries as text, ns {unit}", records.len()),
            &|buffer| library::run(black_box(&text), buffer),
            &|buffer| plain::run(black_box(&text), buffer),
            count,
        );
        print(
            &format!("{} entries as records, ns {unit}", records.len()),
            &|buffer| library::run_schedule(black_box(&plan), black_box(&records), buffer),
            &|buffer| plain::run_schedule(black_box(&plan), black_box(&records), buffer),
            count,
        );
        print(
            &format!("{} entries written, ns {unit}", records.len()),
            &|buffer| library::write(black_box(&text), buffer),
            &|buffer| plain::write(black_box(&text), buffer),
            count,
        );
        print(
            &format!("{} records written, ns {unit}", records.len()),
            &|buffer| library::write_schedule(black_box(&plan), black_box(&records), buffer),
            &|buffer| plain::write_schedule(black_box(&plan), black_box(&records), buffer),
            count,
        );
    }
    println!("Peak memory of the process: {before} KB before the library's first run, {after_text} KB after it,");
    println!("{after_records} KB after its first run of records, {after_writing} KB after its first writings,");
    println!("{} KB at the end.", peak_memory());
}
