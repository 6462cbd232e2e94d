//! The writer's part of the comparison. The library and the plain implementation write each case into buffers of
//! several rooms, one of them exactly as long as the text and one too short by a byte. The answers have to be the same,
//! and so has every byte of the buffer and beside it; and the answer has to be the one that the library's run of the
//! case asks for. What was written is then held against the case without the plain writer: it has the case's own plan
//! lines; its entries, taken singly, are the case's; steps of one card that follow each other stand in one line; the
//! plain check accepts it. The library has to write it as it stands, to write the same plan and entries said otherwise
//! alike, and to give it the case's report but for the line in `end`.

use crate::cases::{self, Case, Random};
use crate::library;
use crate::plain::{self, Answer, Ended, Record};
use crate::{add_all, room, BEHIND, MARGIN, MORE_OFTEN, OFTEN, ROOM};

/// What a written text can show, in the order of `text_shows`.
const TEXTS: [&str; 14] = [
    "a text written",
    "a text written from records",
    "a text written as it stands",
    "without entries",
    "with 4,000 entries",
    "a run of one",
    "a run of one that had its count",
    "a run of 1,000 steps or more",
    "lines without counts joined",
    "lines with counts joined",
    "both joined",
    "records with unused numbers joined",
    "steps of a card parted by calls",
    "steps of a card parted by another's",
];

/// What an answer can show, in the order of `answer_shows`. Where there is no room for the report, a run answers 15.
const ANSWERS: [&str; 6] = [
    "0, no byte to spare",
    "0, no room for the report",
    "15, a byte too little",
    "15, room for the report",
    "11 to 14, no room for the report",
    "1 to 10, 16 or 17, no room at all",
];

/// What was met so far, in cases. The numbers are counted by function: write, write_schedule.
#[derive(Default)]
pub struct Tally {
    cases: [usize; 2],
    numbers: [[usize; 18]; 2],
    texts: [usize; TEXTS.len()],
    answers: [usize; ANSWERS.len()],
    pub differences: usize,
    pub first: Option<(u64, String)>, // the first case that differs, and how
}

impl Tally {
    /// Adds another thread's tally.
    pub fn add(&mut self, other: Tally) {
        add_all(&mut self.cases, &other.cases);
        for (numbers, others) in self.numbers.iter_mut().zip(&other.numbers) {
            add_all(numbers, others);
        }
        add_all(&mut self.texts, &other.texts);
        add_all(&mut self.answers, &other.answers);
        self.differences += other.differences;
        self.first = self.first.take().into_iter().chain(other.first).min_by_key(|first| first.0);
    }

    /// Whether each number and all that texts and answers can show was met often. A plan's text has no runs, so that
    /// nothing beside it is refused with 16.
    pub fn is_enough(&self) -> bool {
        let [write, schedule] = &self.numbers;
        let mut numbers = write.iter().chain(&schedule[..16]).chain(&schedule[17..]);
        numbers.all(|&met| met >= OFTEN) && self.texts.iter().chain(&self.answers).all(|&met| met >= MORE_OFTEN)
    }

    /// Prints everything.
    pub fn print(&self) {
        let [texts, schedules] = self.cases;
        println!("{} cases for the writer: {texts} texts, {schedules} schedules of records", texts + schedules);
        println!("{} differences", self.differences);
        println!();
        println!("{:10} {:>14} {:>14}", "number", "write", "write_schedule");
        for (number, (write, schedule)) in self.numbers[0].iter().zip(&self.numbers[1]).enumerate() {
            println!("{number:<10} {write:>14} {schedule:>14}");
        }
        for (heading, names, counts) in
            [("written", &TEXTS[..], &self.texts[..]), ("the writer's answer", &ANSWERS, &self.answers)].iter()
        {
            println!();
            println!("{heading:36} {:>12}", "in cases");
            for (name, met) in names.iter().zip(*counts) {
                println!("{name:36} {met:>12}");
            }
        }
    }
}

/// A case as it is lent.
#[derive(Clone, Copy)]
struct Given<'a> {
    text: &'a [u8],
    records: Option<&'a [Record]>,
}

impl<'a> Given<'a> {
    /// A whole case.
    fn of(case: &'a Case) -> Given<'a> {
        Given { text: &case.text, records: case.records.as_deref() }
    }

    /// The library's run.
    fn run(self, buffer: &mut [u8]) -> Ended {
        match self.records {
            None => library::run(self.text, buffer),
            Some(records) => library::run_schedule(self.text, records, buffer),
        }
    }

    /// The library's writer.
    fn write(self, buffer: &mut [u8]) -> Ended {
        match self.records {
            None => library::write(self.text, buffer),
            Some(records) => library::write_schedule(self.text, records, buffer),
        }
    }

    /// The plain writer.
    fn write_plainly(self, buffer: &mut [u8]) -> Ended {
        match self.records {
            None => plain::write(self.text, buffer),
            Some(records) => plain::write_schedule(self.text, records, buffer),
        }
    }

    /// The line that acceptance answers.
    fn lines(self) -> usize {
        self.records.map_or(line_count(self.text), |records| records.len())
    }
}

/// How many lines a text has.
fn line_count(text: &[u8]) -> usize {
    text.iter().filter(|&&byte| byte == b'\n').count()
}

/// An entry line: its first single entry, a step's unused number being 0, and the count of a run that has one.
#[derive(Clone, Copy)]
struct EntryLine {
    entry: Record,
    count: Option<u32>,
}

impl EntryLine {
    /// A line of an accepted text, if it is an entry.
    fn of(line: &[u8]) -> Option<EntryLine> {
        let mut fields = std::str::from_utf8(line).ok()?.trim_end().split('\t');
        let kind = fields.next()?;
        let mut number = || fields.next().and_then(|field| field.parse().ok());
        match kind {
            "call" => Some(EntryLine { entry: Record { kind: 0, first: number()?, second: number()? }, count: None }),
            "step" => Some(EntryLine { entry: step(number()?), count: number() }),
            _ => None,
        }
    }

    /// The card that it steps, if it does.
    fn card(&self) -> Option<u32> {
        Some(self.entry.first).filter(|_| self.entry.kind == 1)
    }

    /// How many single entries it is.
    fn entries(&self) -> usize {
        self.count.unwrap_or(1) as usize
    }
}

/// A step as a record, its unused number 0.
fn step(card: u32) -> Record {
    Record { kind: 1, first: card, second: 0 }
}

/// The plan's lines of an accepted text, and its entry lines.
fn parts(text: &[u8]) -> (&[u8], Vec<EntryLine>) {
    let (mut length, mut entries) = (0, Vec::new());
    for line in text.split_inclusive(|&byte| byte == b'\n') {
        match EntryLine::of(line) {
            Some(entry) => entries.push(entry),
            None => length += line.len(),
        }
    }
    (&text[..length], entries)
}

/// The single entries of entry lines.
fn single_entries(lines: &[EntryLine]) -> Vec<Record> {
    lines.iter().flat_map(|line| std::iter::repeat(line.entry).take(line.entries())).collect()
}

/// Entry lines in groups: steps of one card that follow each other, or a call.
fn groups(lines: &[EntryLine]) -> impl Iterator<Item = &[EntryLine]> {
    lines.chunk_by(|line, next| line.card().is_some() && line.card() == next.card())
}

/// What a text written for a case shows.
fn text_shows(given: Given, given_lines: &[EntryLine], text: &[u8], lines: &[EntryLine]) -> [bool; TEXTS.len()] {
    let from_text = given.records.is_none();
    let joined = |test: fn(usize, usize) -> bool| {
        let counts = |group: &[EntryLine]| group.iter().filter(|line| line.count.is_some()).count();
        groups(given_lines).any(|group| group.len() > 1 && test(counts(group), group.len()))
    };
    let parted = |by_call: bool| {
        let same = |three: &[EntryLine]| three[0].card().is_some() && three[0].card() == three[2].card();
        lines.windows(3).any(|three| same(three) && three[1].card().is_none() == by_call)
    };
    let with_unused = |pair: &[Record]| {
        let [one, next] = [pair[0], pair[1]];
        one.kind == 1 && next.kind == 1 && one.first == next.first && one.second != next.second
    };
    [
        from_text,
        !from_text,
        from_text && given.text == text,
        lines.is_empty(),
        lines.iter().map(EntryLine::entries).sum::<usize>() == 4_000,
        lines.iter().any(|line| line.card().is_some() && line.count.is_none()),
        groups(given_lines).any(|group| group.len() == 1 && group[0].count == Some(1)),
        lines.iter().any(|line| line.entries() >= 1_000),
        joined(|counts, _| counts == 0),
        joined(|counts, all| counts == all),
        joined(|counts, all| 0 < counts && counts < all),
        given.records.unwrap_or(&[]).windows(2).any(with_unused),
        parted(true),
        parted(false),
    ]
}

/// What the answer for a room shows; the lengths are those of the text and of the run's report.
fn answer_shows(number: usize, room: usize, text: usize, report: usize) -> [bool; ANSWERS.len()] {
    [
        number == 0 && room == text,
        number == 0 && room < report,
        number == 15 && room + 1 == text,
        number == 15 && room >= report,
        (11..=14).contains(&number) && room < report,
        number > 0 && report == 0 && room == 0,
    ]
}

/// Demands something; the words say it.
fn demand(so: bool, words: &str) -> Result<(), String> {
    if so {
        Ok(())
    } else {
        Err(format!("Not so: {words}.\n"))
    }
}

/// An answer, and what is written in a buffer that is long enough for every report and every text.
fn in_ample_room(fill: impl FnOnce(&mut [u8]) -> Ended) -> (Ended, Vec<u8>) {
    let mut buffer = vec![0; ROOM];
    let ended = fill(&mut buffer);
    buffer.truncate(ended.length);
    (ended, buffer)
}

/// The answer of both writers in a room, if they give the same one and leave the same bytes.
fn write_both(given: Given, random: &mut Random, room: usize) -> Result<Ended, String> {
    let mut lent = vec![0; room + 2 * MARGIN];
    for bytes in lent.chunks_mut(8) {
        bytes.copy_from_slice(&random.next().to_le_bytes()[..bytes.len()]);
    }
    let mut buffers = [lent.clone(), lent];
    let plain = given.write_plainly(&mut buffers[0][MARGIN..MARGIN + room]);
    let library = given.write(&mut buffers[1][MARGIN..MARGIN + room]);
    if plain == library && buffers[0] == buffers[1] {
        return Ok(library);
    }
    let [beside_plain, beside_library] = buffers.map(|buffer| String::from_utf8_lossy(&buffer).into_owned());
    Err(format!(
        "The writers differ with room {room}.\n\nplain: {plain:?}, buffer with margins:\n{beside_plain}\n\n\
         library: {library:?}, buffer with margins:\n{beside_library}\n"
    ))
}

/// A report up to its last tab, and the line in `end` behind it.
fn report_parts(report: &[u8]) -> (&[u8], &[u8]) {
    let tab = report.iter().rposition(|&byte| byte == b'\t').unwrap_or(0);
    report.split_at(tab)
}

/// Holds a written text against its case, with the report of the case.
fn judge_text(given: Given, random: &mut Random, text: &[u8], report: &[u8]) -> Result<[bool; TEXTS.len()], String> {
    let count = line_count(text);
    demand(plain::check(text) == Answer { number: 0, line: count }, "the check accepts the text")?;

    let (plan, lines) = parts(text);
    let (given_plan, given_lines) = parts(given.text);
    let entries = single_entries(&lines);
    let single = |record: &Record| if record.kind == 1 { step(record.first) } else { *record };
    let given_entries = match given.records {
        None => single_entries(&given_lines),
        Some(records) => records.iter().map(single).collect(),
    };
    demand(plan == given_plan, "the text has the case's plan lines")?;
    demand(entries == given_entries, "the text has the case's single entries")?;
    demand(groups(&lines).all(|group| group.len() == 1), "steps of one card that follow each other are in one line")?;
    demand(lines.iter().all(|line| line.count != Some(1)), "a run of one has no count")?;

    let itself = Given { text, records: None };
    let as_it_stands = Ended { number: 0, line: count, length: text.len() };
    let again = in_ample_room(|buffer| itself.write(buffer));
    demand(again.0 == as_it_stands && again.1 == text, "the text is written as it stands")?;
    for case in &cases::said_otherwise(random, plan, &entries) {
        let otherwise = Given::of(case);
        let alike = Ended { line: otherwise.lines(), ..as_it_stands };
        let again = in_ample_room(|buffer| otherwise.write(buffer));
        demand(again.0 == alike && again.1 == text, "the same plan and entries said otherwise are written alike")?;
    }

    let (_, report_of_text) = in_ample_room(|buffer| itself.run(buffer));
    let ((rest, end), (rest_of_text, end_of_text)) = (report_parts(report), report_parts(&report_of_text));
    let line = |count: usize| format!("\t{count}\n").into_bytes();
    demand(rest == rest_of_text, "the reports agree but for the line in `end`")?;
    demand(end == line(given.lines()) && end_of_text == line(count), "the line in `end` is the count of lines")?;
    Ok(text_shows(given, &given_lines, text, &lines))
}

/// Holds the library's writer against the plain one, and what they have written against the case; `tally` counts what
/// is met.
fn judge(given: Given, random: &mut Random, tally: &mut Tally) -> Result<(), String> {
    let (ran, report) = in_ample_room(|buffer| given.run(buffer));
    let (written, text) = in_ample_room(|buffer| given.write_plainly(buffer));
    let rooms = match ran.number {
        0 => [text.len(), text.len().saturating_sub(1), room(random, text.len())],
        _ => [0, room(random, report.len()), random.between(0, given.text.len())],
    };
    let (mut numbers, mut answers) = ([false; 18], [false; ANSWERS.len()]);
    for &room in &rooms {
        let ended = write_both(given, random, room)?;
        let right = match ran.number {
            0 if room < written.length => Ended { number: 15, line: 0, length: 0 },
            0 => Ended { length: written.length, ..ran },
            _ => Ended { length: 0, ..ran },
        };
        demand(ended == right, "the writer answers what the run does, or 15 where the text does not fit")?;
        numbers[ended.number] = true;
        let shows = answer_shows(ended.number, room, text.len(), report.len());
        answers = std::array::from_fn(|place| answers[place] || shows[place]);
    }
    if ran.number == 0 {
        add_all(&mut tally.texts, &judge_text(given, random, &text, &report)?.map(usize::from));
    }
    add_all(&mut tally.numbers[usize::from(given.records.is_some())], &numbers.map(usize::from));
    add_all(&mut tally.answers, &answers.map(usize::from));
    Ok(())
}

/// Compares one case. Behind the text and the records stands what would count if they were read past their ends.
pub fn compare(number: u64, tally: &mut Tally) {
    let mut random = Random::new(number);
    let case = cases::case_to_write(&mut random);
    let held_text = [&case.text[..], BEHIND].concat();
    let held_records = case.records.as_ref().map(|records| {
        let last = records.last().copied().unwrap_or(step(0));
        [&records[..], &[last]].concat()
    });
    let given = Given {
        text: &held_text[..case.text.len()],
        records: held_records.as_ref().map(|records| &records[..records.len() - 1]),
    };
    tally.cases[usize::from(given.records.is_some())] += 1;
    if let Err(how) = judge(given, &mut random, tally) {
        tally.differences += 1;
        tally.first.get_or_insert_with(|| {
            let text = String::from_utf8_lossy(&case.text);
            (number, format!("case {number}\n\n{how}\nrecords: {:?}\n\ntext:\n{text}", case.records))
        });
    }
}
