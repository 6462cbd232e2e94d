//! The cases of the comparison: sound plans of all sizes with schedules in which cards are delayed, steps joined into
//! runs, updates numbered wrongly, entries that are refused, damaged texts, and texts and schedules about the greatest
//! length. For the writer there are more whose entries are all accepted. All of it comes from one seed a case.

use crate::plain::{self, Entry, Machine, Plan, Record};

/// A case: a text to be run or written, or a plan's text beside which records are to be run or written.
pub struct Case {
    pub text: Vec<u8>,
    pub records: Option<Vec<Record>>,
}

/// Pseudo-random numbers (splitmix64).
pub struct Random(u64);

impl Random {
    /// The numbers of a seed.
    pub fn new(seed: u64) -> Random {
        Random(Random(seed).next())
    }

    /// The next number, of 64 bits.
    pub fn next(&mut self) -> u64 {
        self.0 = self.0.wrapping_add(0x9e37_79b9_7f4a_7c15);
        let mixed = (self.0 ^ (self.0 >> 30)).wrapping_mul(0xbf58_476d_1ce4_e5b9);
        let mixed = (mixed ^ (mixed >> 27)).wrapping_mul(0x94d0_49bb_1331_11eb);
        mixed ^ (mixed >> 31)
    }

    /// A number below a bound, which is not 0.
    pub fn below(&mut self, bound: usize) -> usize {
        ((self.next() >> 32) as usize * bound) >> 32
    }

    /// A number from the least to the most.
    pub fn between(&mut self, least: usize, most: usize) -> usize {
        least + self.below(most - least + 1)
    }

    /// True one time in so many.
    pub fn one_in(&mut self, many: usize) -> bool {
        self.below(many) == 0
    }

    /// One of the choices.
    pub fn of<T: Copy>(&mut self, choices: &[T]) -> T {
        choices[self.below(choices.len())]
    }
}

/// The sizes of a plan, the count of its updates, and the most moves of an update.
struct Sizes {
    cards: usize,
    jobs: usize,
    blocks: usize,
    words: usize,
    writes: usize,
    updates: usize,
    moves: usize,
}

impl Sizes {
    /// Small, crowded (many jobs on few cards, few blocks and short updates), full, or any.
    fn new(random: &mut Random) -> Sizes {
        let (least, most) = match random.below(8) {
            0 => ([1, 1, 1, 1, 1, 0, 0], [2, 2, 2, 2, 2, 2, 2]),
            1..=3 => ([2, 2, 1, 1, 1, 1, 0], [4, 16, 4, 3, 4, 4, 4]),
            4 => ([8, 16, 16, 16, 8, 32, 16], [8, 16, 16, 16, 8, 32, 16]),
            _ => ([1, 1, 1, 1, 1, 0, 0], [8, 16, 16, 16, 8, 32, 16]),
        };
        Sizes::between(random, least, most)
    }

    /// One card with many jobs, whose calls take many steps or few.
    fn of_one_card(random: &mut Random) -> Sizes {
        let (least, most) = match random.below(2) {
            0 => ([1, 8, 8, 1, 4, 1, 8], [1, 16, 16, 16, 8, 8, 16]),
            _ => ([1, 8, 1, 1, 1, 1, 0], [1, 16, 2, 2, 1, 2, 1]),
        };
        Sizes::between(random, least, most)
    }

    /// Each size from its least to its most.
    fn between(random: &mut Random, least: [usize; 7], most: [usize; 7]) -> Sizes {
        let mut size = |place: usize| random.between(least[place], most[place]);
        Sizes {
            cards: size(0),
            jobs: size(1),
            blocks: size(2),
            words: size(3),
            writes: size(4),
            updates: size(5),
            moves: size(6),
        }
    }
}

/// A word's value: often about 0 or about the greatest.
fn value(random: &mut Random) -> u32 {
    match random.below(4) {
        0 => random.below(4) as u32,
        1 => u32::MAX - random.below(3) as u32,
        _ => random.next() as u32,
    }
}

/// A line of a kind and its numbers.
fn line(kind: &str, numbers: &[u32]) -> String {
    numbers.iter().fold(kind.to_string(), |line, number| format!("{line}\t{number}"))
}

/// A move that writes a word.
fn move_line(random: &mut Random, sizes: &Sizes, word: usize) -> String {
    let from = random.below(sizes.blocks * sizes.words) as u32;
    match random.below(3) {
        0 => line("copy", &[word as u32, from]),
        1 => line("set", &[word as u32, value(random)]),
        _ => line("add", &[word as u32, from, value(random)]),
    }
}

/// The lines of a sound plan.
fn plan_lines(random: &mut Random, sizes: &Sizes) -> Vec<String> {
    let head = [sizes.cards, sizes.jobs, sizes.blocks, sizes.words, sizes.writes];
    let mut lines = vec![line("plan", &head.map(|size| size as u32))];
    let priorities = random.of(&[16, 256]);
    while lines.len() <= sizes.jobs {
        let job = line("job", &[random.below(sizes.cards) as u32, random.below(priorities) as u32]);
        if !lines.contains(&job) {
            lines.push(job);
        }
    }
    for _ in 0..sizes.blocks {
        let words: Vec<u32> = (0..sizes.words).map(|_| value(random)).collect();
        lines.push(line("block", &words));
    }
    for update in 0..sizes.updates {
        lines.push(line("update", &[update as u32]));
        let mut written = Vec::new();
        for _ in 0..random.between(0, sizes.moves) {
            let mut word = random.below(sizes.blocks * sizes.words);
            while written.len() == sizes.writes && !written.contains(&(word / sizes.words)) {
                word = random.below(sizes.blocks * sizes.words);
            }
            if !written.contains(&(word / sizes.words)) {
                written.push(word / sizes.words);
            }
            lines.push(move_line(random, sizes, word));
        }
    }
    lines
}

/// The text of the lines.
fn text_of(lines: &[String]) -> Vec<u8> {
    let mut text = Vec::with_capacity(16 * lines.len());
    for line in lines {
        text.extend_from_slice(line.as_bytes());
        text.push(b'\n');
    }
    text
}

/// A call as a record.
fn call(job: usize, update: usize) -> Record {
    Record { kind: 0, first: job as u32, second: update as u32 }
}

/// A step as a record; its second number is any.
fn step(random: &mut Random, card: usize) -> Record {
    Record { kind: 1, first: card as u32, second: random.next() as u32 }
}

/// Entry records as lines. Steps of one card that follow each other are joined into runs: none of them, some at a time,
/// or as many as can be. A run of one has its count at times.
fn entry_lines(random: &mut Random, records: &[Record]) -> Vec<String> {
    let (least, most) = random.of(&[(1, 1), (1, 1), (1, 3), (1, 40), (4_000, 4_000)]);
    let mut lines = Vec::with_capacity(records.len());
    let mut rest = records;
    while let Some(&Record { kind, first, second }) = rest.first() {
        let same = rest.iter().take_while(|record| record.kind == 1 && record.first == first).count();
        let joined = random.between(least.min(same), most.min(same)).max(1);
        lines.push(match kind {
            0 => line("call", &[first, second]),
            _ if joined > 1 || most > 1 && random.one_in(8) => line("step", &[first, joined as u32]),
            _ => line("step", &[first]),
        });
        rest = &rest[joined..];
    }
    lines
}

/// How many entries a line counts as.
fn entries_in(line: &str) -> usize {
    let mut fields = line.split('\t');
    match fields.next() {
        Some("step") => fields.nth(1).and_then(|count| count.parse().ok()).unwrap_or(1),
        Some("call") => 1,
        _ => 0,
    }
}

/// A number that is not below a bound.
fn beyond(random: &mut Random, bound: usize) -> usize {
    random.of(&[bound, bound, bound + 1, bound + 15, bound + 255, bound + 65_535, 1 << 31, u32::MAX as usize])
}

/// Makes a schedule entry by entry, with a machine beside it that knows who is active.
struct Scheduler<'a> {
    sizes: &'a Sizes,
    plan: &'a Plan,
    machine: Machine,
    delayed: [usize; 8], // for how many more entries each card is not stepped
    latest: usize,       // the card stepped last
    calls: usize,        // one entry in so many is a call, where a job is idle
    turns: usize,        // one step in so many is of another card
    delays: usize,       // one entry in so many delays a card
    longest: usize,      // for so many entries at most
}

impl<'a> Scheduler<'a> {
    /// The opening state, with a pace of its own.
    fn new(random: &mut Random, sizes: &'a Sizes, plan: &'a Plan) -> Scheduler<'a> {
        Scheduler {
            sizes,
            plan,
            machine: Machine::new(plan),
            delayed: [0; 8],
            latest: 0,
            calls: random.of(&[2, 8, 30]),
            turns: random.of(&[1, 3, 20, 300]),
            delays: random.of(&[10, 30, 100]),
            longest: random.of(&[10, 80, 300]),
        }
    }

    /// One of the jobs that are active, or that are idle, if there is one.
    fn job(&self, random: &mut Random, active: bool) -> Option<usize> {
        let first = random.below(self.sizes.jobs);
        let mut jobs = (0..self.sizes.jobs).map(|after| (first + after) % self.sizes.jobs);
        jobs.find(|&job| self.machine.is_active(job) == active)
    }

    /// One of the cards with an active job, or with none, if there is one; delayed cards only where they may be.
    fn card(&self, random: &mut Random, active: bool, may_be_delayed: bool) -> Option<usize> {
        let first = random.below(self.sizes.cards);
        let mut cards = (0..self.sizes.cards).map(|after| (first + after) % self.sizes.cards);
        cards.find(|&card| self.machine.has_active(card) == active && (may_be_delayed || self.delayed[card] == 0))
    }

    /// An entry that is refused with a number from 11 to 14 now, if there is one.
    fn refused(&self, random: &mut Random, number: usize) -> Option<Record> {
        match number {
            11 if random.one_in(2) => Some(call(beyond(random, self.sizes.jobs), random.below(32))),
            11 => Some(call(random.below(self.sizes.jobs), beyond(random, self.sizes.updates))),
            12 => self.job(random, true).map(|job| call(job, random.below(self.sizes.updates))),
            13 => {
                let card = beyond(random, self.sizes.cards);
                Some(step(random, card))
            }
            // At times behind steps of the same card.
            _ if random.one_in(2) && !self.machine.has_active(self.latest) => Some(step(random, self.latest)),
            _ => self.card(random, false, true).map(|card| step(random, card)),
        }
    }

    /// An entry that is accepted, if there is one: a call, or the step of a card that is not delayed if it can be.
    fn accepted(&mut self, random: &mut Random) -> Option<Record> {
        for rest in &mut self.delayed {
            *rest = rest.saturating_sub(1);
        }
        if random.one_in(self.delays) {
            self.delayed[random.below(self.sizes.cards)] = random.between(1, self.longest);
        }
        let stepped = match self.machine.has_active(self.latest) && self.delayed[self.latest] == 0 {
            true if !random.one_in(self.turns) => Some(self.latest),
            _ => self.card(random, true, false).or_else(|| self.card(random, true, true)),
        };
        let called = if self.sizes.updates > 0 && (stepped.is_none() || random.one_in(self.calls)) {
            self.job(random, false)
        } else {
            None
        };
        match (called, stepped) {
            (Some(job), _) => Some(call(job, random.below(self.sizes.updates))),
            (None, Some(card)) => {
                self.latest = card;
                Some(step(random, card))
            }
            (None, None) => None,
        }
    }

    /// Runs an entry that was made to be accepted.
    fn take(&mut self, record: &Record) {
        let taken = self.machine.entry(self.plan, Entry::of(record));
        assert!(taken.is_ok(), "an entry made to be accepted is refused");
    }

    /// So many entries, or fewer where none is accepted. In one schedule of three a refused entry stands at some place.
    fn schedule(&mut self, random: &mut Random, count: usize) -> Vec<Record> {
        let mut records = Vec::with_capacity(count);
        let mut refusal = if random.one_in(3) { Some(random.between(11, 14)) } else { None };
        let from = random.between(0, count);
        while records.len() < count {
            if records.len() >= from {
                if let Some(record) = refusal.and_then(|number| self.refused(random, number)) {
                    refusal = None;
                    records.push(record);
                    continue;
                }
            }
            let Some(record) = self.accepted(random) else { break };
            records.push(record);
            self.take(&record);
        }
        records
    }

    /// So many accepted entries, or fewer where there are no more. In rounds, all jobs are called whenever none is
    /// active, and then hardly another.
    fn accepted_schedule(&mut self, random: &mut Random, count: usize, in_rounds: bool) -> Vec<Record> {
        if in_rounds {
            self.calls = 1 << 20;
        }
        let mut to_call = 0;
        let mut records = Vec::with_capacity(count);
        while records.len() < count {
            if in_rounds && self.job(random, true).is_none() {
                to_call = self.sizes.jobs;
            }
            let idle = if to_call > 0 { self.job(random, false) } else { None };
            to_call = to_call.saturating_sub(1);
            let next = match idle {
                Some(job) => Some(call(job, random.below(self.sizes.updates))),
                None => self.accepted(random),
            };
            let Some(record) = next else { break };
            self.take(&record);
            records.push(record);
        }
        records
    }
}

/// How many entries a schedule has: mostly some hundreds, at times 4,000 exactly, or over.
fn entry_count(random: &mut Random) -> usize {
    match random.below(64) {
        0..=3 => random.below(4),
        4..=35 => random.below(200),
        36..=55 => random.between(200, 999),
        56..=59 => random.between(1_000, 3_999),
        60 | 61 => 4_000,
        62 => 4_001,
        _ => random.between(4_001, 4_300),
    }
}

/// Fields that are awkward as numbers.
const FIELDS: [&str; 31] = [
    "", "0", "1", "2", "7", "8", "9", "15", "16", "17", "32", "255", "256", "257", "3999", "4000", "4001", "4294967295",
    "4294967296", "42949672950", "18446744073709551616", "00", "01", "-1", "+1", " 1", "1 ", "1\r", "1\0", "x", "1x",
];

/// The kinds, and fields that are none.
const KINDS: [&str; 22] = [
    "plan", "job", "block", "update", "copy", "set", "add", "call", "step", "plan", "job", "block", "update", "", " ",
    "Plan", "plans", "ste", "call ", "update\r", "tidy", "group",
];

/// Puts a field at a place of a line, 0 being its kind.
fn put_field(line: &mut String, place: usize, field: &str) {
    let mut fields: Vec<&str> = line.split('\t').collect();
    if place < fields.len() {
        fields[place] = field;
        *line = fields.join("\t");
    }
}

/// Puts an awkward field in place of one of a line's numbers, or adds it.
fn spoil_field(random: &mut Random, line: &mut String) {
    let field = random.of(&FIELDS);
    match line.matches('\t').count() {
        0 => *line += &format!("\t{field}"),
        _ if random.one_in(3) => *line += &format!("\t{field}"),
        numbers => put_field(line, random.between(1, numbers), field),
    }
}

/// Does one damage to the lines. The first `plan` of them are, or were, the plan's.
fn damage_lines(random: &mut Random, sizes: &Sizes, lines: &mut Vec<String>, plan: usize) {
    if lines.is_empty() {
        return;
    }
    let plan = plan.min(lines.len());
    // The line of the 4,001st entry or the last line, any line, or one of the plan's.
    let at = match random.below(8) {
        0 => {
            let mut entries = 0usize;
            let passes = |line: &String| { entries = entries.saturating_add(entries_in(line)); entries > 4_000 };
            lines.iter().position(passes).unwrap_or(lines.len() - 1)
        }
        1..=3 => random.below(lines.len()),
        _ => random.below(plan.max(1)),
    };
    let job = random.between(1, sizes.jobs).min(lines.len() - 1);
    let memory = sizes.blocks * sizes.words;
    match random.below(18) {
        0 => drop(lines.remove(at)),
        1 => lines.insert(at, lines[at].clone()),
        2 => {
            let other = random.below(lines.len());
            lines.swap(at, other);
        }
        3..=5 => spoil_field(random, &mut lines[at]),
        6 => {
            let end = lines[at].rfind('\t').unwrap_or(0);
            lines[at].truncate(end);
        }
        7 => put_field(&mut lines[at], 0, random.of(&KINDS)),
        8 => {
            let mut inserted = random.of(&KINDS).to_string();
            for _ in 0..random.below(5) {
                inserted += &format!("\t{}", random.of(&FIELDS));
            }
            lines.insert(at, inserted);
        }
        // A size out of its range.
        9 => put_field(&mut lines[0], random.between(1, 5), random.of(&["0", "9", "17", "4294967295"])),
        // A job's card or priority out of its range, or a job like an earlier one.
        10 if random.one_in(2) => put_field(&mut lines[job], 1, &sizes.cards.to_string()),
        10 => put_field(&mut lines[job], 2, random.of(&["256", "65536", "4294967295"])),
        11 => lines[job] = lines[random.between(1, sizes.jobs).min(job)].clone(),
        // A move's word out of its range.
        12 | 13 => {
            let word = beyond(random, memory);
            let moves: Vec<usize> = (0..plan).filter(|&place| is_move(&lines[place])).collect();
            if !moves.is_empty() {
                put_field(&mut lines[random.of(&moves)], random.between(1, 2), &word.to_string());
            }
        }
        // More moves, of one word or of any, the last one of them with a fault of its own at times.
        14 | 15 => {
            let one_word = if random.one_in(2) { Some(random.below(memory)) } else { None };
            let mut added: Vec<String> = Vec::new();
            for _ in 0..random.of(&[1, 4, 16, 17]) {
                let word = one_word.unwrap_or_else(|| random.below(memory));
                added.push(move_line(random, sizes, word));
            }
            insert_all(random, lines, plan, added);
        }
        // Updates up to 32, or over, likewise.
        16 => {
            let end = random.between(32, 34);
            insert_all(random, lines, plan, update_lines(sizes.updates, end));
        }
        _ => lines.truncate(at),
    }
}

/// Inserts lines at a place; at times the last one is spoiled.
fn insert_all(random: &mut Random, lines: &mut Vec<String>, place: usize, mut added: Vec<String>) {
    if let Some(last) = added.last_mut().filter(|_| random.one_in(4)) {
        spoil_field(random, last);
    }
    lines.splice(place..place, added);
}

/// Whether a line is a move.
fn is_move(line: &str) -> bool {
    ["copy\t", "set\t", "add\t"].iter().any(|kind| line.starts_with(kind))
}

/// Puts in a run of steps, mostly among the entries or behind them. Its count is awkward by itself or for what is left
/// of 4,000 entries, or it is one that can well be, often more than the card's jobs need.
fn put_run(random: &mut Random, sizes: &Sizes, lines: &mut Vec<String>, plan: usize) {
    let left = 4_000usize.saturating_sub(lines.iter().map(|line| entries_in(line)).sum());
    let most = random.of(&[10, 100, 1_000]);
    let count = match random.below(8) {
        0..=2 => random.of(&["0", "1", "4000", "4001", "4294967295", "4294967296", "1\t1", "0\t"]).to_string(),
        3 => random.of(&FIELDS).to_string(),
        4 | 5 => random.of(&[left.saturating_sub(1), left, left + 1]).to_string(),
        _ => random.between(1, most).to_string(),
    };
    let card = if random.one_in(8) { beyond(random, sizes.cards) } else { random.below(sizes.cards) };
    let first = random.of(&[0, plan, plan, plan, plan, lines.len(), lines.len()]);
    let at = random.between(first, lines.len());
    lines.insert(at, format!("step\t{card}\t{count}"));
}

/// The lines of updates numbered from the first to before the end.
fn update_lines(first: usize, end: usize) -> Vec<String> {
    (first..end).map(|update| line("update", &[update as u32])).collect()
}

/// The line of an update whose right number is the given one. Its number is that, another one, often near it or like it
/// in its last bits, or no good one; or it has none, or a field more.
fn update_line(random: &mut Random, right: usize) -> String {
    let (below, any) = (right.saturating_sub(1), random.below(34));
    let field = match random.below(8) {
        0 => right.to_string(),
        1..=3 => random.of(&[below, right + 1, right + 1, right + 2, any]).to_string(),
        4 => random.of(&[right + 32, right + 256, right + 65_536, (1 << 31) + right, u32::MAX as usize]).to_string(),
        5 => random.of(&[u32::MAX as usize + 1, u32::MAX as usize + 1 + right]).to_string(),
        6 => random.of(&FIELDS).to_string(),
        _ => match random.below(4) {
            0 => return "update".to_string(),
            1 => format!("0{right}"),
            2 => format!("{right}\t"),
            _ => format!("{}\t{right}", random.of(&[right, below])),
        },
    };
    format!("update\t{field}")
}

/// Numbers updates wrongly or awkwardly: one of them, all from one of them on, or two exchanged; or puts in one more,
/// after the plan's last or among the entries, or as many as make it a 33rd.
fn misnumber(random: &mut Random, lines: &mut Vec<String>, plan: usize) {
    let places: Vec<usize> = (0..plan).filter(|&place| lines[place].starts_with("update")).collect();
    let (count, entries) = (places.len(), lines.len() - plan);
    match random.below(8) {
        0 | 1 if count > 0 => {
            let which = random.below(count);
            lines[places[which]] = update_line(random, which);
        }
        // Too high or too low by one: a number is skipped or repeated, or they count from 1.
        2 | 3 if count > 0 => {
            let first = if random.one_in(2) { 0 } else { random.below(count) };
            let low = first > 0 && random.one_in(2);
            for (which, &place) in places.iter().enumerate().skip(first) {
                lines[place] = line("update", &[if low { which - 1 } else { which + 1 } as u32]);
            }
        }
        4 if count > 1 => {
            let first = random.below(count - 1);
            let second = if random.one_in(2) { first + 1 } else { random.between(first + 1, count - 1) };
            lines.swap(places[first], places[second]);
        }
        5 if entries > 0 => {
            let at = plan + random.between(1, entries);
            lines.insert(at, update_line(random, count));
        }
        6 => {
            let mut added = update_lines(count, 32);
            added.push(update_line(random, 32));
            lines.splice(plan..plan, added);
        }
        _ => lines.insert(plan, update_line(random, count)),
    }
}

/// Does one damage to the bytes of a text.
fn damage_bytes(random: &mut Random, text: &mut Vec<u8>) {
    if text.is_empty() {
        return;
    }
    let part = if random.one_in(2) { text.len() } else { text.len().min(400) };
    let at = random.below(part);
    let any = random.next() as u8;
    let byte = random.of(&[b'\t', b'\n', b'0', b'1', b'9', b' ', b'\r', b'-', 0, 255, any]);
    match random.below(6) {
        0 | 1 => text[at] = byte,
        2 => drop(text.remove(at)),
        3 => text.insert(at, byte),
        4 => text.truncate(at),
        _ => drop(text.pop()),
    }
}

/// Adds entry lines until the text has about 65,536 bytes, mostly exactly as many or one more or less.
fn lengthen(random: &mut Random, text: &mut Vec<u8>) {
    let any = random.between(60_000, 70_000);
    let length = random.of(&[65_535, 65_536, 65_536, 65_537, any]);
    while text.len() + 40 < length {
        text.extend_from_slice(b"call\t4294967295\t4294967295\n");
    }
    // A last step's line has 7 to 16 bytes.
    while text.len() + 7 <= length {
        let rest = length - text.len();
        let taken = if rest <= 16 { rest } else { (rest - 7).min(16) };
        text.extend_from_slice(format!("step\t{}\n", "1".repeat(taken - 6)).as_bytes());
    }
}

/// A case.
pub fn case(random: &mut Random) -> Case {
    let sizes = Sizes::new(random);
    let mut lines = plan_lines(random, &sizes);
    let Ok(plan) = plain::read(&text_of(&lines), false) else { panic!("a plan made to be sound is refused") };
    let count = entry_count(random);
    let mut records = Scheduler::new(random, &sizes, &plan).schedule(random, count);
    let as_records = random.one_in(2);
    let plan_length = lines.len();
    if !as_records || random.one_in(40) {
        lines.extend(entry_lines(random, &records));
    }
    if random.one_in(16) {
        misnumber(random, &mut lines, plan_length);
    }
    if random.one_in(if as_records { 40 } else { 6 }) {
        for _ in 0..random.of(&[1, 1, 2]) {
            put_run(random, &sizes, &mut lines, plan_length);
        }
    }
    let damages = if random.one_in(3) { random.of(&[1, 1, 1, 2, 3]) } else { 0 };
    for _ in 0..damages {
        if !random.one_in(4) {
            damage_lines(random, &sizes, &mut lines, plan_length);
        }
    }
    let mut text = text_of(&lines);
    if random.one_in(40) {
        lengthen(random, &mut text);
    }
    for _ in 0..damages {
        if random.one_in(4) {
            damage_bytes(random, &mut text);
        }
    }
    if as_records && random.one_in(12) && !records.is_empty() {
        for _ in 0..random.between(1, 2) {
            let at = random.below(records.len());
            records[at].kind = random.of(&[2, 3, 255, 256, 1 << 31, u32::MAX]);
        }
    }
    Case { text, records: if as_records { Some(records) } else { None } }
}

/// A case for the writer: one of those above, or a sound plan with entries that are all accepted, as lines or as
/// records, whose unused numbers could be taken for counts. In some there is one card, which takes long runs of steps.
pub fn case_to_write(random: &mut Random) -> Case {
    if random.one_in(2) {
        return case(random);
    }
    let one_card = random.one_in(6);
    let sizes = if one_card { Sizes::of_one_card(random) } else { Sizes::new(random) };
    let text = text_of(&plan_lines(random, &sizes));
    let Ok(plan) = plain::read(&text, false) else { panic!("a plan made to be sound is refused") };
    let long = one_card && random.one_in(3);
    let count = if long { random.between(1_000, 4_000) } else { entry_count(random).min(4_000) };
    let records = Scheduler::new(random, &sizes, &plan).accepted_schedule(random, count, one_card);
    let [as_text, as_records] = said_otherwise(random, &text, &records);
    if random.one_in(2) {
        as_text
    } else {
        as_records
    }
}

/// A plan's text and accepted entries as a text, their steps joined in some way, and as records, their unused numbers
/// any.
pub fn said_otherwise(random: &mut Random, plan: &[u8], entries: &[Record]) -> [Case; 2] {
    let text = [plan, &text_of(&entry_lines(random, entries))].concat();
    let mut records = entries.to_vec();
    for record in records.iter_mut().filter(|record| record.kind == 1) {
        let any = random.next() as u32;
        record.second = random.of(&[0, 1, 2, 3, 4_000, any]);
    }
    [Case { text, records: None }, Case { text: plan.to_vec(), records: Some(records) }]
}
