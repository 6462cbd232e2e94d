//! Document 01 with document 02's runs of steps, update numbers, plan writer and counters that stop in plain Rust: the
//! text's check (numbers 1 to 10, 16 and 17), the machine (the step list A1 to H42, refusals 11 to 14), the report
//! (refusal 15), the run of a schedule of records beside a plan's text, and the writer of the one text for either. It
//! is an independent implementation, written from the documents alone; the proved one is compared with it, in its
//! answers and in its time. It also counts a run's late stores and stopped sums. Nothing here is proved.

/// The most cards, jobs, blocks, words of a block, and blocks that one update may write.
const CARDS: usize = 8;
const JOBS: usize = 16;
const BLOCKS: usize = 16;
const WORDS: usize = 16;
const WRITES: usize = 8;

/// The most entries, in a text or as records, and the most steps of one line.
const ENTRIES: usize = 4_000;

/// What a check answers: a number of the table and its line. These three structs are laid out as the C header has them.
#[repr(C)]
#[derive(Clone, Copy, Debug, PartialEq, Eq)]
pub struct Answer {
    pub number: usize,
    pub line: usize,
}

/// What a run or the writer answers: a number of the table, its line, and the length of the report, or of the text, in
/// the lent buffer.
#[repr(C)]
#[derive(Clone, Copy, Debug, PartialEq, Eq)]
pub struct Ended {
    pub number: usize,
    pub line: usize,
    pub length: usize,
}

/// An entry record: kind 0 calls job `first` with update `second`; kind 1 steps card `first`, `second` unused.
#[repr(C)]
#[derive(Clone, Copy, Debug, PartialEq, Eq)]
pub struct Record {
    pub kind: u32,
    pub first: u32,
    pub second: u32,
}

/// The late stores of a run: conditional stores that were not done, by the condition that failed. Where both of an
/// item's conditions fail, V counts.
#[derive(Clone, Copy, Debug, Default, PartialEq, Eq)]
pub struct Late {
    pub a12: usize,        // V is not ver
    pub h25_moved: usize,  // V is not ver
    pub h25_status: usize, // Stat[hid] is not -1
    pub h41_moved: usize,  // V is not ver
    pub h41_bank: usize,   // the bank entry is not old
    pub h42_moved: usize,  // V is not ver
    pub h42_status: usize, // Stat[hid] is not wid
}

/// What is counted of a run: its late stores, and its sums that stopped at the largest word, those that never reached
/// the bank included.
#[derive(Clone, Copy, Debug, Default, PartialEq, Eq)]
pub struct Counts {
    pub late: Late,
    pub stopped_sums: usize,
}

/// Checks a text.
pub fn check(text: &[u8]) -> Answer {
    answer(read(text, true))
}

/// Checks a plan's text, in which no entry can stand.
pub fn check_plan(text: &[u8]) -> Answer {
    answer(read(text, false))
}

/// Checks a text, runs its entries, and writes the report into the leading part of the buffer.
pub fn run(text: &[u8], buffer: &mut [u8]) -> Ended {
    run_counting(text, buffer).0
}

/// Checks a plan's text and a schedule of records, runs the records, and writes the report as `run` does.
pub fn run_schedule(text: &[u8], records: &[Record], buffer: &mut [u8]) -> Ended {
    run_schedule_counting(text, records, buffer).0
}

/// As `run`, with what is counted.
pub fn run_counting(text: &[u8], buffer: &mut [u8]) -> (Ended, Counts) {
    run_read(read(text, true), buffer)
}

/// As `run_schedule`, with what is counted.
pub fn run_schedule_counting(text: &[u8], records: &[Record], buffer: &mut [u8]) -> (Ended, Counts) {
    run_read(read_schedule(text, records), buffer)
}

/// Checks a text, runs its entries, and writes the one text for its plan and entries into the leading part of the
/// buffer. A refused run leaves the buffer as it is.
pub fn write(text: &[u8], buffer: &mut [u8]) -> Ended {
    write_read(read(text, true), buffer)
}

/// Checks a plan's text and a schedule of records, runs the records, and writes the one text for them as `write` does.
pub fn write_schedule(text: &[u8], records: &[Record], buffer: &mut [u8]) -> Ended {
    write_read(read_schedule(text, records), buffer)
}

/// What a check answers by what was read.
fn answer(read: Result<Plan, (usize, usize)>) -> Answer {
    match read {
        Ok(plan) => Answer { number: 0, line: plan.lines },
        Err((number, line)) => Answer { number, line },
    }
}

/// Runs what was read and writes the report. Refused before any entry runs, it has no report and nothing to count.
fn run_read(read: Result<Plan, (usize, usize)>, buffer: &mut [u8]) -> (Ended, Counts) {
    match read {
        Ok(plan) => {
            let mut machine = Machine::new(&plan);
            let (number, line) = machine.run(&plan);
            (fill(buffer, &machine.report(&plan, number, line), number, line), machine.counts)
        }
        Err((number, line)) => (Ended { number, line, length: 0 }, Counts::default()),
    }
}

/// Runs what was read and writes the one text for it, unless something is refused.
fn write_read(read: Result<Plan, (usize, usize)>, buffer: &mut [u8]) -> Ended {
    match read {
        Ok(plan) => match Machine::new(&plan).run(&plan) {
            (0, line) => fill(buffer, &plan.text(), 0, line),
            (number, line) => Ended { number, line, length: 0 },
        },
        Err((number, line)) => Ended { number, line, length: 0 },
    }
}

/// Puts a report or a text into the leading part of the buffer, and answers with its length; 15 where it does not fit.
fn fill(buffer: &mut [u8], written: &[u8], number: usize, line: usize) -> Ended {
    match buffer.get_mut(..written.len()) {
        Some(part) => { part.copy_from_slice(written); Ended { number, line, length: written.len() } }
        None => Ended { number: 15, line: 0, length: 0 },
    }
}

/// A word of the memory: its block, and its place in the block.
#[derive(Clone, Copy)]
struct Word { block: usize, offset: usize }

/// The kinds of a move.
#[derive(Clone, Copy, PartialEq)]
enum MoveKind { Copy, Set, Add }

/// A move: `to` becomes `plus`, added to the word `from` where the move reads; a sum stops at the largest word. A copy
/// adds 0; a set does not read.
#[derive(Clone, Copy)]
struct Move { kind: MoveKind, from: Word, to: Word, plus: u32 }

/// A line of the schedule, or a record: a call, or so many single steps of a card.
#[derive(Clone, Copy)]
pub enum Entry { Call { job: usize, update: usize }, Steps { card: usize, count: usize } }

impl Entry {
    /// The entry of a record of kind 0 or 1.
    pub fn of(record: &Record) -> Entry {
        let (first, second) = (record.first as usize, record.second as usize);
        match record.kind {
            0 => Entry::Call { job: first, update: second },
            _ => Entry::Steps { card: first, count: 1 },
        }
    }
}

/// A text as read: P, N, B, S and C, the lists that follow, and the count of all lines. With records their entries are
/// in the list, and their count is that of the lines.
#[derive(Default)]
pub struct Plan {
    cards: usize, job_count: usize, blocks: usize, words: usize, writes: usize,
    jobs: Vec<(usize, usize)>, // cards and priorities
    memory: Vec<u32>,
    updates: Vec<Vec<Move>>,
    entries: Vec<Entry>,
    lines: usize,
}

impl Plan {
    /// The one text for the plan and its entries. Steps of one card that follow each other are joined.
    fn text(&self) -> Vec<u8> {
        let mut text = Vec::with_capacity(65_536);
        let sizes = [self.cards, self.job_count, self.blocks, self.words, self.writes];
        put_line(&mut text, b"plan", sizes.map(|size| size as i64));
        for &(card, priority) in &self.jobs { put_line(&mut text, b"job", [card as i64, priority as i64]); }
        for words in self.memory.chunks_exact(self.words) {
            put_line(&mut text, b"block", words.iter().map(|&word| i64::from(word)));
        }
        for (n, moves) in self.updates.iter().enumerate() {
            put_line(&mut text, b"update", [n as i64]);
            for &Move { kind, from, to, plus } in moves {
                let [d, a] = [to, from].map(|word| (word.block * self.words + word.offset) as i64);
                let k = i64::from(plus);
                match kind {
                    MoveKind::Copy => put_line(&mut text, b"copy", [d, a]),
                    MoveKind::Set => put_line(&mut text, b"set", [d, k]),
                    MoveKind::Add => put_line(&mut text, b"add", [d, a, k]),
                }
            }
        }
        let mut rest = &self.entries[..];
        while let [entry, behind @ ..] = rest {
            rest = behind;
            match *entry {
                Entry::Call { job, update } => put_line(&mut text, b"call", [job as i64, update as i64]),
                Entry::Steps { card, mut count } => {
                    while let [Entry::Steps { card: next, count: more }, behind @ ..] = rest {
                        if *next != card { break; }
                        count += more;
                        rest = behind;
                    }
                    match count {
                        1 => put_line(&mut text, b"step", [card as i64]),
                        _ => put_line(&mut text, b"step", [card as i64, count as i64]),
                    }
                }
            }
        }
        text
    }
}

/// How far a text is read: which line comes next, with Moves for after the first update and before any entry.
#[derive(Clone, Copy, PartialEq, PartialOrd)]
enum Stage { Plan, Jobs, Blocks, Updates, Moves, Entries }

/// The plan so far, how far the text is read, a bit for each block that the latest update writes, whether entries can
/// stand in this text, and how many more of them, a run counted by its steps.
struct Reader { plan: Plan, stage: Stage, written: u32, with_entries: bool, left: usize }

/// Refuses with the given number where the condition does not hold.
fn demand(condition: bool, number: usize) -> Result<(), usize> {
    if condition { Ok(()) } else { Err(number) }
}

/// The number that a field holds, if it is a good one.
fn number(field: &[u8]) -> Option<u32> {
    if let [] | [b'0', _, ..] = field { return None; }
    field.iter().try_fold(0u32, |value, byte| {
        let digit = byte.wrapping_sub(b'0');
        if digit < 10 { value.checked_mul(10)?.checked_add(u32::from(digit)) } else { None }
    })
}

/// The numbers of a line whose kind has K of them.
fn numbers<'a, const K: usize>(mut fields: impl Iterator<Item = &'a [u8]>) -> Result<[usize; K], usize> {
    let mut found = [0; K];
    for place in &mut found { *place = fields.next().and_then(number).ok_or(4usize)? as usize; }
    demand(fields.next().is_none(), 4)?;
    Ok(found)
}

/// Reads a whole text, with or without entries: the plan, or the number of its first fault and the line.
pub fn read(text: &[u8], with_entries: bool) -> Result<Plan, (usize, usize)> {
    if text.len() > 65_536 { return Err((1, 0)); }
    let mut reader = Reader { plan: Plan::default(), stage: Stage::Plan, written: 0, with_entries, left: ENTRIES };
    for line in text.split_inclusive(|&byte| byte == b'\n') {
        reader.plan.lines += 1;
        reader.line(line).map_err(|number| (number, reader.plan.lines))?;
    }
    if reader.stage < Stage::Updates { Err((3, reader.plan.lines + 1)) } else { Ok(reader.plan) }
}

/// Reads a plan's text, and records as its entries; a refused record has its place for a line.
fn read_schedule(text: &[u8], records: &[Record]) -> Result<Plan, (usize, usize)> {
    let plan = read(text, false)?;
    if records.len() > ENTRIES { return Err((5, ENTRIES + 1)); }
    if let Some(index) = records.iter().position(|record| record.kind > 1) { return Err((3, index + 1)); }
    Ok(Plan { entries: records.iter().map(Entry::of).collect(), lines: records.len(), ..plan })
}

impl Reader {
    /// Reads one line, by its kind and where it stands.
    fn line(&mut self, line: &[u8]) -> Result<(), usize> {
        let line = line.strip_suffix(b"\n").ok_or(2usize)?;
        let mut fields = line.split(|&byte| byte == b'\t');
        match (fields.next().unwrap_or_default(), self.stage) {
            (b"plan", Stage::Plan) => self.plan_line(numbers(fields)?),
            (b"job", Stage::Jobs) => self.job_line(numbers(fields)?),
            (b"block", Stage::Blocks) => self.block_line(fields),
            (b"update", Stage::Updates | Stage::Moves) => self.update_line(numbers(fields)?),
            (b"copy", Stage::Moves) => numbers(fields).and_then(|[d, a]| self.move_line(MoveKind::Copy, d, a, 0)),
            (b"set", Stage::Moves) => numbers(fields).and_then(|[d, k]| self.move_line(MoveKind::Set, d, d, k)),
            (b"add", Stage::Moves) => numbers(fields).and_then(|[d, a, k]| self.move_line(MoveKind::Add, d, a, k)),
            (b"call", Stage::Updates | Stage::Moves | Stage::Entries) if self.with_entries =>
                numbers(fields).and_then(|[job, update]| self.entry_line(Entry::Call { job, update }, 1)),
            (b"step", Stage::Updates | Stage::Moves | Stage::Entries) if self.with_entries =>
                self.step_line(fields),
            (b"plan" | b"job" | b"block" | b"update" | b"copy" | b"set" | b"add" | b"call" | b"step", _) => Err(3),
            _ => Err(2),
        }
    }

    /// The line `plan P N B S C`.
    fn plan_line(&mut self, sizes: [usize; 5]) -> Result<(), usize> {
        let most = [CARDS, JOBS, BLOCKS, WORDS, WRITES];
        demand(sizes.iter().zip(most).all(|(&size, most)| 1 <= size && size <= most), 6)?;
        let [cards, job_count, blocks, words, writes] = sizes;
        self.plan = Plan { cards, job_count, blocks, words, writes, lines: 1, ..Plan::default() };
        self.stage = Stage::Jobs;
        Ok(())
    }

    /// A line `job card priority`.
    fn job_line(&mut self, [card, priority]: [usize; 2]) -> Result<(), usize> {
        demand(card < self.plan.cards && priority <= 255, 7)?;
        demand(!self.plan.jobs.contains(&(card, priority)), 8)?;
        self.plan.jobs.push((card, priority));
        if self.plan.jobs.len() == self.plan.job_count { self.stage = Stage::Blocks; }
        Ok(())
    }

    /// A line `block` with S words.
    fn block_line<'a>(&mut self, fields: impl Iterator<Item = &'a [u8]>) -> Result<(), usize> {
        let plan = &mut self.plan;
        let length = plan.memory.len() + plan.words;
        for field in fields { plan.memory.push(number(field).ok_or(4usize)?); }
        demand(plan.memory.len() == length, 4)?;
        if length == plan.blocks * plan.words { self.stage = Stage::Updates; }
        Ok(())
    }

    /// A line `update n`, n being how many updates come before it.
    fn update_line(&mut self, [n]: [usize; 1]) -> Result<(), usize> {
        let updates = &mut self.plan.updates;
        demand(updates.len() < 32, 5)?;
        demand(n == updates.len(), 17)?;
        updates.push(Vec::with_capacity(16));
        (self.stage, self.written) = (Stage::Moves, 0);
        Ok(())
    }

    /// A move of the latest update: word d becomes k, added to word a where the move reads; a set has d for a.
    fn move_line(&mut self, kind: MoveKind, d: usize, a: usize, k: usize) -> Result<(), usize> {
        let (blocks, words) = (self.plan.blocks, self.plan.words);
        let word = |w: usize| Word { block: w / words, offset: w % words };
        let (to, from) = (word(d), word(a));
        let update = self.plan.updates.last_mut().ok_or(3usize)?;
        demand(update.len() < 16, 5)?;
        demand(to.block < blocks && from.block < blocks, 9)?;
        self.written |= 1 << to.block;
        demand(self.written.count_ones() as usize <= self.plan.writes, 10)?;
        update.push(Move { kind, from, to, plus: k as u32 });
        Ok(())
    }

    /// A line `step card` or `step card n`.
    fn step_line<'a>(&mut self, mut fields: impl Iterator<Item = &'a [u8]>) -> Result<(), usize> {
        let card = fields.next().and_then(number).ok_or(4usize)? as usize;
        let count = fields.next().map_or(Some(1), number).ok_or(4usize)? as usize;
        demand(fields.next().is_none(), 4)?;
        demand(1 <= count && count <= ENTRIES, 16)?;
        self.entry_line(Entry::Steps { card, count }, count)
    }

    /// A line that counts as so many entries; who is called or stepped is judged when it runs.
    fn entry_line(&mut self, entry: Entry, count: usize) -> Result<(), usize> {
        self.left = self.left.checked_sub(count).ok_or(5usize)?;
        self.plan.entries.push(entry);
        self.stage = Stage::Entries;
        Ok(())
    }
}

/// The version V: a count and a flag. The counter points at card count mod P.
#[derive(Clone, Copy, Default, PartialEq)]
struct Version { count: usize, flag: bool }

/// A job's status: -1, the number of the job whose run decided its update, or N.
#[derive(Clone, Copy, Default, PartialEq)]
enum Status { Pending, Decided(usize), #[default] Nothing }

/// The item that a job does next; a move's read and write have a place for each of their steps.
#[derive(Clone, Copy, Default, PartialEq)]
enum Place {
    #[default]
    A1, A2, A4, A7, A10, A12, A14, A15, H16, H17, H21, H22, H25, H32, H34, H36, H37, H38, H41, H42,
    ReadCheck, ReadList, ReadTake, WriteCheck, WriteList, WriteCopy, WriteWord,
}

/// A listed block: its address, and its old and new block numbers.
#[derive(Clone, Copy, Default)]
struct Listed { address: usize, old: usize, new: usize }

/// A job's row: the listed blocks, and their count as published.
#[derive(Clone, Copy, Default)]
struct Row { count: usize, listed: [Listed; BLOCKS] }

/// What a run of an update knows of a block: whether it is listed and copied, and the block number it now reads.
#[derive(Clone, Copy, Default)]
struct Mark { listed: bool, copied: bool, number: usize }

/// A job's working record.
#[derive(Default)]
struct Job {
    card: usize, priority: usize, active: bool,
    called: usize, // the update of the latest call
    place: Place,
    round: usize,
    lid: usize, hid: usize, wid: usize,
    ver: Version,
    new_flag: bool,
    update: usize, at: usize, word: u32, // the update run for hid, the move reached, the word last taken
    marks: [Mark; BLOCKS],
    listed: usize, used: usize, // how many blocks are listed, and how many copy blocks used
    count: usize, index: usize, block: Listed, // the count of wid's row, the index reached, what was read there
}

impl Job {
    /// The place where the move reached begins, or H22 after the last.
    fn begin_move(&self, moves: &[Move]) -> Place {
        match moves.get(self.at) {
            Some(next) => if next.kind == MoveKind::Set { Place::WriteCheck } else { Place::ReadCheck },
            None => Place::H22,
        }
    }

    /// Lists a word's block with its bank number in the job's row, if it is not yet listed.
    fn list(&mut self, word: Word, bank: &[usize; BLOCKS], row: &mut Row) {
        let (mark, number) = (&mut self.marks[word.block], bank[word.block]);
        if !mark.listed {
            *mark = Mark { listed: true, copied: false, number };
            let listed = &mut row.listed[self.listed];
            (listed.address, listed.old) = (word.block, number);
            self.listed += 1;
        }
    }
}

/// The machine's state, with what the report needs of the run so far.
#[derive(Default)]
pub struct Machine {
    version: Version,
    ann: [usize; CARDS],
    stat: [Status; JOBS + 1], // that of N is always N
    trans: [usize; JOBS],
    bank: [usize; BLOCKS],
    copies: [[usize; WRITES]; JOBS],
    rows: [Row; JOBS],
    store: Vec<u32>,
    jobs: Vec<Job>,
    running: [usize; CARDS], // the active job of highest priority on each card, or N
    entries: usize, // how many were accepted, each step counted
    commits: Vec<[usize; 3]>, // the entry, the job, and the update of the job's call
    counts: Counts,
}

impl Machine {
    /// The opening state.
    pub fn new(plan: &Plan) -> Machine {
        let none = plan.jobs.len();
        let first = none * plan.writes;
        let mut store = vec![0; first * plan.words];
        store.extend(&plan.memory);
        Machine {
            ann: [none; CARDS],
            bank: std::array::from_fn(|k| first + k),
            copies: std::array::from_fn(|p| std::array::from_fn(|place| p * plan.writes + place)),
            store,
            jobs: plan.jobs.iter().map(|&(card, priority)| Job { card, priority, ..Job::default() }).collect(),
            running: [none; CARDS],
            ..Machine::default()
        }
    }

    /// Runs all entries, each with a line of its own, up to the first refused one: the number and the line that the run
    /// ends with.
    fn run(&mut self, plan: &Plan) -> (usize, usize) {
        let before = plan.lines - plan.entries.len();
        for (index, &entry) in plan.entries.iter().enumerate() {
            if let Err(number) = self.entry(plan, entry) { return (number, before + index + 1); }
        }
        (0, plan.lines)
    }

    /// Whether a job is active.
    pub fn is_active(&self, job: usize) -> bool {
        self.jobs[job].active
    }

    /// Whether a step of the card finds an active job.
    pub fn has_active(&self, card: usize) -> bool {
        self.running[card] < self.jobs.len()
    }

    /// Runs a call or the steps of a card; the first that is refused leaves the state as those before it left it.
    pub fn entry(&mut self, plan: &Plan, entry: Entry) -> Result<(), usize> {
        match entry {
            Entry::Call { job: p, update } => {
                demand(p < self.jobs.len() && update < plan.updates.len(), 11)?;
                let job = &mut self.jobs[p];
                demand(!job.active, 12)?;
                (job.active, job.called, job.place) = (true, update, Place::A1);
                let card = job.card;
                self.running[card] = self.first_on(card);
                self.entries += 1;
            }
            Entry::Steps { card, count } => {
                demand(card < plan.cards, 13)?;
                let last = self.entries + count;
                while self.entries < last {
                    demand(self.has_active(card), 14)?;
                    self.entries += 1;
                    self.step(plan, card);
                }
            }
        }
        Ok(())
    }

    /// The active job of highest priority on a card, or N.
    fn first_on(&self, card: usize) -> usize {
        let active = (0..self.jobs.len()).filter(|&p| self.jobs[p].active && self.jobs[p].card == card);
        active.max_by_key(|&p| self.jobs[p].priority).unwrap_or(self.jobs.len())
    }

    /// One item of the step list, for the running job p of the card.
    fn step(&mut self, plan: &Plan, card: usize) {
        use self::{Place::*, Status::*};
        let none = plan.jobs.len();
        let p = self.running[card];
        let job = &mut self.jobs[p];
        let next = match job.place {
            A1 => { self.trans[p] = job.called; A2 }
            A2 => { self.stat[p] = Pending; job.round = 0; A4 }
            A4 => { job.lid = self.ann[card]; if job.lid == none { A14 } else { A7 } }
            A7 => {
                job.ver = self.version;
                let elsewhere = job.ver.count % plan.cards != card;
                let helped = self.stat[job.lid] == Nothing && (elsewhere || !job.ver.flag);
                if helped { A14 } else if job.ver.flag { H16 } else { A10 }
            }
            A10 => {
                job.hid = self.ann[(job.ver.count + 1) % plan.cards];
                job.new_flag = self.stat[job.hid] != Nothing;
                A12
            }
            A12 => {
                let moved = Version { count: job.ver.count + 1, flag: job.new_flag };
                if self.version == job.ver { self.version = moved; } else { self.counts.late.a12 += 1; }
                A7
            }
            A14 => { self.ann[card] = p; if job.round == 0 { job.round = 1; A4 } else { A15 } }
            A15 => {
                (self.ann[card], job.active) = (none, false);
                self.running[card] = self.first_on(card);
                A1
            }
            H16 => { job.hid = self.ann[job.ver.count % plan.cards]; H17 }
            H17 => match self.stat[job.hid] { Nothing => A10, Pending => H21, Decided(_) => H32 },
            H21 => {
                (job.update, job.at, job.listed, job.used) = (self.trans[job.hid], 0, 0, 0);
                job.begin_move(&plan.updates[job.update])
            }
            ReadCheck | WriteCheck => {
                if self.version != job.ver || self.stat[job.hid] != Pending {
                    job.marks = Default::default();
                    H32
                } else if job.place == ReadCheck { ReadList } else { WriteList }
            }
            ReadList => { job.list(plan.updates[job.update][job.at].from, &self.bank, &mut self.rows[p]); ReadTake }
            ReadTake => {
                let from = plan.updates[job.update][job.at].from;
                job.word = self.store[job.marks[from.block].number * plan.words + from.offset];
                WriteCheck
            }
            WriteList => { job.list(plan.updates[job.update][job.at].to, &self.bank, &mut self.rows[p]); WriteCopy }
            WriteCopy => {
                let mark = &mut job.marks[plan.updates[job.update][job.at].to.block];
                if !mark.copied {
                    let (from, copy) = (mark.number * plan.words, self.copies[p][job.used]);
                    self.store.copy_within(from..from + plan.words, copy * plan.words);
                    (mark.copied, mark.number) = (true, copy);
                    job.used += 1;
                }
                WriteWord
            }
            WriteWord => {
                let moves = &plan.updates[job.update];
                let Move { kind, to, plus, .. } = moves[job.at];
                let word = match (kind, job.word.checked_add(plus)) {
                    (MoveKind::Set, _) => plus,
                    (_, Some(sum)) => sum,
                    (_, None) => { self.counts.stopped_sums += 1; u32::MAX }
                };
                self.store[job.marks[to.block].number * plan.words + to.offset] = word;
                job.at += 1;
                job.begin_move(moves)
            }
            H22 => {
                self.rows[p].count = job.listed;
                for listed in &mut self.rows[p].listed[..job.listed] { listed.new = job.marks[listed.address].number; }
                H25
            }
            H25 => {
                if self.version != job.ver {
                    self.counts.late.h25_moved += 1;
                } else if self.stat[job.hid] != Pending {
                    self.counts.late.h25_status += 1;
                } else {
                    self.stat[job.hid] = Decided(p);
                    let listed = self.rows[p].listed[..job.listed].iter();
                    let replaced = listed.filter(|listed| job.marks[listed.address].copied);
                    for (place, listed) in self.copies[p].iter_mut().zip(replaced) { *place = listed.old; }
                }
                job.marks = Default::default();
                H32
            }
            H32 => if let Decided(wid) = self.stat[job.hid] { job.wid = wid; H34 } else { A10 },
            H34 => {
                (job.count, job.index) = (self.rows[job.wid].count, 0);
                if job.count == 0 { H42 } else { H36 }
            }
            H36 => if self.version != job.ver { A10 } else { H37 },
            H37 => if self.stat[job.hid] == Nothing { A10 } else { H38 },
            H38 => { job.block = self.rows[job.wid].listed[job.index]; H41 }
            H41 => {
                let Listed { address, old, new } = job.block;
                if self.version != job.ver {
                    self.counts.late.h41_moved += 1;
                } else if self.bank[address] != old {
                    self.counts.late.h41_bank += 1;
                } else {
                    self.bank[address] = new;
                }
                job.index += 1;
                if job.index < job.count { H36 } else { H42 }
            }
            H42 => {
                let hid = job.hid;
                if self.version != job.ver {
                    self.counts.late.h42_moved += 1;
                } else if self.stat[hid] != Decided(job.wid) {
                    self.counts.late.h42_status += 1;
                } else {
                    self.stat[hid] = Nothing;
                    self.commits.push([self.entries, hid, self.jobs[hid].called]);
                }
                A10
            }
        };
        self.jobs[p].place = next;
    }

    /// The report of the state, with the number and line that the run ends with.
    fn report(&self, plan: &Plan, number: usize, line: usize) -> Vec<u8> {
        let mut report = Vec::with_capacity(4_096);
        for commit in &self.commits { put_line(&mut report, b"commit", commit.map(|field| field as i64)); }
        for block in &self.bank[..plan.blocks] {
            let words = self.store[block * plan.words..][..plan.words].iter();
            put_line(&mut report, b"block", words.map(|&word| i64::from(word)));
        }
        for p in (0..self.jobs.len()).filter(|&p| self.jobs[p].active) {
            let status = match self.stat[p] {
                Status::Pending => -1,
                Status::Decided(by) => by as i64,
                Status::Nothing => self.jobs.len() as i64,
            };
            put_line(&mut report, b"open", [p as i64, status]);
        }
        put_line(&mut report, b"end", [number as i64, line as i64]);
        report
    }
}

/// Adds a line: its kind, then its numbers in base ten, each after a tab. Inlined it knows the length of the kind.
#[inline(always)]
fn put_line(lines: &mut Vec<u8>, kind: &[u8], numbers: impl IntoIterator<Item = i64>) {
    lines.extend_from_slice(kind);
    for number in numbers {
        lines.push(b'\t');
        if number < 0 { lines.push(b'-'); }
        put_digits(lines, number.unsigned_abs());
    }
    lines.push(b'\n');
}

/// Adds a number in base ten.
#[inline(always)]
fn put_digits(lines: &mut Vec<u8>, number: u64) {
    if number < 10 { return lines.push(b'0' + number as u8); }
    let mut digits = [0; 20];
    let (mut first, mut rest) = (digits.len(), number);
    while rest > 0 {
        first -= 1;
        digits[first] = b'0' + (rest % 10) as u8;
        rest /= 10;
    }
    lines.extend_from_slice(&digits[first..]);
}
