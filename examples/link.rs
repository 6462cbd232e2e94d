// Links the library from Rust: runs a text, then the same schedule as records beside the plan's text, and writes the
// one text for either. It prints the reports and the texts. The status is 0 only if they are what the documents say.
// From the project's root:
//
// sh tools/static_library.sh
// rustc -O examples/link.rs -L target/staticlib -l static=public_point_memory -o target/link_rs && target/link_rs

/// A plan of one card, job, block and word; its update adds 2 to the word.
const PLAN: &str = "plan\t1\t1\t1\t1\t1\njob\t0\t0\nblock\t5\nupdate\t0\nadd\t0\t0\t2\n";

/// The steps in which the call is carried out and returns.
const STEPS: usize = 33;

/// How a run or a writing ended: point_memory_ended of include/point_memory.h.
#[repr(C)]
struct Ended {
    number: usize,
    line: usize,
    length: usize,
}

/// An entry as a record: point_memory_entry of the header. Kind 0 is a call of a job with an update, 1 a card's step.
#[repr(C)]
#[derive(Clone, Copy)]
struct Entry {
    kind: u32,
    first: u32,
    second: u32,
}

extern "C" {
    fn point_memory_run(text: *const u8, text_length: usize, buffer: *mut u8, buffer_length: usize) -> Ended;
    fn point_memory_run_schedule(
        text: *const u8,
        text_length: usize,
        records: *const Entry,
        count: usize,
        buffer: *mut u8,
        buffer_length: usize,
    ) -> Ended;
    fn point_memory_write(text: *const u8, text_length: usize, buffer: *mut u8, buffer_length: usize) -> Ended;
    fn point_memory_write_schedule(
        text: *const u8,
        text_length: usize,
        records: *const Entry,
        count: usize,
        buffer: *mut u8,
        buffer_length: usize,
    ) -> Ended;
}

/// Runs a text. The pointers and lengths are those of slices that live through the call.
fn run(text: &[u8], buffer: &mut [u8]) -> Ended {
    unsafe { point_memory_run(text.as_ptr(), text.len(), buffer.as_mut_ptr(), buffer.len()) }
}

/// Runs records beside a plan's text, with slices likewise.
fn run_schedule(text: &[u8], records: &[Entry], buffer: &mut [u8]) -> Ended {
    let (plan, entries, room) = (text.as_ptr(), records.as_ptr(), buffer.len());
    unsafe { point_memory_run_schedule(plan, text.len(), entries, records.len(), buffer.as_mut_ptr(), room) }
}

/// Writes the one text for a text, with slices likewise.
fn write(text: &[u8], buffer: &mut [u8]) -> Ended {
    unsafe { point_memory_write(text.as_ptr(), text.len(), buffer.as_mut_ptr(), buffer.len()) }
}

/// Writes the one text for records beside a plan's text, with slices likewise.
fn write_schedule(text: &[u8], records: &[Entry], buffer: &mut [u8]) -> Ended {
    let (plan, entries, room) = (text.as_ptr(), records.as_ptr(), buffer.len());
    unsafe { point_memory_write_schedule(plan, text.len(), entries, records.len(), buffer.as_mut_ptr(), room) }
}

/// Prints how a run or a writing ended, and its report or text; answers whether they are the expected ones.
fn shown(way: &str, ended: Ended, buffer: &[u8], line: usize, expected: &str) -> bool {
    let written = &buffer[..ended.length];
    println!("{way}: number {}, line {}, {} bytes", ended.number, ended.line, ended.length);
    print!("{}", String::from_utf8_lossy(written));
    ended.number == 0 && ended.line == line && written == expected.as_bytes()
}

fn main() {
    let mut buffer = vec![0; 80_000];

    let text = format!("{PLAN}call\t0\t0\n{}", "step\t0\n".repeat(STEPS));
    let ended = run(text.as_bytes(), &mut buffer);
    let as_text = shown("text", ended, &buffer, 39, "commit\t29\t0\t0\nblock\t7\nend\t0\t39\n");

    let mut records = vec![Entry { kind: 1, first: 0, second: 0 }; 1 + STEPS];
    records[0].kind = 0;
    let ended = run_schedule(PLAN.as_bytes(), &records, &mut buffer);
    let as_records = shown("records", ended, &buffer, 34, "commit\t29\t0\t0\nblock\t7\nend\t0\t34\n");

    // Both are written alike, with the steps joined. The line that is answered is the run's.
    let one_text = format!("{PLAN}call\t0\t0\nstep\t0\t{STEPS}\n");
    let ended = write(text.as_bytes(), &mut buffer);
    let text_written = shown("text written", ended, &buffer, 39, &one_text);
    let ended = write_schedule(PLAN.as_bytes(), &records, &mut buffer);
    let records_written = shown("records written", ended, &buffer, 34, &one_text);

    std::process::exit(if as_text && as_records && text_written && records_written { 0 } else { 1 });
}
