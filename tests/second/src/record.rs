//! What `compare --record` writes of the archive's calls, so that they can be made elsewhere and compared byte by byte. A
//! call is its name (a length of one byte before it), the byte length of what was lent (four bytes), that as it was before
//! the call and as it was after it, and the answer. What is lent is a list of `b` bytes, `u` numbers of four bytes, each
//! with its length in eight bytes, and `s` single numbers; all numbers begin with their lowest byte.

use std::collections::HashMap;
use std::fs::File;
use std::io::{self, BufWriter, Write};
use std::sync::atomic::{AtomicBool, Ordering};
use std::sync::Mutex;

struct Record {
    out: BufWriter<File>,
    every: u64,
    calls: u64,
    /// How many bytes each call may still have, by its name.
    left: HashMap<String, usize>,
    most: usize,
}

static ON: AtomicBool = AtomicBool::new(false);
static RECORD: Mutex<Option<Record>> = Mutex::new(None);

/// What a call is lent, or given.
pub trait Given {
    fn put(&self, to: &mut Vec<u8>);
}

impl Given for [u8] {
    fn put(&self, to: &mut Vec<u8>) {
        to.push(b'b');
        to.extend((self.len() as u64).to_le_bytes());
        to.extend(self);
    }
}

impl Given for [u32] {
    fn put(&self, to: &mut Vec<u8>) {
        to.push(b'u');
        to.extend((self.len() as u64).to_le_bytes());
        to.extend(self.iter().flat_map(|number| number.to_le_bytes()));
    }
}

impl Given for u64 {
    fn put(&self, to: &mut Vec<u8>) {
        to.push(b's');
        to.extend(self.to_le_bytes());
    }
}

/// Begins a record: of every so-manieth call, as long as those of one name have no more than so many bytes together.
pub fn begin(path: &str, every: u64, most: usize) -> io::Result<()> {
    let out = BufWriter::new(File::create(path)?);
    *RECORD.lock().unwrap() = Some(Record {
        out,
        every: every.max(1),
        calls: 0,
        left: HashMap::new(),
        most,
    });
    ON.store(true, Ordering::Relaxed);
    Ok(())
}

/// Whether the call that comes now is recorded.
pub fn wanted() -> bool {
    if !ON.load(Ordering::Relaxed) {
        return false;
    }
    let mut record = RECORD.lock().unwrap();
    record.as_mut().is_some_and(|record| {
        record.calls += 1;
        record.calls % record.every == 0
    })
}

pub fn write(name: &str, before: &[u8], after: &[u8], answer: u64) {
    let mut record = RECORD.lock().unwrap();
    let Some(record) = record.as_mut() else {
        return;
    };
    let bytes = 2 * before.len() + name.len() + 13;
    let left = record.left.entry(name.to_string()).or_insert(record.most);
    if before.len() != after.len() || bytes > *left {
        return;
    }
    *left -= bytes;
    let mut all = vec![name.len() as u8];
    all.extend(name.as_bytes());
    all.extend((before.len() as u32).to_le_bytes());
    all.extend(before);
    all.extend(after);
    all.extend(answer.to_le_bytes());
    record.out.write_all(&all).expect("the record is written");
}

/// Ends the record.
pub fn end() {
    ON.store(false, Ordering::Relaxed);
    if let Some(mut record) = RECORD.lock().unwrap().take() {
        record.out.flush().expect("the record is written");
    }
}
