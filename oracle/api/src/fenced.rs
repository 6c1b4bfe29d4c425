//! The same calls, each made by `fenced/fenced.c`, a process of its own, with
//! every buffer beside memory that can't be touched.

use crate::STACK;
use crate::exports::{OldReply, Place, Reply, Scanned, Shown, Span, Told};
use crate::reads::{Read, Reading};
use crate::times::{Changes, KEY, Series, VALUE};
use crate::writes::Write;
use reference::buffers::{Buffers, Header};
use std::io::{self, Read as _, Result, Write as _};
use std::process::{Child, ChildStdin, ChildStdout, Command, Stdio};
use std::sync::Mutex;
use std::time::Duration;

/// As in `fenced.c`.
#[derive(Clone, Copy, Debug)]
enum Call {
    HoldsIndex,
    Create,
    Clear,
    Len,
    ContainsKey,
    Get,
    FirstInRange,
    GetGt,
    First,
    ScanPrefix,
    LeafAt,
    Insert,
    Remove,
    TimeInserts,
    TimeRemoves,
    #[cfg(test)]
    UseStack,
}

struct Request<'a> {
    call: Call,
    times: u32,
    header: Header,
    lent: &'a Buffers,
    /// The kinds of two bounds, a leaf's place, or the lengths of keys and of
    /// values.
    numbers: [usize; 2],
    /// A key, prefix or start, and an end or a value.
    keys: [&'a [u8]; 2],
}

struct Answer {
    words: [usize; 9],
    time: Duration,
}

struct Fenced {
    child: Child,
    requests: ChildStdin,
    answers: ChildStdout,
}

/// Those that no call uses. One is started where there is none.
static IDLE: Mutex<Vec<Fenced>> = Mutex::new(Vec::new());

pub fn holds_index(header: Header, lent: &Buffers) -> bool {
    let answer = Request::of(Call::HoldsIndex, header, lent).answer(&mut []);
    answer.words[0] == 1
}

pub fn create(fanout: usize, lent: &mut Buffers) -> Reply {
    reply(change_by(Call::Create, counts([fanout, 0, 0, 0]), lent))
}

pub fn clear(header: Header, lent: &mut Buffers) -> Reply {
    reply(change_by(Call::Clear, header, lent))
}

pub fn len(header: Header, lent: &Buffers) -> Told {
    told(Request::of(Call::Len, header, lent).answer(&mut []).words)
}

pub fn write(write: Write, header: Header, lent: &mut Buffers, out: &mut [u8]) -> OldReply {
    let (call, keys): (Call, [&[u8]; 2]) = match write {
        Write::Insert(key, value) => (Call::Insert, [key, value]),
        Write::Remove(key) => (Call::Remove, [key, &[]]),
    };
    old_reply(change(call, header, lent, [0; 2], keys, out))
}

pub fn time_changes(
    changes: Changes,
    header: Header,
    lent: &mut Buffers,
    out: &mut [u8],
) -> Series {
    let (call, keys): (Call, [&[u8]; 2]) = match changes {
        Changes::Inserts(keys, values) => (Call::TimeInserts, [keys, values]),
        Changes::Removes(keys) => (Call::TimeRemoves, [keys, &[]]),
    };
    let words = change(call, header, lent, [KEY, VALUE], keys, out);
    let [count, fanout, leaves, pairs, charge, calls, tests, ..] = words;
    Series {
        count,
        header: counts([fanout, leaves, pairs, charge]),
        calls: Duration::from_nanos(calls as u64),
        tests: Duration::from_nanos(tests as u64),
    }
}

pub fn read(read: Read, header: Header, lent: &Buffers, out: &mut [u8]) -> Reading {
    let words = Request::to_read(read, header, lent).answer(out).words;
    match read {
        Read::ContainsKey(_) => Reading::Told(told(words)),
        Read::Get(_) => Reading::Place(place(words)),
        Read::FirstInRange(..) | Read::GetGt(_) | Read::First => Reading::Scanned(scanned(words)),
        Read::ScanPrefix(_) => Reading::Span(span(words)),
        Read::LeafAt(_) => Reading::Shown(shown(words)),
    }
}

pub fn time_holds_index(header: Header, lent: &Buffers, times: u32) -> Duration {
    let request = Request::of(Call::HoldsIndex, header, lent);
    Request { times, ..request }.answer(&mut []).time
}

pub fn time_read(
    read: Read,
    header: Header,
    lent: &Buffers,
    out: &mut [u8],
    times: u32,
) -> Duration {
    let request = Request::to_read(read, header, lent);
    Request { times, ..request }.answer(out).time
}

fn change_by(call: Call, header: Header, lent: &mut Buffers) -> [usize; 9] {
    change(call, header, lent, [0; 2], [&[]; 2], &mut [])
}

/// What was lent to be changed comes back behind the answer.
fn change(
    call: Call,
    header: Header,
    lent: &mut Buffers,
    numbers: [usize; 2],
    keys: [&[u8]; 2],
    out: &mut [u8],
) -> [usize; 9] {
    let (mut dir, mut slots) = (vec![0; 4 * lent.dir.len()], vec![0; 8 * lent.slots.len()]);
    let mut arena = match call {
        Call::Create | Call::Clear => Vec::new(),
        _ => vec![0; lent.arena.len()],
    };
    let request = Request {
        numbers,
        keys,
        ..Request::of(call, header, lent)
    };
    let answer = with_fenced(call, |fenced| {
        let answer = fenced.answer(&request, out)?;
        fenced.answers.read_exact(&mut dir)?;
        fenced.answers.read_exact(&mut slots)?;
        fenced.answers.read_exact(&mut arena)?;
        Ok(answer)
    });
    for (word, bytes) in lent.dir.iter_mut().zip(dir.chunks_exact(4)) {
        *word = u32::from_le_bytes(bytes.try_into().expect("4 bytes"));
    }
    for (word, bytes) in lent.slots.iter_mut().zip(slots.chunks_exact(8)) {
        *word = u64::from_le_bytes(bytes.try_into().expect("8 bytes"));
    }
    lent.arena[..arena.len()].copy_from_slice(&arena);
    answer.words
}

/// Panics where the call crashes.
fn with_fenced<T>(call: Call, work: impl FnOnce(&mut Fenced) -> Result<T>) -> T {
    let idle = IDLE.lock().expect("no panic with the lock").pop();
    let mut running = idle.unwrap_or_else(Fenced::start);
    match work(&mut running) {
        Ok(answer) => {
            IDLE.lock().expect("no panic with the lock").push(running);
            answer
        }
        Err(_) => {
            drop(running.requests);
            let status = running.child.wait().expect("an end");
            panic!("{call:?} crashed: {status}");
        }
    }
}

impl<'a> Request<'a> {
    fn of(call: Call, header: Header, lent: &'a Buffers) -> Request<'a> {
        Request {
            call,
            times: 1,
            header,
            lent,
            numbers: [0; 2],
            keys: [&[]; 2],
        }
    }

    fn to_read(read: Read<'a>, header: Header, lent: &'a Buffers) -> Request<'a> {
        let (call, numbers, keys): (Call, [usize; 2], [&[u8]; 2]) = match read {
            Read::ContainsKey(key) => (Call::ContainsKey, [0; 2], [key, &[]]),
            Read::Get(key) => (Call::Get, [0; 2], [key, &[]]),
            Read::FirstInRange(kinds, start, end) => (Call::FirstInRange, kinds, [start, end]),
            Read::GetGt(key) => (Call::GetGt, [0; 2], [key, &[]]),
            Read::First => (Call::First, [0; 2], [&[]; 2]),
            Read::ScanPrefix(prefix) => (Call::ScanPrefix, [0; 2], [prefix, &[]]),
            Read::LeafAt(at) => (Call::LeafAt, [at, 0], [&[]; 2]),
        };
        Request {
            numbers,
            keys,
            ..Request::of(call, header, lent)
        }
    }

    fn answer(&self, out: &mut [u8]) -> Answer {
        with_fenced(self.call, |fenced| fenced.answer(self, out))
    }

    fn bytes(&self, out: &[u8]) -> Vec<u8> {
        let words = [
            self.call as usize,
            self.times as usize,
            self.header.fanout,
            self.header.leaves,
            self.header.pairs,
            self.header.charge,
            self.lent.dir.len(),
            self.lent.slots.len(),
            self.lent.arena.len(),
            self.numbers[0],
            self.numbers[1],
            self.keys[0].len(),
            self.keys[1].len(),
            out.len(),
        ];
        let mut bytes = words.map(usize::to_le_bytes).concat();
        for word in &self.lent.dir {
            bytes.extend_from_slice(&word.to_le_bytes());
        }
        for word in &self.lent.slots {
            bytes.extend_from_slice(&word.to_le_bytes());
        }
        bytes.extend_from_slice(&self.lent.arena);
        bytes.extend_from_slice(self.keys[0]);
        bytes.extend_from_slice(self.keys[1]);
        bytes.extend_from_slice(out);
        bytes
    }
}

impl Fenced {
    fn start() -> Fenced {
        // Its stack is as large as the limit that it is started with, in KiB.
        let limited = format!("ulimit -s {} && exec \"$0\"", STACK / 1_024);
        let mut child = Command::new("sh")
            .args(["-c", &limited, env!("FENCED_PROGRAM")])
            .stdin(Stdio::piped())
            .stdout(Stdio::piped())
            .spawn()
            .expect("the program starts");
        let requests = child.stdin.take().expect("a pipe");
        let answers = child.stdout.take().expect("a pipe");
        Fenced {
            child,
            requests,
            answers,
        }
    }

    fn answer(&mut self, request: &Request, out: &mut [u8]) -> io::Result<Answer> {
        self.requests.write_all(&request.bytes(out))?;
        let mut bytes = [0; 10 * 8];
        self.answers.read_exact(&mut bytes)?;
        self.answers.read_exact(out)?;
        let word = |at: usize| {
            let bytes = bytes[8 * at..][..8].try_into().expect("8 bytes");
            usize::from_le_bytes(bytes)
        };
        Ok(Answer {
            words: std::array::from_fn(word),
            time: Duration::from_nanos(word(9) as u64),
        })
    }
}

fn told([refusal, length, ..]: [usize; 9]) -> Told {
    Told { refusal, length }
}

fn counts([fanout, leaves, pairs, charge]: [usize; 4]) -> Header {
    Header {
        fanout,
        leaves,
        pairs,
        charge,
    }
}

fn reply([refusal, length, fanout, leaves, pairs, charge, ..]: [usize; 9]) -> Reply {
    Reply {
        refusal,
        length,
        header: counts([fanout, leaves, pairs, charge]),
    }
}

fn old_reply(words: [usize; 9]) -> OldReply {
    let [refusal, length, found, fanout, leaves, pairs, charge, ..] = words;
    OldReply {
        refusal,
        length,
        found,
        header: counts([fanout, leaves, pairs, charge]),
    }
}

fn place([refusal, found, offset, length, ..]: [usize; 9]) -> Place {
    Place {
        refusal,
        found,
        offset,
        length,
    }
}

fn scanned([refusal, length, found, key, offset, value, ..]: [usize; 9]) -> Scanned {
    Scanned {
        refusal,
        length,
        found,
        key,
        offset,
        value,
    }
}

fn span([refusal, length, start, end, end_length, ..]: [usize; 9]) -> Span {
    Span {
        refusal,
        length,
        start,
        end,
        end_length,
    }
}

fn shown(words: [usize; 9]) -> Shown {
    let [
        refusal,
        found,
        low_offset,
        low_length,
        has_upper,
        upper_offset,
        upper_length,
        prefix_length,
        pairs,
    ] = words;
    Shown {
        refusal,
        found,
        low_offset,
        low_length,
        has_upper,
        upper_offset,
        upper_length,
        prefix_length,
        pairs,
    }
}

/// The calls' stack is as small as is said, and what needs more ends the program.
#[test]
fn small_stack() {
    let touch = |bytes| {
        let (header, lent) = crate::reads::no_index();
        let request = Request {
            numbers: [bytes, 0],
            ..Request::of(Call::UseStack, header, &lent)
        };
        request.answer(&mut []).words[0]
    };
    assert_eq!(touch(STACK / 2), STACK / 2);
    assert!(std::panic::catch_unwind(|| touch(STACK)).is_err());
}
