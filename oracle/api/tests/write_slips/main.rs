//! Writers with a slip, each of which the parts named beside it notice.

mod answers;
mod either;
mod merges;
mod removes;
mod rules;

use api::exports::OldReply;
use api::sides::Reference;
use api::tally::Tally;
use api::writes::{Write, Writer};
use api::writing;
use reference::buffers::{Buffers, Header};
use reference::layout;
use reference::leaves::Leaves;

/// A call as it comes to a writer.
struct Asked<'a> {
    write: Write<'a>,
    key: &'a [u8],
    /// Empty for a remove.
    value: &'a [u8],
    header: Header,
    lent: &'a mut Buffers,
    out: &'a mut [u8],
}

type Slip = fn(&mut Asked) -> OldReply;

/// What is wrong, the wrong answer, and the parts that notice.
type Row = (&'static str, Slip, &'static [&'static str]);

/// Inserts, removes.
struct Slipped([Slip; 2]);

const NO_SLIP: Slip = |asked| asked.right();

impl Writer for Slipped {
    fn write(&self, write: Write, header: Header, lent: &mut Buffers, out: &mut [u8]) -> OldReply {
        let [of_inserts, of_removes] = self.0;
        let (slip, key, value): (Slip, &[u8], &[u8]) = match write {
            Write::Insert(key, value) => (of_inserts, key, value),
            Write::Remove(key) => (of_removes, key, &[]),
        };
        slip(&mut Asked {
            write,
            key,
            value,
            header,
            lent,
            out,
        })
    }
}

impl Asked<'_> {
    /// The reference's answer.
    fn right(&mut self) -> OldReply {
        Reference.write(self.write, self.header, self.lent, self.out)
    }

    /// The reference's answer, with nothing written.
    fn unwritten(&self) -> OldReply {
        let (mut lent, mut out) = (self.lent.clone(), self.out.to_vec());
        Reference.write(self.write, self.header, &mut lent, &mut out)
    }

    /// The leaf list, where there is one.
    fn leaves(&self) -> Option<Leaves> {
        self.leaves_by(&self.header)
    }

    /// By another header, which the call has handed back.
    fn leaves_by(&self, header: &Header) -> Option<Leaves> {
        let Buffers { dir, slots, arena } = &*self.lent;
        layout::read(header, dir, slots, arena)
    }

    fn refused(&self, refusal: usize) -> OldReply {
        OldReply {
            refusal,
            length: 0,
            found: 0,
            header: self.header,
        }
    }
}

fn part(name: &str, writer: &dyn Writer) -> Result<Tally, String> {
    match name {
        "examples" => writing::examples::run(writer, &Reference, 1),
        "runs" => writing::runs::run(writer, &Reference, 2, 3_000),
        "splits" => writing::splits::run(writer, &Reference, 3),
        "replays" => writing::replays::run(writer, &Reference, 4, 6),
        "merges" => writing::merges::run(writer, &Reference, 7),
        "refills" => writing::refills::run(writer, &Reference, 8, 3),
        "mixed" => writing::mixed::run(writer, &Reference, &Reference, 9, 3_000),
        "cases" => writing::damaged::run_cases(writer, 5),
        "damages" => writing::damaged::run(writer, 6, 200),
        other => panic!("{other} is no part"),
    }
}

const PARTS: [&str; 9] = [
    "examples", "runs", "splits", "replays", "merges", "refills", "mixed", "cases", "damages",
];

/// Slips of an insert.
fn noticed(rows: &[Row]) {
    by_parts(rows, |slip| Slipped([slip, NO_SLIP]));
}

/// Slips of a remove.
fn noticed_in_removes(rows: &[Row]) {
    by_parts(rows, |slip| Slipped([NO_SLIP, slip]));
}

/// By a wrong answer: a slip that crashes would show nothing.
fn by_parts(rows: &[Row], slipped: fn(Slip) -> Slipped) {
    for (what, slip, parts) in rows {
        for name in *parts {
            let report = part(name, &slipped(*slip)).expect_err(&format!("{what}: {name}"));
            assert!(!report.contains("no answer"), "{what}: {report}");
        }
    }
}

#[test]
fn no_slip() {
    for name in PARTS {
        let run = part(name, &Slipped([NO_SLIP; 2]));
        run.unwrap_or_else(|report| panic!("{name}: {report}"));
    }
}

#[test]
fn a_crash_is_a_difference() {
    const CRASH: Slip = |_| panic!("a crash");
    for name in PARTS {
        let crashing = Slipped([CRASH; 2]);
        assert!(part(name, &crashing).is_err(), "{name}");
    }
    for name in ["examples", "merges", "refills", "mixed", "cases", "damages"] {
        let crashing = Slipped([NO_SLIP, CRASH]);
        assert!(part(name, &crashing).is_err(), "{name}");
    }
}
