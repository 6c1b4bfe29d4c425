//! Readers with a slip, each of which the parts named beside it notice.

mod any_call;
mod leaf_lists;
mod lookups;
mod prefixes;
mod scans;

use api::exports::{Place, Scanned, Shown, Span, Told};
use api::reading;
use api::reads::{Read, Reader, Reading};
use api::sides::Reference;
use api::tally::Tally;
use reference::buffers::{Buffers, Header};
use reference::layout;
use reference::leaves::Leaves;

/// A call as it comes to a reader.
struct Asked<'a> {
    read: Read<'a>,
    header: Header,
    lent: &'a mut Buffers,
    out: &'a mut [u8],
}

type Slip = fn(&mut Asked) -> Reading;

/// What is wrong, the wrong answer, and the parts that notice.
type Row = (&'static str, Slip, &'static [&'static str]);

struct Slipped(Slip);

impl Reader for Slipped {
    fn read(&self, read: Read, header: Header, lent: &mut Buffers, out: &mut [u8]) -> Reading {
        self.0(&mut Asked {
            read,
            header,
            lent,
            out,
        })
    }
}

impl Asked<'_> {
    /// The reference's answer.
    fn right(&mut self) -> Reading {
        self.instead(self.read)
    }

    /// The reference's answer to another call.
    fn instead(&mut self, read: Read) -> Reading {
        Reference.read(read, self.header, self.lent, self.out)
    }

    /// The reference's answer to a call with an output of its own.
    fn elsewhere(&mut self, read: Read, out: &mut [u8]) -> Reading {
        Reference.read(read, self.header, self.lent, out)
    }

    /// The reference's answer and the output that it leaves, which is not
    /// written yet.
    fn unwritten(&mut self) -> (Reading, Vec<u8>) {
        let mut out = self.out.to_vec();
        let reading = self.elsewhere(self.read, &mut out);
        (reading, out)
    }

    /// The leaf list, where there is one.
    fn leaves(&self) -> Option<Leaves> {
        let Buffers { dir, slots, arena } = &*self.lent;
        layout::read(&self.header, dir, slots, arena)
    }

    /// The answer that nothing is found.
    fn nothing(&self) -> Reading {
        self.refused(0)
    }

    fn refused(&self, refusal: usize) -> Reading {
        match self.read {
            Read::ContainsKey(_) => Reading::Told(Told {
                refusal,
                ..Told::default()
            }),
            Read::Get(_) => Reading::Place(Place {
                refusal,
                ..Place::default()
            }),
            Read::FirstInRange(..) | Read::GetGt(_) | Read::First => Reading::Scanned(Scanned {
                refusal,
                ..Scanned::default()
            }),
            Read::ScanPrefix(_) => Reading::Span(Span {
                refusal,
                ..Span::default()
            }),
            Read::LeafAt(_) => Reading::Shown(Shown {
                refusal,
                ..Shown::default()
            }),
        }
    }
}

fn part(name: &str, reader: &dyn Reader) -> Result<Tally, String> {
    match name {
        "examples" => reading::examples::run(reader, 1),
        "lookups" => reading::lookups::run(reader, 2, 60),
        "ranges" => reading::ranges::run(reader, 3, 60),
        "outputs" => reading::outputs::run(reader, 4, 12),
        "walks" => reading::walks::run(reader, 5, 40),
        "leaf lists" => reading::leaf_lists::run(reader, 6, 40),
        "prefixes" => reading::prefixes::run(reader, 7, 200),
        "cases" => reading::damaged::run_cases(reader, 8),
        "damages" => reading::damaged::run(reader, 9, 60),
        other => panic!("{other} is no part"),
    }
}

const PARTS: [&str; 9] = [
    "examples",
    "lookups",
    "ranges",
    "outputs",
    "walks",
    "leaf lists",
    "prefixes",
    "cases",
    "damages",
];

/// By a wrong answer: a slip that crashes would show nothing.
fn noticed(rows: &[Row]) {
    for (what, slip, parts) in rows {
        for name in *parts {
            let report = part(name, &Slipped(*slip)).expect_err(&format!("{what}: {name}"));
            assert!(!report.contains("no answer"), "{what}: {report}");
        }
    }
}

#[test]
fn no_slip() {
    for name in PARTS {
        let run = part(name, &Slipped(|asked| asked.right()));
        run.unwrap_or_else(|report| panic!("{name}: {report}"));
    }
}
