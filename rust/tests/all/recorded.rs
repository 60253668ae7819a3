//! The original's recorded answers (oracle/recorded), asked for through the crate.
//! Records about rooms that the crate never lends (13, 21) are passed over.
use panel_routes::{
    lower_bound, Assignment, Frame, Job, Names, Panel, PanelBuilder, Refusal, Scored, SearchBudget, Sheet,
    Status,
};
use std::{fs, path::Path};

struct Record {
    image: Vec<u8>,
    arguments: Vec<u64>,
    expected: Vec<u64>,
}

fn words(bytes: &[u8]) -> Vec<u64> {
    bytes.chunks_exact(8).map(|w| u64::from_le_bytes(w.try_into().unwrap())).collect()
}

fn records(name: &str) -> Vec<Record> {
    let file = Path::new(env!("CARGO_MANIFEST_DIR")).join("../oracle/recorded").join(name);
    let bytes = fs::read(&file).unwrap();
    let mut rest = &bytes[..];
    let mut all = Vec::new();
    while !rest.is_empty() {
        let head = words(&rest[..40]);
        let (one, later) = rest.split_at(head[1] as usize);
        let (image, arguments) = (head[2] as usize, head[3] as usize);
        let numbers = words(&one[40 + image.next_multiple_of(8)..]);
        let (arguments, expected) = numbers.split_at(arguments);
        all.push(Record {
            image: one[40..40 + image].to_vec(),
            arguments: arguments.to_vec(),
            expected: expected.to_vec(),
        });
        rest = later;
    }
    assert!(!all.is_empty());
    all
}

/// The number and place of a refusal, or the words of an answer behind two zeros.
fn outcome(found: Result<Vec<u64>, Refusal>) -> Vec<u64> {
    match found {
        Ok(answer) => [vec![0, 0], answer].concat(),
        Err(r) => vec![r.number(), r.place()],
    }
}

/// Holds every record but those of the numbers passed over to what `answer` says.
fn replay(name: &str, passed_over: &[u64], answer: impl Fn(&Record) -> Result<Vec<u64>, Refusal>) {
    for (i, record) in records(name).iter().enumerate() {
        if passed_over.contains(&record.expected[0]) {
            continue;
        }
        let mut expected = record.expected.clone();
        if expected[0] != 0 {
            expected.truncate(2);
        }
        assert_eq!(outcome(answer(record)), expected, "record {i} of {name}");
    }
}

fn letters(words: &[u64]) -> Vec<u8> {
    words.iter().flat_map(|w| w.to_le_bytes()).collect()
}

fn budget(a: &[u64]) -> SearchBudget {
    SearchBudget {
        max_work: a[0],
        max_evaluations: a[1],
        max_frontier: a[2],
        max_optima: a[3],
        tie_width: f64::from_bits(a[4]),
    }
}

fn frame(f: &Frame) -> [u64; 10] {
    let flags = (u64::from(f.reverse), u64::from(f.terminal_pending));
    [f.slot, f.source, f.cut, flags.0, flags.1, f.next_port_plus_1, f.hub_next, f.hub_end, f.start, f.end]
}

#[test]
fn panels() {
    replay("panel.bin", &[], |r| Panel::new(&r.image[..]).map(|_| vec![]));
}

#[test]
fn a_panel_taken_apart_and_built_again_is_the_same() {
    let mut built = 0;
    for record in records("search.bin") {
        let Ok(panel) = Panel::new(&record.image[..]) else { continue };
        let mut builder = PanelBuilder::new(panel.k());
        for lane in panel.lanes() {
            builder.lane(lane.length, lane.identity);
        }
        for family in panel.families() {
            builder.family(family);
        }
        for port in panel.global_ports() {
            builder.port(port.word.as_str(), port.source, port.anchor, port.reverse);
        }
        assert_eq!(builder.build().unwrap(), panel);
        built += 1;
    }
    assert!(built > 10);
}

#[test]
fn ports() {
    replay("port.bin", &[], |r| {
        let found =
            Panel::new(&r.image[..])?.port_at_cut(r.arguments[0], r.arguments[1], r.arguments[2] == 1)?;
        let Some(port) = found else { return Ok(vec![0; 6]) };
        let mut padded = port.word.as_bytes().to_vec();
        padded.resize(32, 0);
        Ok([vec![1, port.anchor], words(&padded)].concat())
    });
}

#[test]
fn buckets() {
    replay("bucket.bin", &[], |r| {
        let word = &letters(&r.arguments[1..])[..r.arguments[0] as usize];
        let bucket = Panel::new(&r.image[..])?.hub_bucket(word)?;
        Ok(vec![bucket.start, bucket.end])
    });
}

#[test]
fn checks() {
    replay("check.bin", &[21], |r| {
        let panel = Panel::new(&r.image[..])?;
        let normal = panel.check_assignment(&Assignment::from_words(&r.arguments[2..])?)?;
        Ok([vec![normal.words().len() as u64], normal.into_words()].concat())
    });
}

#[test]
fn listings() {
    for (i, record) in records("list.bin").iter().enumerate() {
        let (a, x) = (&record.arguments, &record.expected);
        let panel = Panel::new(&record.image[..]);
        let found = panel.as_ref().map_err(|r| *r).and_then(|p| p.assignments(budget(a)));
        if x[0] == 13 {
            continue;
        }
        let listing = match found {
            Err(r) => {
                assert_eq!([r.number(), r.place()], x[..2], "record {i}");
                continue;
            }
            Ok(listing) => listing,
        };
        assert_eq!((x[0], number(listing.status()), listing.evaluations()), (0, x[2], x[5]), "record {i}");
        let from = usize::try_from(a[5]).unwrap_or(usize::MAX);
        let given = listing.skip(from).take(x[3] as usize).flat_map(Assignment::into_words);
        let written = &x[x.len() - x[4] as usize..];
        assert!(given.eq(written.iter().copied()), "record {i}");
    }
}

/// A status by its string's place in document 01.
fn number(status: Status) -> u64 {
    let strings = [
        "domain-exhausted-optimum-and-correlated-support-certified",
        "domain-exhausted-optimum-certified-support-incomplete",
        "work-budget-exhausted",
        "evaluation-budget-exhausted",
        "frontier-budget-exhausted",
    ];
    1 + strings.iter().position(|s| *s == status.as_str()).unwrap() as u64
}

/// A sheet in the words of a recorded answer, refusal and place left out.
fn sheet_words(sheet: &Sheet) -> Vec<u64> {
    let c = &sheet.counters;
    let mut all =
        vec![number(sheet.status), c.work, c.evaluations, c.natives, c.donors, c.non_native, c.mixed];
    all.extend([c.mixed_identity, c.switches, c.families, sheet.optima.len() as u64]);
    all.extend([u64::from(sheet.discarded), sheet.frames.len() as u64, u64::from(sheet.pending.is_some())]);
    all.extend(sheet.frames.iter().chain(&sheet.pending).flat_map(frame));
    for Scored { assignment, score } in sheet.incumbent.iter().chain(&sheet.optima) {
        all.extend([score.to_bits(), assignment.words().len() as u64]);
        all.extend(assignment.words());
    }
    all
}

#[test]
fn searches() {
    replay("search.bin", &[13], |r| {
        let scores: Vec<f64> = r.arguments[9..].iter().map(|s| f64::from_bits(*s)).collect();
        let sheet = Panel::new(&r.image[..])?.search_with_scores(budget(&r.arguments), &scores)?;
        Ok(sheet_words(&sheet))
    });
}

#[test]
fn bounds() {
    replay("bound.bin", &[], |r| {
        let bound = lower_bound(&r.arguments[2..], f64::from_bits(r.arguments[0]))?;
        Ok(bound.map_or(vec![0, 0], |b| vec![1, b.to_bits()]))
    });
}

#[test]
fn plain_lists() {
    replay("plain.bin", &[], |r| {
        let from = usize::try_from(r.arguments[0]).unwrap_or(usize::MAX);
        let room = r.arguments[1] as usize;
        let (mut written, mut words) = (0, Vec::new());
        for assignment in Panel::new(&r.image[..])?.plain_assignments()?.skip(from) {
            if assignment.words().len() > room - words.len() {
                break;
            }
            words.extend(assignment.words());
            written += 1;
        }
        Ok([vec![written, words.len() as u64], words].concat())
    });
}

/// The bytes that arguments begin with, and the arguments behind them.
fn front_bytes(arguments: &[u64]) -> (Vec<u8>, &[u64]) {
    let n = arguments[0] as usize;
    let (own, rest) = arguments[1..].split_at(n.div_ceil(8));
    let mut own = letters(own);
    own.truncate(n);
    (own, rest)
}

#[test]
fn letters_of_lanes() {
    replay("letters.bin", &[], |r| {
        let panel = Panel::new(&r.image[..])?;
        panel.letters(front_bytes(&r.arguments).0)?;
        Ok(vec![])
    });
}

#[test]
fn spellings() {
    replay("spell.bin", &[], |r| {
        let (own, rest) = front_bytes(&r.arguments);
        let slot = usize::try_from(rest[1]).unwrap_or(usize::MAX);
        let mut out = vec![b'-'; rest[0] as usize];
        let panel = Panel::new(&r.image[..])?;
        let lanes = panel.letters(own)?;
        let assignment = Assignment::from_words(&rest[5..])?;
        let n = lanes.spell_into(&assignment, slot, rest[2]..rest[3], &mut out)?;
        assert!(out.split_off(n).iter().all(|b| *b == b'-'));
        out.resize(n.next_multiple_of(8), 0);
        Ok([vec![n as u64], words(&out)].concat())
    });
}

/// The names of a table, and of one that the crate does not take none: the library refuses both.
fn names(panel: &Panel, table: Vec<u8>) -> Result<Names, Refusal> {
    let names = Names::parse(table).unwrap_or_else(|_| Names::new([""; 0]).unwrap());
    let refused = panel.read_bed(&names, 0, "").err().filter(|r| r.number() == 34);
    refused.map_or(Ok(names), Err)
}

#[test]
fn writings() {
    replay("write.bin", &[], |r| {
        let (table, rest) = front_bytes(&r.arguments);
        let mut out = vec![0xa5; rest[0] as usize];
        let panel = Panel::new(&r.image[..])?;
        let names = names(&panel, table)?;
        let n = Assignment::from_words(&rest[2..])?.to_bed_into(&panel, &names, &mut out)?;
        assert!(out.split_off(n).iter().all(|b| *b == 0xa5));
        out.resize(n.next_multiple_of(8), 0);
        Ok([vec![n as u64], words(&out)].concat())
    });
}

#[test]
fn readings() {
    replay("read.bin", &[], |r| {
        let (table, rest) = front_bytes(&r.arguments);
        let (text, behind) = front_bytes(&rest[2..]);
        assert!(behind.is_empty());
        let mut out = vec![u64::MAX; rest[0] as usize];
        let panel = Panel::new(&r.image[..])?;
        let n = panel.read_bed_into(&names(&panel, table)?, rest[1], text, &mut out)?;
        assert!(out.split_off(n).iter().all(|w| *w == u64::MAX));
        Ok([vec![n as u64], out].concat())
    });
}

#[test]
fn jobs() {
    let mut walked = 0;
    for (i, record) in records("job.bin").iter().enumerate() {
        let text = letters(&record.expected[1..]);
        let text = std::str::from_utf8(&text[..record.expected[0] as usize]).unwrap();
        if text.starts_with("refused 13 ") {
            continue;
        }
        let found = Job::from_bytes(&record.image).and_then(|job| {
            assert_eq!(job.to_bytes().unwrap(), record.image);
            job.panel.search_with_scores(job.budget.unwrap_or_default(), &job.scores)
        });
        let said = match found {
            Ok(sheet) => sheet.to_string(),
            Err(r) => format!("refused {} {}\n", r.number(), r.place()),
        };
        assert_eq!(said, text, "record {i}");
        walked += 1;
    }
    assert!(walked > 10);
}
