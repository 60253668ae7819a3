//! Inputs of the calls that take a table of names: names of all sorts, tables and lines of BED written
//! from assignments and then damaged, rooms at their edges.
use crate::{
    calls::{Call, Kind},
    gen::{self, rng_index, Rng, Size},
    lettered, rules,
    spec::Spec,
};
use std::collections::BTreeSet;

pub fn panel(rng: &mut Rng, size: Size) -> Spec {
    let mut spec =
        if rng.one_in(2) { gen::sound(rng, size) } else { lettered::panel(rng, size, &mut Vec::new()) };
    if size == Size::Wide && rng.one_in(200) {
        spec.lanes.iter_mut().for_each(|lane| lane.0 = lane.0.max(lettered::LONG));
    }
    if size == Size::Wide && rng.one_in(1500) {
        spec.lanes.resize(rng.range(4095, 4096) as usize, (10, 0));
    }
    spec
}

/// A hash of 4,096 buckets, for names that share one.
fn hash(name: &[u8]) -> u64 {
    name.iter().fold(0, |h, b| (131 * h + u64::from(*b)) % 1_048_573)
}

fn printing(rng: &mut Rng, length: u64) -> Vec<u8> {
    (0..length).map(|_| rng.range(33, 126) as u8).collect()
}

/// A short name in this bucket.
fn in_bucket(rng: &mut Rng, bucket: u64) -> Vec<u8> {
    loop {
        let length = rng.range(2, 5);
        let name = printing(rng, length);
        if hash(&name) % 4096 == bucket {
            return name;
        }
    }
}

/// Two names with the same hash: 61 * 131^2 + 13 * 131 + 49 is 1,048,573.
fn twins(rng: &mut Rng) -> [Vec<u8>; 2] {
    let one = [rng.range(33, 65), rng.range(33, 113), rng.range(33, 77)];
    let other = [one[0] + 61, one[1] + 13, one[2] + 49];
    [one, other].map(|n| n.map(|b| b as u8).to_vec())
}

/// Another name with the same hash, where it has one of `twins`.
fn twin(name: &[u8]) -> Option<Vec<u8>> {
    let moved: Vec<u8> = name.iter().zip([61, 13, 49]).map(|(b, d)| b.saturating_add(d)).collect();
    Some(moved).filter(|m| name.len() == 3 && rules::is_name(m))
}

/// Name i of a table, by its style; it may be there already.
fn name(rng: &mut Rng, style: u64, i: usize, bucket: u64) -> Vec<u8> {
    let length = rng.range(1, 64);
    match style {
        0 => format!("lane{i}").into_bytes(),
        1 if i < 94 => vec![33 + i as u8],
        2 => format!("{:x>64}", i + 1).into_bytes(),
        3 => format!("{:x<64}", i + 1).into_bytes(),
        4 if i < 64 => vec![b'a'; i + 1],
        5 if i < 40 => in_bucket(rng, bucket),
        7 => rng.pick(&["0", "1", "r0", "+", "-", "#", "track", "browser", "chr1", "~", "!"]).into(),
        _ => printing(rng, length),
    }
}

pub fn names(rng: &mut Rng, lanes: usize) -> Vec<Vec<u8>> {
    let style = rng.below(10);
    let any = rng.below(4096);
    let bucket = rng.pick(&[4095, 4095, 4094, 0, any]);
    let (mut all, mut seen) = (Vec::new(), BTreeSet::new());
    while all.len() < lanes {
        let next = match style {
            6 => twins(rng).to_vec(),
            _ => vec![name(rng, style, all.len(), bucket), printing(rng, 12)],
        };
        let new = next.into_iter().filter(|n| seen.insert(n.clone()));
        all.extend(new.take(if style == 6 { 2 } else { 1 }));
    }
    all.truncate(lanes);
    all
}

fn table(names: &[Vec<u8>]) -> Vec<u8> {
    names.iter().flat_map(|n| [&n[..], b"\n"].concat()).collect()
}

/// A byte that is none of a name's, or nearly one.
fn other_byte(rng: &mut Rng) -> u8 {
    rng.pick(b" \t\r\n\0\x1f\x7f\x80\xff!~")
}

fn bad_table(rng: &mut Rng, names: &[Vec<u8>]) -> Vec<u8> {
    let mut names = names.to_vec();
    let i = rng_index(rng, names.len());
    let at = rng_index(rng, names[i].len());
    match rng.below(20) {
        0 => names[i].clear(),
        1 => names[i].resize(65, b'x'),
        2 => names[i].resize(64, b'x'),
        3 => names[i] = rng.pick(&names),
        4 => drop(names.remove(i)),
        5 => names.insert(i, b"one-more".to_vec()),
        6 => names.push(vec![]),
        7 => names[i].push(b'\r'),
        8 => names.iter_mut().for_each(|n| n.push(b'\r')),
        9 => names[i].insert(0, b' '),
        10..=12 => names[i][at] = other_byte(rng),
        13 => names[i].push(other_byte(rng)),
        14 => {
            let mut all = table(&names);
            all.pop();
            return all;
        }
        15 => return [table(&names), rng.pick(&[&b"\n"[..], b"x", b" ", b"x\n", b"\0"]).to_vec()].concat(),
        16 => return [&b"\n"[..], &table(&names)].concat(),
        17 => {
            let mut all = table(&names);
            all.truncate(rng_index(rng, all.len()));
            return all;
        }
        18 => {
            let mut all = table(&names);
            let at = rng_index(rng, all.len());
            all[at] = rng.below(256) as u8;
            return all;
        }
        _ => return (0..rng.below(40)).map(|_| rng.pick(b"ab \n\n")).collect(),
    }
    table(&names)
}

fn mostly_good(rng: &mut Rng, names: &[Vec<u8>]) -> Vec<u8> {
    if rng.one_in(8) {
        bad_table(rng, names)
    } else {
        table(names)
    }
}

fn words(rng: &mut Rng, spec: &Spec, size: Size) -> Vec<u64> {
    let wide = spec.lanes.iter().all(|lane| lane.0 >= lettered::LONG);
    let long = size == Size::Wide && rng.one_in(if wide { 20 } else { 150 });
    lettered::words(rng, spec, size, long)
}

fn room(rng: &mut Rng, needed: usize) -> usize {
    match rng.below(12) {
        0 | 1 => needed.saturating_sub(1),
        2 => rng_index(rng, needed),
        3 | 4 => needed + 1 + rng_index(rng, 30),
        _ => needed,
    }
}

pub fn write_call(rng: &mut Rng, spec: &Spec, size: Size) -> Call {
    let names = names(rng, spec.lanes.len());
    let words = words(rng, spec, size);
    let text = lines(&names, &words).map_or(vec![], |lines| joined(&lines));
    let out = room(rng, text.len());
    Call::Write { names: mostly_good(rng, &names), words, out }
}

/// A line's columns.
type Columns = Vec<Vec<u8>>;

/// The lines of an assignment's words; a lane that is none gets a name that is none.
fn lines(names: &[Vec<u8>], words: &[u64]) -> Option<Vec<Columns>> {
    let routes = rules::is_assignment(words).then(|| gen::routes_of(words))?;
    let mut all = Vec::new();
    for (slot, route) in routes.iter().enumerate() {
        for &[lane, start, end, reverse] in route {
            let name = names.get(lane as usize).cloned().unwrap_or_else(|| format!("no{lane}").into());
            let strand = if reverse == 1 { "-" } else { "+" };
            let rest = [start.to_string(), end.to_string(), format!("r{slot}"), "0".into(), strand.into()];
            all.push([vec![name], rest.map(String::into_bytes).to_vec()].concat());
        }
    }
    Some(all)
}

fn joined(lines: &[Columns]) -> Vec<u8> {
    lines.iter().flat_map(|line| [line.join(&b'\t'), b"\n".to_vec()].concat()).collect()
}

/// A number that is written another way, or is another.
fn bad_number(rng: &mut Rng, old: &[u8]) -> Vec<u8> {
    let value: u128 = String::from_utf8_lossy(old).parse().unwrap_or(7);
    let long: String = (0..rng.range(20, 40)).map(|_| char::from(b'1' + rng.below(9) as u8)).collect();
    let texts = [
        format!("0{value}"),
        format!("00{value}"),
        format!("+{value}"),
        format!("-{value}"),
        format!("{value} "),
        format!(" {value}"),
        format!("{value}.0"),
        format!("{value}e0"),
        format!("{value}:"),
        format!("/{value}"),
        format!("0x{value:x}"),
        "-0".into(),
        "".into(),
        "00".into(),
        u64::MAX.to_string(),
        // 2^64, and what is the same below it.
        (1u128 << 64).to_string(),
        (value + (1 << 64)).to_string(),
        (value + (1 << 65)).to_string(),
        ((1u128 << 64) + u128::from(rng.below(10))).to_string(),
        "18446744073709551609".into(),
        "99999999999999999999".into(),
        "100000000000000000000".into(),
        "9".repeat(5000),
        long,
        (value + 1).to_string(),
        value.saturating_sub(1).to_string(),
        rng.next().to_string(),
    ];
    rng.pick(&texts).into_bytes()
}

fn bad_column(rng: &mut Rng, line: &mut Columns, names: &[Vec<u8>]) {
    let i = rng.pick(&[0, 1, 1, 2, 2, 3, 3, 4, 5]);
    if i >= line.len() {
        return;
    }
    let old = line[i].clone();
    line[i] = match i {
        0 => match rng.below(10) {
            0 => vec![],
            1 => [&old[..], b"x"].concat(),
            2 => old[..old.len() - 1].to_vec(),
            3 => vec![b'x'; rng.pick(&[63, 64, 65, 66, 127, 128, 129, 5000])],
            4 => [&old[..], &[other_byte(rng)]].concat(),
            5 => [&[other_byte(rng)], &old[..]].concat(),
            6 => b"no-such-lane".to_vec(),
            7 => twin(&old).unwrap_or_else(|| in_bucket(rng, hash(&old) % 4096)),
            8 => old.iter().rev().copied().collect(),
            _ => rng.pick(names),
        },
        3 if rng.one_in(2) => {
            let digits = old.get(1..).unwrap_or_default();
            [&b"r"[..], &bad_number(rng, digits)].concat()
        }
        3 => {
            let texts = ["", "r", "R0", "0", "rr0", "r 0", "r1", "r2", "0r", "s0", "route0", "r-1"];
            rng.pick(&texts).into()
        }
        4 => rng.pick(&["", "00", "1", "0 ", " 0", "+0", "-0", "0.0", ".", "1000", "O"]).into(),
        5 => rng.pick(&["", ".", "+-", "-+", "++", "+ ", " +", "*", "-\r", "+\r", "1", ",", "+", "-"]).into(),
        _ => bad_number(rng, &old),
    };
}

/// One line again and again, each time in a slot of its own.
fn many_slots(rng: &mut Rng, lines: &mut Vec<Columns>, size: Size) {
    let n = match size {
        Size::Wide if rng.one_in(20) => rng.pick(&[4096, 4097, 13_106, 13_107]),
        Size::Wide => rng.pick(&[2, 3, 63, 64, 65, 66, 127, 128, 129, 300]),
        Size::Small => rng.range(2, 4),
    };
    let line = rng.pick(lines);
    *lines = (0..n).map(|slot| [&line[..3], &[format!("r{slot}").into()], &line[4..]].concat()).collect();
}

/// One thing about the lines other than it was; what they say is kept by few of these.
fn bad_lines(rng: &mut Rng, lines: &mut Vec<Columns>) {
    let (i, j) = (rng_index(rng, lines.len()), rng_index(rng, lines.len()));
    let words = |text: &str| vec![text.as_bytes().to_vec()];
    let slot = |line: &Columns| {
        String::from_utf8_lossy(line[3].get(1..).unwrap_or_default()).parse::<u64>().unwrap_or(0)
    };
    match rng.below(18) {
        0 => lines[i].push(rng.pick(&["", "0", "x"]).into()),
        1 => drop(lines[i].pop()),
        2 => drop(lines[i].remove(rng_index(rng, 6))),
        3 => lines[i] = vec![lines[i].join(&b' ')],
        4 => lines[i].insert(0, vec![]),
        5 => lines.insert(i, vec![vec![]]),
        6 => lines.push(vec![vec![]]),
        7 => lines.insert(i, words(rng.pick(&["#", "# a comment", "track name=x", "browser position x"]))),
        8 => lines.insert(0, words(rng.pick(&["#", "# a comment", "track name=x", "browser position x"]))),
        9 => lines.swap(i, j),
        10 => lines.sort_by_key(|l| (l[0].clone(), String::from_utf8_lossy(&l[1]).parse::<u64>().ok())),
        11 => lines.reverse(),
        12 => drop(lines.remove(i)),
        13 => {
            let again = lines[j].clone();
            lines.insert(i, again);
        }
        // Every slot one more, or those from a line on one more or less.
        14 => lines.iter_mut().for_each(|l| l[3] = format!("r{}", slot(l).wrapping_add(1)).into()),
        15 => lines[i..].iter_mut().for_each(|l| l[3] = format!("r{}", slot(l).wrapping_add(1)).into()),
        16 => lines[i..].iter_mut().for_each(|l| l[3] = format!("r{}", slot(l).saturating_sub(1)).into()),
        _ => lines[i][5].push(b'\r'),
    }
}

fn bad_bytes(rng: &mut Rng, text: &mut Vec<u8>) {
    let at = rng_index(rng, text.len());
    match rng.below(10) {
        0 | 1 => drop(text.pop()),
        2 => text.truncate(at),
        3 => text.push(rng.pick(b"\n\0 x\t\r")),
        4 => text.insert(at, rng.pick(b"\n\0 x\t\r0+")),
        5 => drop((!text.is_empty()).then(|| text.remove(at))),
        6 => {
            // CRLF throughout.
            let lines = text.split(|b| *b == b'\n').map(<[u8]>::to_vec).collect::<Vec<_>>();
            *text = lines.join(&b"\r\n"[..]);
        }
        7 => *text = (0..rng.below(60)).map(|_| rng.below(256) as u8).collect(),
        8 => *text = (0..rng.below(60)).map(|_| rng.pick(b"\t\t\n01r+-x")).collect(),
        _ if text.is_empty() => {}
        _ => text[at] = rng.below(256) as u8,
    }
}

/// The words that a text holds, where it is in the form; of another no room matters.
fn needed(rng: &mut Rng, text: &[u8]) -> usize {
    match rules::bed_lines(text) {
        Some(lines) => 2 + lines.last().map_or(0, |l| l.slot as usize + 1) + 4 * lines.len(),
        None => rng_index(rng, 40),
    }
}

pub fn read_call(rng: &mut Rng, spec: &Spec, size: Size) -> Call {
    let names = names(rng, spec.lanes.len());
    let words = words(rng, spec, size);
    let mut family = words.first().copied().unwrap_or(0);
    let mut lines = lines(&names, &words).unwrap_or_default();
    let style = rng.below(20);
    if !lines.is_empty() && (8..=12).contains(&style) {
        let i = rng_index(rng, lines.len());
        bad_column(rng, &mut lines[i], &names);
    }
    if !lines.is_empty() && (12..=15).contains(&style) {
        bad_lines(rng, &mut lines);
    }
    if !lines.is_empty() && style == 18 && rng.one_in(4) {
        many_slots(rng, &mut lines, size);
    }
    let mut text = joined(&lines);
    if (15..=17).contains(&style) {
        bad_bytes(rng, &mut text);
    }
    if rng.one_in(16) {
        family = gen::word_near(rng, family);
    }
    let needed = needed(rng, &text);
    Call::Read { names: mostly_good(rng, &names), family, out: room(rng, needed), text }
}

/// Every assignment of a short walk, as it is and base by base, in a room of its size and one short; of
/// its text each byte left out, each front, and each two neighbouring lines swapped.
pub fn tiny_calls(spec: &Spec, kind: Kind) -> Vec<Call> {
    let names: Vec<Vec<u8>> = (0..spec.lanes.len()).map(|i| vec![b'a' + i as u8]).collect();
    let table = table(&names);
    let mut calls = Vec::new();
    for words in gen::walked(spec) {
        let mut routes = gen::routes_of(&words);
        for route in &mut routes {
            *route = route.iter().flat_map(|&[l, s, e, r]| gen::unit_pieces(l, s, e, r)).collect();
        }
        for words in [gen::to_words(words[0], &routes), words] {
            let lines = lines(&names, &words).unwrap_or_default();
            let text = joined(&lines);
            if kind == Kind::Write {
                let of = |out| Call::Write { names: table.clone(), words: words.clone(), out };
                calls.extend([of(text.len()), of(text.len() - 1)]);
                continue;
            }
            let read = |text: &[u8], out| {
                let (names, text) = (table.clone(), text.to_vec());
                Call::Read { names, family: words[0], text, out }
            };
            calls.extend([read(&text, words.len()), read(&text, words.len() - 1)]);
            for i in 0..text.len() {
                calls.push(read(&[&text[..i], &text[i + 1..]].concat(), words.len()));
                calls.push(read(&text[..i], words.len()));
            }
            for i in 1..lines.len() {
                let mut other = lines.clone();
                other.swap(i - 1, i);
                calls.push(read(&joined(&other), words.len()));
            }
        }
    }
    calls
}
