//! What an outcome shows, by name: for counting what a run met and for choosing records.
use crate::{
    calls::{Call, Outcome},
    deep, judge, rules,
};

/// The segments of an assignment, each with its slot.
fn segments(words: &[u64]) -> Vec<(u64, [u64; 4])> {
    let mut out = Vec::new();
    let mut at = 2;
    for slot in 0..words[1] {
        let n = words[at] as usize;
        for s in words[at + 1..at + 1 + 4 * n].chunks(4) {
            out.push((slot, s.try_into().unwrap()));
        }
        at += 1 + 4 * n;
    }
    out
}

/// A route in normal form.
pub fn joined(route: &[[u64; 4]]) -> Vec<[u64; 4]> {
    let mut out: Vec<[u64; 4]> = Vec::new();
    for &[lane, start, end, reverse] in route {
        match out.last_mut() {
            Some([l, s, _, 1]) if (*l, reverse, *s) == (lane, 1, end) => *s = start,
            Some([l, _, e, 0]) if (*l, reverse, *e) == (lane, 0, start) => *e = end,
            _ => out.push([lane, start, end, reverse]),
        }
    }
    out
}

pub fn length(route: &[[u64; 4]]) -> u64 {
    route.iter().map(|[_, start, end, _]| end - start).sum()
}

/// The switches of a route in normal form: how many letters stand before each, and whether the
/// pieces on its two sides are reverse.
pub fn switches(normal: &[[u64; 4]]) -> Vec<(u64, bool, bool)> {
    let sides = |i: usize| (normal[i - 1][3] == 1, normal[i][3] == 1);
    (1..normal.len()).map(|i| (length(&normal[..i]), sides(i).0, sides(i).1)).collect()
}

pub fn of(image: &[u8], call: &Call, o: &Outcome) -> Vec<&'static str> {
    let mut found = Vec::new();
    let mut note = |holds: bool, name: &'static str| {
        if holds {
            found.push(name);
        }
    };
    let r = &o.reply;
    if let (39 | 40, Call::Spell { letters, words, .. }) = (r[0], call) {
        let taken = judge::taken_by_original(image, letters, words);
        return match (r[0], taken) {
            (39, Some(true)) => vec!["39, taken by the original"],
            (39, Some(false)) => vec!["39, refused at a switch by the original"],
            (_, Some(true)) => vec!["40, taken by the original"],
            (_, Some(false)) => vec!["40, refused at a switch by the original"],
            (_, None) => vec![],
        };
    }
    if let (35, Call::Read { text, .. }) = (r[0], call) {
        return vec![fault(text)];
    }
    if let (24, Call::Read { text, .. }) = (r[0], call) {
        let lines = rules::bed_lines(text).unwrap_or_default();
        return if lines.last().is_some_and(|l| l.slot > 63) { vec!["65 routes or more"] } else { vec![] };
    }
    if r[0] != 0 {
        return match (r[0], r[1]) {
            (25..=30, 1..) => vec!["in a later route"],
            (14 | 15, 2..) => vec!["in a later evaluation"],
            (42, _) if deep::is_depth(image, 65) => vec!["depth 65"],
            _ => vec![],
        };
    }
    match call {
        Call::Panel => {
            note(rules::word_at(image, 16) == 0, "no family");
            note(rules::word_at(image, 32) == 0, "no port");
        }
        Call::Port { cut, reverse, .. } => {
            note(r[2] == 0, "no port there");
            note(r[2] == 1, "a port");
            note(r[2] == 1 && *reverse, "a reverse port");
            note(r[2] == 0 && *cut > u64::MAX / 2, "a huge cut");
        }
        Call::Bucket { word } => {
            note(r[2] == r[3], "an empty bucket");
            note(r[3] > r[2] + 1, "several members");
            note(r[2] > 0 && r[3] > r[2], "members behind others");
            note(word.iter().any(|b| !b"ACGT".contains(b)), "another letter asked for");
        }
        Call::Check { words, .. } => {
            let normal = segments(&o.rooms[0]);
            note(r[2] < words.len() as u64, "joined");
            note(normal.len() as u64 > words[1], "legal with a switch");
            note(normal.iter().any(|(_, s)| s[3] == 1), "legal with a reverse piece");
            note(words[1] > 1, "several routes");
        }
        Call::List { budget, from, .. } => {
            status(r[2], &mut note);
            frames(&o.rooms[0][..rules::needs(image, budget).frames], None, &mut note);
            note(r[3] > 1, "several written");
            note(r[3] < r[5].saturating_sub(*from), "out was full");
            note(*from > 0 && r[3] > 0, "from a later one");
            note(*from >= r[5], "from past the last");
        }
        Call::Search { budget, .. } => {
            status(r[2], &mut note);
            let needs = rules::needs(image, budget);
            frames(&o.rooms[0][..needs.frames], Some(r[15] == 1), &mut note);
            note(r[3] >= 50, "50 units");
            note(r[3] >= 500, "500 units");
            note(r[10] > 0, "a switch");
            note(r[10] > 2, "three switches");
            note(r[8] < r[7], "a switch within a lane");
            note(r[9] < r[8], "lanes of one identity");
            note(r[11] > 0 && r[2] > 2, "stopped in a later family");
            note(r[12] > 1, "several tied");
            note(r[13] == 1 && r[2] > 2, "discarded, then stopped");
            if r[4] == 0 {
                note(true, "no incumbent");
                return found;
            }
            let incumbent = &o.rooms[1][..needs.slot];
            let routes = segments(incumbent);
            note(routes.iter().any(|(_, s)| s[3] == 1), "a reverse piece in the incumbent");
            note(routes.iter().any(|(slot, _)| *slot > 0), "an incumbent of several routes");
            let slots = |i: u64| &o.rooms[1][(i as usize) * needs.slot..(i as usize + 1) * needs.slot];
            let at = (1..=r[12]).find(|i| slots(*i) == incumbent);
            note(
                at.is_some_and(|i| o.rooms[2][i as usize] != o.rooms[2][0]),
                "the incumbent tied by an older score",
            );
            note(o.rooms[2][..=r[12] as usize].contains(&(1 << 63)), "-0.0 kept");
            note(judge::used_words(incumbent) == needs.slot, "a full slot");
        }
        Call::Plain { from, .. } => {
            let count = deep::count(image);
            let written = judge::assignments(&o.rooms[0][..r[3] as usize]);
            let pieces: Vec<_> = written.iter().map(|a| (a[1], segments(a))).collect();
            note(count > 1, "a list of several");
            note(deep::is_depth(image, 64), "depth 64");
            note(r[2] > 1, "several written");
            note(r[2] < count.saturating_sub(*from), "out was full");
            note(*from > 0 && r[2] > 0, "from a later one");
            note(*from >= count, "from past the last");
            note(pieces.iter().any(|(routes, all)| all.len() as u64 > *routes), "a switch");
            note(pieces.iter().any(|(_, all)| all.iter().any(|(_, s)| s[3] == 1)), "a reverse piece");
            note(written.iter().any(|a| a[1] > 1), "several routes");
            note(written.iter().any(|a| a[0] > 0), "a later family");
        }
        Call::Letters { .. } => {
            let reverse = rules::is_any_port(image, 1);
            note(reverse, "a reverse port");
            note(reverse && rules::is_any_port(image, 0), "ports of both orientations");
            note(rules::word_at(image, 8) > 1, "several lanes");
            note(rules::word_at(image, 32) == 0, "no port");
        }
        Call::Spell { words, slot, from, to, out, .. } => {
            let given: Vec<[u64; 4]> =
                segments(words).into_iter().filter(|(s, _)| s == slot).map(|(_, s)| s).collect();
            let normal = joined(&given);
            let inside = switches(&normal).into_iter().filter(|(at, ..)| from < at && at < to);
            let pairs: Vec<(bool, bool)> = inside.map(|(_, left, right)| (left, right)).collect();
            note(pairs.contains(&(false, false)), "a switch + to +");
            note(pairs.contains(&(false, true)), "a switch + to -");
            note(pairs.contains(&(true, false)), "a switch - to +");
            note(pairs.contains(&(true, true)), "a switch - to -");
            note(pairs.len() > 2, "three switches");
            note(normal.len() < given.len(), "not in normal form");
            note(normal.len() == 1, "a native route");
            note(*slot > 0, "a later slot");
            note(r[2] == length(&given), "a whole route");
            note(r[2] == 1, "one letter");
            note(*out as u64 > r[2], "room to spare");
        }
        Call::Write { names, words, out } => {
            bed(names, words, &mut note);
            note(*out as u64 > r[2], "room to spare");
        }
        Call::Read { names, text, out, .. } => {
            let words = &o.rooms[0][..r[2] as usize];
            bed(names, words, &mut note);
            note(*out as u64 > r[2], "room to spare");
            note(text.len() > 100_000, "a long text");
        }
        Call::Bound { counts, background } => {
            let background = f64::from_bits(*background);
            let above = counts.iter().filter(|c| **c as f64 > background).count();
            note(r[2] == 0, "no bound");
            note(r[2] == 0 && above > 1, "no bound of several counts");
            note(counts.is_empty(), "no counts");
            note(counts.len() > 99, "100 counts");
            note(counts.iter().any(|c| *c as f64 == background), "a count at the background");
            note(
                counts.iter().any(|c| (*c as f64).next_up() == background),
                "a background just behind a count",
            );
            note(counts.contains(&((1 << 53) - 1)), "the largest count");
            note(background < f64::MIN_POSITIVE, "a subnormal background");
            note(background > (1u64 << 53) as f64, "a background above all counts");
            note(r[2] == 1 && above > 0 && above < counts.len(), "counts above and below");
            note(r[2] == 1 && f64::from_bits(r[3]) == f64::MIN, "the lowest double as a bound");
        }
    }
    found
}

/// What an assignment shows that was written or read by a table of names.
fn bed(names: &[u8], words: &[u64], note: &mut impl FnMut(bool, &'static str)) {
    let all = segments(words);
    let routes: Vec<Vec<[u64; 4]>> = crate::gen::routes_of(words);
    let lengths: Vec<usize> = names.split(|b| *b == b'\n').map(<[u8]>::len).collect();
    note(words[1] > 1, "several routes");
    note(words[0] > 0, "a later family");
    note(all.iter().any(|(_, s)| s[3] == 1), "a reverse piece");
    note(routes.iter().any(|r| joined(r).len() > 1), "a switch");
    note(routes.iter().any(|r| joined(r).len() < r.len()), "not in normal form");
    note(all.iter().any(|(_, s)| s[2] > 0xffff_ffff / 2), "numbers over 2^31");
    note(all.iter().any(|(_, s)| lengths[s[0] as usize] == 1), "a name of 1 byte");
    note(all.iter().any(|(_, s)| lengths[s[0] as usize] == 64), "a name of 64 bytes");
    note(lengths.len() > 4095, "4,095 names or more");
}

/// What about a text is not in the form, by its first such line.
fn fault(text: &[u8]) -> &'static str {
    let lines: Vec<&[u8]> = text.split(|b| *b == b'\n').collect();
    let (last, lines) = lines.split_last().unwrap_or((&text, &[]));
    let mut slot = 0;
    for line in lines {
        let columns: Vec<&[u8]> = line.split(|b| *b == b'\t').collect();
        let [name, start, end, own, score, strand] = columns[..] else {
            return match columns.len() {
                _ if line.is_empty() => "35, an empty line",
                0..=5 => "35, fewer columns",
                _ => "35, more columns",
            };
        };
        let digits = own.strip_prefix(b"r").unwrap_or_default();
        let number = [start, end, digits].into_iter().find(|c| rules::decimal(c).is_none());
        match () {
            _ if !rules::is_name(name) => return "35, no name",
            _ if own.first() != Some(&b'r') => return "35, no r",
            _ if number.is_some() => return bad_number(number.unwrap_or_default()),
            _ if score != b"0" => return "35, another score",
            _ if strand != b"+" && strand != b"-" => return "35, no strand",
            _ => {}
        }
        let next = rules::decimal(digits).unwrap_or(0);
        match next.checked_sub(slot) {
            None => return "35, a slot going back",
            Some(0) => {}
            Some(1) if *line != lines[0] => {}
            Some(_) => return "35, a slot left out",
        }
        slot = next;
    }
    if last.is_empty() {
        "35, for another reason"
    } else {
        "35, no last line feed"
    }
}

fn bad_number(column: &[u8]) -> &'static str {
    match column {
        [] => "35, an empty number",
        [b'0', b'0'..=b'9', ..] => "35, a leading zero",
        _ if column.iter().all(u8::is_ascii_digit) => "35, 2^64 or more",
        [b'+' | b'-', ..] => "35, a sign",
        _ => "35, no number",
    }
}

fn status(n: u64, note: &mut impl FnMut(bool, &'static str)) {
    let names = ["certified", "support incomplete", "work", "evaluation", "frontier"];
    note(true, names[n as usize - 1]);
}

fn frames(room: &[u64], pending: Option<bool>, note: &mut impl FnMut(bool, &'static str)) {
    let records: Vec<&[u64]> = room.chunks(10).take_while(|r| r.iter().any(|w| *w != 0)).collect();
    let stack = records.len() - usize::from(pending == Some(true) && !records.is_empty());
    note(stack > 2, "three frames");
    note(stack > 5, "six frames");
    let own = &records[..stack];
    note(own.iter().any(|r| r[0] > 0), "a frame in a later slot");
    note(own.iter().any(|r| r[3] == 1), "a reverse frame");
    note(own.iter().any(|r| r[4] == 1), "a terminal to come");
    note(own.iter().any(|r| r[6] < r[7]), "an open hub");
    note(own.iter().any(|r| r[7] > 0 && r[6] == r[7]), "a used-up hub");
    note(own.iter().any(|r| r[5] == 0 && r[7] == 0), "a finished reverse frame");
}
