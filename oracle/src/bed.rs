//! Document 02's item 2 in plain safe Rust: the table of names, an assignment as lines of BED, and
//! such lines back into words.
use crate::plain::{need, route_starts, Panel, Refusal};
use std::collections::BTreeMap;

/// A text that is read from its front.
struct Rest<'a>(&'a [u8]);

impl<'a> Rest<'a> {
    /// The bytes before the next `end`, which is passed over; none where there is no `end`.
    fn before(&mut self, end: u8) -> Option<&'a [u8]> {
        let at = self.0.iter().position(|b| *b == end)?;
        let found = &self.0[..at];
        self.0 = &self.0[at + 1..];
        Some(found)
    }
}

fn is_name(bytes: &[u8]) -> bool {
    !bytes.is_empty() && bytes.len() <= 64 && bytes.iter().all(|b| b.is_ascii_graphic())
}

/// Each lane's name. Refusal 34.
fn names<'a>(panel: &Panel, table: &'a [u8]) -> Result<Vec<&'a [u8]>, Refusal> {
    let mut rest = Rest(table);
    let mut names = Vec::with_capacity(panel.lanes.len());
    for _ in &panel.lanes {
        let name = rest.before(b'\n').unwrap_or_default();
        need(34, is_name(name))?;
        names.push(name);
    }
    need(34, rest.0.is_empty())?;
    let mut sorted = names.clone();
    sorted.sort_unstable();
    need(34, sorted.windows(2).all(|w| w[0] != w[1]))?;
    Ok(names)
}

/// The digits of a number, the last first.
fn digits(mut n: u64) -> Vec<u8> {
    let mut all = vec![b'0' + (n % 10) as u8];
    while n > 9 {
        n /= 10;
        all.push(b'0' + (n % 10) as u8);
    }
    all
}

fn put(text: &mut Vec<u8>, before: &[u8], n: u64) {
    text.extend(before);
    text.extend(digits(n).iter().rev());
}

/// Refusals 34, the check's from 22 on, and 37; how many bytes `out` then begins with.
pub fn write(panel: &Panel, table: &[u8], words: &[u64], out: &mut [u8]) -> Result<u64, Refusal> {
    let names = names(panel, table)?;
    panel.check_assignment(words, &mut vec![0; words.len()])?;
    let mut text = Vec::new();
    for (slot, at) in (0..).zip(route_starts(words)?) {
        for s in words[at..].chunks_exact(4).take(words[at - 1] as usize) {
            text.extend(names[s[0] as usize]);
            put(&mut text, b"\t", s[1]);
            put(&mut text, b"\t", s[2]);
            put(&mut text, b"\tr", slot);
            let reverse = s[3] == 1 && !cfg!(feature = "fault-strand");
            text.extend(if reverse { b"\t0\t-\n" } else { b"\t0\t+\n" });
        }
    }
    need(37, text.len() <= out.len())?;
    out[..text.len()].copy_from_slice(&text);
    Ok(text.len() as u64)
}

fn number(column: &[u8]) -> Option<u64> {
    let zeros = matches!(column, [b'0', _, ..]) && !cfg!(feature = "fault-zero");
    if column.is_empty() || zeros {
        return None;
    }
    let digit = |b: &u8| b.checked_sub(b'0').filter(|d| *d < 10).map(u64::from);
    column.iter().try_fold(0u64, |n, b| n.checked_mul(10)?.checked_add(digit(b)?))
}

/// A line's name, slot, and start, end and reverse.
type Line<'a> = (&'a [u8], u64, [u64; 3]);

/// The line at the front of a text, passed over.
fn line<'a>(rest: &mut Rest<'a>) -> Option<Line<'a>> {
    let mut own = Rest(rest.before(b'\n')?);
    let name = own.before(b'\t').filter(|n| is_name(n))?;
    let start = number(own.before(b'\t')?)?;
    let end = number(own.before(b'\t')?)?;
    let mut slot = Rest(own.before(b'\t')?);
    slot.before(b'r').filter(|before| before.is_empty())?;
    let reverse = match own.0 {
        b"0\t+" => 0,
        b"0\t-" => 1,
        _ => return None,
    };
    Some((name, number(slot.0)?, [start, end, reverse]))
}

/// Whether a slot may stand in the line behind these.
fn follows(lines: &[Line], slot: u64) -> bool {
    match lines.last() {
        None => slot == 0,
        Some((_, last, _)) if cfg!(feature = "fault-gap") => slot >= *last,
        Some((_, last, _)) => slot == *last || last.checked_add(1) == Some(slot),
    }
}

/// Refusal 35.
fn lines(text: &[u8]) -> Result<Vec<Line<'_>>, Refusal> {
    let mut rest = Rest(text);
    let mut lines: Vec<Line> = Vec::new();
    while !rest.0.is_empty() {
        let found = line(&mut rest);
        need(35, found.is_some_and(|(_, slot, _)| follows(&lines, slot)))?;
        lines.extend(found);
    }
    Ok(lines)
}

/// Refusals 34 to 37, then the check's from 22 on; how many words `out` then begins with.
pub fn read(panel: &Panel, table: &[u8], family: u64, text: &[u8], out: &mut [u64]) -> Result<u64, Refusal> {
    let lanes: BTreeMap<&[u8], u64> = names(panel, table)?.into_iter().zip(0..).collect();
    let lines = lines(text)?;
    need(36, lines.iter().all(|(name, ..)| lanes.contains_key(name)))?;
    let mut words = vec![family, 0];
    let (mut count, mut last) = (0, None);
    for (name, slot, [start, end, reverse]) in lines {
        if last != Some(slot) {
            count = words.len();
            words.push(0);
            words[1] += 1;
            last = Some(slot);
        }
        words[count] += 1;
        words.extend([lanes[name], start, end, reverse]);
    }
    need(37, words.len() <= out.len())?;
    panel.check_assignment(&words, &mut vec![0; words.len()])?;
    out[..words.len()].copy_from_slice(&words);
    Ok(words.len() as u64)
}
