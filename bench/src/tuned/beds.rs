//! Routes as BED: the names in a hash map that is built once, the text read or put in one pass.
use super::{check, need, Refused};
use std::{
    collections::HashMap,
    hash::{BuildHasherDefault, Hasher},
};

/// A hash that takes eight bytes a turn.
#[derive(Default)]
struct Mixed(u64);

impl Hasher for Mixed {
    fn write(&mut self, bytes: &[u8]) {
        let mut words = bytes.chunks_exact(8);
        for word in words.by_ref() {
            self.write_u64(u64::from_le_bytes(word.try_into().unwrap()));
        }
        let rest = words.remainder().iter().fold(0, |rest, b| rest << 8 | u64::from(*b));
        self.write_u64(rest);
    }

    fn write_u64(&mut self, word: u64) {
        let product = u128::from(self.0 ^ word ^ 0x2D35_8DCC_AA6C_78A5) * 0x9E37_79B9_7F4A_7C15;
        self.0 = (product >> 64) as u64 ^ product as u64;
    }

    fn write_usize(&mut self, length: usize) {
        self.0 ^= length as u64;
    }

    fn finish(&self) -> u64 {
        self.0
    }
}

type Lanes<'n> = HashMap<&'n [u8], u64, BuildHasherDefault<Mixed>>;

fn is_name(name: &[u8]) -> bool {
    (1..=64).contains(&name.len()) && name.iter().fold(true, |all, b| all & b.is_ascii_graphic())
}

/// Each lane's name, and the lane of each; refusal 34.
fn names(table: &[u8], lanes: usize) -> Result<(Vec<&[u8]>, Lanes<'_>), Refused> {
    let lines = table.strip_suffix(b"\n").ok_or((34, 0))?;
    let mut names = Vec::with_capacity(lanes);
    let mut found = Lanes::with_capacity_and_hasher(lanes, Default::default());
    for (lane, name) in (0..).zip(lines.split(|b| *b == b'\n')) {
        need(names.len() < lanes && is_name(name) && found.insert(name, lane).is_none(), 34)?;
        names.push(name);
    }
    need(names.len() == lanes, 34)?;
    Ok((names, found))
}

/// A number in decimal, and what is before it.
fn put(text: &mut Vec<u8>, before: &[u8], mut n: u64) {
    let mut digits = [0; 20];
    let mut at = digits.len();
    loop {
        at -= 1;
        digits[at] = b'0' + (n % 10) as u8;
        n /= 10;
        if n == 0 {
            break;
        }
    }
    text.extend_from_slice(before);
    text.extend_from_slice(&digits[at..]);
}

/// How many bytes were written: refusals 1 to 8, 34, 22 to 31 and 37.
pub fn write_bed(image: &[u8], table: &[u8], words: &[u64], out: &mut [u8]) -> Result<u64, Refused> {
    let panel = check(image)?;
    let (names, _) = names(table, panel.lanes.len())?;
    let routes = panel.check_assignment(words)?;
    let mut text = Vec::with_capacity(out.len());
    for (slot, route) in (0..).zip(routes) {
        for s in route.chunks_exact(4) {
            text.extend_from_slice(names[s[0] as usize]);
            put(&mut text, b"\t", s[1]);
            put(&mut text, b"\t", s[2]);
            put(&mut text, b"\tr", slot);
            text.extend_from_slice(if s[3] == 1 { b"\t0\t-\n" } else { b"\t0\t+\n" });
        }
    }
    out.get_mut(..text.len()).ok_or((37, 0))?.copy_from_slice(&text);
    Ok(text.len() as u64)
}

/// The name at the front of a text and the tab behind it, which are passed over.
fn name<'t>(text: &mut &'t [u8]) -> Option<&'t [u8]> {
    let end = text.iter().take(65).position(|b| !b.is_ascii_graphic())?;
    let name = &text[..end];
    *text = text[end..].strip_prefix(b"\t")?;
    (end > 0).then_some(name)
}

/// The number at the front of a text and the tab behind it, which are passed over.
fn number(text: &mut &[u8]) -> Option<u64> {
    let (mut n, mut at) = (0u64, 0);
    loop {
        match *text.get(at)? {
            b @ b'0'..=b'9' => n = n.checked_mul(10)?.checked_add(u64::from(b - b'0'))?,
            b'\t' if at == 1 || at > 1 && text[0] != b'0' => break,
            _ => return None,
        }
        at += 1;
    }
    *text = &text[at + 1..];
    Some(n)
}

/// A line's name, slot, and start, end and reverse.
type Line<'t> = (&'t [u8], u64, [u64; 3]);

/// The line at the front of a text, passed over.
fn line<'t>(text: &mut &'t [u8]) -> Option<Line<'t>> {
    let name = name(text)?;
    let (start, end) = (number(text)?, number(text)?);
    *text = text.strip_prefix(b"r")?;
    let slot = number(text)?;
    let [b'0', b'\t', strand @ (b'+' | b'-'), b'\n', rest @ ..] = text else { return None };
    let reverse = u64::from(*strand == b'-');
    *text = rest;
    Some((name, slot, [start, end, reverse]))
}

/// The words that lines hold; refusals 35 and 36.
fn held(lanes: &Lanes, family: u64, mut text: &[u8]) -> Result<Vec<u64>, Refused> {
    let mut words = Vec::with_capacity(2 + text.len() / 4);
    words.extend([family, 0]);
    // Where the count of the last route stands.
    let mut count = 0;
    let mut known = true;
    while !text.is_empty() {
        let (name, slot, span) = line(&mut text).ok_or((35, 0))?;
        if slot == words[1] {
            count = words.len();
            words.push(0);
            words[1] += 1;
        }
        need(slot.checked_add(1) == Some(words[1]), 35)?;
        words[count] += 1;
        let lane = lanes.get(name);
        known &= lane.is_some();
        words.push(*lane.unwrap_or(&0));
        words.extend_from_slice(&span);
    }
    need(known, 36)?;
    Ok(words)
}

/// How many words were read: refusals 1 to 8, 34 to 37 and 22 to 31.
pub fn read_bed(
    image: &[u8],
    table: &[u8],
    family: u64,
    text: &[u8],
    out: &mut [u64],
) -> Result<u64, Refused> {
    let panel = check(image)?;
    let (_, lanes) = names(table, panel.lanes.len())?;
    let words = held(&lanes, family, text)?;
    let room = out.get_mut(..words.len()).ok_or((37, 0))?;
    panel.check_assignment(&words)?;
    room.copy_from_slice(&words);
    Ok(words.len() as u64)
}
