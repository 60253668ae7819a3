//! What is written as BED, in the hands of bedtools: sorted, merged, intersected with itself, on its own
//! strand and on the other; and what is sorted read again.
use crate::{
    beds::{self, Ask},
    calls::{Call, Kind},
    compare::Run,
    gen::{self, Size},
    judge, rules,
};
use std::{
    collections::BTreeMap,
    env, fs,
    path::{Path, PathBuf},
    process::Command,
};

/// A folder of this process, gone with it.
struct Folder(PathBuf);

impl Drop for Folder {
    fn drop(&mut self) {
        let _ = fs::remove_dir_all(&self.0);
    }
}

/// What bedtools puts out; the files are named in its words.
fn bedtools(folder: &Path, words: &str) -> Result<Vec<u8>, String> {
    let found = Command::new("bedtools").args(words.split(' ')).current_dir(folder).output();
    let found = found.map_err(|e| format!("bedtools is not there: {e}"))?;
    if found.status.success() {
        Ok(found.stdout)
    } else {
        Err(format!("bedtools {words} fails: {}", String::from_utf8_lossy(&found.stderr)))
    }
}

fn need(holds: bool, what: &str) -> Result<(), String> {
    holds.then_some(()).ok_or_else(|| what.to_string())
}

fn lines(text: &[u8]) -> Vec<Vec<&[u8]>> {
    let lines = text.split_inclusive(|b| *b == b'\n');
    lines.map(|l| l[..l.len() - 1].split(|b| *b == b'\t').collect()).collect()
}

fn number(column: &[u8]) -> u64 {
    rules::decimal(column).unwrap_or(u64::MAX)
}

fn bases(text: &[u8]) -> u64 {
    lines(text).iter().map(|l| number(l[2]) - number(l[1])).sum()
}

fn joined(lines: &[Vec<&[u8]>]) -> Vec<u8> {
    lines.iter().flat_map(|l| [l.join(&b'\t'), b"\n".to_vec()].concat()).collect()
}

/// A text by name and start; no two of its pieces have both alike.
fn sorted(text: &[u8]) -> Vec<u8> {
    let mut all = lines(text);
    all.sort_by_key(|l| (l[0], number(l[1])));
    joined(&all)
}

/// Every strand the other one.
fn turned(text: &[u8]) -> Vec<u8> {
    let mut all = lines(text);
    all.iter_mut().for_each(|l| l[5] = if l[5] == b"+" { b"-" } else { b"+" });
    joined(&all)
}

/// The text of a legal assignment: no two of its pieces share a base.
fn hold_text(folder: &Path, text: &[u8]) -> Result<Vec<u8>, String> {
    let put = |name: &str, text: &[u8]| fs::write(folder.join(name), text).map_err(|e| e.to_string());
    put("routes.bed", text)?;
    put("turned.bed", &turned(text))?;
    let by_lane = bedtools(folder, "sort -i routes.bed")?;
    need(by_lane == sorted(text), "sort does not give all lines by lane and start")?;
    put("sorted.bed", &by_lane)?;
    for strand in ["", " -s"] {
        let merged = bedtools(folder, &format!("merge{strand} -i sorted.bed"))?;
        need(bases(&merged) == bases(text), "merge does not keep every base")?;
        let both = bedtools(folder, &format!("intersect{strand} -a routes.bed -b routes.bed"))?;
        need(both == text, "a piece meets another than itself")?;
    }
    let other = bedtools(folder, "intersect -S -a routes.bed -b routes.bed")?;
    need(other.is_empty(), "a piece meets one of the other strand")?;
    let other = bedtools(folder, "intersect -s -a routes.bed -b turned.bed")?;
    need(other.is_empty(), "a piece meets itself turned round")?;
    Ok(by_lane)
}

/// To bedtools a line that begins so is a header.
fn is_header(name: &[u8]) -> bool {
    let begins = ["#", "!", ">", "track", "browser", "visibility"];
    begins.iter().any(|b| name.to_ascii_lowercase().starts_with(b.as_bytes()))
}

pub fn hold(run: &Run) -> Result<(), ()> {
    let subject = run.subject();
    let library = |image: &[u8], call: &Call| subject.make(image, call);
    let linked = subject.has(Kind::Write) && subject.has(Kind::Read);
    let ask: Ask = if linked { &library } else { &judge::outcome };
    let folder = Folder(env::temp_dir().join(format!("oracle-bedtools-{}", std::process::id())));
    fs::create_dir_all(&folder.0).map_err(|e| println!("{e}"))?;
    let mut read: BTreeMap<u64, u64> = BTreeMap::new();
    let (mut texts, mut headers) = (0, 0);
    for index in run.from.. {
        if texts == run.count {
            break;
        }
        let input = gen::input(run.seed, Kind::Write, index, Size::Wide);
        let image = input.image();
        let Call::Write { names, words, .. } = input.call else { unreachable!() };
        let Some(text) = beds::written(ask, &image, &names, &words) else { continue };
        if lines(&text).iter().any(|l| is_header(l[0])) {
            headers += 1;
            continue;
        }
        let held = hold_text(&folder.0, &text).and_then(|by_lane| {
            let found = beds::read(ask, &image, &names, words[0], &by_lane);
            let wanted = beds::read(&judge::outcome, &image, &names, words[0], &by_lane);
            *read.entry(found.as_ref().map_or_else(|r| r[0], |_| 0)).or_default() += 1;
            need(found == wanted, "what is sorted is read otherwise than the plain reading reads it")
        });
        if let Err(what) = held {
            println!(
                "BROKEN, input {index} of seed {}: {what}\n{}",
                run.seed,
                String::from_utf8_lossy(&text)
            );
            return Err(());
        }
        texts += 1;
    }
    let read: Vec<String> = read.iter().map(|(k, n)| format!("{k}:{n}")).collect();
    println!("bedtools: {texts} texts sorted, merged, intersected with themselves and by strand; sorted ones read with refusals {}; {headers} more left out for a name that begins a header", read.join(" "));
    Ok(())
}
