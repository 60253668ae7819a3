//! The lanes of panel E from FASTA, held against its ports, and all its readings spelled.
//!
//! `spell [FASTA]`: a record a lane, in the lanes' order; without a file, the two below.
use panel_routes::{Assignment, Letters, Panel, PanelBuilder};
use std::{env, error::Error, fmt::Write, fs, process::ExitCode};

type Outcome<T> = Result<T, Box<dyn Error>>;

const FASTA: &str = "\
>lane0
TTTACT
GGTA
>lane1
CCCCCACGGC
";

fn panel_e() -> Outcome<Panel<'static>> {
    let mut builder = PanelBuilder::new(2);
    builder.lane(10, 0).lane(10, 1).family([0]);
    builder.port("AC", 0, 3, false).port("AC", 1, 5, false);
    builder.port("GG", 0, 6, false).port("GG", 1, 7, false);
    Ok(builder.build()?)
}

/// The letters of each record, its lines joined.
fn records(fasta: &str) -> Outcome<Vec<Vec<u8>>> {
    let mut records: Vec<Vec<u8>> = Vec::new();
    for line in fasta.lines() {
        if line.starts_with('>') {
            records.push(Vec::new());
        } else {
            records.last_mut().ok_or("no header before the first letter")?.extend(line.trim_end().bytes());
        }
    }
    Ok(records)
}

/// The library is given all lanes joined, so that only their sum is refused; here each has its length.
fn lettered<'a>(panel: &'a Panel, fasta: &str) -> Outcome<Letters<'a>> {
    let records = records(fasta)?;
    let lengths = records.iter().map(|r| r.len() as u64);
    if !lengths.eq(panel.lanes().map(|lane| lane.length)) {
        return Err("the records have not the lengths of the lanes".into());
    }
    Ok(panel.letters(records.concat())?)
}

/// A record for each route, with its segments in the header.
fn spelled(letters: &Letters, assignment: &Assignment) -> Outcome<String> {
    let mut fasta = String::new();
    for (slot, route) in assignment.routes().enumerate() {
        let segments: Vec<String> = route.map(|segment| format!("lane{segment}")).collect();
        let read = String::from_utf8(letters.spell_route(assignment, slot)?)?;
        writeln!(fasta, ">route{slot} {}\n{read}", segments.join(", "))?;
    }
    Ok(fasta)
}

fn run(fasta: &str) -> Outcome<String> {
    let panel = panel_e()?;
    let letters = lettered(&panel, fasta)?;
    panel.plain_assignments()?.map(|assignment| spelled(&letters, &assignment)).collect()
}

fn answer(file: Option<String>) -> Outcome<String> {
    match file {
        Some(name) => run(&fs::read_to_string(name)?),
        None => run(FASTA),
    }
}

fn main() -> ExitCode {
    match answer(env::args().nth(1)) {
        Ok(fasta) => {
            print!("{fasta}");
            ExitCode::SUCCESS
        }
        Err(e) => {
            eprintln!("{e}");
            ExitCode::FAILURE
        }
    }
}

#[cfg(test)]
mod tests {
    use super::*;

    const READ: &str = "\
>route0 lane0 0 10 +
TTTACTGGTA
>route0 lane0 0 4 +, lane1 6 8 +, lane0 7 10 +
TTTACGGTA
";

    #[test]
    fn both_readings() {
        assert_eq!(run(FASTA).unwrap(), READ);
        assert_eq!(run(&FASTA.replace('\n', "\r\n\r\n")).unwrap(), READ);
    }

    #[test]
    fn other_letters() {
        let said = |old: &str, new: &str| run(&FASTA.replace(old, new)).unwrap_err().to_string();
        assert!(said("CCCCC", "CCCCc").starts_with("refused 39 0: letters: "));
        assert!(said("CCCCC", "CNCCC").starts_with("refused 39 0: letters: "));
        assert!(said("CACGG", "CACGT").starts_with("refused 40 0: letters: "));
        // As many letters in all, and every port's word in its place.
        let elsewhere = FASTA.replace("GGTA\n", "GGT\n").replace("CCCCC", "ACCCCC");
        let refused = run(&elsewhere).unwrap_err().to_string();
        assert_eq!(refused, "the records have not the lengths of the lanes");
        assert_eq!(said(">lane0\n", ""), "no header before the first letter");
    }
}
