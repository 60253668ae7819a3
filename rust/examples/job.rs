//! Jobs of the walk program as readable text, and back.
//!
//! `job pack [TEXT]` writes a job, `job unpack [JOB]` its text, `job list [JOB]` all legal
//! assignments of its panel by the plain engine, which has no budget; without a file they read
//! standard input. `job bed [FILE [N]]` takes either a job or a text, searches, and writes the routes
//! of the incumbent as BED, or of tied optimum N, counted from 1; of `-` it reads standard input. A
//! text names its lanes; to a job, which does not, they are lane0, lane1 and so on.
//!
//! A line of a text is one of these, `#` begins a comment:
//!
//! ```text
//! k 2                        letters of a word
//! lane morex 10 0            name, length, identity
//! family morex               the lanes of its paths
//! port AC morex 3 +          word, lane, anchor, orientation
//! max_work 100000            or max_evaluations, max_frontier, max_optima, tie_width
//! score 5                    of the next evaluation
//! ```
//!
//! Without a budget line the job has no budget words; with one, what is not said is the
//! default. A number of a score or width may be given by its bits, as 0x7ff0000000000000.
use panel_routes::{Assignment, Job, Names, PanelBuilder, Scored, SearchBudget};
use std::{
    env,
    error::Error,
    fmt::Write as _,
    fs,
    io::{self, Read, Write},
    process::ExitCode,
};

type Outcome<T> = Result<T, Box<dyn Error>>;

const USAGE: &str = "usage: job pack [TEXT], job unpack [JOB], job list [JOB] or job bed [JOB|TEXT [N]]";

/// What the lines of a text have said so far.
struct Text {
    names: Vec<String>,
    builder: PanelBuilder,
    budget: Option<SearchBudget>,
    scores: Vec<f64>,
}

impl Text {
    fn lane(&self, name: &str) -> Outcome<u64> {
        let known = self.names.iter().position(|n| n == name);
        Ok(known.ok_or_else(|| format!("no lane is named {name} above"))? as u64)
    }

    fn line(&mut self, words: &[&str]) -> Outcome<()> {
        match *words {
            [] => {}
            ["k", k] => {
                if !self.names.is_empty() {
                    return Err("k comes first".into());
                }
                self.builder = PanelBuilder::new(k.parse()?);
            }
            ["lane", name, length, identity] => {
                if self.lane(name).is_ok() {
                    return Err(format!("a second lane {name}").into());
                }
                self.names.push(name.into());
                self.builder.lane(length.parse()?, identity.parse()?);
            }
            ["family", ref names @ ..] => {
                let paths: Vec<u64> = names.iter().map(|n| self.lane(n)).collect::<Outcome<_>>()?;
                self.builder.family(paths);
            }
            ["port", word, lane, anchor, sign @ ("+" | "-")] => {
                let lane = self.lane(lane)?;
                self.builder.port(word, lane, anchor.parse()?, sign == "-");
            }
            ["score", score] => self.scores.push(double(score)?),
            [name, value] => self.budget_line(name, value)?,
            _ => return Err("no such line".into()),
        }
        Ok(())
    }

    fn budget_line(&mut self, name: &str, value: &str) -> Outcome<()> {
        let mut budget = self.budget.unwrap_or_default();
        match name {
            "max_work" => budget.max_work = value.parse()?,
            "max_evaluations" => budget.max_evaluations = value.parse()?,
            "max_frontier" => budget.max_frontier = value.parse()?,
            "max_optima" => budget.max_optima = value.parse()?,
            "tie_width" => budget.tie_width = double(value)?,
            _ => return Err("no such line".into()),
        }
        self.budget = Some(budget);
        Ok(())
    }
}

fn double(text: &str) -> Outcome<f64> {
    Ok(match text.strip_prefix("0x") {
        Some(bits) => f64::from_bits(u64::from_str_radix(bits, 16)?),
        None => text.parse()?,
    })
}

/// So that `double` reads the same bits again.
fn shown(x: f64) -> String {
    if x.is_finite() {
        format!("{x:?}")
    } else {
        format!("{:#018x}", x.to_bits())
    }
}

/// The job that a text describes, and the names of its lanes.
fn described(text: &str) -> Outcome<(Job<'static>, Vec<String>)> {
    let mut said =
        Text { names: Vec::new(), builder: PanelBuilder::new(0), budget: None, scores: Vec::new() };
    for (i, line) in text.lines().enumerate() {
        let words: Vec<&str> = line.split('#').next().unwrap_or("").split_whitespace().collect();
        said.line(&words).map_err(|e| format!("line {}: {e}", i + 1))?;
    }
    let job = Job { panel: said.builder.build()?, budget: said.budget, scores: said.scores };
    Ok((job, said.names))
}

fn pack(text: &str) -> Outcome<Vec<u8>> {
    Ok(described(text)?.0.to_bytes()?)
}

/// The name of a lane in a text of a job, which has none.
fn lane_name(lane: impl std::fmt::Display) -> String {
    format!("lane{lane}")
}

/// The segments of each route, routes apart by a stroke.
fn in_a_line(assignment: &Assignment) -> String {
    let routes = assignment.routes().map(|r| r.map(|s| format!("lane{s}")).collect::<Vec<_>>().join(", "));
    format!("family {}: {}", assignment.family(), routes.collect::<Vec<_>>().join(" | "))
}

/// Scores beside the assignments that they belong to; those without one as comments.
fn write_scores(job: &Job, text: &mut String) -> Outcome<()> {
    let mut scores = job.scores.iter().map(|s| shown(*s));
    match job.panel.assignments(job.budget.unwrap_or_default()) {
        Err(refusal) => writeln!(text, "# {refusal}")?,
        Ok(listing) => {
            for (i, assignment) in listing.enumerate() {
                let score = scores.next().map_or("# no score".into(), |s| format!("score {s}"));
                writeln!(text, "{score:<12} # {}, {}", i + 1, in_a_line(&assignment))?;
            }
        }
    }
    for score in scores {
        writeln!(text, "score {score}")?;
    }
    Ok(())
}

fn unpack(bytes: &[u8]) -> Outcome<String> {
    let job = Job::from_bytes(bytes)?;
    let mut text = format!("k {}\n", job.panel.k());
    for (i, lane) in job.panel.lanes().enumerate() {
        writeln!(text, "lane {} {} {}", lane_name(i), lane.length, lane.identity)?;
    }
    for paths in job.panel.families() {
        let names: Vec<String> = paths.iter().map(lane_name).collect();
        writeln!(text, "family {}", names.join(" "))?;
    }
    for p in job.panel.ports() {
        let sign = if p.reverse { '-' } else { '+' };
        writeln!(text, "port {} {} {} {sign}", p.word, lane_name(p.source), p.anchor)?;
    }
    if let Some(b) = job.budget {
        writeln!(text, "max_work {}\nmax_evaluations {}", b.max_work, b.max_evaluations)?;
        writeln!(text, "max_frontier {}\nmax_optima {}", b.max_frontier, b.max_optima)?;
        writeln!(text, "tie_width {}", shown(b.tie_width))?;
    }
    write_scores(&job, &mut text)?;
    Ok(text)
}

/// A line an assignment, numbered as the plain engine numbers them.
fn list(bytes: &[u8]) -> Outcome<String> {
    let job = Job::from_bytes(bytes)?;
    let mut text = String::new();
    for (i, assignment) in job.panel.plain_assignments()?.enumerate() {
        writeln!(text, "{}, {}", i + 1, in_a_line(&assignment))?;
    }
    Ok(text)
}

/// A job or its text, whose bytes are never 0 as some of a job's are.
fn job_and_names(bytes: &[u8]) -> Outcome<(Job<'_>, Names)> {
    if bytes.contains(&0) {
        let job = Job::from_bytes(bytes)?;
        let names = Names::new((0..job.panel.lanes().len()).map(lane_name))?;
        return Ok((job, names));
    }
    let (job, names) = described(std::str::from_utf8(bytes)?)?;
    Ok((job, Names::new(names)?))
}

/// A kept assignment of a job's search as BED, 0 the incumbent, and what is to be said beside it.
fn bed(bytes: &[u8], slot: usize) -> Outcome<(String, String)> {
    let (job, names) = job_and_names(bytes)?;
    let sheet = job.panel.search_with_scores(job.budget.unwrap_or_default(), &job.scores)?;
    let found = sheet.incumbent.iter().chain(&sheet.optima).nth(slot);
    let tied = sheet.optima.len();
    let Some(Scored { assignment, score }) = found else {
        return Err(match slot {
            0 => "no incumbent: the panel has no family".into(),
            _ => format!("no tied optimum {slot}: there are {tied}").into(),
        });
    };
    let shown = if slot == 0 { "incumbent".into() } else { format!("tied optimum {slot}") };
    let about = format!("{}: {shown}, family {}, score {score:?}", sheet.status, assignment.family());
    Ok((assignment.to_bed(&job.panel, &names)?, format!("{about}; {tied} tied optima")))
}

fn input(file: Option<&String>) -> io::Result<Vec<u8>> {
    let mut bytes = Vec::new();
    match file.filter(|name| *name != "-") {
        Some(name) => bytes = fs::read(name)?,
        None => drop(io::stdin().read_to_end(&mut bytes)?),
    }
    Ok(bytes)
}

fn run(words: &[String]) -> Outcome<()> {
    let (word, file) = match words {
        [word] => (word, None),
        [word, file] => (word, Some(file)),
        [word, file, _] if word == "bed" => (word, Some(file)),
        _ => return Err(USAGE.into()),
    };
    let answer = match word.as_str() {
        "pack" => pack(std::str::from_utf8(&input(file)?)?)?,
        "unpack" => unpack(&input(file)?)?.into_bytes(),
        "list" => list(&input(file)?)?.into_bytes(),
        "bed" => {
            let slot = words.get(2).map_or(Ok(0), |n| n.parse())?;
            let (lines, about) = bed(&input(file)?, slot)?;
            eprintln!("{about}");
            lines.into_bytes()
        }
        _ => return Err(USAGE.into()),
    };
    Ok(io::stdout().write_all(&answer)?)
}

fn main() -> ExitCode {
    let words: Vec<String> = env::args().skip(1).collect();
    match run(&words) {
        Ok(()) => ExitCode::SUCCESS,
        Err(e) => {
            eprintln!("{e}");
            ExitCode::FAILURE
        }
    }
}

#[cfg(test)]
mod tests {
    use super::*;
    use std::path::Path;

    fn file(name: &str) -> Vec<u8> {
        fs::read(Path::new(env!("CARGO_MANIFEST_DIR")).join("../examples").join(name)).unwrap()
    }

    #[test]
    fn the_examples_are_their_texts_and_give_their_sheets() {
        for name in ["panel-e", "mosaic"] {
            let text = String::from_utf8(file(&format!("{name}.txt"))).unwrap();
            let bytes = file(&format!("{name}.job"));
            assert_eq!(pack(&text).unwrap(), bytes);
            assert_eq!(pack(&unpack(&bytes).unwrap()).unwrap(), bytes);
            let job = Job::from_bytes(&bytes).unwrap();
            let sheet = job.panel.search_with_scores(job.budget.unwrap_or_default(), &job.scores).unwrap();
            assert_eq!(sheet.to_string().into_bytes(), file(&format!("{name}.sheet")));
        }
    }

    #[test]
    fn the_legal_assignments_of_the_examples() {
        let listed = list(&file("panel-e.job")).unwrap();
        let mosaic = "lane0 0 4 +, lane1 6 8 +, lane0 7 10 +";
        assert_eq!(listed, format!("1, family 0: lane0 0 10 +\n2, family 0: {mosaic}\n"));
        assert_eq!(list(&file("mosaic.job")).unwrap().lines().count(), 36);
    }

    #[test]
    fn the_examples_as_bed() {
        let (lines, about) = bed(&file("mosaic.txt"), 0).unwrap();
        assert_eq!(lines.as_bytes(), file("mosaic.bed"));
        let status = "domain-exhausted-optimum-and-correlated-support-certified";
        assert_eq!(about, format!("{status}: incumbent, family 0, score 5.0; 2 tied optima"));
        let (tied, about) = bed(&file("mosaic.txt"), 2).unwrap();
        assert_eq!(about, format!("{status}: tied optimum 2, family 0, score 5.0; 2 tied optima"));
        assert_eq!((lines.lines().count(), tied.lines().count()), (4, 6));
        let said = bed(&file("mosaic.txt"), 3).unwrap_err().to_string();
        assert_eq!(said, "no tied optimum 3: there are 2");
        // A job has no names.
        let names = ["barke.2H", "barke.5H", "morex.2H", "morex.5H", "igri.2H", "igri.5H"];
        let unnamed = |text: String, (i, name): (usize, &&str)| text.replace(name, &format!("lane{i}"));
        let numbered = names.iter().enumerate().fold(lines.clone(), unnamed);
        assert_eq!(bed(&file("mosaic.job"), 0).unwrap().0, numbered);
        let (job, names) =
            job_and_names(&file("mosaic.txt")).map(|(j, n)| (j.to_bytes().unwrap(), n)).unwrap();
        let job = Job::from_bytes(&job).unwrap();
        let read = job.panel.read_bed(&names, 0, &lines).unwrap();
        assert_eq!(read.to_bed(&job.panel, &names).unwrap(), lines);
    }

    #[test]
    fn what_is_not_shown_as_bed() {
        let said = |text: &str| bed(text.as_bytes(), 0).unwrap_err().to_string();
        assert_eq!(said("k 1\nlane a 1 0\nfamily a"), "refused 14 1: an evaluation has no score in the list");
        assert_eq!(said("k 1\nlane a 1 0"), "no incumbent: the panel has no family");
        let long = "x".repeat(65);
        let name = "lane 0: its name is not 1 to 64 printing ASCII bytes without a space";
        assert_eq!(said(&format!("k 1\nlane {long} 1 0")), name);
        assert_eq!(said("k 1\nlane \u{e9} 1 0"), name);
    }

    #[test]
    fn numbers_keep_their_bits() {
        let panel = PanelBuilder::new(1).lane(1, 7).build().unwrap();
        let patterns = [0, 1 << 63, 1, 0x7ff0_0000_0000_0000, 0xfff8_0000_0000_0001, 0x3fb9_9999_9999_999a];
        let scores: Vec<f64> = patterns.map(f64::from_bits).to_vec();
        let budget = SearchBudget { max_work: 0, tie_width: f64::NAN, ..SearchBudget::default() };
        let bytes = Job { panel, budget: Some(budget), scores }.to_bytes().unwrap();
        assert_eq!(pack(&unpack(&bytes).unwrap()).unwrap(), bytes);
    }

    #[test]
    fn what_is_no_text() {
        let said = |text: &str| pack(text).unwrap_err().to_string();
        assert_eq!(said("k 1\nlane a 1 0\nfamily b"), "line 3: no lane is named b above");
        assert_eq!(said("lane a 1 0\nk 1"), "line 2: k comes first");
        assert_eq!(said("k 1\nlane a 1 0\nlane a 1 0"), "line 3: a second lane a");
        assert_eq!(said("k 1 # letters\nlane a 1"), "line 2: no such line");
        assert_eq!(said("k 1\nlane a 1 0\nport A a 0 *"), "line 3: no such line");
        assert_eq!(said("k 1\nlane a 1 0\nport N a 0 +"), "port 0: its word is not k letters from ACGT");
        assert!(said("k 1\nlane a x 0").starts_with("line 2: "));
        let many = "score 0\n".repeat(1_025);
        assert!(said(&format!("k 1\nlane a 1 0\n{many}")).starts_with("refused 16 0"));
    }
}
