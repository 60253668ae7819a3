//! The original Rust as the judge of our answers. README.md says how to use it.
use oracle::{
    beds, bedtools,
    calls::{Call, Kind, KINDS},
    compare::{self, Run},
    crops, examples, judge, large, outside, overlaps, panels, raised, record, rules, sample, sentence,
};
use std::{
    fs,
    io::{self, Read, Write},
    process::exit,
};

extern "C" {
    fn mallopt(parameter: i32, value: i32) -> i32;
}

fn input() -> Vec<u8> {
    let mut bytes = Vec::new();
    io::stdin().read_to_end(&mut bytes).unwrap();
    bytes
}

fn usage() -> ! {
    eprintln!("usage: see README.md");
    exit(2)
}

fn number(text: &str) -> u64 {
    text.parse().unwrap_or_else(|_| usage())
}

fn show(image: &str, call: Call) -> bool {
    print!("{}", judge::text(&fs::read(image).unwrap(), &call));
    true
}

fn main() {
    // The original takes a zeroed MiB for each checksum; mapped, its pages cost nothing.
    const M_MMAP_THRESHOLD: i32 = -3;
    unsafe { mallopt(M_MMAP_THRESHOLD, 1 << 19) };
    let mut run = Run { stand_in: false, seed: 1, from: 0, count: 2000, seconds: 3600, kinds: vec![] };
    let mut words: Vec<String> = Vec::new();
    let mut args = std::env::args().skip(1);
    while let Some(arg) = args.next() {
        let mut value = || number(&args.next().unwrap_or_else(|| usage()));
        match arg.as_str() {
            "--stand-in" => run.stand_in = true,
            "--seed" => run.seed = value(),
            "--from" => run.from = value(),
            "--count" => run.count = value(),
            "--seconds" => run.seconds = value(),
            "--files" => {
                let folder = args.next().unwrap_or_else(|| usage());
                judge::FILES.set(folder.into()).unwrap();
            }
            _ => words.push(arg),
        }
    }
    let words: Vec<&str> = words.iter().map(String::as_str).collect();
    let done = match words[..] {
        ["sheet"] => io::stdout().write_all(judge::sheet(&input()).as_bytes()).is_ok(),
        ["full"] => io::stdout().write_all(judge::full(&input()).as_bytes()).is_ok(),
        ["panel", image] => show(image, Call::Panel),
        ["port", image, lane, cut, sign] => {
            show(image, Call::Port { lane: number(lane), cut: number(cut), reverse: sign == "-" })
        }
        ["bucket", image, word] => show(image, Call::Bucket { word: word.into() }),
        ["check", image, ref words @ ..] => {
            let words: Vec<u64> = words.iter().map(|w| number(w)).collect();
            show(image, Call::Check { out: words.len(), words })
        }
        ["list", image, from, out, ref budget @ ..] => {
            let given: Vec<u64> = budget.iter().map(|w| number(w)).collect();
            let budget: rules::BudgetWords = given.try_into().unwrap_or(rules::DEFAULT_BUDGET);
            let bytes = fs::read(image).unwrap();
            let needs = rules::needs(&bytes, &budget);
            let (from, out) = (number(from), number(out) as usize);
            show(image, Call::List { budget, from, frames: needs.frames, slot: needs.slot, out })
        }
        ["bound", background, ref counts @ ..] => {
            let background = background.parse().unwrap_or_else(|_| usage());
            let counts = counts.iter().map(|c| number(c)).collect();
            print!("{}", judge::text(&[], &Call::Bound { counts, background: f64::to_bits(background) }));
            true
        }
        ["plain", image, from, out] => {
            show(image, Call::Plain { from: number(from), out: number(out) as usize })
        }
        ["letters", image, letters] => show(image, Call::Letters { letters: letters.into() }),
        ["spell", image, letters, slot, from, to, ref words @ ..] => {
            let [slot, from, to] = [slot, from, to].map(number);
            let words = words.iter().map(|w| number(w)).collect();
            let out = to.saturating_sub(from) as usize;
            show(image, Call::Spell { letters: letters.into(), words, slot, from, to, out: out.min(1 << 30) })
        }
        ["write", image, names, ref words @ ..] => {
            let words: Vec<u64> = words.iter().map(|w| number(w)).collect();
            show(image, Call::Write { names: fs::read(names).unwrap(), out: 120 * words.len(), words })
        }
        ["read", image, names, family, text] => {
            let [names, text] = [names, text].map(|file| fs::read(file).unwrap());
            show(image, Call::Read { names, family: number(family), out: 2 + text.len(), text })
        }
        ["large", ports] => large::check(run.seed, number(ports), &run.subject()),
        ["image"] => {
            let job = input();
            let job = rules::job(&job).unwrap_or_else(|_| usage());
            io::stdout().write_all(job.image).is_ok()
        }
        ["example", name] => {
            let job = examples::named(name).unwrap_or_else(|| usage());
            io::stdout().write_all(&job).is_ok()
        }
        ["examples"] => match examples::check() {
            Ok(()) => {
                println!("panel E and P6 to P11: as document 01 has them");
                true
            }
            Err(text) => {
                println!("{text}");
                false
            }
        },
        ["compare", ref kinds @ ..] => {
            run.kinds = kinds.iter().map(|k| Kind::named(k).unwrap_or_else(|| usage())).collect();
            if run.kinds.is_empty() {
                let subject = run.subject();
                run.kinds = KINDS.into_iter().filter(|k| subject.has(*k)).collect();
            }
            compare::compare(&run).is_ok()
        }
        ["exhaustive", stride, ref kinds @ ..] => {
            run.kinds = kinds.iter().map(|k| Kind::named(k).unwrap_or_else(|| usage())).collect();
            compare::exhaustive(&run, number(stride)).is_ok()
        }
        ["discarded"] => compare::discarded(&run).is_ok(),
        ["raised"] => raised::pairs(&run).is_ok(),
        ["crops"] => crops::hold(&run).is_ok(),
        ["beds"] => beds::hold(&run).is_ok(),
        ["bedtools"] => bedtools::hold(&run).is_ok(),
        ["sentence"] => sentence::hold(&run).is_ok(),
        ["panels"] => panels::hold(&run).is_ok(),
        ["overlaps"] => overlaps::hold(&run).is_ok(),
        ["outside"] => {
            outside::show();
            true
        }
        ["program", path] => compare::program(&run, path).is_ok(),
        ["work", kind, seed, from, count, seconds, progress] => {
            (run.seed, run.from) = (number(seed), number(from));
            (run.count, run.seconds) = (number(count), number(seconds));
            let file = fs::OpenOptions::new().write(true).open(progress).unwrap();
            compare::work(&run, Kind::named(kind).unwrap(), Some(&file)).is_ok()
        }
        ["one"] => compare::one(&run).unwrap(),
        ["batch"] => {
            let mut out = io::BufWriter::new(io::stdout().lock());
            record::batch(&mut io::stdin().lock(), &mut out).unwrap();
            out.flush().is_ok()
        }
        ["record", folder] => sample::write(folder.as_ref(), run.seed).is_ok(),
        ["replay", ref files @ ..] => files.iter().all(|f| {
            let subject = run.subject();
            let mut bytes = &fs::read(f).unwrap()[..];
            match record::replay(&mut bytes, Some(&subject)).unwrap() {
                Ok(n) => println!("{f}: {n} records, as recorded"),
                Err(n) => println!("{f}: record {n} differs"),
            }
            bytes.is_empty()
        }),
        _ => usage(),
    };
    exit(i32::from(!done));
}
