//! The judge beside a subject, input by input, to the first difference.
use crate::{
    calls::{Call, Kind, Outcome},
    deep, features,
    gen::{self, Input, Size},
    judge,
    library::{self, Calls},
    record, shrink, stand_in,
};
use std::{
    collections::BTreeMap,
    env, fs,
    io::{self, Write},
    os::unix::fs::FileExt,
    process::{Child, Command, Stdio},
    time::{Duration, Instant},
};

#[derive(Clone)]
pub struct Run {
    pub stand_in: bool,
    pub seed: u64,
    pub from: u64,
    pub count: u64,
    /// A kind stops after this many seconds even if inputs are left.
    pub seconds: u64,
    pub kinds: Vec<Kind>,
}

impl Run {
    pub fn subject(&self) -> Calls {
        if self.stand_in {
            stand_in::calls()
        } else {
            library::linked()
        }
    }
}

/// What the runs met, by refusal and status.
#[derive(Default)]
struct Met {
    inputs: u64,
    waived: u64,
    too_long: u64,
    refusals: BTreeMap<u64, u64>,
    features: BTreeMap<&'static str, u64>,
}

impl Met {
    fn note(&mut self, image: &[u8], call: &Call, o: &Outcome, waived: bool) {
        self.inputs += 1;
        self.waived += u64::from(waived);
        *self.refusals.entry(o.reply[0]).or_default() += 1;
        for feature in features::of(image, call, o) {
            *self.features.entry(feature).or_default() += 1;
        }
    }
    fn line(&self, name: &str, seconds: f64) -> String {
        let refusals: Vec<String> = self.refusals.iter().map(|(k, n)| format!("{k}:{n}")).collect();
        let features: Vec<String> = self.features.iter().map(|(k, n)| format!("{k} {n}")).collect();
        let mut text = format!("{name}: {} inputs, no difference, {seconds:.1} s", self.inputs);
        text += &format!("; refusals {}", refusals.join(" "));
        if !features.is_empty() {
            text += &format!("; {}", features.join(", "));
        }
        if self.waived > 0 {
            text += &format!("; DNA test waived in {}", self.waived);
        }
        if self.too_long > 0 {
            text += &format!("; {} more left out, their walk too long", self.too_long);
        }
        text
    }
}

/// The judge's outcome, and whether the DNA test was waived for it; none where a walk is too long.
fn judged(image: &[u8], call: &Call) -> Option<(Outcome, bool)> {
    let before = original::sequence_index::waived();
    let o = judge::within_reach(image, call)?;
    Some((o, original::sequence_index::waived() > before))
}

/// Whether the two differ on an input that the original answers with this refusal, or none.
fn differs(subject: &Calls, input: &Input, refusal: u64) -> bool {
    let image = input.image();
    if input.call.kind() == Kind::Plain && !deep::is_short(&image) {
        return false;
    }
    let Some(wanted) = judge::within_reach(&image, &input.call) else { return false };
    wanted.reply[0] == refusal && subject.make(&image, &input.call) != wanted
}

fn smallest(subject: &Calls, input: &Input, refusal: u64) -> Input {
    shrink::smallest(input, Duration::from_secs(20), |i| differs(subject, i, refusal))
}

/// The difference in words, with the input as it can be fed to `oracle one`.
fn report(subject: Option<&Calls>, input: &Input, index: u64, run: &Run) -> String {
    let image = input.image();
    let kind = input.call.kind().name();
    let wanted = std::panic::catch_unwind(|| judge::outcome(&image, &input.call)).ok();
    let mut text = format!("DIFFERENCE in {kind}, input {index} of seed {}; the smallest found:\n", run.seed);
    text += &format!("panel {:?}\nedits {:?}\ncall {:?}\n", input.spec, input.edits, input.call);
    let mut bytes = Vec::new();
    record::write(&mut bytes, input.call.kind() as u64, &image, &record::arguments(&input.call), &[])
        .unwrap();
    text += &format!("request {}\n", bytes.iter().map(|b| format!("{b:02x}")).collect::<String>());
    let Some(wanted) = wanted else { return text + "the judge itself dies\n" };
    text += &format!("original answers {}\n", judge::spaced(&wanted.reply));
    if let Some(subject) = subject {
        let found = subject.make(&image, &input.call);
        text += &format!("subject answers  {}\n", judge::spaced(&found.reply));
        for (i, (w, f)) in wanted.rooms.iter().zip(&found.rooms).enumerate() {
            if w.len() != f.len() {
                text += &format!("room {i}: written past its end\n");
            }
            let differ = w.iter().zip(f).enumerate().filter(|(_, (a, b))| a != b);
            for (at, (a, b)) in differ.take(6) {
                text += &format!("room {i} word {at}: original {a}, subject {b}\n");
            }
        }
    } else {
        text += "subject: dies, or does not come back\n";
    }
    text
}

/// One kind in this process. `progress` is told the number of each input before its call.
pub fn work(run: &Run, kind: Kind, progress: Option<&fs::File>) -> Result<(), ()> {
    let subject = run.subject();
    let start = Instant::now();
    let mut met = Met::default();
    for index in run.from..run.from + run.count {
        if index % 64 == 0 && start.elapsed().as_secs() >= run.seconds {
            break;
        }
        if let Some(file) = progress {
            file.write_all_at(&index.to_le_bytes(), 0).unwrap();
        }
        let input = gen::input(run.seed, kind, index, Size::Wide);
        let image = input.image();
        let Some((wanted, waived)) = judged(&image, &input.call) else {
            met.too_long += 1;
            continue;
        };
        if subject.make(&image, &input.call) != wanted {
            let found = start.elapsed().as_secs_f64();
            let least = smallest(&subject, &input, wanted.reply[0]);
            print!("{}", report(Some(&subject), &least, index, run));
            println!("found after {found:.2} s, {} inputs", index - run.from + 1);
            return Err(());
        }
        met.note(&image, &input.call, &wanted, waived);
    }
    println!("{}", met.line(kind.name(), start.elapsed().as_secs_f64()));
    Ok(())
}

/// Every tiny panel whose number leaves `from` when divided by `stride`, through every call
/// of the kinds that `gen::tiny_calls` has for it.
pub fn exhaustive(run: &Run, stride: u64) -> Result<(), ()> {
    let subject = run.subject();
    for &kind in &run.kinds {
        let start = Instant::now();
        let mut met = Met::default();
        let mut panels = 0;
        for index in (run.from..).step_by(stride as usize) {
            let Some(spec) = gen::tiny(index) else { break };
            panels += 1;
            for call in gen::tiny_calls(&spec, kind) {
                let input = Input { spec: spec.clone(), edits: vec![], call };
                let image = input.image();
                let Some((wanted, waived)) = judged(&image, &input.call) else {
                    met.too_long += 1;
                    continue;
                };
                if subject.make(&image, &input.call) != wanted {
                    let least = smallest(&subject, &input, wanted.reply[0]);
                    print!("{}", report(Some(&subject), &least, index, run));
                    return Err(());
                }
                met.note(&image, &input.call, &wanted, waived);
            }
        }
        println!("{panels} tiny panels, {}", met.line(kind.name(), start.elapsed().as_secs_f64()));
    }
    Ok(())
}

/// The walk program, one process a job, held to the judge's sheet.
pub fn program(run: &Run, path: &str) -> Result<(), ()> {
    let start = Instant::now();
    let mut kinds: BTreeMap<String, u64> = BTreeMap::new();
    for index in run.from..run.from + run.count {
        if start.elapsed().as_secs() >= run.seconds {
            break;
        }
        let size = if index % 4 == 0 { Size::Wide } else { Size::Small };
        let job = gen::job(run.seed, index, size);
        let wanted = judge::sheet(&job);
        let mut command = match env::var("ORACLE_RUNNER") {
            Ok(runner) if !runner.is_empty() => {
                let mut c = Command::new(runner);
                c.arg(path);
                c
            }
            _ => Command::new(path),
        };
        let mut child = command.stdin(Stdio::piped()).stdout(Stdio::piped()).spawn().unwrap();
        // A program that refuses early may not read to the end.
        let _ = child.stdin.take().unwrap().write_all(&job);
        let output = child.wait_with_output().unwrap();
        if output.stdout != wanted.as_bytes() {
            let name = env::temp_dir().join(format!("oracle-job-{}", std::process::id()));
            fs::write(&name, &job).unwrap();
            println!("DIFFERENCE in job {index} of seed {}, kept as {}", run.seed, name.display());
            println!("original:\n{wanted}program:\n{}", String::from_utf8_lossy(&output.stdout));
            return Err(());
        }
        let first = wanted.lines().next().unwrap_or("").split(' ').take(2).collect::<Vec<_>>().join(" ");
        *kinds.entry(first).or_default() += 1;
    }
    let seconds = start.elapsed().as_secs_f64();
    println!("program: {} jobs, no difference, {seconds:.1} s; {kinds:?}", kinds.values().sum::<u64>());
    Ok(())
}

fn own_command(run: &Run) -> Command {
    let exe = env::current_exe().unwrap();
    // On another machine than x86-64 the program is run by an emulator.
    let mut command = match env::var("ORACLE_RUNNER") {
        Ok(runner) if !runner.is_empty() => {
            let mut c = Command::new(runner);
            c.arg(exe);
            c
        }
        _ => Command::new(exe),
    };
    if run.stand_in {
        command.arg("--stand-in");
    }
    command
}

/// Waits, but not for ever.
fn wait(child: &mut Child, mut stuck: impl FnMut() -> bool) -> Option<i32> {
    loop {
        if let Some(status) = child.try_wait().unwrap() {
            return status.code();
        }
        if stuck() {
            child.kill().unwrap();
            child.wait().unwrap();
            return None;
        }
        std::thread::sleep(Duration::from_millis(2));
    }
}

/// Whether a fresh process dies or hangs on this input; an answer, right or wrong, is none.
fn dies(run: &Run, input: &Input) -> bool {
    let mut bytes = Vec::new();
    let image = input.image();
    record::write(&mut bytes, input.call.kind() as u64, &image, &record::arguments(&input.call), &[])
        .unwrap();
    let mut command = own_command(run);
    command.arg("one").stdin(Stdio::piped()).stdout(Stdio::null()).stderr(Stdio::null());
    let mut child = command.spawn().unwrap();
    let _ = child.stdin.take().unwrap().write_all(&bytes);
    let end = Instant::now() + Duration::from_secs(10);
    !matches!(wait(&mut child, || Instant::now() > end), Some(0 | 1))
}

/// Each kind in a process of its own, so that a call that dies is found too.
pub fn compare(run: &Run) -> Result<(), ()> {
    let subject = run.subject();
    let missing: Vec<&str> = run.kinds.iter().filter(|k| !subject.has(**k)).map(|k| k.name()).collect();
    if !missing.is_empty() {
        println!("not in this build: {}", missing.join(" "));
        return Err(());
    }
    for &kind in &run.kinds {
        let path = env::temp_dir().join(format!("oracle-progress-{}-{}", std::process::id(), kind.name()));
        fs::write(&path, u64::MAX.to_le_bytes()).unwrap();
        let mut command = own_command(run);
        command.args(["work", kind.name()]);
        command.args([run.seed, run.from, run.count, run.seconds].map(|x| x.to_string()));
        let mut child = command.arg(&path).spawn().unwrap();
        let reached = || u64::from_le_bytes(fs::read(&path).unwrap()[..8].try_into().unwrap());
        let (mut last, mut since) = (u64::MAX, Instant::now());
        let code = wait(&mut child, || {
            let now = reached();
            if now != last {
                (last, since) = (now, Instant::now());
            }
            since.elapsed().as_secs() > 60
        });
        let index = reached();
        let _ = fs::remove_file(&path);
        match code {
            Some(0) => continue,
            Some(1) => return Err(()),
            _ => {
                let input = gen::input(run.seed, kind, index, Size::Wide);
                let least = shrink::smallest(&input, Duration::from_secs(60), |i| dies(run, i));
                print!("{}", report(None, &least, index, run));
                return Err(());
            }
        }
    }
    Ok(())
}

/// The oracle's own count of "discarded" in stopped walks, held to the original's word.
pub fn discarded(run: &Run) -> Result<(), ()> {
    let (mut told, mut lost) = (0, 0);
    for index in run.from..run.from + run.count {
        let input = gen::input(run.seed, Kind::Search, index, Size::Wide);
        let Some((counted, said)) = judge::discarded_by_original(&input.image(), &input.call) else {
            continue;
        };
        if counted != said {
            println!("input {index} of seed {}: counted {counted}, the original says {said}", run.seed);
            return Err(());
        }
        told += 1;
        lost += u64::from(said);
    }
    println!("discarded: as the original has it in {told} stopped walks, {lost} of them with a loss");
    Ok(())
}

/// One request from standard input, answered by both.
pub fn one(run: &Run) -> io::Result<bool> {
    let mut same = true;
    while let Some((request, _)) = record::read(&mut io::stdin().lock())? {
        let record::Request::Call(image, call) = request else { continue };
        let Some(wanted) = judge::within_reach(&image, &call) else {
            println!("too long");
            continue;
        };
        let found = run.subject().make(&image, &call);
        println!("original {}", judge::spaced(&wanted.reply));
        println!("subject  {}", judge::spaced(&found.reply));
        same &= wanted == found;
    }
    Ok(same)
}
