//! What 02's item 2 says of writing and reading together: an assignment that the check accepts is
//! written and read back as the same words, and lines that are read are written as the same bytes; of
//! the original's check with the plain reading, and of a subject.
use crate::{
    calls::{Call, Kind, Outcome},
    compare::Run,
    features::joined,
    gen::{self, Size},
    judge, rules,
};

pub type Ask<'a> = &'a dyn Fn(&[u8], &Call) -> Outcome;

/// The text of an assignment in a room of its own size, where it is not refused.
pub fn written(ask: Ask, image: &[u8], names: &[u8], words: &[u64]) -> Option<Vec<u8>> {
    let call = |out| Call::Write { names: names.into(), words: words.into(), out };
    let room = 120 * words.len();
    let length = ask(image, &call(room)).reply[2] as usize;
    let o = ask(image, &call(length));
    (o.reply == [0, 0, length as u64]).then(|| o.rooms[0].iter().map(|b| *b as u8).collect())
}

/// The words of a text in a room of their own size, or the refusal.
pub fn read(ask: Ask, image: &[u8], names: &[u8], family: u64, text: &[u8]) -> Result<Vec<u64>, [u64; 2]> {
    let call = |out| Call::Read { names: names.into(), family, text: text.into(), out };
    // A line has at least 13 bytes, and five words at most.
    let found = ask(image, &call(2 + text.len())).reply;
    if found[0] != 0 {
        return Err([found[0], found[1]]);
    }
    let o = ask(image, &call(found[2] as usize));
    if o.reply == found {
        Ok(o.rooms[0].clone())
    } else {
        Err([o.reply[0], o.reply[1]])
    }
}

#[derive(Default)]
struct Met {
    assignments: u64,
    joined: u64,
    reverse: u64,
    routes: u64,
    texts: u64,
}

/// What of the item an answer breaks, of an assignment that the check accepts.
fn broken(ask: Ask, image: &[u8], names: &[u8], words: &[u64]) -> Option<&'static str> {
    let Some(text) = written(ask, image, names, words) else {
        return Some("an accepted assignment is not written");
    };
    if read(ask, image, names, words[0], &text).as_deref() != Ok(words) {
        return Some("what is written is not read back as the same words");
    }
    None
}

/// Likewise of any text.
fn broken_by_text(ask: Ask, image: &[u8], names: &[u8], family: u64, text: &[u8]) -> Option<&'static str> {
    let words = read(ask, image, names, family, text).ok()?;
    if written(ask, image, names, &words).as_deref() != Some(text) {
        return Some("what is read is not written as the same bytes");
    }
    None
}

pub fn hold(run: &Run) -> Result<(), ()> {
    let subject = run.subject();
    let library = |image: &[u8], call: &Call| subject.make(image, call);
    let asks: [Ask; 2] = [&judge::outcome, &library];
    let names_of = ["the plain reading", "the subject"];
    let both = subject.has(Kind::Write) && subject.has(Kind::Read);
    let mut met = Met::default();
    let say = |who: usize, index: u64, kind: Kind, what: &str| {
        println!("BROKEN by {}, input {index} of {}, seed {}: {what}", names_of[who], kind.name(), run.seed);
    };
    for index in run.from..run.from + run.count {
        let input = gen::input(run.seed, Kind::Write, index, Size::Wide);
        let image = input.image();
        let Call::Write { names, words, .. } = input.call else { unreachable!() };
        let check = Call::Check { out: words.len(), words: words.clone() };
        let checked = judge::outcome(&image, &check);
        if checked.reply[0] == 0 && rules::names(&image, &names).is_some() {
            for i in 0..1 + usize::from(both) {
                if let Some(what) = broken(asks[i], &image, &names, &words) {
                    say(i, index, Kind::Write, what);
                    return Err(());
                }
            }
            let routes = gen::routes_of(&words);
            met.assignments += 1;
            met.joined += u64::from(routes.iter().any(|r| joined(r).len() < r.len()));
            met.reverse += u64::from(routes.iter().flatten().any(|s| s[3] == 1));
            met.routes += u64::from(routes.len() > 1);
        }
        let input = gen::input(run.seed, Kind::Read, index, Size::Wide);
        let image = input.image();
        let Call::Read { names, family, text, .. } = input.call else { unreachable!() };
        if rules::panel(&image) == 0 && read(&judge::outcome, &image, &names, family, &text).is_ok() {
            for i in 0..1 + usize::from(both) {
                if let Some(what) = broken_by_text(asks[i], &image, &names, family, &text) {
                    say(i, index, Kind::Read, what);
                    return Err(());
                }
            }
            met.texts += 1;
        }
    }
    let Met { assignments, joined, reverse, routes, texts } = met;
    println!("beds: {assignments} assignments are written and read back, {joined} not in normal form, {reverse} with a reverse piece, {routes} of several routes; {texts} texts are read and written back");
    Ok(())
}
