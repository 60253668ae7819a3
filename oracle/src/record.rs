//! The record format of requests and recorded answers; README.md describes it.
use crate::{
    calls::{Call, Outcome},
    judge, rules,
};
use std::io::{self, Read, Write};

/// A call with its image, or a job of the walk program.
pub enum Request {
    Call(Vec<u8>, Call),
    Job(Vec<u8>),
}

pub const JOB: u64 = 7;

fn padded(bytes: &[u8]) -> Vec<u8> {
    let mut out = bytes.to_vec();
    out.resize(bytes.len().div_ceil(8) * 8, 0);
    out
}

fn as_words(bytes: &[u8]) -> Vec<u64> {
    padded(bytes).chunks(8).map(|c| u64::from_le_bytes(c.try_into().unwrap())).collect()
}

/// The argument words of a call.
pub fn arguments(call: &Call) -> Vec<u64> {
    match call {
        Call::Panel => vec![],
        Call::Port { lane, cut, reverse } => vec![*lane, *cut, u64::from(*reverse)],
        Call::Bucket { word } => counted(word),
        Call::Check { words, out } => [vec![*out as u64, words.len() as u64], words.clone()].concat(),
        Call::List { budget, from, frames, slot, out } => {
            [&budget[..], &[*from, *frames as u64, *slot as u64, *out as u64]].concat()
        }
        Call::Search { budget, scores, frames, kept, kept_scores } => {
            let lengths = [*frames, *kept, *kept_scores, scores.len()].map(|x| x as u64);
            [&budget[..], &lengths, scores].concat()
        }
        Call::Bound { counts, background } => [&[*background, counts.len() as u64], &counts[..]].concat(),
        Call::Plain { from, out } => vec![*from, *out as u64],
        Call::Letters { letters } => counted(letters),
        Call::Spell { letters, words, slot, from, to, out } => {
            [counted(letters), vec![*out as u64, *slot, *from, *to, words.len() as u64], words.clone()]
                .concat()
        }
        Call::Write { names, words, out } => {
            [counted(names), vec![*out as u64, words.len() as u64], words.clone()].concat()
        }
        Call::Read { names, family, text, out } => {
            [counted(names), vec![*out as u64, *family], counted(text)].concat()
        }
    }
}

/// How many bytes, and the bytes padded to words.
fn counted(bytes: &[u8]) -> Vec<u64> {
    [vec![bytes.len() as u64], as_words(bytes)].concat()
}

/// The bytes at the front of words that `counted` made, and the words behind them.
fn uncounted(words: &[u64]) -> Option<(Vec<u8>, &[u64])> {
    let (n, rest) = words.split_first()?;
    let n = usize::try_from(*n).ok()?;
    let own = rest.get(..n.div_ceil(8))?;
    let bytes = own.iter().flat_map(|w| w.to_le_bytes()).take(n).collect();
    Some((bytes, &rest[own.len()..]))
}

fn call(kind: u64, words: &[u64]) -> Option<Call> {
    let five = |w: &[u64]| w[..5].try_into().unwrap();
    Some(match (kind, words) {
        (1, []) => Call::Panel,
        (2, [lane, cut, reverse]) => Call::Port { lane: *lane, cut: *cut, reverse: *reverse == 1 },
        (3, [length, rest @ ..]) => {
            let mut word: Vec<u8> = rest.iter().flat_map(|w| w.to_le_bytes()).collect();
            word.truncate(*length as usize);
            Call::Bucket { word }
        }
        (4, [out, n, rest @ ..]) if rest.len() as u64 == *n => {
            Call::Check { words: rest.to_vec(), out: *out as usize }
        }
        (5, w) if w.len() == 9 => Call::List {
            budget: five(w),
            from: w[5],
            frames: w[6] as usize,
            slot: w[7] as usize,
            out: w[8] as usize,
        },
        (6, w) if w.len() >= 9 && w.len() as u64 == 9 + w[8] => Call::Search {
            budget: five(w),
            scores: w[9..].to_vec(),
            frames: w[5] as usize,
            kept: w[6] as usize,
            kept_scores: w[7] as usize,
        },
        (8, [background, n, rest @ ..]) if rest.len() as u64 == *n => {
            Call::Bound { counts: rest.to_vec(), background: *background }
        }
        (9, [from, out]) => Call::Plain { from: *from, out: *out as usize },
        (10, words) => match uncounted(words)? {
            (letters, []) => Call::Letters { letters },
            _ => return None,
        },
        (11, words) => match uncounted(words)? {
            (letters, [out, slot, from, to, n, words @ ..]) if words.len() as u64 == *n => Call::Spell {
                letters,
                words: words.to_vec(),
                slot: *slot,
                from: *from,
                to: *to,
                out: *out as usize,
            },
            _ => return None,
        },
        (12, words) => match uncounted(words)? {
            (names, [out, n, words @ ..]) if words.len() as u64 == *n => {
                Call::Write { names, words: words.to_vec(), out: *out as usize }
            }
            _ => return None,
        },
        (13, words) => match uncounted(words)? {
            (names, [out, family, text @ ..]) => match uncounted(text)? {
                (text, []) => Call::Read { names, family: *family, text, out: *out as usize },
                _ => return None,
            },
            _ => return None,
        },
        _ => return None,
    })
}

/// The expected words of a call: its reply, then what it leaves in the rooms where it does.
pub fn expected(image: &[u8], call: &Call, o: &Outcome) -> Vec<u64> {
    let mut words = o.reply.clone();
    if o.reply[0] != 0 {
        return words;
    }
    match call {
        Call::Panel | Call::Port { .. } | Call::Bucket { .. } | Call::Bound { .. } | Call::Letters { .. } => {
        }
        Call::Spell { .. } | Call::Write { .. } => {
            let written: Vec<u8> = o.rooms[0][..o.reply[2] as usize].iter().map(|b| *b as u8).collect();
            words.extend(as_words(&written));
        }
        Call::Check { .. } | Call::Read { .. } => words.extend(&o.rooms[0][..o.reply[2] as usize]),
        Call::Plain { .. } => words.extend(&o.rooms[0][..o.reply[3] as usize]),
        Call::List { budget, .. } => {
            let needed = rules::needs(image, budget).frames;
            // A record in use is never all zero: its terminal or its port word is not,
            // or a hub or a leading piece stands in it.
            let records = o.rooms[0][..needed].chunks(10).take_while(|r| r.iter().any(|w| *w != 0)).count();
            words.push(records as u64);
            words.extend(&o.rooms[0][..10 * records]);
            words.extend(&o.rooms[2][..o.reply[4] as usize]);
        }
        Call::Search { budget, .. } => {
            words.extend(&o.rooms[0][..10 * (o.reply[14] + o.reply[15]) as usize]);
            let v = rules::needs(image, budget).slot;
            let slots = if o.reply[4] == 0 { 0 } else { 1 + o.reply[12] as usize };
            for i in 0..slots {
                let slot = &o.rooms[1][i * v..(i + 1) * v];
                let used = judge::used_words(slot);
                words.push(o.rooms[2][i]);
                words.push(used as u64);
                words.extend(&slot[..used]);
            }
        }
    }
    words
}

/// One record; no expected words in a request.
pub fn write(out: &mut impl Write, kind: u64, image: &[u8], args: &[u64], answer: &[u64]) -> io::Result<()> {
    let body = padded(image);
    let size = 8 * (5 + args.len() + answer.len()) + body.len();
    let head = [kind, size as u64, image.len() as u64, args.len() as u64, answer.len() as u64];
    head.iter().try_for_each(|w| out.write_all(&w.to_le_bytes()))?;
    out.write_all(&body)?;
    args.iter().chain(answer).try_for_each(|w| out.write_all(&w.to_le_bytes()))
}

/// The next record, its answer with it.
pub fn read(from: &mut impl Read) -> io::Result<Option<(Request, Vec<u64>)>> {
    let mut head = [0; 40];
    let mut got = 0;
    while got < 40 {
        match from.read(&mut head[got..])? {
            0 if got == 0 => return Ok(None),
            0 => return Err(io::Error::other("a record breaks off")),
            n => got += n,
        }
    }
    let head = as_words(&head);
    let mut image = vec![0; (head[2] as usize).div_ceil(8) * 8];
    from.read_exact(&mut image)?;
    image.truncate(head[2] as usize);
    let mut words = vec![0; 8 * (head[3] + head[4]) as usize];
    from.read_exact(&mut words)?;
    let words = as_words(&words);
    let (args, answer) = words.split_at(head[3] as usize);
    let request = if head[0] == JOB {
        Request::Job(image)
    } else {
        let call = call(head[0], args).ok_or_else(|| io::Error::other("not a request"))?;
        Request::Call(image, call)
    };
    Ok(Some((request, answer.to_vec())))
}

/// The judge's words for a request.
pub fn answer(request: &Request) -> Vec<u64> {
    match request {
        Request::Call(image, call) => expected(image, call, &judge::outcome(image, call)),
        Request::Job(job) => text_words(&judge::sheet(job)),
    }
}

pub fn text_words(text: &str) -> Vec<u64> {
    counted(text.as_bytes())
}

/// Answers every request of a stream.
pub fn batch(from: &mut impl Read, out: &mut impl Write) -> io::Result<u64> {
    let mut n = 0;
    while let Some((request, _)) = read(from)? {
        let found = answer(&request);
        match &request {
            Request::Call(image, call) => write(out, call.kind() as u64, image, &arguments(call), &found)?,
            Request::Job(job) => write(out, JOB, job, &[], &found)?,
        }
        n += 1;
    }
    Ok(n)
}

/// Holds recorded answers to the judge, and to a subject where there is one.
pub fn replay(from: &mut impl Read, subject: Option<&crate::library::Calls>) -> io::Result<Result<u64, u64>> {
    let mut n = 0;
    while let Some((request, recorded)) = read(from)? {
        let mut same = answer(&request) == recorded;
        if let (Some(calls), Request::Call(image, call)) = (subject, &request) {
            if calls.has(call.kind()) {
                same &= expected(image, call, &calls.make(image, call)) == recorded;
            }
        }
        if !same {
            return Ok(Err(n));
        }
        n += 1;
    }
    Ok(Ok(n))
}
