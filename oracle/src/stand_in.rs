//! The plain Rust behind the C signatures, for comparing before the library has them.
use crate::{
    bed, engine,
    library::*,
    plain::{self, Budget, Panel, Refusal},
    spelling,
};
use std::slice::{from_raw_parts as read, from_raw_parts_mut as lend};

pub fn calls() -> Calls {
    Calls {
        panel: Some(check_panel),
        port: Some(port_at_cut),
        bucket: Some(hub_bucket),
        check: Some(check_assignment),
        list: Some(list),
        search: Some(search),
        bound: Some(lower_bound),
        plain: Some(plain_list),
        letters: Some(check_letters),
        spell: Some(spell),
        write: Some(write_bed),
        read: Some(read_bed),
    }
}

fn budget(b: SearchBudget) -> Budget {
    Budget {
        max_work: b.max_work,
        max_evaluations: b.max_evaluations,
        max_frontier: b.max_frontier,
        max_optima: b.max_optima,
        tie_width: b.tie_width,
    }
}

/// A reply that carries a refusal and nothing else.
macro_rules! refused {
    ($reply:ident, $refusal:expr) => {{
        let Refusal { number, place } = $refusal;
        $reply { refusal: number, place, ..Default::default() }
    }};
}

unsafe extern "C" fn check_panel(image: *const u8, len: usize) -> PanelReply {
    match Panel::parse(read(image, len)) {
        Ok(_) => PanelReply::default(),
        Err(r) => refused!(PanelReply, r),
    }
}

unsafe extern "C" fn port_at_cut(
    image: *const u8,
    len: usize,
    lane: u64,
    cut: u64,
    reverse: bool,
) -> PortReply {
    let panel = match Panel::parse(read(image, len)) {
        Ok(panel) => panel,
        Err(r) => return refused!(PortReply, r),
    };
    match panel.port_at_cut(lane, cut, reverse) {
        Err(r) => refused!(PortReply, r),
        Ok(None) => PortReply::default(),
        Ok(Some(p)) => PortReply { found: 1, anchor: p.anchor, word: p.word, ..Default::default() },
    }
}

unsafe extern "C" fn hub_bucket(
    image: *const u8,
    len: usize,
    word: *const u8,
    word_len: usize,
) -> BucketReply {
    match Panel::parse(read(image, len)).and_then(|p| p.hub_bucket(read(word, word_len))) {
        Err(r) => refused!(BucketReply, r),
        Ok((lo, hi)) => BucketReply { lo, hi, ..Default::default() },
    }
}

unsafe extern "C" fn check_assignment(
    image: *const u8,
    len: usize,
    words: *const u64,
    words_len: usize,
    out: *mut u64,
    out_len: usize,
) -> AssignmentReply {
    let panel = Panel::parse(read(image, len));
    match panel.and_then(|p| p.check_assignment(read(words, words_len), lend(out, out_len))) {
        Err(r) => refused!(AssignmentReply, r),
        Ok(words) => AssignmentReply { words: words as u64, ..Default::default() },
    }
}

unsafe extern "C" fn list(
    image: *const u8,
    len: usize,
    b: SearchBudget,
    from: u64,
    frames: *mut u64,
    frames_len: usize,
    slot: *mut u64,
    slot_len: usize,
    out: *mut u64,
    out_len: usize,
) -> ListReply {
    let panel = Panel::parse(read(image, len));
    let (frames, slot, out) = (lend(frames, frames_len), lend(slot, slot_len), lend(out, out_len));
    match panel.and_then(|p| p.list(budget(b), from, frames, slot, out)) {
        Err(r) => refused!(ListReply, r),
        Ok(l) => ListReply {
            status: l.status as u64,
            written: l.written,
            words: l.words,
            evaluations: l.tally.evaluations,
            ..Default::default()
        },
    }
}

unsafe extern "C" fn search(
    image: *const u8,
    len: usize,
    b: SearchBudget,
    scores: *const f64,
    scores_len: usize,
    frames: *mut u64,
    frames_len: usize,
    kept: *mut u64,
    kept_len: usize,
    kept_scores: *mut f64,
    kept_scores_len: usize,
) -> SearchReply {
    let panel = Panel::parse(read(image, len));
    let scores = read(scores, scores_len);
    let (frames, kept) = (lend(frames, frames_len), lend(kept, kept_len));
    let kept_scores = lend(kept_scores, kept_scores_len);
    match panel.and_then(|p| p.search(budget(b), scores, frames, kept, kept_scores)) {
        Err(r) => refused!(SearchReply, r),
        Ok(f) => SearchReply {
            refusal: 0,
            place: 0,
            status: f.status as u64,
            work: f.tally.work,
            evaluations: f.tally.evaluations,
            natives: f.tally.natives,
            donors: f.tally.donors,
            non_native: f.tally.non_native,
            mixed: f.tally.mixed,
            mixed_identity: f.tally.mixed_identity,
            switches: f.tally.switches,
            families: f.tally.families,
            optima: f.optima,
            discarded: u64::from(f.discarded),
            frames: f.frames,
            pending: u64::from(f.pending),
        },
    }
}

unsafe extern "C" fn lower_bound(counts: *const u64, len: usize, background: f64) -> BoundReply {
    match plain::lower_bound(read(counts, len), background) {
        Err(r) => refused!(BoundReply, r),
        Ok(None) => BoundReply::default(),
        Ok(Some(bound)) => BoundReply { given: 1, bound, ..Default::default() },
    }
}

unsafe extern "C" fn plain_list(
    image: *const u8,
    len: usize,
    from: u64,
    out: *mut u64,
    out_len: usize,
) -> PlainReply {
    let panel = Panel::parse(read(image, len));
    match panel.and_then(|p| engine::list(&p, from, lend(out, out_len))) {
        Err(r) => refused!(PlainReply, r),
        Ok((written, words)) => PlainReply { written, words, ..Default::default() },
    }
}

unsafe extern "C" fn check_letters(
    image: *const u8,
    len: usize,
    letters: *const u8,
    letters_len: usize,
) -> PanelReply {
    let panel = Panel::parse(read(image, len));
    match panel.and_then(|p| spelling::lanes(&p, read(letters, letters_len)).map(|_| ())) {
        Err(r) => refused!(PanelReply, r),
        Ok(()) => PanelReply::default(),
    }
}

unsafe extern "C" fn spell(
    image: *const u8,
    len: usize,
    letters: *const u8,
    letters_len: usize,
    words: *const u64,
    words_len: usize,
    slot: u64,
    from: u64,
    to: u64,
    out: *mut u8,
    out_len: usize,
) -> SpellReply {
    let (letters, words) = (read(letters, letters_len), read(words, words_len));
    let panel = Panel::parse(read(image, len));
    match panel.and_then(|p| spelling::spell(&p, letters, words, slot, from, to, lend(out, out_len))) {
        Err(r) => refused!(SpellReply, r),
        Ok(letters) => SpellReply { letters, ..Default::default() },
    }
}

unsafe extern "C" fn write_bed(
    image: *const u8,
    len: usize,
    names: *const u8,
    names_len: usize,
    words: *const u64,
    words_len: usize,
    out: *mut u8,
    out_len: usize,
) -> BedReply {
    let (names, words) = (read(names, names_len), read(words, words_len));
    let panel = Panel::parse(read(image, len));
    match panel.and_then(|p| bed::write(&p, names, words, lend(out, out_len))) {
        Err(r) => refused!(BedReply, r),
        Ok(length) => BedReply { length, ..Default::default() },
    }
}

unsafe extern "C" fn read_bed(
    image: *const u8,
    len: usize,
    names: *const u8,
    names_len: usize,
    family: u64,
    text: *const u8,
    text_len: usize,
    out: *mut u64,
    out_len: usize,
) -> BedReply {
    let (names, text) = (read(names, names_len), read(text, text_len));
    let panel = Panel::parse(read(image, len));
    match panel.and_then(|p| bed::read(&p, names, family, text, lend(out, out_len))) {
        Err(r) => refused!(BedReply, r),
        Ok(length) => BedReply { length, ..Default::default() },
    }
}
