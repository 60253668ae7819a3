//! The exported calls of libpanel_routes.a, each behind a safe function. A pointer and its
//! length are always those of one slice, so that a call reads and writes only what it was
//! lent (of an empty slice nothing); what a call may write to is lent as `&mut`, so that
//! nothing overlaps it. The calls ask nothing else: each checks its input itself.
use crate::{Refusal, SearchBudget};
use std::ops::Range;

#[repr(C)]
struct PanelReply {
    refusal: u64,
    place: u64,
}

#[repr(C)]
struct PortReply {
    refusal: u64,
    place: u64,
    found: u64,
    anchor: u64,
    word: [u8; 32],
}

#[repr(C)]
struct BucketReply {
    refusal: u64,
    place: u64,
    lo: u64,
    hi: u64,
}

#[repr(C)]
struct AssignmentReply {
    refusal: u64,
    place: u64,
    words: u64,
}

#[repr(C)]
pub struct ListReply {
    refusal: u64,
    place: u64,
    pub status: u64,
    pub written: u64,
    pub words: u64,
    pub evaluations: u64,
}

#[repr(C)]
pub struct SearchReply {
    refusal: u64,
    place: u64,
    pub status: u64,
    pub work: u64,
    pub evaluations: u64,
    pub natives: u64,
    pub donors: u64,
    pub non_native: u64,
    pub mixed: u64,
    pub mixed_identity: u64,
    pub switches: u64,
    pub families: u64,
    pub optima: u64,
    pub discarded: u64,
    pub frames: u64,
    pub pending: u64,
}

#[repr(C)]
pub struct PlainReply {
    refusal: u64,
    place: u64,
    pub written: u64,
    pub words: u64,
}

#[repr(C)]
struct SpellReply {
    refusal: u64,
    place: u64,
    letters: u64,
}

#[repr(C)]
struct BedReply {
    refusal: u64,
    place: u64,
    length: u64,
}

#[repr(C)]
struct BoundReply {
    refusal: u64,
    place: u64,
    given: u64,
    bound: f64,
}

extern "C" {
    fn panel_routes_check_panel(image: *const u8, image_len: usize) -> PanelReply;
    fn panel_routes_port_at_cut(
        image: *const u8,
        image_len: usize,
        lane: u64,
        cut: u64,
        reverse: bool,
    ) -> PortReply;
    fn panel_routes_hub_bucket(
        image: *const u8,
        image_len: usize,
        word: *const u8,
        word_len: usize,
    ) -> BucketReply;
    fn panel_routes_check_assignment(
        image: *const u8,
        image_len: usize,
        words: *const u64,
        words_len: usize,
        out: *mut u64,
        out_len: usize,
    ) -> AssignmentReply;
    fn panel_routes_list(
        image: *const u8,
        image_len: usize,
        budget: SearchBudget,
        from: u64,
        frames: *mut u64,
        frames_len: usize,
        slot: *mut u64,
        slot_len: usize,
        out: *mut u64,
        out_len: usize,
    ) -> ListReply;
    fn panel_routes_search(
        image: *const u8,
        image_len: usize,
        budget: SearchBudget,
        scores: *const f64,
        scores_len: usize,
        frames: *mut u64,
        frames_len: usize,
        kept: *mut u64,
        kept_len: usize,
        kept_scores: *mut f64,
        kept_scores_len: usize,
    ) -> SearchReply;
    fn panel_routes_plain_list(
        image: *const u8,
        image_len: usize,
        from: u64,
        out: *mut u64,
        out_len: usize,
    ) -> PlainReply;
    fn panel_routes_check_letters(
        image: *const u8,
        image_len: usize,
        letters: *const u8,
        letters_len: usize,
    ) -> PanelReply;
    fn panel_routes_spell(
        image: *const u8,
        image_len: usize,
        letters: *const u8,
        letters_len: usize,
        words: *const u64,
        words_len: usize,
        slot: u64,
        from: u64,
        to: u64,
        out: *mut u8,
        out_len: usize,
    ) -> SpellReply;
    fn panel_routes_write_bed(
        image: *const u8,
        image_len: usize,
        names: *const u8,
        names_len: usize,
        words: *const u64,
        words_len: usize,
        out: *mut u8,
        out_len: usize,
    ) -> BedReply;
    fn panel_routes_read_bed(
        image: *const u8,
        image_len: usize,
        names: *const u8,
        names_len: usize,
        family: u64,
        text: *const u8,
        text_len: usize,
        out: *mut u64,
        out_len: usize,
    ) -> BedReply;
    fn panel_routes_lower_bound(counts: *const u64, counts_len: usize, background: f64) -> BoundReply;
}

fn given<T>(refusal: u64, place: u64, answer: T) -> Result<T, Refusal> {
    match refusal {
        0 => Ok(answer),
        number => Err(Refusal::new(number, place)),
    }
}

pub fn check_panel(image: &[u8]) -> Result<(), Refusal> {
    let r = unsafe { panel_routes_check_panel(image.as_ptr(), image.len()) };
    given(r.refusal, r.place, ())
}

/// The port's anchor and its word, zero-padded.
pub fn port_at_cut(
    image: &[u8],
    lane: u64,
    cut: u64,
    reverse: bool,
) -> Result<Option<(u64, [u8; 32])>, Refusal> {
    let r = unsafe { panel_routes_port_at_cut(image.as_ptr(), image.len(), lane, cut, reverse) };
    given(r.refusal, r.place, (r.found == 1).then_some((r.anchor, r.word)))
}

pub fn hub_bucket(image: &[u8], word: &[u8]) -> Result<Range<u64>, Refusal> {
    let r = unsafe { panel_routes_hub_bucket(image.as_ptr(), image.len(), word.as_ptr(), word.len()) };
    given(r.refusal, r.place, r.lo..r.hi)
}

/// How many words of `out` the normal form takes.
pub fn check_assignment(image: &[u8], words: &[u64], out: &mut [u64]) -> Result<usize, Refusal> {
    let r = unsafe {
        panel_routes_check_assignment(
            image.as_ptr(),
            image.len(),
            words.as_ptr(),
            words.len(),
            out.as_mut_ptr(),
            out.len(),
        )
    };
    given(r.refusal, r.place, r.words as usize)
}

pub fn list(
    image: &[u8],
    budget: SearchBudget,
    from: u64,
    frames: &mut [u64],
    slot: &mut [u64],
    out: &mut [u64],
) -> Result<ListReply, Refusal> {
    let r = unsafe {
        panel_routes_list(
            image.as_ptr(),
            image.len(),
            budget,
            from,
            frames.as_mut_ptr(),
            frames.len(),
            slot.as_mut_ptr(),
            slot.len(),
            out.as_mut_ptr(),
            out.len(),
        )
    };
    given(r.refusal, r.place, r)
}

pub fn search(
    image: &[u8],
    budget: SearchBudget,
    scores: &[f64],
    frames: &mut [u64],
    kept: &mut [u64],
    kept_scores: &mut [f64],
) -> Result<SearchReply, Refusal> {
    let r = unsafe {
        panel_routes_search(
            image.as_ptr(),
            image.len(),
            budget,
            scores.as_ptr(),
            scores.len(),
            frames.as_mut_ptr(),
            frames.len(),
            kept.as_mut_ptr(),
            kept.len(),
            kept_scores.as_mut_ptr(),
            kept_scores.len(),
        )
    };
    given(r.refusal, r.place, r)
}

pub fn plain_list(image: &[u8], from: u64, out: &mut [u64]) -> Result<PlainReply, Refusal> {
    let r =
        unsafe { panel_routes_plain_list(image.as_ptr(), image.len(), from, out.as_mut_ptr(), out.len()) };
    given(r.refusal, r.place, r)
}

pub fn check_letters(image: &[u8], letters: &[u8]) -> Result<(), Refusal> {
    let r =
        unsafe { panel_routes_check_letters(image.as_ptr(), image.len(), letters.as_ptr(), letters.len()) };
    given(r.refusal, r.place, ())
}

/// How many letters of `out` were written.
pub fn spell(
    image: &[u8],
    letters: &[u8],
    words: &[u64],
    slot: u64,
    from: u64,
    to: u64,
    out: &mut [u8],
) -> Result<u64, Refusal> {
    let r = unsafe {
        panel_routes_spell(
            image.as_ptr(),
            image.len(),
            letters.as_ptr(),
            letters.len(),
            words.as_ptr(),
            words.len(),
            slot,
            from,
            to,
            out.as_mut_ptr(),
            out.len(),
        )
    };
    given(r.refusal, r.place, r.letters)
}

/// How many bytes of `out` were written.
pub fn write_bed(image: &[u8], names: &[u8], words: &[u64], out: &mut [u8]) -> Result<u64, Refusal> {
    let r = unsafe {
        panel_routes_write_bed(
            image.as_ptr(),
            image.len(),
            names.as_ptr(),
            names.len(),
            words.as_ptr(),
            words.len(),
            out.as_mut_ptr(),
            out.len(),
        )
    };
    given(r.refusal, r.place, r.length)
}

/// How many words of `out` were written.
pub fn read_bed(
    image: &[u8],
    names: &[u8],
    family: u64,
    text: &[u8],
    out: &mut [u64],
) -> Result<u64, Refusal> {
    let r = unsafe {
        panel_routes_read_bed(
            image.as_ptr(),
            image.len(),
            names.as_ptr(),
            names.len(),
            family,
            text.as_ptr(),
            text.len(),
            out.as_mut_ptr(),
            out.len(),
        )
    };
    given(r.refusal, r.place, r.length)
}

pub fn lower_bound(counts: &[u64], background: f64) -> Result<Option<f64>, Refusal> {
    let r = unsafe { panel_routes_lower_bound(counts.as_ptr(), counts.len(), background) };
    given(r.refusal, r.place, (r.given == 1).then_some(r.bound))
}

#[cfg(test)]
mod tests {
    //! 13 and 21, which the crate's own rooms never call forth; the refusals of the plain listing, of
    //! the letters and of routes as BED in their order, with what they leave in the room; tables of
    //! names that the crate's own never are.
    use super::*;
    use crate::{search::Rooms, Panel, PanelBuilder};
    use std::collections::BTreeSet;

    #[test]
    fn a_room_that_is_too_short() {
        let panel = PanelBuilder::new(1).lane(4, 0).family([0]).build().unwrap();
        let budget = SearchBudget::default();
        let needed = Rooms::new(&panel, &budget);
        let answer = |short: [usize; 3]| {
            let mut frames = vec![0; needed.frames - short[0]];
            let mut kept = vec![0; needed.kept - short[1]];
            let mut kept_scores = vec![0.0; needed.scores - short[2]];
            let found = search(panel.image(), budget, &[1.0; 2], &mut frames, &mut kept, &mut kept_scores);
            found.err().map(|r| (r.number(), r.place()))
        };
        assert_eq!(answer([0, 0, 0]), None);
        for short in [[1, 0, 0], [0, 1, 0], [0, 0, 1]] {
            assert_eq!(answer(short), Some((13, 0)));
        }
        let answer = |short: [usize; 2]| {
            let mut frames = vec![0; needed.frames - short[0]];
            let mut slot = vec![0; needed.slot - short[1]];
            let found = list(panel.image(), budget, 0, &mut frames, &mut slot, &mut []);
            found.err().map(|r| (r.number(), r.place()))
        };
        assert_eq!(answer([0, 0]), None);
        assert_eq!(answer([1, 0]), Some((13, 0)));
        assert_eq!(answer([0, 1]), Some((13, 0)));
    }

    #[test]
    fn an_out_shorter_than_the_words() {
        let panel = PanelBuilder::new(1).lane(4, 0).family([0]).build().unwrap();
        let words = [0, 1, 1, 0, 0, 4, 0];
        let answer = |out: usize| check_assignment(panel.image(), &words, &mut vec![0; out]);
        assert_eq!(answer(words.len()), Ok(words.len()));
        assert_eq!(answer(words.len() - 1), Err(Refusal::new(21, 0)));
    }

    /// The refusal's number, 0 for none; a refusal has no place and leaves the room as it was.
    fn plain_refusal(image: &[u8]) -> u64 {
        let mut out = [u64::MAX; 400];
        let Err(refusal) = plain_list(image, 0, &mut out) else { return 0 };
        assert_eq!((refusal.place(), out), (0, [u64::MAX; 400]));
        refusal.number()
    }

    /// Holds what a call says of an image, whole, cut off and with bytes changed, to the panel check.
    fn as_the_panel_check(refusal: impl Fn(&[u8]) -> u64) {
        let mut builder = PanelBuilder::new(2);
        builder.lane(10, 0).lane(10, 1).family([0]).port("AC", 0, 3, false).port("AC", 1, 5, false);
        let image = builder.build().unwrap().image().to_vec();
        let mut seen = BTreeSet::new();
        let mut hold = |image: &[u8]| {
            let number = check_panel(image).err().map_or(0, |r| r.number());
            assert_eq!(refusal(image), number);
            seen.insert(number);
        };
        (0..image.len()).for_each(|end| hold(&image[..end]));
        for at in 0..image.len() {
            for value in [0, 1, 2, 4, 33, b'C', b'N', 255] {
                let mut damaged = image.clone();
                damaged[at] = value;
                hold(&damaged);
            }
        }
        assert!(seen.into_iter().eq(0..=8));
    }

    #[test]
    fn the_plain_listing_refuses_a_panel_as_its_check_does() {
        as_the_panel_check(plain_refusal);
    }

    #[test]
    fn a_search_that_goes_too_deep() {
        let mut builder = PanelBuilder::new(1);
        (0..65).fold(&mut builder, |b, lane| b.lane(3, lane)).family(0..64).port("A", 63, 1, false);
        assert_eq!(plain_refusal(builder.build().unwrap().image()), 0);
        builder.port("A", 64, 1, false);
        assert_eq!(plain_refusal(builder.build().unwrap().image()), 42);
    }

    /// The refusal's number and place, zeros for none; it leaves the room as it was, and what stands
    /// around it.
    fn spell_refusal(image: &[u8], letters: &[u8], words: &[u64], crop: [u64; 3], room: usize) -> (u64, u64) {
        let mut bytes = [b'-'; 60];
        let [slot, from, to] = crop;
        let found = spell(image, letters, words, slot, from, to, &mut bytes[20..20 + room]);
        let Err(refusal) = found else { return (0, 0) };
        assert_eq!(bytes, [b'-'; 60]);
        (refusal.number(), refusal.place())
    }

    /// A crop of nothing, in no slot.
    const NONE: [u64; 3] = [u64::MAX, u64::MAX, 0];

    #[test]
    fn the_calls_with_letters_refuse_a_panel_as_its_check_does() {
        as_the_panel_check(|image| {
            // All the rest is wrong too.
            let (number, place) = spell_refusal(image, b"ACG", &[], NONE, 0);
            assert_eq!(check_letters(image, b"ACG"), Err(Refusal::new(number, place)));
            assert_eq!(place, 0);
            if number == 39 {
                0
            } else {
                number
            }
        });
    }

    /// Panel E with a second family.
    fn two_families() -> Panel<'static> {
        let mut builder = PanelBuilder::new(2);
        builder.lane(10, 0).lane(10, 1).family([0]).family([0, 1]);
        builder.port("AC", 0, 3, false).port("AC", 1, 5, false);
        builder.port("GG", 0, 6, false).port("GG", 1, 7, false);
        builder.build().unwrap()
    }

    /// Words on it that the check refuses, with the refusal's number and place.
    fn refused_words() -> Vec<(Vec<u64>, (u64, u64))> {
        let second = |segments: &[[u64; 4]]| {
            [&[1, 2, 1, 0, 0, 10, 0, segments.len() as u64], segments.concat().as_slice()].concat()
        };
        let long = [&[0, 1, 16_384][..], &[0, 0, 10, 0].repeat(16_384)].concat();
        vec![
            (vec![], (22, 0)),
            (vec![0, 1, 1, 0, 0, 10, 2], (22, 0)),
            (vec![u64::MAX, u64::MAX], (22, 0)),
            (long, (22, 0)),
            (vec![2, 0], (23, 0)),
            (vec![0, 0], (24, 0)),
            (second(&[]), (25, 1)),
            (second(&[[1, 0, 11, 0]]), (26, 1)),
            (second(&[[1, 0, 9, 0]]), (27, 1)),
            (second(&[[1, 0, 3, 0], [1, 4, 10, 0]]), (28, 1)),
            (second(&[[1, 0, 6, 0], [1, 7, 10, 0]]), (29, 1)),
            (second(&[[1, 0, 6, 0], [1, 8, 10, 0]]), (30, 1)),
            (second(&[[1, 0, 6, 0], [0, 4, 7, 0], [1, 8, 10, 0]]), (31, 0)),
        ]
    }

    #[test]
    fn a_spelling_is_refused_by_the_first_that_is_wrong() {
        let panel = two_families();
        let letters = b"TTTACTGGTACCCCCACGGC";
        let wrong: [(&[u8], u64); 6] = [
            (b"TTTACTGCTACCCCCACGG", 39),
            (b"TTTACTGCTACCCCCACGGCA", 39),
            (b"TTTACTGCTACCCCCACGGc", 39),
            (b"", 39),
            (b"TTTACTGCTACCCCCACGGC", 40),
            (b"TTTACTGGTACCCCCACGTC", 40),
        ];
        for (letters, number) in wrong {
            assert_eq!(check_letters(panel.image(), letters), Err(Refusal::new(number, 0)));
            assert_eq!(spell_refusal(panel.image(), letters, &[], NONE, 0), (number, 0));
        }
        assert_eq!(check_letters(panel.image(), letters), Ok(()));
        let refusal = |words: &[u64], crop, room| spell_refusal(panel.image(), letters, words, crop, room);
        for (words, expected) in refused_words() {
            assert_eq!(refusal(&words, NONE, 0), expected, "{words:?}");
            let checked = check_assignment(panel.image(), &words, &mut vec![0; words.len()]);
            assert_eq!(checked, Err(Refusal::new(expected.0, expected.1)));
        }
        let mosaic = [0, 1, 3, 0, 0, 4, 0, 1, 6, 8, 0, 0, 7, 10, 0];
        let top = u64::MAX;
        for crop in [[1, 0, 9], [top, 0, 9], [0, 9, 9], [0, 5, 4], [0, 0, 10], [0, 0, top], [0, top, top]] {
            assert_eq!(refusal(&mosaic, crop, 0), (41, 0), "{crop:?}");
            assert_eq!(refusal(&mosaic, crop, 20), (41, 0), "{crop:?}");
        }
        for (crop, size) in [([0, 0, 9], 9), ([0, 0, 1], 1), ([0, 8, 9], 1), ([0, 2, 7], 5)] {
            for room in 0..size {
                assert_eq!(refusal(&mosaic, crop, room), (37, 0), "{crop:?}");
            }
            assert_eq!(refusal(&mosaic, crop, size), (0, 0), "{crop:?}");
        }
    }

    /// As for `spell_refusal`, of the two calls with names.
    fn write_refusal(image: &[u8], names: &[u8], words: &[u64], room: usize) -> (u64, u64) {
        let mut bytes = [0xa5; 160];
        let Err(refusal) = write_bed(image, names, words, &mut bytes[20..20 + room]) else { return (0, 0) };
        assert_eq!(bytes, [0xa5; 160]);
        (refusal.number(), refusal.place())
    }

    fn read_refusal(image: &[u8], names: &[u8], family: u64, text: &[u8], room: usize) -> (u64, u64) {
        let mut words = [u64::MAX; 60];
        let found = read_bed(image, names, family, text, &mut words[20..20 + room]);
        let Err(refusal) = found else { return (0, 0) };
        assert_eq!(words, [u64::MAX; 60]);
        (refusal.number(), refusal.place())
    }

    const MOSAIC: [u64; 15] = [0, 1, 3, 0, 0, 4, 0, 1, 6, 8, 0, 0, 7, 10, 0];
    const MOSAIC_BED: &[u8] = b"l\t0\t4\tr0\t0\t+\nr\t6\t8\tr0\t0\t+\nl\t7\t10\tr0\t0\t+\n";

    #[test]
    fn the_calls_with_names_refuse_a_panel_as_its_check_does() {
        as_the_panel_check(|image| {
            // All the rest is wrong too.
            let (number, place) = write_refusal(image, b"", &[], 0);
            assert_eq!(read_refusal(image, b"", 9, b"x", 0), (number, place));
            assert_eq!(place, 0);
            if number == 34 {
                0
            } else {
                number
            }
        });
    }

    #[test]
    fn a_table_that_is_bad() {
        let panel = two_families();
        let image = panel.image();
        let long = [&[b'x'; 65][..], b"\nr\n"].concat();
        let mut bad: Vec<Vec<u8>> = [
            &b""[..],
            b"\n",
            b"\n\n",
            b"l",
            b"l\n",
            b"l\nr",
            b"l\nr\n\n",
            b"\nl\nr\n",
            b"l\n\nr\n",
            b"l\nr\nx\n",
            b"l\nr\nx",
            b"l\nl\n",
            b"l\n\n",
            b"\nr\n",
            b"l\r\nr\r\n",
            b"l \nr\n",
            b"l\nr\t\n",
            &long,
        ]
        .map(<[u8]>::to_vec)
        .to_vec();
        for byte in (0..=32).chain(127..=255).filter(|b| *b != b'\n') {
            bad.push(vec![b'l', byte, b'\n', b'r', b'\n']);
            bad.push(vec![b'l', b'\n', byte, b'\n']);
        }
        for table in &bad {
            assert_eq!(write_refusal(image, table, &MOSAIC, 100), (34, 0), "{table:?}");
            assert_eq!(read_refusal(image, table, 0, MOSAIC_BED, 15), (34, 0), "{table:?}");
            // All the rest is wrong too.
            assert_eq!(write_refusal(image, table, &[], 0), (34, 0));
            assert_eq!(read_refusal(image, table, 9, b"x", 0), (34, 0));
        }
        for byte in 33..=126 {
            let table = [b'l', b'\n', b'l', byte, b'\n'];
            assert_eq!(write_refusal(image, &table, &MOSAIC, 100), (0, 0), "{byte}");
            let table = [b'l', b'\n', byte, b'\n'];
            assert_eq!(write_refusal(image, &table, &MOSAIC, 100) == (34, 0), byte == b'l', "{byte}");
        }
        assert_eq!(write_refusal(image, &[&[b'x'; 64][..], b"\nr\n"].concat(), &MOSAIC, 140), (37, 0));
    }

    #[test]
    fn a_writing_is_refused_by_the_first_that_is_wrong() {
        let panel = two_families();
        for (words, expected) in refused_words() {
            assert_eq!(write_refusal(panel.image(), b"l\nr\n", &words, 0), expected, "{words:?}");
            assert_eq!(write_refusal(panel.image(), b"l\nr\n", &words, 140), expected, "{words:?}");
        }
        for room in 0..MOSAIC_BED.len() {
            assert_eq!(write_refusal(panel.image(), b"l\nr\n", &MOSAIC, room), (37, 0));
        }
        assert_eq!(write_refusal(panel.image(), b"l\nr\n", &MOSAIC, MOSAIC_BED.len()), (0, 0));
    }

    #[test]
    fn a_reading_is_refused_by_the_first_that_is_wrong() {
        let panel = two_families();
        let refusal = |family, text: &[u8], room| read_refusal(panel.image(), b"l\nr\n", family, text, room);
        // 35 in the last line, before 36 in the first.
        assert_eq!(refusal(9, b"x\t0\t4\tr0\t0\t+\nl\t0\t4\tr0\t1\t+\n", 0), (35, 0));
        assert_eq!(refusal(9, b"l\t0\t4\tr0\t0\t+\nx\t0\t4\tr0\t0\t+\n", 0), (36, 0));
        for room in 0..15 {
            assert_eq!(refusal(9, MOSAIC_BED, room), (37, 0));
        }
        assert_eq!([9, 1, 0].map(|family| refusal(family, MOSAIC_BED, 15)), [(23, 0), (24, 0), (0, 0)]);
        assert_eq!([0, 1, 2, 3].map(|room| refusal(0, b"", room).0), [37, 37, 24, 24]);
        assert_eq!(refusal(2, b"", 2), (23, 0));
        assert_eq!(refusal(1, b"l\t0\t10\tr0\t0\t+\nr\t0\t9\tr1\t0\t+\n", 12), (27, 1));
    }
}
