//! The original's storage, graph, evaluate and search, compiled as published, under
//! stand-ins for what they lean on. Modules stand where the original's paths look.
#![allow(dead_code, unused_imports)]

pub mod door;
pub mod file;
pub mod genome_inference;

/// `crate::graph`: the one function that is asked of it.
pub mod graph {
    use crate::sequence_index;

    /// Honest on letters that were lent and on DNA that is true to the ports. On a panel whose
    /// ports contradict each other no such DNA exists; without letters the answer there is the
    /// word of the port just fetched.
    pub fn reverse_complement(dna: &[u8]) -> Vec<u8> {
        sequence_index::waived_word().unwrap_or_else(|| turned(dna))
    }

    pub fn turned(dna: &[u8]) -> Vec<u8> {
        let other = |b: &u8| match b {
            b'A' => b'T',
            b'C' => b'G',
            b'G' => b'C',
            b'T' => b'A',
            other => *other,
        };
        dna.iter().rev().map(other).collect()
    }
}

/// `crate::sequence_index`: letters that were lent, or DNA made from the ports themselves.
pub mod sequence_index {
    use crate::graph::turned;
    use std::{cell::RefCell, collections::HashMap, io};

    #[derive(Default)]
    struct Site {
        forward: Option<Vec<u8>>,
        reverse: Option<Vec<u8>>,
    }

    #[derive(Default)]
    struct Dna {
        /// The lanes' letters, where a request brings them.
        lent: Option<Vec<Vec<u8>>>,
        sites: HashMap<(usize, u64), Site>,
        contradicted: bool,
        last: Option<(usize, u64)>,
        waived: u64,
    }

    thread_local! {
        static DNA: RefCell<Dna> = RefCell::new(Dna::default());
    }

    /// The ports of the next panel: lane, anchor, orientation and word, lane by lane in
    /// rising order of the anchor. Says whether they contradict each other.
    pub fn set_ports(ports: impl Iterator<Item = (usize, u64, bool, Vec<u8>)>) -> bool {
        DNA.with(|dna| {
            let mut dna = dna.borrow_mut();
            dna.lent = None;
            dna.sites.clear();
            dna.contradicted = false;
            dna.last = None;
            let mut before: Option<(usize, u64, Vec<u8>)> = None;
            for (lane, anchor, reverse, word) in ports {
                let here = if reverse { turned(&word) } else { word.clone() };
                // Neighbours suffice: what two ports share lies inside every port between.
                if let Some((l, a, letters)) = &before {
                    let shift = anchor.wrapping_sub(*a);
                    if *l == lane && shift < letters.len() as u64 {
                        let shift = shift as usize;
                        dna.contradicted |= letters[shift..] != here[..letters.len() - shift];
                    }
                }
                before = Some((lane, anchor, here));
                let site = dna.sites.entry((lane, anchor)).or_default();
                *if reverse { &mut site.reverse } else { &mut site.forward } = Some(word);
            }
            dna.contradicted
        })
    }

    /// Letters of each lane, to be read in the place of the ports' own until the next panel.
    pub fn lend(lanes: Vec<Vec<u8>>) {
        DNA.with(|dna| {
            let mut dna = dna.borrow_mut();
            dna.lent = Some(lanes);
            dna.contradicted = false;
        })
    }

    /// How many fetches since the start were answered without a DNA that is true to all ports.
    pub fn waived() -> u64 {
        DNA.with(|dna| dna.borrow().waived)
    }

    pub fn waived_word() -> Option<Vec<u8>> {
        DNA.with(|dna| {
            let dna = dna.borrow();
            if !dna.contradicted {
                return None;
            }
            let at = dna.last?;
            dna.sites.get(&at)?.reverse.clone()
        })
    }

    pub trait SequenceIndex {
        fn fetch_sequence(&self, name: &str, start: i32, end: i32) -> io::Result<Vec<u8>>;
        fn get_sequence_length(&self, name: &str) -> io::Result<usize>;
    }

    pub struct Layout;
    impl Layout {
        pub fn aligned_crop(&self, start: u64, end: u64) -> (u64, u64) {
            (start, end)
        }
    }

    pub struct Archive;
    impl Archive {
        pub fn segment_layout(&self, _: &str) -> Option<Layout> {
            None
        }
    }

    pub enum UnifiedSequenceIndex {
        Agc(Archive),
        Fasta(()),
    }
    impl UnifiedSequenceIndex {
        pub fn from_files(_: &[String]) -> io::Result<Self> {
            Ok(Self::Fasta(()))
        }
    }
    impl SequenceIndex for UnifiedSequenceIndex {
        /// Lanes are named by their numbers. The caller has cut its u64 to an i32; lanes are
        /// below 2^32, so the bits are all there.
        fn fetch_sequence(&self, name: &str, start: i32, end: i32) -> io::Result<Vec<u8>> {
            let at: (usize, u64) = (name.parse().map_err(io::Error::other)?, u64::from(start as u32));
            DNA.with(|dna| {
                let mut dna = dna.borrow_mut();
                if let Some(lanes) = &dna.lent {
                    // Of letters past the end a file has none either.
                    let letters = &lanes[at.0];
                    let inside = |x: i32| (x as u32 as usize).min(letters.len());
                    return Ok(letters[inside(start)..inside(end)].to_vec());
                }
                dna.last = Some(at);
                dna.waived += u64::from(dna.contradicted);
                let site = dna.sites.get(&at).ok_or_else(|| io::Error::other("no port here"))?;
                let letters = match (&site.forward, &site.reverse) {
                    (Some(word), _) => word.clone(),
                    (None, Some(word)) => turned(word),
                    (None, None) => Vec::new(),
                };
                let width = u64::from(end as u32) - at.1;
                if letters.len() as u64 != width {
                    return Err(io::Error::other("not the width of a port"));
                }
                Ok(letters)
            })
        }
        fn get_sequence_length(&self, _: &str) -> io::Result<usize> {
            Err(io::Error::other("never asked"))
        }
    }
}

/// `crate::sample_mem_bwt`: the error that every refusal of the original is made of.
pub mod sample_mem_bwt {
    use std::io;

    pub fn invalid(message: impl Into<String>) -> io::Error {
        io::Error::new(io::ErrorKind::InvalidData, message.into())
    }
}

/// `crate::syng`: read by the scoring alone, which is left out.
pub mod syng {
    #[derive(Default)]
    pub struct Names {
        pub path_to_name: Vec<String>,
        pub path_to_length: Vec<u64>,
    }
    #[derive(Default)]
    pub struct SyngIndex {
        pub name_map: Names,
    }
    impl SyngIndex {
        pub fn syncmer_length_bp(&self) -> usize {
            0
        }
    }
}

/// The crate rust_htslib: opens index files while a panel is built, never here.
pub mod rust_htslib {
    pub mod faidx {
        pub struct Reader;
        impl Reader {
            pub fn from_path(_: &str) -> std::io::Result<Self> {
                Ok(Self)
            }
        }
    }
}

/// The crate rustc_hash: the memo of DNA fetches. This one forgets, so that each fetch
/// reaches the index above; by the original's own words the answers are the same.
pub mod rustc_hash {
    use std::marker::PhantomData;

    pub struct FxHashMap<K, V>(PhantomData<(K, V)>);
    impl<K, V> Default for FxHashMap<K, V> {
        fn default() -> Self {
            Self(PhantomData)
        }
    }
    impl<K, V> FxHashMap<K, V> {
        pub fn get(&self, _: &K) -> Option<&V> {
            None
        }
        pub fn insert(&mut self, _: K, _: V) -> Option<V> {
            None
        }
    }
}
