//! The folder above panel_routes, as far as the four files look into it.
use serde::{de::DeserializeOwned, Deserialize, Serialize};
use std::{cell::RefCell, io, path::Path};

pub mod panel_routes;

pub const COUNT_POLICY: &str = "judge";

#[derive(Clone, Debug, Default, PartialEq, Serialize, Deserialize)]
pub struct PanelIdentity {}

/// FNV-1a, 64 bits.
pub fn hash_update(hash: &mut u64, bytes: &[u8]) {
    for &b in bytes {
        *hash = (*hash ^ u64::from(b)).wrapping_mul(0x100000001b3);
    }
}

pub fn checksum(bytes: &[u8]) -> u64 {
    let mut hash = 0xcbf29ce484222325;
    hash_update(&mut hash, bytes);
    hash
}

pub fn read_json<T: DeserializeOwned>(_: &Path) -> io::Result<T> {
    Err(io::Error::other("nothing is loaded from JSON"))
}

thread_local! {
    static WRITTEN: RefCell<Option<serde_json::Value>> = const { RefCell::new(None) };
}

/// The search writes one document: the frames that it leaves. It is kept for the judge.
pub fn write_json<T: Serialize>(path: &Path, value: &T) -> io::Result<()> {
    let value = serde_json::to_value(value).map_err(io::Error::other)?;
    if !path.starts_with(crate::file::MEMORY) {
        std::fs::write(path, serde_json::to_vec_pretty(&value).map_err(io::Error::other)?)?;
    }
    WRITTEN.with(|w| *w.borrow_mut() = Some(value));
    Ok(())
}

pub fn take_written() -> Option<serde_json::Value> {
    WRITTEN.with(|w| w.borrow_mut().take())
}

pub mod reconstruction {
    pub fn fingerprint(_: &std::path::Path) -> std::io::Result<serde_json::Value> {
        Err(std::io::Error::other("no source files"))
    }
}

pub mod genotype {
    pub fn source_identity(_: &str) -> std::io::Result<String> {
        Err(std::io::Error::other("Graph::validate is not run"))
    }
}

/// What Evaluator::new asks of a sample; it is not run.
pub mod sample {
    use super::panel_routes::profiles::Counts;
    use std::collections::BTreeMap;

    pub struct Stats {
        pub read_lengths: BTreeMap<usize, u64>,
    }
    pub struct Observed;
    impl Observed {
        pub fn observed_pairs(&self) -> std::io::Result<Counts> {
            Ok(Counts::new())
        }
    }
    pub struct SampleIndex {
        pub version: u32,
        pub panel: super::PanelIdentity,
        pub count_policy: String,
        pub stats: Stats,
        pub counts: Observed,
    }
}
