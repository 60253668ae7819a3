//! A `File` that is bytes in memory below the folder `memory:`, and a real one elsewhere.
use std::{
    cell::RefCell,
    collections::HashMap,
    fs,
    io::{self, Read, Seek, SeekFrom, Write},
    path::{Path, PathBuf},
    sync::Arc,
};

pub const MEMORY: &str = "memory:";

thread_local! {
    static FILES: RefCell<HashMap<PathBuf, Arc<Vec<u8>>>> = RefCell::new(HashMap::new());
}

/// Forgets every file in memory.
pub fn clear() {
    FILES.with(|f| f.borrow_mut().clear());
}

pub fn put(path: PathBuf, bytes: Vec<u8>) {
    FILES.with(|f| f.borrow_mut().insert(path, Arc::new(bytes)));
}

pub enum File {
    Memory { bytes: Arc<Vec<u8>>, at: u64 },
    Nowhere,
    Disk(fs::File),
}

impl File {
    pub fn open(path: impl AsRef<Path>) -> io::Result<Self> {
        let path = path.as_ref();
        if !path.starts_with(MEMORY) {
            return fs::File::open(path).map(Self::Disk);
        }
        let bytes = FILES.with(|f| f.borrow().get(path).cloned());
        let bytes = bytes.ok_or_else(|| io::Error::from(io::ErrorKind::NotFound))?;
        Ok(Self::Memory { bytes, at: 0 })
    }

    /// What is written below `memory:` is not kept: only the ledger goes there.
    pub fn create(path: impl AsRef<Path>) -> io::Result<Self> {
        let path = path.as_ref();
        if path.starts_with(MEMORY) {
            return Ok(Self::Nowhere);
        }
        fs::File::create(path).map(Self::Disk)
    }

    pub fn try_clone(&self) -> io::Result<Self> {
        Ok(match self {
            Self::Memory { bytes, at } => Self::Memory { bytes: bytes.clone(), at: *at },
            Self::Nowhere => Self::Nowhere,
            Self::Disk(file) => Self::Disk(file.try_clone()?),
        })
    }
}

impl Read for File {
    fn read(&mut self, into: &mut [u8]) -> io::Result<usize> {
        match self {
            Self::Memory { bytes, at } => {
                let from = (*at).min(bytes.len() as u64) as usize;
                let n = into.len().min(bytes.len() - from);
                into[..n].copy_from_slice(&bytes[from..from + n]);
                *at += n as u64;
                Ok(n)
            }
            Self::Nowhere => Ok(0),
            Self::Disk(file) => file.read(into),
        }
    }
}

impl Write for File {
    fn write(&mut self, from: &[u8]) -> io::Result<usize> {
        match self {
            Self::Disk(file) => file.write(from),
            _ => Ok(from.len()),
        }
    }
    fn flush(&mut self) -> io::Result<()> {
        match self {
            Self::Disk(file) => file.flush(),
            _ => Ok(()),
        }
    }
}

impl Seek for File {
    fn seek(&mut self, to: SeekFrom) -> io::Result<u64> {
        match self {
            Self::Disk(file) => file.seek(to),
            Self::Memory { at, .. } => match to {
                SeekFrom::Start(n) => {
                    *at = n;
                    Ok(n)
                }
                _ => Err(io::Error::other("only from the start")),
            },
            Self::Nowhere => Ok(0),
        }
    }
}
