//! Finds the original's four files, holds them to their recorded checksums and
//! hands their paths to the crate. Nothing of them is copied into the repository.
use std::{env, fs, path::PathBuf};

fn main() {
    let top = PathBuf::from(env::var("CARGO_MANIFEST_DIR").unwrap());
    let out = PathBuf::from(env::var("OUT_DIR").unwrap());
    println!("cargo:rerun-if-env-changed=PANEL_ROUTES_SRC");
    println!("cargo:rerun-if-changed=files.sha256");
    println!("cargo:rerun-if-changed=build.rs");
    let folder = env::var_os("PANEL_ROUTES_SRC")
        .map(PathBuf::from)
        .unwrap_or_else(|| top.join("../../../shared/docs/src"));
    let sums = fs::read_to_string(top.join("files.sha256")).unwrap();
    for line in sums.lines() {
        let (sum, name) = line.split_once("  ").expect("a line of files.sha256");
        let path = folder.join(name);
        println!("cargo:rerun-if-changed={}", path.display());
        let bytes = fs::read(&path).unwrap_or_else(|e| {
            panic!("{}: {e}; PANEL_ROUTES_SRC names the folder of the original's files", path.display())
        });
        assert_eq!(sha256(&bytes), sum, "{} is not the file that was published", path.display());
        // The checked bytes are what is compiled: a copy below the build folder.
        fs::write(out.join(name), &bytes).unwrap();
    }
    // search.rs opens with inner doc comments, which only a module file may have.
    let search = format!("#[path = {:?}]\npub mod search;\n", out.join("search.rs"));
    fs::write(out.join("search_module.rs"), search).unwrap();
}

/// FIPS 180-4; the constants are the fractional parts of roots of primes.
fn sha256(data: &[u8]) -> String {
    let primes: Vec<u128> = (2u128..).filter(|n| (2..*n).all(|d| n % d != 0)).take(64).collect();
    // floor(2^32 * p^(1/r)) mod 2^32, by bisection on whole numbers.
    let root = |p: u128, r: u32| -> u32 {
        let (mut lo, mut hi) = (0u128, 1u128 << 40);
        while lo + 1 < hi {
            let mid = (lo + hi) / 2;
            if mid.checked_pow(r).is_some_and(|x| x <= p << (32 * r)) {
                lo = mid
            } else {
                hi = mid
            }
        }
        lo as u32
    };
    let k: Vec<u32> = primes.iter().map(|&p| root(p, 3)).collect();
    let mut h: Vec<u32> = primes[..8].iter().map(|&p| root(p, 2)).collect();
    let mut m = data.to_vec();
    m.push(0x80);
    while m.len() % 64 != 56 {
        m.push(0);
    }
    m.extend((data.len() as u64 * 8).to_be_bytes());
    for block in m.chunks(64) {
        let mut w: Vec<u32> = block.chunks(4).map(|c| u32::from_be_bytes(c.try_into().unwrap())).collect();
        for i in 16..64 {
            let (a, b) = (w[i - 15], w[i - 2]);
            let s0 = a.rotate_right(7) ^ a.rotate_right(18) ^ (a >> 3);
            let s1 = b.rotate_right(17) ^ b.rotate_right(19) ^ (b >> 10);
            w.push(w[i - 16].wrapping_add(s0).wrapping_add(w[i - 7]).wrapping_add(s1));
        }
        let mut v = h.clone();
        for i in 0..64 {
            let (a, e) = (v[0], v[4]);
            let s1 = e.rotate_right(6) ^ e.rotate_right(11) ^ e.rotate_right(25);
            let ch = (e & v[5]) ^ (!e & v[6]);
            let t1 = v[7].wrapping_add(s1).wrapping_add(ch).wrapping_add(k[i]).wrapping_add(w[i]);
            let s0 = a.rotate_right(2) ^ a.rotate_right(13) ^ a.rotate_right(22);
            let maj = (a & v[1]) ^ (a & v[2]) ^ (v[1] & v[2]);
            v.rotate_right(1);
            v[0] = t1.wrapping_add(s0).wrapping_add(maj);
            v[4] = v[4].wrapping_add(t1);
        }
        for (x, y) in h.iter_mut().zip(v) {
            *x = x.wrapping_add(y);
        }
    }
    h.iter().map(|x| format!("{x:08x}")).collect()
}
