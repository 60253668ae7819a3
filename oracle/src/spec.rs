//! Panels as they are thought of, and the images they make.
use std::fmt;

#[derive(Clone, PartialEq, Eq, PartialOrd, Ord)]
pub struct PortSpec {
    pub word: Vec<u8>,
    pub source: u64,
    pub anchor: u64,
    pub reverse: bool,
}

impl fmt::Debug for PortSpec {
    fn fmt(&self, f: &mut fmt::Formatter) -> fmt::Result {
        let sign = if self.reverse { '-' } else { '+' };
        write!(f, "{} lane {} anchor {}{sign}", String::from_utf8_lossy(&self.word), self.source, self.anchor)
    }
}

#[derive(Clone, Debug, PartialEq)]
pub struct Spec {
    pub k: u64,
    /// Length and identity.
    pub lanes: Vec<(u64, u64)>,
    pub families: Vec<Vec<u64>>,
    pub ports: Vec<PortSpec>,
}

impl Spec {
    /// The packed image, its lists sorted. Sound exactly when the parts are.
    pub fn image(&self) -> Vec<u8> {
        self.image_with(&self.ports)
    }

    /// The same with a global list of other ports, as many.
    pub fn image_with(&self, global: &[PortSpec]) -> Vec<u8> {
        let (l, f, n) = (self.lanes.len() as u64, self.families.len() as u64, self.ports.len() as u64);
        let t: u64 = self.families.iter().map(|p| p.len() as u64).sum();
        let list = n * (self.k + 17);
        let mut at = 80;
        let mut words = vec![self.k, l, f, t, n];
        for bytes in [24 * l, 8 * f, 8 * t, list, list] {
            words.push(at);
            at += bytes;
        }
        let mut own = vec![0; self.lanes.len()];
        for p in &self.ports {
            if let Some(count) = own.get_mut(p.source as usize) {
                *count += 1;
            }
        }
        for ((length, identity), count) in self.lanes.iter().zip(own) {
            words.extend([*length, count, *identity]);
        }
        words.extend(self.families.iter().map(|p| p.len() as u64));
        words.extend(self.families.iter().flatten());
        let mut image: Vec<u8> = Vec::with_capacity(at as usize);
        words.iter().for_each(|w| image.extend(w.to_le_bytes()));
        let mut own: Vec<&PortSpec> = self.ports.iter().collect();
        own.sort_by_key(|p| (p.source, p.anchor, p.reverse));
        let mut global: Vec<&PortSpec> = global.iter().collect();
        global.sort();
        for p in own.into_iter().chain(global) {
            image.extend(&p.word);
            image.extend(p.source.to_le_bytes());
            image.extend(p.anchor.to_le_bytes());
            image.push(u8::from(p.reverse));
        }
        image
    }

    pub fn cut(&self, p: &PortSpec) -> u64 {
        p.anchor.wrapping_add(if p.reverse { self.k - self.k / 2 } else { self.k / 2 })
    }

    /// 01's panel E.
    pub fn panel_e() -> Self {
        let port =
            |word: &str, source, anchor| PortSpec { word: word.into(), source, anchor, reverse: false };
        Self {
            k: 2,
            lanes: vec![(10, 0), (10, 1)],
            families: vec![vec![0]],
            ports: vec![port("AC", 0, 3), port("AC", 1, 5), port("GG", 0, 6), port("GG", 1, 7)],
        }
    }
}

/// A job's bytes.
pub fn job(image: &[u8], budget: Option<[u64; 5]>, scores: &[f64]) -> Vec<u8> {
    let budget = budget.map_or(vec![], |b| b.to_vec());
    let mut bytes = Vec::new();
    let head = [image.len() as u64, budget.len() as u64, scores.len() as u64];
    head.iter().for_each(|w| bytes.extend(w.to_le_bytes()));
    bytes.extend(image);
    budget.iter().for_each(|w| bytes.extend(w.to_le_bytes()));
    scores.iter().for_each(|s| bytes.extend(s.to_bits().to_le_bytes()));
    bytes
}
