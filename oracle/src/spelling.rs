//! Document 02's item 7 in plain safe Rust: the lanes' letters, every port's word held to them, and
//! the crops of a route.
use crate::plain::{need, route_starts, Panel, Refusal};

fn complement(letter: u8) -> u8 {
    match letter {
        b'A' => b'T',
        b'C' => b'G',
        b'G' => b'C',
        b'T' => b'A',
        _ => unreachable!("refused by 39"),
    }
}

/// A stretch of letters as it is read in its orientation.
fn read(stretch: &[u8], reverse: bool) -> Vec<u8> {
    if reverse {
        stretch.iter().rev().map(|b| complement(*b)).collect()
    } else {
        stretch.to_vec()
    }
}

/// Each lane's letters. Refusals 39 and 40.
pub fn lanes<'a>(panel: &Panel, letters: &'a [u8]) -> Result<Vec<&'a [u8]>, Refusal> {
    need(39, letters.iter().all(|b| matches!(b, b'A' | b'C' | b'G' | b'T')))?;
    let mut rest = letters;
    let mut lanes = Vec::with_capacity(panel.lanes.len());
    for lane in &panel.lanes {
        need(39, lane.length <= rest.len() as u64)?;
        let (own, later) = rest.split_at(lane.length as usize);
        lanes.push(own);
        rest = later;
    }
    need(39, rest.is_empty())?;
    let own = (0..lanes.len()).flat_map(|lane| panel.lane_ports(lane));
    for p in own.chain(&panel.global) {
        let stretch = &lanes[p.source][p.anchor as usize..][..panel.k as usize];
        let reverse = p.reverse && !cfg!(feature = "fault-orientation");
        need(40, p.word.starts_with(&read(stretch, reverse)))?;
    }
    Ok(lanes)
}

/// Refusals 39 to 41 and 37, and the check's from 22 on; how many letters `out` then begins with.
pub fn spell(
    panel: &Panel,
    letters: &[u8],
    words: &[u64],
    slot: u64,
    from: u64,
    to: u64,
    out: &mut [u8],
) -> Result<u64, Refusal> {
    let lanes = lanes(panel, letters)?;
    panel.check_assignment(words, &mut vec![0; words.len()])?;
    need(41, slot < words[1])?;
    let at = route_starts(words)?[slot as usize];
    let mut route = Vec::new();
    for s in words[at..].chunks_exact(4).take(words[at - 1] as usize) {
        let stretch = &lanes[s[0] as usize][s[1] as usize..s[2] as usize];
        if cfg!(feature = "fault-complement") && s[3] == 1 {
            route.extend(stretch.iter().rev());
        } else {
            route.extend(read(stretch, s[3] == 1));
        }
    }
    let past = route.len() + usize::from(!cfg!(feature = "fault-crop"));
    need(41, from < to && to < past as u64)?;
    let crop = &route[from as usize..to as usize];
    need(37, crop.len() <= out.len())?;
    out[..crop.len()].copy_from_slice(crop);
    Ok(crop.len() as u64)
}
