//! What a builder refuses, and that order does not matter to it.
use crate::panel_e::{builder_e, panel_e};
use panel_routes::{BuildError, PanelBuilder};

fn fault(change: impl FnOnce(&mut PanelBuilder) -> &mut PanelBuilder) -> Option<BuildError> {
    change(&mut builder_e()).build().err()
}

#[test]
fn what_cannot_be_a_panel() {
    assert_eq!(fault(|b| b), None);
    assert_eq!(PanelBuilder::new(0).lane(1, 0).build().err(), Some(BuildError::K));
    assert_eq!(PanelBuilder::new(33).lane(99, 0).build().err(), Some(BuildError::K));
    assert_eq!(PanelBuilder::new(1).build().err(), Some(BuildError::LaneCount));
    assert_eq!(fault(|b| (2..4_096).fold(b, |b, _| b.lane(1, 0))), None);
    assert_eq!(fault(|b| (2..4_097).fold(b, |b, _| b.lane(1, 0))), Some(BuildError::LaneCount));
    assert_eq!(fault(|b| (1..4_097).fold(b, |b, _| b.family([1]))), Some(BuildError::FamilyCount));
    assert_eq!(fault(|b| b.lane(0, 0)), Some(BuildError::LaneLength { lane: 2 }));
    assert_eq!(fault(|b| b.lane(1 << 32, 0)), Some(BuildError::LaneLength { lane: 2 }));
    assert_eq!(fault(|b| b.lane((1 << 32) - 1, 0)), None);
    assert_eq!(fault(|b| b.family([])), Some(BuildError::PathCount { family: 1 }));
    assert_eq!(fault(|b| b.family(0..)), Some(BuildError::PathCount { family: 1 }));
    assert_eq!(fault(|b| b.family([0, 2])), Some(BuildError::PathLane { family: 1 }));
    assert_eq!(fault(|b| b.family([1, 0, 1])), Some(BuildError::LaneTwice { family: 1 }));
    for word in ["", "A", "ACG", "AN", "ac"] {
        let found = fault(|b| b.port(word, 0, 0, false));
        assert_eq!(found, Some(BuildError::PortWord { port: 4 }), "{word}");
    }
    assert_eq!(fault(|b| b.port("AC", 2, 0, false)), Some(BuildError::PortLane { port: 4 }));
    for anchor in [9, u64::MAX - 1, u64::MAX] {
        let found = fault(|b| b.port("AC", 0, anchor, false));
        assert_eq!(found, Some(BuildError::PortPastLane { port: 4 }));
    }
    assert_eq!(fault(|b| b.port("GG", 0, 3, false)), Some(BuildError::PortTwice { port: 4 }));
    assert_eq!(fault(|b| b.port("GG", 0, 3, true)), None);
    let text = BuildError::PortTwice { port: 4 }.to_string();
    assert_eq!(text, "port 4: an earlier one has its lane, anchor and orientation");
}

#[test]
fn ports_in_any_order() {
    let mut other = PanelBuilder::new(2);
    other.port("GG", 1, 7, false).port("AC", 1, 5, false).port("GG", 0, 6, false);
    other.family([0]).lane(10, 0).port("AC", 0, 3, false).lane(10, 1);
    assert_eq!(other.build().unwrap(), panel_e());
}

#[test]
fn what_was_built_is_there() {
    let panel = builder_e().family([1, 0]).port("AA", 1, 5, true).build().unwrap();
    assert_eq!(panel.k(), 2);
    assert!(panel.lanes().map(|l| (l.length, l.identity)).eq([(10, 0), (10, 1)]));
    assert!(panel.families().eq([vec![0], vec![1, 0]]));
    let ports: Vec<_> = panel.ports().map(|p| (p.source, p.anchor, p.reverse)).collect();
    assert_eq!(ports, [(0, 3, false), (0, 6, false), (1, 5, false), (1, 5, true), (1, 7, false)]);
    let words: Vec<_> = panel.global_ports().map(|p| p.word.to_string()).collect();
    assert_eq!(words, ["AA", "AC", "AC", "GG", "GG"]);
    assert_eq!(format!("{panel:?}"), "Panel { k: 2, lanes: 2, families: 2, ports: 5 }");
}
