//! Routes as BED (document 02, item 2). What the crate's types keep from the calls is tested beside them.
use crate::{
    panel_e::{builder_e, panel_e, refused},
    random::Rng,
};
use panel_routes::{Assignment, Names, NamesError, Panel, PanelBuilder, SearchBudget, Segment};

const MOSAIC: [u64; 15] = [0, 1, 3, 0, 0, 4, 0, 1, 6, 8, 0, 0, 7, 10, 0];
const MOSAIC_BED: &str = "left\t0\t4\tr0\t0\t+\nright\t6\t8\tr0\t0\t+\nleft\t7\t10\tr0\t0\t+\n";

fn names_e() -> Names {
    Names::new(["left", "right"]).unwrap()
}

fn mosaic() -> Assignment {
    Assignment::from_words(MOSAIC).unwrap()
}

/// The lines as the item has them, segment by segment.
fn lines(names: &Names, assignment: &Assignment) -> String {
    let mut text = String::new();
    for (slot, route) in assignment.routes().enumerate() {
        for Segment { source, start, end, reverse } in route {
            let name = names.get(source as usize).unwrap();
            let strand = if reverse { '-' } else { '+' };
            text += &format!("{name}\t{start}\t{end}\tr{slot}\t0\t{strand}\n");
        }
    }
    text
}

/// Written and read back, in rooms of their size, one more and one less; what is around them stays.
fn there_and_back(panel: &Panel, names: &Names, assignment: &Assignment) {
    const AROUND: usize = 9;
    let text = lines(names, assignment);
    assert_eq!(assignment.to_bed(panel, names).as_deref(), Ok(&text[..]));
    assert_eq!(panel.read_bed(names, assignment.family(), &text).as_ref(), Ok(assignment));
    for (room, fits) in [(text.len() - 1, false), (text.len(), true), (text.len() + 1, true)] {
        let mut bytes = vec![0xa5; room + 2 * AROUND];
        let found = assignment.to_bed_into(panel, names, &mut bytes[AROUND..AROUND + room]);
        assert_eq!(found.map_err(|r| r.number()), if fits { Ok(text.len()) } else { Err(37) });
        let end = AROUND + if fits { text.len() } else { 0 };
        assert_eq!(&bytes[AROUND..end], if fits { text.as_bytes() } else { b"" });
        assert!(bytes[..AROUND].iter().chain(&bytes[end..]).all(|b| *b == 0xa5));
    }
    let words = assignment.words();
    for (room, fits) in [(words.len() - 1, false), (words.len(), true), (words.len() + 1, true)] {
        let mut out = vec![u64::MAX; room + 2 * AROUND];
        let found = panel.read_bed_into(names, assignment.family(), &text, &mut out[AROUND..AROUND + room]);
        assert_eq!(found.map_err(|r| r.number()), if fits { Ok(words.len()) } else { Err(37) });
        let end = AROUND + if fits { words.len() } else { 0 };
        assert_eq!(&out[AROUND..end], if fits { words } else { &[] });
        assert!(out[..AROUND].iter().chain(&out[end..]).all(|w| *w == u64::MAX));
    }
}

#[test]
fn names_that_are_none() {
    let one = |name: &[u8]| Names::new([name]).err();
    for byte in 0..=255 {
        let printing = (33..=126).contains(&byte);
        let error = (!printing).then_some(NamesError::Name { lane: 0 });
        assert_eq!([one(&[byte]), one(&[b'a', byte]), one(&[byte, b'a'])], [error; 3], "byte {byte}");
    }
    assert_eq!([0, 1, 64, 65].map(|n| one(&vec![b'x'; n]).is_none()), [false, true, true, false]);
    assert_eq!(Names::new(["a", "b", "", "c"]), Err(NamesError::Name { lane: 2 }));
    assert_eq!(Names::new(["a", "b", "a", ""]), Err(NamesError::Twice { lane: 2 }));
    let said = [NamesError::Name { lane: 2 }, NamesError::Twice { lane: 2 }, NamesError::LastLine];
    assert_eq!(
        said.map(|e| e.to_string()),
        [
            "lane 2: its name is not 1 to 64 printing ASCII bytes without a space",
            "lane 2: an earlier one has its name",
            "names: the last line is not ended by a line feed",
        ]
    );
}

#[test]
fn names_as_a_text() {
    let names = names_e();
    assert_eq!(names.as_str(), "left\nright\n");
    assert!(names.iter().eq(["left", "right"]));
    assert_eq!([0, 1, 2, usize::MAX].map(|i| names.get(i)), [Some("left"), Some("right"), None, None]);
    assert_eq!(Names::parse("left\nright\n"), Ok(names));
    assert_eq!(Names::parse("").unwrap().iter().count(), 0);
    assert_eq!(Names::parse("left"), Err(NamesError::LastLine));
    assert_eq!(Names::parse("left\nright"), Err(NamesError::LastLine));
    assert_eq!(Names::parse("\n"), Err(NamesError::Name { lane: 0 }));
    assert_eq!(Names::parse("left\nright\n\n"), Err(NamesError::Name { lane: 2 }));
    assert_eq!(Names::parse("left\r\nright\r\n"), Err(NamesError::Name { lane: 0 }));
    assert_eq!(Names::parse("left\nleft\n"), Err(NamesError::Twice { lane: 1 }));
}

#[test]
fn another_number_of_names() {
    let panel = panel_e();
    for n in (0..6).filter(|n| *n != 2) {
        let names = Names::new((0..n).map(|i| format!("lane{i}"))).unwrap();
        assert_eq!(refused(mosaic().to_bed(&panel, &names)), Some((34, 0)));
        assert_eq!(refused(panel.read_bed(&names, 0, MOSAIC_BED)), Some((34, 0)));
    }
    let said = mosaic().to_bed(&panel, &Names::new(["one"]).unwrap()).unwrap_err();
    assert_eq!(said.to_string(), "refused 34 0: routes as BED: name table bad");
}

#[test]
fn panel_es_assignments() {
    let panel = panel_e();
    let names = names_e();
    assert_eq!(mosaic().to_bed(&panel, &names).as_deref(), Ok(MOSAIC_BED));
    there_and_back(&panel, &names, &mosaic());
    for words in [
        &[0, 1, 1, 0, 0, 10, 0][..],
        &[0, 1, 2, 0, 0, 4, 0, 0, 4, 10, 0],
        &[0, 1, 4, 0, 0, 4, 0, 1, 6, 7, 0, 1, 7, 8, 0, 0, 7, 10, 0],
    ] {
        there_and_back(&panel, &names, &Assignment::from_words(words).unwrap());
    }
}

#[test]
fn a_reverse_piece_and_several_routes() {
    // Lane 1 has the stretch between the two words the other way round.
    let panel = PanelBuilder::new(2)
        .lane(20, 0)
        .lane(4_294_967_295, 1)
        .family([0, 1])
        .port("AC", 0, 3, false)
        .port("AC", 1, 12, true)
        .port("GG", 0, 9, false)
        .port("GG", 1, 6, true)
        .build()
        .unwrap();
    let names = Names::new(["x", &"y".repeat(64)]).unwrap();
    let piece = |source, start, end, reverse| Segment { source, start, end, reverse };
    let native = [piece(1, 0, 4_294_967_295, false)];
    let turned = [piece(0, 0, 4, false), piece(1, 7, 13, true), piece(0, 10, 20, false)];
    let two = |routes: [&[Segment]; 2]| Assignment::new(0, routes.map(|r| r.iter().copied())).unwrap();
    there_and_back(&panel, &names, &two([&[piece(0, 0, 20, false)], &native]));
    // Alone it is legal; with lane 1 whole behind it two spans overlap.
    let both = two([&turned, &native]);
    assert_eq!(refused(both.to_bed(&panel, &names)), Some((31, 0)));
    assert_eq!(refused(panel.read_bed(&names, 0, lines(&names, &both))), Some((31, 0)));
    let split: Vec<Segment> =
        (0..3).map(|i| piece(1, i, if i == 2 { 4_294_967_295 } else { i + 1 }, false)).collect();
    there_and_back(&panel, &names, &two([&[piece(0, 0, 20, false)], &split]));
}

/// Random panels, and every assignment that their walks hand over.
#[test]
fn what_walks_hand_over() {
    let (mut seen, mut reverse, mut routes) = (0, 0, 0);
    for seed in 0..60 {
        let mut rng = Rng(seed);
        let lanes = 2 + rng.below(3);
        let mut builder = PanelBuilder::new(2);
        for lane in 0..lanes {
            builder.lane(12 + rng.below(200), lane);
            for anchor in [1, 4, 7, 10] {
                if rng.below(4) > 0 {
                    builder.port(["AC", "GT"][rng.below(2) as usize], lane, anchor, rng.below(3) == 0);
                }
            }
        }
        builder.family([0]).family([1, 0]);
        let panel = builder.build().unwrap();
        let names = Names::new((0..lanes).map(|i| "x".repeat(1 + (17 * i as usize) % 64))).unwrap();
        let budget = SearchBudget { max_work: 3_000, max_evaluations: 60, ..SearchBudget::default() };
        for assignment in panel.assignments(budget).unwrap() {
            there_and_back(&panel, &names, &assignment);
            seen += 1;
            reverse += usize::from(assignment.routes().flatten().any(|s| s.reverse));
            routes += usize::from(assignment.routes().count() > 1 && assignment.switches() > 0);
        }
    }
    assert!(seen > 300 && reverse > 20 && routes > 20, "{seen}, {reverse}, {routes}");
}

/// The mosaic's text with its second line another.
fn second(line: &str) -> String {
    MOSAIC_BED.replace("right\t6\t8\tr0\t0\t+\n", line)
}

#[test]
fn lines_not_in_the_form() {
    let panel = panel_e();
    let names = names_e();
    let number = |text: &str| refused(panel.read_bed(&names, 0, text));
    assert_eq!(number(&second("right\t6\t8\tr0\t0\t+\n")), None);
    let mut bad: Vec<String> = [
        "right\t6\t8\tr0\t0\n",
        "right\t6\t8\tr0\t0\t+\t\n",
        "right\t6\t8\tr0\t0\t+\tx\n",
        "right 6 8 r0 0 +\n",
        "right\t6\t8\tr0\t0\t+\r\n",
        "right\t6\t8\tr0\t0\t.\n",
        "right\t6\t8\tr0\t0\t\n",
        "right\t6\t8\tr0\t0\t+-\n",
        "right\t6\t8\tr0\t00\t+\n",
        "right\t6\t8\tr0\t1\t+\n",
        "right\t6\t8\tr0\t\t+\n",
        "right\t6\t8\t0\t0\t+\n",
        "right\t6\t8\tR0\t0\t+\n",
        "right\t6\t8\tr\t0\t+\n",
        "right\t6\t8\tr2\t0\t+\n",
        "right\t6\t8\tr00\t0\t+\n",
        "\t6\t8\tr0\t0\t+\n",
        "ri ght\t6\t8\tr0\t0\t+\n",
        "\tright\t6\t8\tr0\t0\t+\n",
        "\n",
        "# a comment\n",
        "track name=routes\n",
        "\0\n",
    ]
    .map(second)
    .to_vec();
    bad.push(second(&format!("{}\t6\t8\tr0\t0\t+\n", "x".repeat(65))));
    for n in ["", "06", "00", "+6", "-6", "-0", "6 ", " 6", "6.0", "0x6", "a", "18446744073709551616"] {
        bad.push(second(&format!("right\t{n}\t8\tr0\t0\t+\n")));
        bad.push(second(&format!("right\t6\t{n}\tr0\t0\t+\n")));
        bad.push(second(&format!("right\t6\t8\tr{n}\t0\t+\n")));
    }
    // 6 and 2^64, which is 6 where a number wraps; and many digits.
    bad.push(second("right\t18446744073709551622\t8\tr0\t0\t+\n"));
    bad.push(second(&format!("right\t{}\t8\tr0\t0\t+\n", "6".repeat(40))));
    bad.push(MOSAIC_BED.replace("r0", "r1"));
    bad.push(MOSAIC_BED.trim_end().into());
    bad.push(MOSAIC_BED.replace('\n', "\r\n"));
    bad.push(format!("{MOSAIC_BED}\n"));
    bad.push("left".into());
    for text in &bad {
        assert_eq!(number(text), Some((35, 0)), "{text:?}");
    }
    // A slot of its own, and numbers that are numbers, are the check's.
    assert_eq!(number(&second("right\t6\t8\tr1\t0\t+\n")), Some((35, 0)));
    assert_eq!(number(&MOSAIC_BED.replace("10\tr0", "10\tr1")), Some((24, 0)));
    assert_eq!(number(&second("right\t6\t18446744073709551615\tr0\t0\t+\n")), Some((26, 0)));
    assert_eq!(number(&second("")), Some((30, 0)));
    assert_eq!(number(""), Some((24, 0)));
    assert_eq!(refused(panel.read_bed(&names, 0, b"\xff\xfe")), Some((35, 0)));
    let said = panel.read_bed(&names, 0, "x").unwrap_err();
    assert_eq!(said.to_string(), "refused 35 0: routes as BED: a line not in this form");
}

#[test]
fn cut_anywhere() {
    let panel = panel_e();
    let names = names_e();
    for end in 0..MOSAIC_BED.len() {
        let text = &MOSAIC_BED[..end];
        let number = match text {
            "" => 24,
            _ if text.ends_with('\n') => 27,
            _ => 35,
        };
        assert_eq!(refused(panel.read_bed(&names, 0, text)), Some((number, 0)), "{text:?}");
    }
}

#[test]
fn names_not_in_the_table() {
    let panel = panel_e();
    let names = names_e();
    for name in ["righ", "rights", "Right", "r", "#right", &"x".repeat(64)] {
        let text = second(&format!("{name}\t6\t8\tr0\t0\t+\n"));
        assert_eq!(refused(panel.read_bed(&names, 0, &text)), Some((36, 0)), "{name}");
        // Before the family, which is none.
        assert_eq!(refused(panel.read_bed(&names, 7, &text)), Some((36, 0)));
    }
    let said = panel.read_bed(&names, 0, "x\t0\t1\tr0\t0\t+\n").unwrap_err();
    assert_eq!(said.to_string(), "refused 36 0: routes as BED: a name not in the table");
}

#[test]
fn the_checks_refusals() {
    let panel = builder_e().family([1, 0]).build().unwrap();
    let names = names_e();
    let two = |second: &str| format!("right\t0\t10\tr0\t0\t+\n{second}");
    for (text, expected) in [
        (two("left\t0\t10\tr1\t0\t+\n"), None),
        (two("left\t0\t11\tr1\t0\t+\n"), Some((26, 1))),
        (two("left\t4\t4\tr1\t0\t+\n"), Some((26, 1))),
        (two("left\t0\t9\tr1\t0\t+\n"), Some((27, 1))),
        (two("left\t0\t10\tr1\t0\t-\n"), Some((27, 1))),
        (two("left\t0\t3\tr1\t0\t+\nleft\t4\t10\tr1\t0\t+\n"), Some((28, 1))),
        (two("left\t0\t4\tr1\t0\t+\nleft\t5\t10\tr1\t0\t+\n"), Some((29, 1))),
        (two("left\t0\t4\tr1\t0\t+\nleft\t7\t10\tr1\t0\t+\n"), Some((30, 1))),
        (two("left\t0\t4\tr1\t0\t+\nright\t6\t8\tr1\t0\t+\nleft\t7\t10\tr1\t0\t+\n"), Some((31, 0))),
        (two(""), Some((24, 0))),
    ] {
        assert_eq!(refused(panel.read_bed(&names, 1, &text)), expected, "{text:?}");
    }
    assert_eq!(refused(panel.read_bed(&names, 2, two(""))), Some((23, 0)));
    assert_eq!(refused(panel.read_bed(&names, u64::MAX, "")), Some((23, 0)));
}

#[test]
fn near_the_bound_of_words() {
    let panel = PanelBuilder::new(1).lane(20_000, 0).lane(5, 0).family([0, 1]).build().unwrap();
    let names = Names::new(["a", "b"]).unwrap();
    // 2 + 2 + 4 * (n + 1) words: 65,536 of them with n 16,382.
    let text = |n: u64| {
        let end = |i| if i + 1 == n { 20_000 } else { i + 1 };
        let first: String = (0..n).map(|i| format!("a\t{i}\t{}\tr0\t0\t+\n", end(i))).collect();
        first + "b\t0\t5\tr1\t0\t+\n"
    };
    let most = panel.read_bed(&names, 0, text(16_382)).unwrap();
    assert_eq!(most.words().len(), 65_536);
    assert_eq!(most.to_bed(&panel, &names).unwrap(), text(16_382));
    assert_eq!(refused(panel.read_bed(&names, 0, text(16_383))), Some((22, 0)));
    let mut out = vec![u64::MAX; 65_539];
    assert_eq!(refused(panel.read_bed_into(&names, 0, text(16_383), &mut out)), Some((37, 0)));
    assert!(out.iter().all(|w| *w == u64::MAX));
}

#[test]
fn many_lanes() {
    let mut builder = PanelBuilder::new(1);
    (0..4_096).fold(&mut builder, |b, lane| b.lane(4, lane)).family(4_032..4_096);
    let panel = builder.build().unwrap();
    for name in [|i: u64| format!("lane{i}"), |i: u64| format!("{i:x>64}"), |i: u64| format!("{i:x<64}")] {
        let names = Names::new((0..4_096).map(name)).unwrap();
        let native = panel.assignments(SearchBudget::default()).unwrap().next().unwrap();
        there_and_back(&panel, &names, &native);
        let text = native.to_bed(&panel, &names).unwrap();
        let other = text.replacen(&name(4_095), "lane4096", 1);
        assert_eq!(refused(panel.read_bed(&names, 0, other)), Some((36, 0)));
    }
}
