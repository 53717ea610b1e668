//! Each function, and each refusal that it can have.
use puttolive_check::*;

const PAIR: &str =
    "channel c; process a { sync send c (42); } process b { x <- sync recv c; print x; }";
const JOURNAL: &str = "1 a.0.0 -> b.0.0 c (42)\n";

#[test]
fn versions() {
    assert!(is_same_version());
}

#[test]
fn scripts() {
    assert_eq!(check(PAIR).unwrap(), "processes 2 channels 1\n");
    assert_eq!(
        check("process a {\nprint x; }"),
        Err(Refusal::BadScript {
            fault: 12,
            line: Some(2)
        })
    );
    assert_eq!(
        check(vec![b' '; 65537]),
        Err(Refusal::BadScript {
            fault: 16,
            line: None
        })
    );
    assert_eq!(why_no_script(PAIR), Ok(None));
    assert!(why_no_script("channel")
        .unwrap()
        .unwrap()
        .starts_with("fault 11 line 1 column 8"));
}

#[test]
fn journals() {
    let judge = |journal: &str, rows| check_journal(PAIR, journal, rows);
    assert_eq!(judge("", 256).unwrap().verdict, Verdict::Open);
    assert_eq!(judge("1 a", 256), Err(Refusal::BadJournal { line: 1 }));
    assert_eq!(judge(JOURNAL, 0), Err(Refusal::BadRows));
    assert_eq!(
        check_journal("channel", JOURNAL, 9),
        Err(Refusal::BadScript {
            fault: 11,
            line: Some(1)
        })
    );
}

#[test]
fn searches() {
    let asked = Search::default();
    assert_eq!(
        outcomes(PAIR, &asked).unwrap().text,
        "outcome 1\na ended\nb ended 42\noutcomes 1 states 2 all, every run ends within 1 commits\n"
    );
    assert_eq!(
        outcomes(PAIR, &Search { rows: 9, ..asked }).unwrap().text,
        "outcome 1\na ended\nb ended 42\noutcomes 1 configurations 2 all\n"
    );
    assert_eq!(
        outcomes(
            PAIR,
            &Search {
                limit: 1,
                need: "all",
                ..asked
            }
        )
        .unwrap()
        .finding,
        Finding::Unknown
    );
    let stuck = "channel c; process a { sync send c (1); }";
    assert_eq!(
        outcomes(stuck, &Search { need: "a", ..asked })
            .unwrap()
            .finding,
        Finding::Stuck
    );
    let beside = format!("{stuck} process clock {{ forever {{ sync always (); }} }}");
    let found = outcomes(&beside, &Search { need: "a", ..asked }).unwrap();
    assert_eq!(found.finding, Finding::Stranded);
    assert!(found.text.starts_with("stranded a states 1\n"));
    let clock = Search {
        need: "clock",
        ..asked
    };
    assert_eq!(outcomes(&beside, &clock).unwrap().finding, Finding::Clear);
    assert_eq!(
        outcomes(
            PAIR,
            &Search {
                rows: 1025,
                ..asked
            }
        ),
        Err(Refusal::BadRows)
    );
    assert_eq!(
        outcomes(PAIR, &Search { limit: 0, ..asked }),
        Err(Refusal::BadLimit)
    );
    assert_eq!(
        outcomes(
            PAIR,
            &Search {
                only: "a,nobody",
                ..asked
            }
        ),
        Err(Refusal::NoProcess("nobody".into()))
    );
}

#[test]
fn questions() {
    let told = |answered, text: &str| {
        Ok(Reached {
            answered,
            text: text.into(),
        })
    };
    let script = format!("{PAIR} process clock {{ forever {{ sync always (); }} }}");
    assert_eq!(
        never(&script, 9, "b=42"),
        told(Answered::Found, "printed b 42 states 1\n")
    );
    assert_eq!(
        never(&script, 9, "b=43"),
        told(Answered::Never, "never b 43 states 2 all\n")
    );
    assert_eq!(
        never(&script, 9, "b=#d"),
        Err(Refusal::NoPrint("b=#d".into()))
    );
    assert_eq!(
        faults(&script, 9),
        told(Answered::Never, "fault none states 2 all\n")
    );
    assert_eq!(
        faults(&script, 1),
        told(Answered::Unknown, "fault unknown states 1 cut\n")
    );
    assert_eq!(faults(&script, 0), Err(Refusal::BadLimit));
    assert_eq!(
        left(&script, 9, "clock"),
        told(Answered::Found, "left clock states 2\n")
    );
    assert_eq!(
        left(&script, 9, "nobody"),
        Err(Refusal::NoProcess("nobody".into()))
    );
}

#[test]
fn charts() {
    let draw = |journal: &str, form| chart(PAIR, journal, 256, "", 1..=u32::MAX, form);
    assert!(matches!(draw(JOURNAL, Form::Svg), Ok(Chart::Drawn(text)) if text.starts_with("<svg")));
    assert!(
        matches!(draw(JOURNAL, Form::Mermaid), Ok(Chart::Drawn(text)) if text.starts_with("sequenceDiagram\n"))
    );
    assert_eq!(
        draw("1 a.0.0 -> b.0.0 c (43)\n", Form::Svg),
        Ok(Chart::Unlawful { line: 1 })
    );
    assert_eq!(
        chart(PAIR, JOURNAL, 256, "nobody", 1..=9, Form::Svg),
        Err(Refusal::NoProcess("nobody".into()))
    );
}

/// A text that does not fit the first buffer.
#[test]
fn long_texts() {
    let many: String = (0..64)
        .map(|i| format!("process a_process_with_a_long_name_{i:02} {{ sync never; }}\n"))
        .collect();
    let judged = check_journal(&many, "", 256).unwrap();
    assert!(judged.text.len() > 2048 && judged.text.ends_with("lawful 0 maximal\n"));
    let longer: String = (0..64).map(|i| format!("process p{i:02} {{ print 4294967295; print 4294967295; print 4294967295; print 4294967295; print 4294967295; print 4294967295; print 4294967295; }}\n")).collect();
    let judged = check_journal(&longer, "", 256).unwrap();
    assert!(judged.text.len() > 4096 && judged.text.ends_with("lawful 0 maximal\n"));
}
