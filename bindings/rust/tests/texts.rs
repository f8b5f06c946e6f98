//! What the library makes of scripts and journals.

use atomfs::{check, draw, explain, front, linearize, run, schedule, seeds, trace};
use atomfs::{ErrorKind, Linearized, Schedule, Tree};

const SCRIPT: &str = "atomfs 1\nthread m\nmkdir /a\nmkdir /a/b\nthread r\nrename /a /b\nschedule\nm*9 r*9 finish\n";
const FAULT: &str = "atomfs 1\nthread m\nmkdr /a\nschedule\n";

#[test]
fn traces() {
    let told = trace(SCRIPT, Schedule::Given, false).unwrap();
    assert!(told.contains("r#1 helps m#2, commits it at /a\n"), "{told}");
    let every = trace(SCRIPT, Schedule::default(), true).unwrap();
    assert!(every.len() > told.len());
    assert_ne!(trace(SCRIPT, Schedule::RoundRobin, false).unwrap(), told);
    let error = trace(FAULT, Schedule::Seeded(1), false).unwrap_err();
    assert!(error.to_string().starts_with("line 3: BadLine: "));
}

#[test]
fn pictures() {
    let mut tree = Tree::new().unwrap();
    tree.mkdir("/a").unwrap();
    tree.mkdir("/b").unwrap();
    let journal = tree.journal().unwrap();
    let whole = draw(&journal, Schedule::Given, None).unwrap();
    assert!(whole.starts_with("<svg ") && whole.ends_with("</svg>\n"));
    let one = draw(&journal, Schedule::Given, Some(2)).unwrap();
    assert!(one.len() < whole.len());
    for none in [0, 3] {
        let error = draw(&journal, Schedule::Given, Some(none)).unwrap_err();
        assert_eq!(error, ErrorKind::NoCall);
    }
    let error = draw(FAULT, Schedule::Given, None).unwrap_err();
    assert!(matches!(error.kind(), ErrorKind::BadText(_, 3)));
}

/// The schedule that is written is the run, whose comments stay as they are.
#[test]
fn schedules() {
    let mut script = SCRIPT.as_bytes().to_vec();
    script.splice(9..9, *b"# \xff\n");
    let told = schedule(&script, Schedule::Seeded(7)).unwrap();
    assert!(told.starts_with(b"atomfs 1\n# \xff\nthread m\n"));
    assert_eq!(schedule(&told, Schedule::Given).unwrap(), told);
    let ran = run(told).unwrap();
    assert!(ran.ends_with("begun 3 committed 3 returned 3\n"), "{ran}");
    assert!(run(schedule(script, Schedule::RoundRobin).unwrap()).is_ok());
    let error = schedule(FAULT, Schedule::RoundRobin).unwrap_err();
    assert!(matches!(error.kind(), ErrorKind::BadText(_, 3)));
}

#[test]
fn seeded_runs() {
    let lawful = "lawful".to_owned();
    let wanted = vec![(5, lawful.clone()), (6, lawful)];
    assert_eq!(seeds(SCRIPT, 5, 2).unwrap(), wanted);
    for (seed, runs) in [(0, 0), (0, 10_001), (1 << 63, 1)] {
        assert_eq!(seeds(SCRIPT, seed, runs).unwrap_err(), ErrorKind::BadChoice);
    }
}

const BEGUN: &str = "atomfs-journal 1\nbegin 1 0 mkdir /a\nbegin 2 1 stat /a\n";

#[test]
fn histories() {
    let history = format!("{BEGUN}return 2 stat dir ?\nreturn 1 ok\n");
    let journal = match linearize(&history, None).unwrap() {
        Linearized::Lawful(journal) => journal,
        other => panic!("it is lawful, and not {other}"),
    };
    assert_eq!(check(&journal).unwrap(), "lawful");
    assert_eq!(journal.matches("commit ").count(), 2);
    assert_eq!(front(&history, None).unwrap(), None);
    let history = format!("{BEGUN}return 2 stat dir 1\n");
    let wanted = Linearized::NoOrder {
        place: 3,
        call: 2,
        words: "line 4: return 2 stat dir 1; call 2 is stat /a on seat 1\n\
                the call could have replied: failed ENOENT, stat dir 0"
            .to_owned(),
    };
    assert_eq!(linearize(&history, Some(1_000_000_000)).unwrap(), wanted);
    let told = front(&history, None).unwrap();
    assert_eq!(told, Some(history.clone()));
    assert_eq!(linearize(&history, Some(1)).unwrap(), Linearized::Unknown { place: 2 });
    assert_eq!(front(history, Some(1)).unwrap(), None);
}

#[test]
fn no_histories() {
    let history = format!("{BEGUN}begin 3 1 stat /\n");
    let wanted = Linearized::NoHistory {
        place: 3,
        kind: "SeatBusy".to_owned(),
        words: "line 4: begin 3 1 stat /; call 3 is stat / on seat 1".to_owned(),
    };
    let found = linearize(&history, None).unwrap();
    assert_eq!(found.to_string(), "fault 3 SeatBusy");
    assert_eq!(found, wanted);
    let error = linearize(format!("{BEGUN}commit 1\n"), None).unwrap_err();
    assert!(matches!(error.kind(), ErrorKind::BadText(_, 4)));
    for limit in [0, 1_000_000_001] {
        let error = linearize(&history, Some(limit)).unwrap_err();
        assert_eq!(error, ErrorKind::BadChoice);
    }
}

#[test]
fn words() {
    let told = explain("Nul").unwrap();
    assert!(told.starts_with("Nul: a path has a byte zero\n"));
    assert_eq!(explain("nul").unwrap_err(), ErrorKind::BadChoice);
}
