use super::*;

fn parsed(words: &[&str]) -> Result<Action, Failure> {
    parse(words.iter().map(OsString::from))
}

fn usage(words: &[&str]) {
    let failure = parsed(words).unwrap_err();
    assert_eq!(failure.status(), 2, "{words:?}: {failure}");
}

#[test]
fn help_and_version() {
    assert_eq!(parsed(&["--help"]), Ok(Action::Help));
    assert_eq!(parsed(&["subset", "--help"]), Ok(Action::Help));
    assert_eq!(parsed(&["--version"]), Ok(Action::Version));
    usage(&["--version", "more"]);
}

#[test]
fn info_takes_one_font() {
    assert_eq!(parsed(&["info", "a.otf"]), Ok(Action::Info("a.otf".into())));
    usage(&["info"]);
    usage(&["info", "a.otf", "b.otf"]);
    usage(&["info", "--all"]);
}

#[test]
fn every_option_of_subset() {
    let words = [
        "subset",
        "a.otf",
        "--text",
        "Hé",
        "--glyphs",
        "3,5-7",
        "--names",
        "f_i,e",
        "--cids",
        "9",
        "--text-file",
        "t",
        "--name",
        "N",
        "--encoding",
        "-o",
        "out",
    ];
    let Ok(Action::Subset(wanted)) = parsed(&words) else {
        panic!("not parsed");
    };
    assert_eq!(wanted.font, PathBuf::from("a.otf"));
    assert_eq!(wanted.name.as_deref(), Some("N"));
    assert!(wanted.encoding);
    assert_eq!(wanted.output, Some("out".into()));
    assert_eq!(
        wanted.keep,
        [
            Keep::Text("Hé".into()),
            Keep::Glyphs(vec![3, 5, 6, 7]),
            Keep::Names(vec!["f_i".into(), "e".into()]),
            Keep::Cids(vec![9]),
            Keep::TextFile("t".into()),
        ]
    );
}

#[test]
fn wrong_words() {
    usage(&[]);
    usage(&["cut", "a.otf"]);
    usage(&["subset"]);
    usage(&["subset", "a.otf"]);
    usage(&["subset", "--text", "A"]);
    usage(&["subset", "a.otf", "b.otf", "--text", "A"]);
    usage(&["subset", "a.otf", "--text"]);
    usage(&["subset", "a.otf", "--letters", "A"]);
    usage(&["subset", "a.otf", "--text", "A", "-o", "x", "-o", "y"]);
    usage(&["subset", "a.otf", "--names", "A,,B"]);
}

#[test]
fn wrong_numbers() {
    for word in [
        "", "x", "1,", "65536", "-1", "+1", "1-", "7-5", "1-2-3", " 1",
    ] {
        usage(&["subset", "a.otf", "--glyphs", word]);
        usage(&["subset", "a.otf", "--cids", word]);
    }
}

#[test]
fn all_numbers_of_sixteen_bits() {
    let Ok(Action::Subset(wanted)) = parsed(&["subset", "a", "--cids", "0-65535"]) else {
        panic!("not parsed");
    };
    assert_eq!(wanted.keep, [Keep::Cids((0..=65535).collect())]);
}

#[test]
fn check_takes_a_font_and_a_record() {
    let Ok(Action::Check(checked)) = parsed(&["check", "a.otf", "r", "--glyphs", "1"]) else {
        panic!("not parsed");
    };
    assert_eq!((checked.font, checked.record), ("a.otf".into(), "r".into()));
    assert_eq!(checked.keep, [Keep::Glyphs(vec![1])]);
    usage(&["check", "a.otf", "r"]);
    usage(&["check", "a.otf", "--glyphs", "1"]);
    usage(&["check", "a.otf", "r", "--glyphs", "1", "-o", "x"]);
}

#[test]
fn blocking_takes_one_font() {
    let words = ["blocking", "a.otf", "--text", "A", "--name", "N"];
    assert!(matches!(parsed(&words), Ok(Action::Blocking(_))));
    usage(&["blocking", "a.otf"]);
    usage(&["blocking", "a.otf", "--text", "A", "-o", "x"]);
    usage(&["blocking", "a.otf", "--text", "A", "--encoding"]);
}
