use super::*;

fn parsed(words: &str) -> Result<Command, String> {
    let words = words.split_whitespace().map(OsString::from);
    parse(words).map_err(|failure| failure.words)
}

/// A check of a file with nothing else asked for.
fn check_of(words: &str) -> Check {
    match parsed(words) {
        Ok(Command::Check(check)) => check,
        other => panic!("{other:?}"),
    }
}

#[test]
fn options_stand_anywhere() {
    let asked = check_of("--format json check a -");
    assert_eq!(asked.files, ["a", "-"]);
    assert_eq!(asked.shown.format, Format::Json);
    assert_eq!(check_of("check a - --format=json"), asked);
    assert_eq!(check_of("check a --format csv - --format json"), asked);
}

#[test]
fn letters_stand_together() {
    let asked = check_of("check -rqaj3 a");
    assert!(asked.is_recursive && asked.shown.quiet && asked.all);
    assert_eq!(asked.jobs, 3);
    assert_eq!(check_of("check a -r -q -a -j 3"), asked);
    assert_eq!(
        check_of("check a --jobs=3 --recursive --quiet --all"),
        asked
    );
}

#[test]
fn after_two_dashes_no_word_is_an_option() {
    let asked = || {
        Ok(Command::Reseal(Rewrite {
            from: "-q".into(),
            to: Some("--".into()),
            all: false,
            is_dry: false,
            shown: Shown::default(),
        }))
    };
    assert_eq!(parsed("reseal -- -q --"), asked());
    assert_eq!(parsed("-- reseal -q --"), asked());
}

#[test]
fn a_position_is_a_plain_number() {
    let span = |at, width| {
        let file = "a".into();
        Ok(Command::Bits(Span { file, at, width }, Format::Text))
    };
    assert_eq!(parsed("bits a 40 5"), span(40, 5));
    assert_eq!(parsed("bits a 0 0"), span(0, 0));
    for bad in ["+1", "0x10", "1.5", "x", "18446744073709551616"] {
        let words = format!("is not a number of bits below 2^64: {bad}\nTry 'zela help bits'.");
        assert_eq!(
            parsed(&format!("bits a {bad} 1")),
            Err(format!("POS {words}"))
        );
        assert_eq!(
            parsed(&format!("bits a 1 {bad}")),
            Err(format!("WIDTH {words}"))
        );
    }
}

#[test]
fn help_and_version_win() {
    assert_eq!(parsed(""), Ok(Command::Nothing));
    assert_eq!(parsed("--help"), Ok(Command::Help(None)));
    assert_eq!(parsed("help"), Ok(Command::Help(None)));
    assert_eq!(parsed("check --help"), Ok(Command::Help(Some("check"))));
    assert_eq!(parsed("help check"), Ok(Command::Help(Some("check"))));
    assert_eq!(parsed("fix -h a b c"), Ok(Command::Help(Some("fix"))));
    assert_eq!(parsed("-V"), Ok(Command::Version));
}

#[test]
fn each_option_goes_with_its_commands_alone() {
    let words = |name: &str| match name {
        "check" => "check a",
        "fix" => "fix a b",
        "reseal" => "reseal a b",
        "bits" => "bits a 0 1",
        _ => "help",
    };
    let asked = KNOWN.iter().filter(|known| !known.with.is_empty());
    for known in asked {
        for topic in &TOPICS {
            let value = match known.long {
                "--jobs" => "=1",
                "--bad" => "=drop",
                "--format" => "=text",
                _ => "",
            };
            let name = topic.name;
            // In place there is one file.
            let line = format!("{} {}{value}", words(name), known.long).replace("b --in", "--in");
            let refused = format!(
                "{} does not go with {name}\nTry 'zela help {name}'.",
                known.long
            );
            match known.with.contains(&name) {
                true => assert!(parsed(&line).is_ok(), "{line}"),
                false => assert_eq!(parsed(&line), Err(refused), "{line}"),
            }
        }
    }
}

#[test]
fn places_are_told_at_once_where_an_end_is_not_known_or_all_are_asked_for() {
    let told = |words, has_size| check_of(words).told_at_once(has_size);
    assert_eq!(told("check a", true), 0);
    assert_eq!(told("check a", false), TOLD);
    assert_eq!(told("check -a a", true), usize::MAX);
    assert_eq!(told("check --format jsonl a", false), TOLD);
    assert_eq!(told("check --format json -a a", false), 0);
    assert_eq!(told("check --format csv -a a", false), 0);
    assert_eq!(told("check -aq a", false), 0);
}
