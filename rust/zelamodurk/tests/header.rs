//! The wrapper's refusals and roles are the header's, and its names' numbers the core's.

use zelamodurk::syntax::Role;
use zelamodurk::Why;

const HEADER: &str = include_str!("../../../include/zelamodurk.h");

/// `ZELA_PAST_LIMIT` as Rust spells it: `PastLimit`.
fn rust_name(c_name: &str) -> String {
    c_name
        .trim_start_matches("ZELA_")
        .split('_')
        .map(|word| word[..1].to_string() + &word[1..].to_lowercase())
        .collect()
}

/// The names and numbers of one of the header's enums.
fn listed(name: &str) -> Vec<(&'static str, u8)> {
    let start = format!("enum {name} {{");
    let lines = HEADER.lines().skip_while(|line| *line != start).skip(1);
    lines
        .take_while(|line| *line != "};")
        .map(|line| {
            let (name, rest) = line.trim().split_once(" = ").expect("a name and a number");
            let digits: String = rest.chars().take_while(char::is_ascii_digit).collect();
            (name, digits.parse().expect("a number"))
        })
        .collect()
}

#[test]
fn the_refusals_are_the_headers() {
    let refusals = listed("zela_refusal");
    assert_eq!(refusals.len(), 22);
    assert_eq!(refusals[0], ("ZELA_TAKEN", 0));
    for (name, number) in &refusals[1..] {
        assert_eq!(format!("{:?}", Why::of_number(*number)), rust_name(name));
    }
}

#[test]
fn the_roles_are_the_headers() {
    let roles = listed("zela_role");
    assert_eq!(roles.len(), 21);
    for (at, (name, number)) in roles.into_iter().enumerate() {
        assert_eq!(usize::from(number), at);
        let role = Role::of_word(number.into());
        assert_eq!(role.word(), number.into());
        // Without the programme that some carry, and the case: C's CRCRSV is the Rust's CrcRsv.
        let spelled = format!("{role:?}").replace("(0)", "").to_lowercase();
        assert_eq!(spelled, rust_name(name).to_lowercase());
    }
}

#[test]
fn the_roles_with_a_programme_are_the_headers() {
    let says = |line: &&str| line.ends_with("/* carries its programme */");
    assert_eq!(HEADER.lines().filter(says).count(), 5);
    for line in HEADER.lines().filter(says) {
        let (_, rest) = line.split_once(" = ").expect("a name and a number");
        let digits: String = rest.chars().take_while(char::is_ascii_digit).collect();
        let number: u32 = digits.parse().expect("a role's number");
        assert_eq!(Role::of_word(number + 32).word(), number + 32);
    }
}

/// The constants of a file, as it writes them.
fn constants(text: &str) -> Vec<&str> {
    let is_one = |line: &&str| line.starts_with("pub const ");
    text.lines().filter(is_one).collect()
}

#[test]
fn the_names_are_the_cores() {
    let cores = constants(include_str!("../../../crates/syntax/src/names.rt"));
    assert_eq!(cores.len(), 20);
    assert_eq!(constants(include_str!("../src/syntax/names.rs")), cores);
}
