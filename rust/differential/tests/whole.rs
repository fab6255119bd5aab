//! Whole frames: the Rust's own parser tells the same over its own modules and over the drop-in core. This
//! takes a few damaged copies of each frame; `differential run` takes more.
#![forbid(unsafe_code)]

use differential::whole;

#[test]
#[cfg_attr(not(oracle), ignore = "the Rust is not there")]
fn the_parser_tells_the_same_over_both_cores() {
    let frames = whole::frames().unwrap().len() as u64;
    let tally = whole::run(12).unwrap();
    assert_eq!(tally.taken("as it is"), frames);
    assert_eq!(tally.taken("with more behind it"), frames);
    assert!(tally.taken("made of random bits") > 100);
    assert!(tally.total() > 14 * frames);
}
