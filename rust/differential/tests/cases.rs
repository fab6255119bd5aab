//! The generated cases: the core agrees with the Rust on each, or with document 01 where it refuses.
//! This takes one of sixteen; `differential run` takes all.
#![forbid(unsafe_code)]

use differential::{cases, tally::Tally};

#[test]
#[cfg_attr(not(oracle), ignore = "the Rust is not there")]
fn the_core_agrees_on_one_case_of_sixteen() {
    let mut tally = Tally::default();
    let mut count: u64 = 0;
    cases::all(&mut |call| {
        if count.is_multiple_of(16) {
            tally.compare(call);
        }
        count += 1;
    });
    assert_eq!(tally.differs, None);
    assert!(count >= 1_000_000, "only {count} cases");
}
