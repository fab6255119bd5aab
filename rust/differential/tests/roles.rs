//! What the core says of a role is what the Rust says.
#![forbid(unsafe_code)]

use differential::rust;
use zelamodurk::syntax::Role;

#[test]
#[cfg_attr(not(oracle), ignore = "the Rust is not there")]
fn every_role_is_of_the_rusts_kinds() {
    let mut seen = [0; 3];
    for word in (0..=20).flat_map(|number| [0, 1, 255].map(|programme| number + 32 * programme)) {
        let role = Role::of_word(word);
        let kinds = [role.is_drc(), role.is_checksum(), role.is_span()];
        assert_eq!(Some(kinds), rust::kinds(role), "{role:?}");
        (0..3).for_each(|kind| seen[kind] += usize::from(kinds[kind]));
    }
    assert_eq!(seen, [12, 6, 12]);
}
