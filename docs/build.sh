# shellcheck shell=bash
# What ./run, ./install and docs/against share: the core is proved and compiled, each crate told as it is proved, and the command
# line is built over it. It is sourced, with the repository's root as the working folder.

on_x86() { [ "$(uname -m)" = x86_64 ]; }

# The core is the one that is proved here, whatever the caller links elsewhere, and nothing is written outside the repository. Where
# the machine is not x86-64, `archives` has the core compiled for its own processor (docs/native).
unset ZELAMODURK_ARCHIVES
if on_x86; then
    archives=$PWD/target/staticlib
    CARGO_TARGET_DIR=$PWD/rust/target
else
    archives=$PWD/target/native
    CARGO_TARGET_DIR=$archives/cargo
fi
export CARGO_TARGET_DIR CARGO_HOME=$CARGO_TARGET_DIR/cargo-home
# shellcheck disable=SC2034 # It is for those who source this.
zela=$CARGO_TARGET_DIR/release/zela

# Tells a wait, and what came of it.
say() { echo "${0##*/}: $*"; }

need() { # PROGRAM WHAT: says what it is for where it is not there
    command -v "$1" >/dev/null 2>&1 && return
    say "$1 is not on PATH: it $2" >&2
    return 1
}
need_kit_and_cargo() {
    local lacking=0
    need rt "comes with the Rattle kit, and proves and compiles the core" || lacking=1
    need cargo "builds the command line" || lacking=1
    return "$lacking"
}

# What rt makes, in out/ of each crate, is no part of it.
is_fresh() { # CRATE: whether its archive is there, and nothing that it was made from is newer
    local archive=$archives/lib$1.a made_from=() folder
    for folder in crates/*/{src,specs,proofs}; do
        [ ! -d "$folder" ] || made_from+=("$folder")
    done
    [ -f "$archive" ] && [ -z "$(find crates.txt "${made_from[@]}" -newer "$archive" -print -quit)" ]
}

# rt ends what it says of a crate with its name and what came of it; the rest is left out. Of a crate that was proved before, and has
# not changed, it says nothing.
prove() { # CRATE WHAT HOW-LONG: proves and compiles it with all below it
    local said
    if is_fresh "$1"; then
        say "proved already: $2"
        return
    fi
    say "proving $2, $3"
    said=$(mktemp)
    if docs/archive "$1" 2>&1 | tee "$said" |
        sed -u -n -e '/^crate [a-z_]*: /{s/^crate \([a-z_]*\): .*/  \1 proved/;h}' -e '/^logic=proved /{g;p}'; then
        rm "$said"
    else
        tail -n 20 "$said" >&2
        rm "$said"
        say "docs/archive $1 failed" >&2
        return 1
    fi
}

# The small archive, which is all that the command line links.
prove_bytes() { prove capi_bytes "what the command line links, 8 crates" "a few minutes where nothing is kept"; }

# The two archives of the whole core.
prove_core() {
    if on_x86; then
        prove_bytes && prove capi "the rest of the core, 10 crates" "longer where nothing is kept"
    elif is_fresh capi_bytes && is_fresh capi; then
        say "proved already: the core, compiled for this processor"
    else
        say "proving the core and compiling it for this processor, a long wait where nothing is kept"
        docs/native "$archives"
    fi
}

# Over archives that were just proved, the wrapper's own build proves nothing again.
build_zela() {
    say "building the command line"
    ZELAMODURK_ARCHIVES=$archives cargo build --manifest-path rust/Cargo.toml --release --offline --locked --quiet --package zela
}

# zela for this machine's own processor, from nothing.
make_zela() {
    need_kit_and_cargo || return
    if on_x86; then prove_bytes; else prove_core; fi && build_zela
}
