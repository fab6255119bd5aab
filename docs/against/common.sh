# shellcheck shell=bash
# What the scripts of this folder share: the zela that they run, a folder to work in, and what they say of a tool.

fail() { # WORDS..
    echo "${0##*/}: $*" >&2
    exit 1
}
usage() { # WORDS..
    echo "usage: docs/against/${0##*/} $*" >&2
    exit 2
}
has() { command -v "$1" >/dev/null 2>&1; }

# The folder to work in, which goes away when the script ends.
room=$(mktemp -d)
trap 'rm -rf "$room"' EXIT

# Goes to the root of the repository. `zela` is then the program that was given; without one it is built for this machine's own
# processor.
enter() { # [ZELA]
    local given=${1:+$(realpath -m -- "$1")}
    cd "$(dirname "${BASH_SOURCE[0]}")/../.." || exit
    # shellcheck source=docs/build.sh
    source docs/build.sh
    if [ -z "$given" ]; then
        make_zela || fail "zela can't be built, and none was given"
        return
    fi
    zela=$given
    if ! [ -f "$zela" ] || ! [ -x "$zela" ]; then fail "$zela is no program"; fi
}

# The tools that are there, each with its version, and those that are not.
tell_tools() { # TOOLS..
    local tool
    for tool; do
        if ! has "$tool"; then
            echo "$tool is not installed"
        elif [ "$tool" = mediainfo ]; then
            "$tool" --version | grep -i -m 1 lib
        else
            "$tool" -version | sed -n '1s/ Copyright.*//p'
        fi
    done
}
