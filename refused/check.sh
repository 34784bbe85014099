#!/usr/bin/env bash
# Shows that the check refuses each program here for the reason that is named below, and that with one line more, its mended text, it compiles and runs.
# The programs stand over copies of the crates in a folder apart; what is looked for is found before any proof.
set -eu
root=$(cd "$(dirname "$0")/.." && pwd -P)
room=$(mktemp -d)
trap 'rm -rf "$room"' EXIT
mkdir -p "$room/crates/user/src"
cd "$room"

# crates.txt lists each crate after those that it uses.
sed '/^books:/q' "$root/crates.txt" >crates.txt
while IFS=: read -r crate _; do
    mkdir "crates/$crate"
    cp -r "$root/crates/$crate/src" "$root/crates/$crate/specs" "crates/$crate/"
done <crates.txt
echo 'user: accounts kinds books' >>crates.txt

fail() { # WHAT
    echo "$1"
    cat said
    exit 1
}

attempt() { # NAME
    cp "$root/refused/$1.txt" crates/user/src/main.rt
    status=0
    (cd crates/user && timeout 120 rt try) >said 2>&1 || status=$?
}

# The text is refused with one error, that one.
refused() { # NAME ERROR SHORT
    attempt "$1"
    if [ "$status" -ne 1 ] || [ "$(grep -c 'error' said)" -ne 1 ] || ! grep -qF "$2" said; then
        fail "$1: NOT REFUSED for its fault (status $status)"
    fi
    echo "$1: refused: $3"
}

# The mended text has one line more, and its types and moves are accepted.
accepted() { # NAME
    diff "$root/refused/$1.txt" "$root/refused/$1.mended.txt" >said || true
    [ "$(grep '^[<>]' said | cut -c1)" = '>' ] || fail "$1.mended: it is NOT the text with one line more"
    attempt "$1.mended"
    [ "$status" -eq 0 ] || fail "$1.mended: REFUSED (status $status)"
    echo "$1.mended: accepted"
}

refused take-with-a-loaded-blade 'error[mismatched-types]: expected `EmptyBlade`, found `LoadedBlade`' 'expected EmptyBlade, found LoadedBlade'
accepted take-with-a-loaded-blade
refused loaded-blade-let-go 'error[linear-value-let-go]: `blade` is let go where its block ends, and `LoadedBlade` is not `Drop`' 'a LoadedBlade is let go'
accepted loaded-blade-let-go
