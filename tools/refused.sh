#!/bin/sh
# Shows what the build refuses of a feed: going through a raw one, using a checked one twice, making one
# without a check, forging one. Each attempt is a crate of its own in a temporary folder, beside copies of
# the crate `feed` and of what it rests on; one attempt that must build is the control.
#
# Each attempt is checked by `rt check`, which proves the crates below it first and leaves their tests out. Types, moves
# and privacy are refused by the front end, which stops before any proof; a making without a check is refused by the
# proof alone. What an earlier check left in the crates' out/ folders is copied with them. It takes about a minute.
set -eu
here=$(cd "$(dirname "$0")/.." && pwd)
work=$(mktemp -d)
trap 'rm -rf "$work"' EXIT
cd "$work"

# The line of a crate in crates.txt, and below it those of the crates that it rests on.
lines_of() ( # a subshell, so that each call has a line of its own
    line=$(sed -n "s/#.*//; s/^$1:/$1:/p" "$here/crates.txt")
    for below in ${line#*:}; do lines_of "$below"; done
    printf '%s\n' "$line"
)

mkdir crates
lines_of feed | awk '!seen[$0]++' > crates.txt
for name in $(sed 's/:.*//' crates.txt); do
    cp -r "$here/crates/$name" crates/
    rm -rf "crates/$name/must-fail"
done

crate() { # NAME BODY: a crate that has a raw and a checked feed
    mkdir -p "crates/$1/src"
    printf '%s: feed\n' "$1" >> crates.txt
    cat > "crates/$1/src/lib.rt" <<EOF
#![tactic(auto)]

use feed::entries::Entries;
use feed::entry::Item;
use feed::feed::CheckedFeed;
use feed::feed::RawFeed;

pub fn attempt<'a>(raw: RawFeed<'a>, good: CheckedFeed<'a>) -> Option<Item<'a>> {
    $2
}
EOF
}

wrong() { # NAME EXPECTED FOUND
    echo "WRONG: $1: expected $2, found $3"
    tail -40 "$1.out"
    exit 1
}

checks() ( # NAME: in a subshell, so that the next call begins here too
    cd "crates/$1"
    rt check > "$work/$1.out" 2>&1
)

front() { # NAME: the first error of the front end, or none
    found=$(sed -n 's/.*: error\[\([a-z0-9-]*\)\].*/\1/p' "$1.out" | head -1)
    echo "${found:-none}"
}

builds() { # NAME BODY
    crate "$1" "$2"
    if checks "$1" && grep -q '^logic=proved ' "$1.out"; then echo "builds, as it must: $1"; else wrong "$1" "to build" "a refusal"; fi
}

refused() { # NAME ERROR BODY: the front end refuses, with that error first, and no proof is begun
    crate "$1" "$3"
    if checks "$1"; then wrong "$1" "$2" "that it builds"; fi
    found=$(front "$1")
    if [ "$found" != "$2" ]; then wrong "$1" "$2" "$found"; fi
    if grep -q '^logic=' "$1.out"; then wrong "$1" "only the front end to refuse" "a proof begun"; fi
    echo "refused ($2): $1"
}

unproved() { # NAME NEED BODY: the front end takes it, and the proof lacks that need
    crate "$1" "$3"
    if checks "$1"; then wrong "$1" "a refusal" "that it builds"; fi
    found=$(front "$1")
    if [ "$found" != none ]; then wrong "$1" "only the proof to fail" "$found"; fi
    if ! grep -q '^logic=not-proved' "$1.out"; then wrong "$1" "only the proof to fail" "that it never got there"; fi
    if ! grep -q "^fn $1::attempt: .*\`$2\`" "$1.out"; then wrong "$1" "$2" "another refusal"; fi
    echo "not proved ($2): $1"
}

builds control 'if raw.check().is_ok() { let mut made = raw.checked().entries(); return made.next(); } let mut entries = good.entries(); entries.next()'
refused through_raw unknown-method 'let mut entries = raw.entries(); entries.next()'
refused raw_for_checked mismatched-types 'let feed: CheckedFeed<'"'"'a> = raw; let mut entries = feed.entries(); entries.next()'
refused used_twice borrow-e0382 'let mut entries = good.entries(); let _ = entries.next(); let mut again = good.entries(); again.next()'
refused copied borrow-e0382 'let copy = good; let mut entries = good.entries(); let _ = entries.next(); let mut again = copy.entries(); again.next()'
refused cloned unknown-method 'let copy = good.clone(); let mut entries = copy.entries(); entries.next()'
refused forged private-field 'let forged = CheckedFeed { bytes: b"" }; let mut entries = forged.entries(); entries.next()'
refused forged_entries private-field 'let mut forged = Entries { reader: good.entries().reader }; forged.reader.bytes = b""; forged.reader.place = 0; forged.next()'
unproved made_unchecked checked-requires 'let mut entries = raw.checked().entries(); entries.next()'
unproved made_refused checked-requires 'if raw.check().is_ok() { return None; } let mut entries = raw.checked().entries(); entries.next()'
echo "refused.sh: all as expected"
