#!/usr/bin/env bash
# A tour in ten commands, over files in a folder of its own. Its output is tour.txt: `bash examples/tour.sh | diff - examples/tour.txt`.
# DRAGOON=PROGRAM in the environment names another program than ./dragoon.
set -u
root=$(cd "$(dirname "$0")/.." && pwd)
export DRAGOON=${DRAGOON:-$root/dragoon}
work=$(mktemp -d) && trap 'rm -rf "$work"' EXIT && cp "$root"/examples/*.script "$work" && cd "$work" || exit

dragoon() { "$DRAGOON" "$@" 2>/dev/null; }
try() {
    printf '$ %s\n' "$1"
    eval "$1" || echo "(status $?)"
}

echo '# Make a store: granules of 60 seconds, tiles of 2^3 granules.'
try 'dragoon store=ledger.store init 7 60 3 ta'
echo '# Fill it by a script that sets its own moments, and ask it about the past.'
try 'dragoon store=ledger.store run 7 scripted < ledger.script | tail -n 3'
try 'echo "get ledger 1 as of 59" | dragoon store=ledger.store run 7 scripted'
echo '# A statement that does not fit is refused, and the script continues.'
try 'printf "insert ledger 1 null null\nget ledger 1\n" | dragoon store=ledger.store run 7 scripted'
echo '# Two sessions read one row and update it. The second to commit is refused.'
try 'dragoon store=sessions.store init 9 60 3 m'
try 'dragoon store=sessions.store run 9 scripted < sessions.script | tail -n 3'
echo '# After eight minutes a tile has ended: file its digests with the notary, and validate.'
try 'printf "now 480\nnotarize\nvalidate\n" | dragoon store=ledger.store notary=ledger.book run 7 scripted'
echo "# Change one byte of the file, behind the program's back: 700 cents become 701."
try "printf '\\275' | dd of=ledger.store bs=1 seek=\$((\$(grep -abo \$'\\002\\274' ledger.store | tail -n 1 | cut -d: -f1) + 1)) conv=notrunc status=none"
try 'echo "get ledger 1" | dragoon store=ledger.store run 7 scripted'
echo '# A query cannot tell. The validation can, and the analysis names the minute.'
try 'dragoon store=ledger.store notary=ledger.book validate 7'
try 'dragoon store=ledger.store notary=ledger.book analyse 7 a3d | grep -o "granule [0-9]*"'
