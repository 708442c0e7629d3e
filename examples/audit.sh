#!/usr/bin/env bash
# An audit without trust in the program: the comparison, evidence of what was altered, and a page to print, in a folder of its own.
set -eu
root=$(cd "$(dirname "$0")/.." && pwd)
export DRAGOON=${DRAGOON:-$root/dragoon}
store=$root/examples/altered.store copy=$root/examples/worked.store book=$root/examples/worked.book
work=$(mktemp -d)

echo '# verify.py needs nothing but Python. It names the digests that differ; granule 5 was altered.'
python3 "$root/python/src/dragoon/verify.py" "$store" "$book" 7 || true

echo '# The evidence: what the altered store has in that granule, and what the copy has, judged by the book alone.'
"$DRAGOON" "store=$store" "copy=$copy" "notary=$book" "target=$work/evidence" evidence 7
"$root/dragoonctl" examine "$work/evidence" "$book" 7

echo '# A bundle for a court, and what judges it.'
"$root/dragoonctl" seal "$work/sealed" "$store" "$copy" "$book" 7
"$root/dragoonctl" sealed "$work/sealed"
echo "# Open $work/sealed/page.html in a browser."
