#!/usr/bin/env bash
# Lists the lines of src/ (for point 8, of proofs/) in which the places of docs/DESIGN-PASS.md are looked for.
# Usage: tools/places.sh POINT, with a point from 1 to 8.
set -u
cd "$(dirname "$0")/.." || exit 1
list() {
    grep -rnE "$1" crates/*/src
}
case "${1:-}" in
1) list '^ *(pub(\(crate\))? )?enum |-> bool|-> \((u8, ){2}u8\)|-> \(u32, u64\)|-> u8\b|fn number_of|(rule|kind|code|number|record): u8|const (UNSEEN|ROOT|SOUND)|match (piece|code)' ;;
2) list '^ *(pub(\(crate\))? |extern "C" )*fn |Seat \{$|Shape::check\(' ;;
3) list 'for .* in [(]?[0-9a-z]+\.\.|while |loop \{' ;;
4) list 'fn (number|number_of|code|of|figures|figures_of|is_same|of_[a-z]+|write_[a-z]+|eq|cmp|clone|fmt)\b|\bas u(8|16|32)\b' ;;
5) grep -rhoE '^ *requires( [a-z_]+)? .*' crates/*/src | sed -E 's/^ *requires( [a-z_]+)? //' | sort | uniq -c | sort -rn ;;
6) list '(at|tail|head|place): usize|(links|queue|words|seats|answers|numbers|out): &|const [A-Z_]+: \[|let mut [a-z]+ = \[' ;;
7) list 'match (request|record\.call|piece\[0\])|if (paper\.)?header\.|dyn |fn\(|Box<' ;;
8) grep -rcE '^(pub )?[a-z][^ ]* .*:|^pub ' crates/*/proofs --include=Answers.antt | awk -F: '{n += $2} END {print NR " files, " n " answers and lemmas in them"}'
   find crates/*/proofs -name '*.antt' | xargs cat | wc -l ;;
*) echo "usage: tools/places.sh POINT" >&2; exit 2 ;;
esac
