#!/bin/bash
# Print the places of one point of docs/DESIGN-PASS.md: places.sh POINT
cd "$(dirname "$0")/.." || exit 1
src=$(ls crates/*/src/*.rt)
case "$1" in
1) grep -nE '\benum |Result<[^>]*, (u8|u32|u64|usize)>|\b(negative|minus|other|away): bool|fn (number|place|word)\(' $src ;;
2) python3 tools/twins.py 14 ;;
3) grep -nE '\bwhile |\bloop \{|for [a-z_]+ in [^{]*\.\.' $src | grep -v '//' ;;
4) grep -nE 'fn (alike|refused|digit|digit_byte|hex_number|kind_of|kind_name|split_word|split_side|write_\w+|done_or|number_or|word|signed|pattern|clamped|in_range|ordered|turned)\b' $src ;;
5) sed -nE 's/^ *(requires|ensures)( [a-z_]+)? (\{.*\})$/\1 \3/p' $src | sort | uniq -c | awk '$1 > 2' | sort -rn ;;
6) grep -nE '\[[^]&;]+; [A-Z0-9_]+\]|\blen: usize' $src | grep -v '_tests/' ;;
7) grep -nE '\bdyn |: fn\(|\bFn(Mut|Once)?\(|match (self|v|side|word|name|choice)\b' $src ;;
8) find crates/*/proofs -name Answers.antt | xargs grep -h '^pub .* : goal\.' ;;
esac
