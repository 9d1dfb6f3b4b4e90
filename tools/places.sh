#!/bin/sh
# Counts, in the crates of the current folder, the places that docs/DESIGN-PASS.md speaks of.
s='--include=*.rt'
count() { printf '%-58s %s\n' "$1" "$2"; }
count '1 enums' "$(grep -rnE '^ *(pub )?enum ' $s crates | grep -v /out/ | wc -l)"
count '1 refusals by number' "$(grep -rnE 'Refused\((u8|[0-9])' $s crates | grep -v /out/ | wc -l)"
count '1 the number OVER for too many keys' "$(grep -rn 'OVER' $s crates | grep -v /out/ | wc -l)"
count '1 parameters that are a number for a kind' "$(grep -rnE '\b(op|q|init|case|ops|kind|part): (u8|usize)\b' $s crates | grep -v /out/ | wc -l)"
count '1 matches on a byte' "$(grep -rnE 'match [a-z.]*\[?[a-z]+\]? \{' -A1 $s crates | grep -v /out/ | grep -cE '^[^:]*-[0-9]+- +[0-9]+ ')"
count '2 functions' "$(grep -rnE '^ *(pub(\([a-z]+\))? )?(extern "C" )?fn ' $s crates | grep -v /out/ | wc -l)"
count '3 while loops' "$(grep -rnE '^ *while ' $s crates | grep -v /out/ | wc -l)"
count '4 wide(..) and word(..)' "$(grep -rnE '\b(wide|word)\(' $s crates | grep -v /out/ | wc -l)"
count '4 return true, return false' "$(grep -rnE 'return (true|false);' $s crates | grep -v /out/ | wc -l)"
count '5 a lent tree as a parameter' "$(grep -rnE '\btree: &(mut )?\[u8\]' $s crates | grep -v /out/ | wc -l)"
count '5 the bytes and the kinds of the texts as parameters' "$(grep -rnE '\bkinds: &\[' $s crates | grep -v /out/ | wc -l)"
count '5 SinkFits in clauses' "$(grep -rn 'SinkFits' $s crates | grep -v /out/ | grep -v 'ghost use' | wc -l)"
count '5 the length of the scratch in clauses' "$(grep -rn '65536 ≤ length scratch' $s crates | grep -v /out/ | wc -l)"
count '5 kinds_of in clauses' "$(grep -rn 'kinds_of s.now' $s crates | grep -v /out/ | wc -l)"
count '5 TextsAt in clauses' "$(grep -rn 'TextsAt' $s crates | grep -v /out/ | grep -v 'ghost use' | wc -l)"
count '7 flags that choose a step' "$(grep -rnE '\b(all|letters): bool' $s crates | grep -v /out/ | wc -l)"
count '8 Proof.antt' "$(find crates -name Proof.antt | grep -v /out/ | wc -l)"
count '8 answers search rules in them' "$(find crates -name Proof.antt | grep -v /out/ | xargs cat /dev/null | grep -c 'search rules)')"
count '8 Answers.antt' "$(find crates -name Answers.antt | grep -v /out/ | wc -l)"
