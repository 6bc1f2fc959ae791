#!/bin/bash
# Prints, for each point of docs/DESIGN-PASS.md, the lines of src/ that its places are read from.
# Call it at the top of the repository; with a folder as its argument it reads the crates there.
cd "${1:-.}" || exit 2
show() {
    echo "== $1"
    cat
}
rt_lines() { grep -rnE "$1" crates/*/src; }

rt_lines '^(pub(\(crate\))? )?enum ' | show '1 enums'
grep -rnE '^ *(pub(\(crate\))? )?fn ' crates/*/src | grep -E '\) -> u(8|32) ?\{?$' | show '1 functions whose result is a number'
rt_lines 'None => (return )?None|Err\(.*\) => (return )?Err|let Some\(.*else \{|let Some.*= .* else' | show '1 failures handed on without ?'
rt_lines '\b(due|wanted|found|given): bool' | show '1 flags as parameters'
grep -rhoE '\b(fn|struct|enum|trait|const) [A-Za-z_]+' crates/*/src | sort | uniq -c | awk '$1 > 1' | show '2 names that are declared more than once'
rt_lines '\b(while|loop|for)\b .*\{$' | grep -vE '\bimpl\b' | show '3 loops'
rt_lines 'fn (is|same|eq|cmp|clone|number|place|first|front|tail|from|to_[a-z]+)\b|matches!|\bas u(8|32|64)\b' | show '4 equality, conversion and printing'
grep -rhE '^ *(requires|ensures)' crates/*/src | sed 's/^ *//' | sort | uniq -c | awk '$1 > 2' | show '5 clauses that stand three times or more'
rt_lines 'symbols: &mut usize' | show '5 the rows and the count of symbols as two parameters'
rt_lines '\[(u8|u32|bool|[A-Z]+); [A-Za-z0-9_ ]+\]' | show '6 buffers of fixed size'
rt_lines 'match \(?(class|purpose|kind|self|role)\b|: Purpose|: Class' | show '7 switches'
for c in crates/*; do
    a=$(find "$c/proofs" -name Answers.antt -exec cat {} + 2>/dev/null | grep -cE '^pub .* : goal\.')
    l=$(find "$c/proofs" -name '*.antt' -exec cat {} + 2>/dev/null | wc -l)
    echo "$c: $a answers, $l lines of proof"
done | show '8 answers and lines of proof'
