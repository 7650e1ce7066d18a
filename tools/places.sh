#!/bin/bash
# Lists, from the sources alone, the places of each form that docs/DESIGN-PASS.md counts: `tools/places.sh` in the root of the repository.
# `tools/places.sh -c` prints the number of places only.
src=$(find crates/*/src -name '*.rt' | sort)
point() {
    local name=$1
    local lines
    lines=$(cat)
    local count
    count=$(printf '%s' "$lines" | grep -c .)
    echo "$name: $count"
    [ "$mode" = -c ] || { [ -z "$lines" ] || printf '%s\n' "$lines" | sed 's/^/    /'; }
}
mode=$1

# 1. A bool that says whether a change was made or refused, an Option of a refusal, a bool beside a value, an error thrown away and made again.
perl -0777 -ne 'while (/^( *)((?:pub(?:\(crate\))? )?fn (\w+)(?:<[^(]*>)?\([^(){}]*?&mut [^(){}]*?\) -> bool)\b/mg) { my $n = $3; my $l = 1 + (substr($_, 0, pos($_) - length($2)) =~ tr/\n//); print "$ARGV:$l: fn $n answers a bool for a change\n" }' $src | point '1a changes that answer a bool'
grep -nE 'Option<[A-Za-z]*Refusal>' $src | point '1b an Option of a refusal'
grep -nE 'Result<bool>|let mut understood|understood: bool' $src | point '1c a flag for what was understood'
{ grep -nE 'Err\(_\) =>|\.is_err\(\) \{|Err\(anyhow!|assert!\(rt; false\)|None => (return )?Err\(' $src; perl -0777 -ne 'while (/(let [^;{}]*= [^;{}]*? else \{\n *return (Err\([^;]*));/g) { my $w = $2; next if $w =~ /anyhow/; my $l = 1 + (substr($_, 0, $-[1]) =~ tr/\n//); print "$ARGV:$l: let .. else return Err\n" }' $src; } | sort -u | point '1d errors handed on by hand'
grep -nE 'unreachable\(\)' $src | point '1e cases that cannot come'

# 2. Twins: functions whose bodies are alike, and functions that hand on to one of the same contract.
perl -0777 -ne 'while (/^ *(?:pub(?:\(crate\))? )?fn (\w+)\b(?:[^{};]|\{[^{}]*\})*?\n *\{\n *(?:[\w:]+::|self\.)?(\w+)\(([^(){}]*)\);?\n *\}\n/mg) { print "$ARGV: fn $1 hands on to $2\n" }' $src | point '2a functions that only hand on to another'
grep -nE 'const NO_FORM|fn with_field|fn print_text_refusal|fn print_refusal|fn print_full|fn are\(|fn rows_are|fn stands_at|fn run_choices|fn run_visits|fn report_choices|fn report_visits|fn add_row|2 \| 3 \| 5 \| 7 \| 11 \| 13|q < 2 \|\| q > 16|fn multiple_weight|fn word_weight|const TURNS: u32 = 60_001' $src | point '2b functions, constants and tests that stand twice'

# 3. Loops that count an index.
grep -nE '^\s*(for _?[a-z]+ in [^{]*\.\.|while |for \([a-z]+, [a-z]+\) in )' $src | point '3 loops over an index or a range, and enumerations'

# 4. Equality, conversion and printing by hand.
grep -nE 'fn (are|rows_are|stands_at|print_refusal|print_text_refusal|print_full|refuse_level|put|record_at|record_of|bytes_of|digit|number_of|symbol_of|field_named|weight_named|number_in)\b|let (number|place|line|column) = refusal\.|if spells\(|/ 65_536|/ 16_777_216' $src | point '4 equality, conversion and printing by hand'

# 5. Parameters that travel together, and facts that stand in many contracts.
perl -0777 -ne 'while (/fn (\w+)(?:<[^(]*>)?\(([^{}]*?)\)/g) { my ($n, $p) = ($1, $2); print "$ARGV: fn $n\n" if $p =~ /\bn: usize/ && $p =~ /codes: &/ }' $src | point '5a codes with the numbers of their rows and columns'
perl -0777 -ne 'while (/fn (\w+)(?:<[^(]*>)?\(([^{}]*?)\)/g) { my ($n, $p) = ($1, $2); print "$ARGV: fn $n\n" if $p =~ /\bk: usize/ && $p =~ /\bt: usize/ && $p =~ /\bq: u/ }' $src | point '5b k, t and q of a level'
grep -nE 'requires.*length \(text_of' $src | point '5c a text within the limit, asked for again'
perl -0777 -ne 'while (/fn (\w+)(?:<[^(]*>)?\(([^{}]*?)\)/g) { my ($n, $p) = ($1, $2); print "$ARGV: fn $n\n" if $p =~ /(marks|used): &(mut )?\[bool; 64\]/ }' $src | point '5d marks of used columns'
grep -nE 'ghost [a-z]+: \{ is_prime p' $src | point '5e a prime below 16'

# 6. Arrays with a length beside them.
grep -nE '^\s*(pub )?[a-z]+: \[[a-z0-9]+; (15|16|32|64|2048)\],|^\s*(pub )?slots: &|(order|positions): &mut \[u8; (32|64)\]' $src | point '6 arrays with a length beside them'

# 7. A switch on which step to run.
grep -nE 'match self\.due|== FieldName::Gf4|match header\.(weight|field)|if factor == 1' $src | point '7 switches on which step to run'

# 8. The goals answered by hand, the lemmas, and the lines of all files of proofs.
find crates/*/proofs -name Answers.antt -print0 | xargs -0 grep -hE '^pub [a-z]' | grep -cE ' : goal\.' | sed 's/^/8a goals answered by hand: /'
find crates/*/proofs -name '*.antt' ! -name Answers.antt ! -name Invariants.antt ! -name Lib.antt -print0 | xargs -0 cat | grep -cE '^ *(pub )?[a-z][^ ]* :' | sed 's/^/8b lemmas: /'
find crates/*/proofs -name '*.antt' -print0 | xargs -0 cat | wc -l | sed 's/^/8c lines of proofs: /'
