#!/bin/sh
# Lists the places that the design pass looks at, by point, with their number. Run it at the top of the repository:
#     tools/places.sh          the numbers
#     tools/places.sh -v       the places too
verbose=$1
src=$(find crates/*/src -name '*.rt' | sort)

# the lines of the sources that match an extended pattern
places() {
  found=$(grep -nE "$2" $src)
  echo "$1: $(printf '%s\n' "$found" | grep -c .)"
  if [ "$verbose" = -v ]; then printf '%s\n' "$found" | sed 's/^/    /'; fi
}

# a list that was made otherwise
listed() {
  echo "$1: $(printf '%s\n' "$2" | grep -c .)"
  if [ "$verbose" = -v ]; then printf '%s\n' "$2" | sed 's/^/    /'; fi
}

places "1a enums" '^ *(pub(\(crate\))? )?enum '
places "1b cases of enums that say none, unknown or refused" '^ +(No[A-Z][A-Za-z]*|Unknown|Refused?|Nobody|None)( \{|\(|,)'
places "1c constants of kinds and numbers" '^ *(pub(\(crate\))? )?const [A-Z_]+: [ui](8|16|32|64) = '
places "1d 0 for none in an answer" '^ *//.*\b0 (if|where|for) '
listed "2a functions of one name in several files" "$(grep -hoE '\bfn [a-z_0-9]+' $src | sort | uniq -c | awk '$1 > 1 && $3 !~ /^(new|get|length|fmt|main|run|holds|number|from|next|value)$/ {print $3, $1}')"
places "2b functions of one form for each table" 'fn (class|name|extension|line|node|map|row)_[a-z_]+\('
places "3a loops" '^ *(while|loop|for) '
places "3b loops over numbers" '^ *for [a-z_]+ in [^{]*\.\.'
places "3c loops that test or step by hand" '^ *while '
places "4a tables of numbers by match" '=> [0-9]+,$'
places "4b tables of cases by number" '^ *[0-9]+ => '
places "4c comparisons and conversions by hand" 'fn (smaller|later|equal|same_numbers|is_same|absent|from_fields|with_number|term_of|statement|kind_of|fault_of|item_end|signed|output|digit|byte|third_number|number|kind)\('
places "4d a result passed on by match" '^ *(Ok\([a-z_]+\) => Ok\(|Some\([a-z_]+\) => Some\(|Err\([a-z_]*\) => Err\(|Err\(_\) =>|None => None|Err\([a-z]+\) => Move::Refuse)'
places "4e the first that is some, by if let" 'if let Some\(fault\) = '
listed "5a clauses of the same words in three contracts or more" "$(grep -hoE '^ *requires .*' $src | sed 's/^ *requires [a-z_]* *{/{/; s/^ *requires {/{/' | sort | uniq -c | awk '$1 > 2')"
listed "5b functions of seven parameters or more" "$(awk 'function done() { if (n >= 7) print FILENAME ":" line ": " name; on = 0 } FNR == 1 { on = 0 } /fn [a-z_0-9]+/ && !/;$/ { name = $0; line = FNR; n = 0; on = 1; if ($0 ~ /\) *(->|\{|$)/ && $0 ~ /\(.*\)/) { t = $0; n = gsub(/: /, ": ", t) + ($0 ~ /self[,)]/); done() } next } on && /^ *\)/ { done() } on { if ($0 ~ /,$/) n++ }' $src)"
places "6a arrays of a fixed length in types" '(: |-> |<)&?(mut )?\[[A-Za-z0-9_]+; [A-Za-z0-9_]+\]'
places "6b counts beside a buffer" '(depth|len|count|compared): usize,$'
places "7a impls that are a test of one number" 'impl Test for '
places "7b values of function types" '(dyn |impl Fn|: Fn|fn\()'
listed "8a files of answers" "$(find crates/*/proofs -name 'Answers.antt' | sort)"
listed "8b answers" "$(find crates/*/proofs -name 'Answers.antt' | xargs grep -hE '^(abbrev )?pub ')"
listed "8c lemmas of our own in proofs/" "$(ls crates/*/proofs/*.antt | grep -v Lib.antt | xargs grep -hE '^(unfoldable )?(pub )?[A-Za-z_][^ ]* :')"
