#!/bin/sh
# Keeps the documents true: the files, programs, definitions and must-fail edits that README.md and docs/ name are there, and
# every public function and every edit is named in them. Names are read from `code` and from indented commands. Keeps the promises
# one, too: what a public function's contract says and what EachDetermined says of it are one predicate.
# Prints a line for each name that is missing, then 'docs: N names, M missing', and fails where M is not 0.
set -u
cd "$(dirname "$0")/.." || exit 1
# One order of letters for sort and comm.
export LC_ALL=C
work=$(mktemp -d)
trap 'rm -rf "$work"' EXIT
names=0
missing=0

# Each line of the second file must be in the third; the first word says what is wrong with one that is not.
all_in() {
    sort -u "$2" > "$work/named"
    sort -u "$3" > "$work/there"
    comm -23 "$work/named" "$work/there" > "$work/lacking"
    sed "s|^|docs: $1: |" "$work/lacking"
    names=$((names + $(wc -l < "$work/named")))
    missing=$((missing + $(wc -l < "$work/lacking")))
}

# What stands in backticks in these files, a span a line; a span may run over a line's end, and none over a paragraph's.
spans() {
    awk 'BEGIN { RS = "" } {
        count = split($0, part, "`")
        for (i = 2; i <= count; i += 2) { gsub(/[ \n]+/, " ", part[i]); print part[i] }
    }' "$@"
}

# Those lines of standard input that are files or folders here, in a crate, or with NAME for a crate's name.
existing() {
    while read -r path; do
        pattern=$(echo "$path" | sed 's/NAME/*/')
        # shellcheck disable=SC2231
        for found in $pattern crates/$pattern crates/*/$pattern; do
            if [ -e "$found" ]; then
                echo "$path"
                break
            fi
        done
    done
}

# --- Edits: a name in code behind "must-fail", or among what PROMISES.md lists as refused.
grep -ohE 'must-fail `[^;|]*' docs/*.md | sed G | spans > "$work/edits_named"
awk 'BEGIN { RS = "" } {
    while (at = index($0, "**Refused.**")) {
        $0 = substr($0, at + 12)
        end = index($0, "\n- ")
        print (end ? substr($0, 1, end) : $0) "\n"
    }
}' docs/PROMISES.md | spans >> "$work/edits_named"
awk -F'|' '/^\| `yaropesk_/ { print $(NF - 1) "\n" }' docs/PROMISES.md | spans >> "$work/edits_named"
for edit in crates/*/must-fail/*.edit; do
    basename "$edit" .edit
done > "$work/edits"
spans docs/PROMISES.md docs/READING.md > "$work/spans"
all_in 'no such must-fail edit' "$work/edits_named" "$work/edits"
all_in 'a must-fail edit that PROMISES.md and READING.md do not name' "$work/edits" "$work/spans"

# --- Paths: words with a slash. What is under target/ or in a crate's out/ is built, and need not be there; I/D is a setting of
# the controller.
{
    spans README.md docs/*.md
    sed -n 's/^    \([.a-z]\)/\1/p' README.md docs/*.md
} | tr ' ' '\n' | grep -E '^[A-Za-z.][A-Za-z0-9_.*-]*/[A-Za-z0-9_.*/-]*$' \
    | grep -vE '^(target/|crates/[A-Za-z_]+/out(/|$)|I/D$)' > "$work/paths"
sort -u "$work/paths" | existing > "$work/paths_there"
all_in 'no such file or folder' "$work/paths" "$work/paths_there"
for document in README.md docs/*.md examples/README.md rust/README.md; do
    grep -oE '\]\([^):]+\)' "$document" | sed "s|^](\(.*\))|$(dirname "$document")/\1|"
done > "$work/links"
existing < "$work/links" > "$work/links_there"
all_in 'a link to no file' "$work/links" "$work/links_there"

# --- Programs.
grep -ohE '\./yaropesk [a-z_]+' README.md docs/*.md examples/README.md | sed 's/.* //' > "$work/programs_named"
for main in crates/*/src/main.rt; do
    basename "${main%/src/main.rt}"
done > "$work/programs"
all_in 'no such program' "$work/programs_named" "$work/programs"

# --- Public functions: each has its heading in PROMISES.md, or its row. What a crate reads and writes no contract can say: a
# library that does so, by std's `io` or a `HostRuntime`, is a part of the programs. A static library gives out no name.
sed -n 's/^\([a-z][a-z0-9_]*\):.*/\1/p' crates.txt | while read -r crate; do
    [ ! -e "crates/$crate/src/lib.rt" ] || grep -qE 'std::io|HostRuntime' "crates/$crate/src/"*.rt \
        || echo "crates/$crate/src/lib.rt"
done > "$work/libraries"
# What they give out, a line each, `crate module name`: one name of `pub use module::name;` or each of `pub use module::{a, b};`.
# Types and constants begin with a capital letter, and whatever else is no function's name is looked for as it stands.
# The libraries' names hold no blanks.
# shellcheck disable=SC2046
awk '/^pub use / { text = ""; inside = 1 }
inside { sub(/^ +/, ""); text = text (text == "" ? "" : " ") $0 }
inside && /;$/ {
    inside = 0
    split(FILENAME, folder, "/")
    sub(/^pub use /, "", text); sub(/;$/, "", text)
    at = index(text, "::"); module = substr(text, 1, at - 1); text = substr(text, at + 2)
    if (text ~ /^{.*}$/) text = substr(text, 2, length(text) - 2)
    count = split(text, name, /, */)
    for (i = 1; i <= count; i++) {
        gsub(/^ +| +$/, "", name[i]); gsub(/ /, "_", name[i])
        if (name[i] != "" && name[i] !~ /^[A-Z][A-Za-z0-9_]*$/) print folder[2], module, name[i]
    }
}' $(cat "$work/libraries") > "$work/given"
cut -d ' ' -f 3 "$work/given" > "$work/functions"
{
    grep '^### ' docs/PROMISES.md | spans | sed 's/(.*//'
    # shellcheck disable=SC2016
    sed -n 's/^| `\([a-z_]*\)` |.*/\1/p' docs/PROMISES.md
} > "$work/promised"
all_in 'a public function without its promise in PROMISES.md' "$work/functions" "$work/promised"
sed -n 's/^  pub \([a-z][a-z0-9_]*\) :.*/\1/p' crates/promises/specs/Determined.antt > "$work/determined"
all_in 'a public function that EachDetermined lacks' "$work/functions" "$work/determined"

# --- Promises: a public function's one predicate has its name, `IsSoundPromise` for `is_sound`, in its crate's
# specs/Promises.antt. The contract is that predicate alone, of all that is given, lent things as found, of what is returned, and
# of each thing lent for writing as it is left. A function of `interface` is exported by `interface_c`, with the same contract. The
# function's field of EachDetermined is it too, of the field's variables.
promise='function promise_of(name, words, count, made, i) {
    count = split(name, words, "_")
    for (i = 1; i <= count; i++) made = made toupper(substr(words[i], 1, 1)) substr(words[i], 2)
    return made "Promise"
}'
awk "$promise"'{ print $1 "::" $2 "::" $3, $1 "::" promise_of($3) }' "$work/given" > "$work/public"
cut -d ' ' -f 2 "$work/public" > "$work/predicates_named"
awk '/^abbrev pub [A-Za-z0-9]*Promise :/ { split(FILENAME, folder, "/"); print folder[2] "::" $3 }' \
    crates/*/specs/Promises.antt > "$work/predicates"
all_in 'a public function without its predicate in specs/Promises.antt' "$work/predicates_named" "$work/predicates"
all_in 'a predicate of no public function in specs/Promises.antt' "$work/predicates" "$work/predicates_named"

cut -d ' ' -f 1 "$work/public" > "$work/contracts_named"
sed -n 's/^interface [a-z_]* /interface_c::lib::/p' "$work/given" > "$work/exports"
cat "$work/exports" >> "$work/contracts_named"
awk "$promise"'
# The text is `pub fn NAME(GIVEN) -> RESULT CONTRACT` on one line.
function is_cited(name, given, count, part, i, cited, left, result) {
    count = split(substr(text, index(text, "(") + 1, index(text, ")") - index(text, "(") - 1), given, ",")
    cited = promise_of(name)
    for (i = 1; i <= count; i++) {
        split(given[i], part, ":"); gsub(/ /, "", part[1])
        if (part[1] != "") cited = cited " " part[1] (part[2] ~ /^ &mut / ? ".old" : part[2] ~ /^ &/ ? ".now" : "")
        if (part[2] ~ /^ &mut /) left = left " " part[1] ".new"
    }
    if (text ~ /\) -> /) cited = cited (text ~ /\) -> &/ ? " result.now" : " result")
    return match(text, /(requires|ensures)[^{]*\{/) && substr(text, RSTART) == "ensures { " cited left " }"
}
/^pub (extern "C" )?fn / { text = ""; inside = 1 }
/^\{/ && inside {
    inside = 0
    split(FILENAME, folder, "/"); sub(/\.rt/, "", folder[4])
    name = text; sub(/\(.*/, "", name); sub(/.* /, "", name)
    if (is_cited(name)) print folder[2] "::" folder[4] "::" name
}
inside { sub(/^ +/, ""); text = text (text == "" ? "" : " ") $0 }' crates/*/src/*.rt > "$work/contracts"
all_in 'a contract that is not its predicate alone' "$work/contracts_named" "$work/contracts"

awk "$promise"'
# The text is `NAME : (VARIABLES : TYPE)... → ExactlyOne (λ (x : RESULT). CITED x)` on one line.
function field(name, variables, cited) {
    name = text; sub(/ :.*/, "", name)
    variables = text; sub(/^[a-z0-9_]* :/, "", variables); sub(/ (→ )?ExactlyOne.*/, "", variables)
    gsub(/\(| : [^()]*\)/, "", variables)
    cited = text; sub(/.*ExactlyOne \(λ \(x : [^()]*\)\. /, "", cited); sub(/( x(\.[0-9])?)+\)$/, "", cited)
    if (cited == promise_of(name) variables) print name
}
/^  pub / { if (text != "") field(); text = $0; sub(/^  pub /, "", text); next }
text != "" { sub(/^ +/, " "); text = text $0 }
END { field() }' crates/promises/specs/Determined.antt > "$work/fields"
all_in 'a field of EachDetermined that is not its predicate' "$work/functions" "$work/fields"

# --- Answers: each number has its row in README.md and its name in the header, and no other has.
sed -n 's/^number_of [A-Za-z]* = \([0-9]*\)$/\1/p' crates/controller/specs/Answers.antt > "$work/answers"
sed -n 's/^| \([0-9]*\) | .*/\1/p' README.md > "$work/answers_told"
sed -n '/^\/\* Answers/,/^$/s/^#define YAROPESK_[A-Z_]* \([0-9]*\).*/\1/p' include/yaropesk.h > "$work/answers_named"
all_in 'an answer without its row in README.md' "$work/answers" "$work/answers_told"
all_in 'an answer of README.md that the code does not give' "$work/answers_told" "$work/answers"
all_in 'an answer without its name in the header' "$work/answers" "$work/answers_named"
all_in 'an answer of the header that the code does not give' "$work/answers_named" "$work/answers"

# --- Definitions: `Module.name` is defined in specs/Module.antt, `module::name` in src/module.rt of some crate.
grep -E '^[A-Z][A-Za-z0-9]*\.[A-Za-z0-9_]+$' "$work/spans" > "$work/definitions_named"
awk '/^(unfoldable |abbrev )?pub / && !/^pub mod / {
    module = FILENAME; sub(/.*\//, "", module); sub(/\.antt/, "", module)
    for (i = 1; $i ~ /^(unfoldable|abbrev|pub|record|data)$/; i++) {}
    print module "." $i
}' crates/*/specs/*.antt > "$work/definitions"
all_in 'no such definition' "$work/definitions_named" "$work/definitions"
grep -E '^[a-z_]+::[a-z_]+$' "$work/spans" > "$work/code_named"
awk '/^(pub )?fn / {
    module = FILENAME; sub(/.*\//, "", module); sub(/\.rt/, "", module)
    name = $0; sub(/^(pub )?fn /, "", name); sub(/[^a-z0-9_].*/, "", name)
    print module "::" name
}' crates/*/src/*.rt > "$work/code"
# What is said of the kit's crates, std among them, cannot be looked up here.
{
    echo std
    sed -n 's/.*: //p' crates.txt | tr ' ' '\n' | sort -u
} | while read -r crate; do
    [ -d "crates/$crate" ] || grep "^$crate::" "$work/code_named"
done >> "$work/code"
all_in 'no such function' "$work/code_named" "$work/code"

# --- Single names: a word of some specs/ or src/, what a proof defines, a crate, one of its files, or an edit. Words of one
# letter are those of session lines.
grep -E '^[A-Za-z][A-Za-z0-9_-]+$' "$work/spans" > "$work/words_named"
{
    grep -ohE '[A-Za-z][A-Za-z0-9_]*' crates/*/specs/*.antt crates/*/src/*.rt
    grep -rohE '^ *(pub )?[a-z][a-z0-9]*(_[a-z0-9]+)+ :' crates/*/proofs | grep -oE '[a-z][a-z0-9]*(_[a-z0-9]+)+'
    for path in crates/* crates/*/*; do
        basename "$path"
    done
    cat "$work/edits"
} > "$work/words"
all_in 'no such name' "$work/words_named" "$work/words"

echo "docs: $names names, $missing missing"
[ "$missing" -eq 0 ]
