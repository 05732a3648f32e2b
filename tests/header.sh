#!/usr/bin/env bash
# The C header and the bench's declarations are those of the functions that crates/capi and bench/steps.rt.txt export: names, lent parts in
# their order, numbers, result; the header compiles and its limits are the crates'. Then copies with one declaration damaged must be noticed, by its name.
set -euo pipefail
cd "$(dirname "$0")/.."
source=crates/capi/src/lib.rt
header=include/tariff.h
bench=bench/src/proved.rs
steps_source=bench/steps.rt.txt
steps=bench/src/steps.rs
limits=crates/book/src/limits.rt
chapters=crates/chapters/src/lib.rt
rating=(crates/rating/src/*.rt)
bands=crates/bands/src/lib.rt
packed=crates/packed/src/lib.rt
# Outside the checkout: `rt ci` refuses a copy of a .rt file.
wrong=$(mktemp -d)
trap 'rm -rf "$wrong"' EXIT

# Each of these prints a line `NAME PARAMETER.. -> RESULT` for each function of a file; a parameter is `part:bytes`, `part:numbers`,
# `part:signed`, `part:mut-bytes`, `part:mut-numbers`, `part:mut-wides`, `part:mut-u32`, `part:mut-u64`, `part:mut-i64`, `u8`, `u32`, `i64` or `usize`; what is
# none of these stays as it is written.

# A text of Rattle or Rust without comments, in one line.
code_of() {
    sed 's,//.*,,' "$1" | tr '\n' ' ' | sed -E 's,/\*[^*]*\*+([^/*][^*]*\*+)*/,,g'
}

# The exported functions of a crate.
exported() {
    code_of "$1" | grep -oE '#\[unsafe\(no_mangle\)\] +pub extern "C" fn [^{]*' |
        sed -E 's/.* fn ([a-z_0-9]+) *\(([^)]*)\) *(-> *([a-z0-9]+))?.*/\1 \2 -> \4/' |
        sed -E 's/,? -> / -> /; s/([a-z_]+): *&\[u8\]/\1:bytes/g; s/([a-z_]+): *&\[u32\]/\1:numbers/g; s/([a-z_]+): *&\[i32\]/\1:signed/g;
                s/([a-z_]+): *&mut \[u8\]/\1:mut-bytes/g; s/([a-z_]+): *&mut \[u32\]/\1:mut-numbers/g; s/([a-z_]+): *&mut \[u64\]/\1:mut-wides/g;
                s/([a-z_]+): *&mut (u32|[ui]64)/\1:mut-\2/g; s/[a-z_]+: *(u8|u32|i64|usize)/\1/g' | tidy
}

# The declarations of a C header, as a compiler sees them; a part and its length are named alike, and a result is nothing but its type.
# Functions of the header itself, `static inline` with a body, are left out.
declared_in_c() {
    gcc -E -P "$1" | tr '\n' ' ' | sed -E ':again; s/\{[^{}]*\}/<body>;/; t again' | tr ';' '\n' | grep 'tariff_' |
        grep -vE '^ *static inline uint32_t tariff_[a-z]+\([^()]*\) <body>$' |
        sed -E 's/^ *([^(]*[ *])(tariff_[a-z_0-9]+)\((.*)\) *$/\2 \3 -> \1/; s/ +$//' |
        sed -E 's/const uint8_t \*([a-z_]+), *size_t \1_length/\1:bytes/g; s/const uint32_t \*([a-z_]+), *size_t \1_length/\1:numbers/g;
                s/const int32_t \*([a-z_]+), *size_t \1_length/\1:signed/g; s/uint8_t \*([a-z_]+), *size_t \1_length/\1:mut-bytes/g;
                s/uint32_t \*([a-z_]+), *size_t \1_length/\1:mut-numbers/g; s/uint64_t \*([a-z_]+), *size_t \1_length/\1:mut-wides/g;
                s/uint32_t \*([a-z_]+)/\1:mut-u32/g; s/uint64_t \*([a-z_]+)/\1:mut-u64/g; s/\bint64_t \*([a-z_]+)/\1:mut-i64/g;
                s/uint8_t [a-z_]+/u8/g; s/uint32_t [a-z_]+/u32/g; s/\bint64_t [a-z_]+/i64/g; s/size_t [a-z_]+/usize/g; s/-> uint64_t$/-> u64/' | tidy
}

# The declarations of a Rust file in its `extern "C"` block; each is `fn` from its start on. A part's length is named by
# a letter, or by the part's name and `_length`.
declared_in_rust() {
    code_of "$1" | grep -oE 'extern "C" \{[^}]*\}' | sed 's,^extern "C" {,,' | tr ';' '\n' | grep 'fn ' |
        sed -E 's/^ *fn ([a-z_0-9]+)\((.*)\) *(-> *([a-z0-9]+))? *$/\1 \2 -> \4/' |
        sed -E 's/([a-z_]+)(: \*[a-z]+ [a-z0-9]+), *([a-z]|\1_length): usize/\1\2, n: usize/g' |
        sed -E 's/,? *-> / -> /; s/([a-z_]+): \*const u8, n: usize/\1:bytes/g; s/([a-z_]+): \*const u32, n: usize/\1:numbers/g;
                s/([a-z_]+): \*const i32, n: usize/\1:signed/g; s/([a-z_]+): \*mut u8, n: usize/\1:mut-bytes/g;
                s/([a-z_]+): \*mut u32, n: usize/\1:mut-numbers/g; s/([a-z_]+): \*mut u64, n: usize/\1:mut-wides/g;
                s/([a-z_]+): \*mut (u32|[ui]64)/\1:mut-\2/g; s/[a-z_]+: (u8|u32|i64|usize)/\1/g' | tidy
}

# The limits, as the crates `book`, `chapters`, `rating`, `bands` and `packed` have them, and as a header has them.
limits_of_the_crates() {
    local variables clauses literals field
    variables=$(limit MAX_VARIABLES) clauses=$(limit MAX_CLAUSES) literals=$(limit MAX_LITERALS) field=$(limit MAX_BYTES)
    echo "TARIFF_BOOK $((clauses + literals + 4))"
    echo "TARIFF_CHAPTERS $(limit CHAPTERS)"
    echo "TARIFF_FEATURES $variables"
    echo "TARIFF_MOST_AGE $(limit MAX_AGE)"
    echo "TARIFF_MOST_AMOUNT $(limit MAX_AMOUNT)"
    echo "TARIFF_MOST_BANDS $(limit MAX_BANDS)"
    echo "TARIFF_MOST_BASE $(limit MAX_BASE)"
    echo "TARIFF_MOST_FACTOR $(limit MAX_FACTOR)"
    echo "TARIFF_MOST_FIELD $field"
    echo "TARIFF_MOST_LINES $(limit MAX_LINES)"
    echo "TARIFF_MOST_RECORD $((1 + 3 * field))"
    echo "TARIFF_MOST_RUNNING $(limit MAX_RUNNING)"
    echo "TARIFF_MOST_THOUSANDTHS $(limit MAX_THOUSANDTHS)"
    echo "TARIFF_RULES $clauses"
    echo "TARIFF_SESSION $((5 * variables + 6 * clauses + 5))"
}

limit() {
    sed -nE "s/^(pub )?const $1: (usize|u32|u64|i64) = ([0-9]+);/\\3/p" "$limits" "$chapters" "${rating[@]}" "$bands" "$packed"
}

# A macro under the name of a function is none of the limits, and stands out.
limits_in_c() {
    gcc -E -dM "$1" | sed -nE 's/^#define ((TARIFF_(BOOK|CHAPTERS|FEATURES|MOST_[A-Z]+|RULES|SESSION) |tariff_).*)$/\1/p' | sort
}

tidy() {
    sed -E 's/, */ /g; s/ +/ /g; s/ $//' | sort
}

# same SOURCE HEADER BENCH STEPS_SOURCE STEPS: says each function and limit that differs, and fails where one does.
same() {
    local code=0
    against "$2" "$(limits_of_the_crates)" "$(limits_in_c "$2")" || code=1
    against "$2" "$(exported "$1")" "$(declared_in_c "$2")" || code=1
    against "$3" "$(exported "$1")" "$(declared_in_rust "$3")" || code=1
    against "$5" "$(exported "$4")" "$(declared_in_rust "$5")" || code=1
    return $code
}

# against FILE EXPORTED DECLARED: the lines that only one of the two has.
against() {
    [ "$2" = "$3" ] && return
    comm -23 <(echo "$2") <(echo "$3") | sed -n "s,^.,header: $1 lacks: &,p"
    comm -13 <(echo "$2") <(echo "$3") | sed -n "s,^.,header: $1 has: &,p"
    return 1
}

# notices FILE NAME EDIT: with this sed edit of this one file the comparison fails and names this function or limit and no other.
notices() {
    local files=("$source" "$header" "$bench" "$steps_source" "$steps") i said
    for i in "${!files[@]}"; do
        [ "${files[$i]}" = "$1" ] || continue
        files[i]=$wrong/${1##*/}
        sed -E "$3" "$1" >"${files[$i]}"
        cmp -s "$1" "${files[$i]}" && { echo "header: an edit changes nothing: $3" >&2; exit 1; }
    done
    if said=$(same "${files[@]}") || [ "$(grep -oE '(tariff|TARIFF|step)_[A-Za-z_]+[ (]' <<<"$said" | tr '(' ' ' | sort -u)" != "$2 " ]; then
        echo "header: not noticed as $2 in $1: $3" >&2
        exit 1
    fi
    noticed=$((noticed + 1))
}

gcc -std=c11 -Wall -Wextra -Werror -fsyntax-only -x c "$header"
g++ -std=c++17 -Wall -Wextra -Werror -fsyntax-only -x c++ "$header"
same "$source" "$header" "$bench" "$steps_source" "$steps" >&2
echo "header: $(exported "$source" | wc -l) functions, as $header and $bench declare them, and $(exported "$steps_source" | wc -l) steps, as $steps does"
noticed=0
notices "$header" tariff_total '/^uint64_t tariff_total/d'
notices "$header" tariff_total 's,^uint64_t tariff_total,// &,'
notices "$header" tariff_total 's,^uint64_t tariff_total.*,/* & */,'
notices "$header" tariff_total 's/^uint64_t tariff_total.*/#if 0\n&\n#endif/'
notices "$header" tariff_total 's/^uint64_t tariff_total/static &/'
notices "$header" tariff_total 's/^(uint64_t tariff_total.*);/static inline \1 { return 0; }/'
notices "$header" tariff_total '$a #define tariff_total(...) 0'
notices "$header" tariff_close '$a uint64_t tariff_close(uint32_t *session, size_t session_length);'
notices "$header" tariff_lookup '/tariff_lookup/s/const uint32_t \*session/uint32_t *session/'
notices "$header" tariff_lookup '/tariff_lookup/s/book/other/g; /tariff_lookup/s/session/book/g; /tariff_lookup/s/other/session/g'
notices "$header" tariff_backtrack '/tariff_backtrack/s/uint32_t k/uint64_t k/'
notices "$header" tariff_backtrack '/tariff_backtrack/s/, uint32_t k//'
notices "$header" tariff_fix '/tariff_fix\(/s/, uint32_t f//'
notices "$header" tariff_fixed '/tariff_fixed\(/s/const uint32_t \*session/uint32_t *session/'
notices "$header" tariff_open '/^uint64_t tariff_open/s/uint64_t/uint32_t/'
notices "$header" tariff_read '/tariff_read\(/s/uint8_t/uint32_t/'
notices "$header" tariff_required_length '/tariff_required_length/s/, size_t book_length//'
notices "$header" tariff_trail_from 's/uint32_t before, uint32_t \*out, size_t out_length/uint32_t *out, size_t out_length, uint32_t before/'
notices "$header" tariff_chapters '/^uint64_t tariff_chapters/,/;$/d'
notices "$header" tariff_chapters 's/uint64_t \*totals/uint32_t *totals/'
notices "$header" tariff_chapters 's/uint64_t \*totals/const &/'
notices "$header" tariff_chapters 's/, size_t totals_length//'
notices "$header" tariff_chapters 's/const uint32_t \*chapters/uint32_t *chapters/'
notices "$header" tariff_chapters 's/, size_t chapters_length//'
notices "$header" tariff_chapters 's/(const uint32_t \*chapters, .*), (uint64_t \*totals, .*)\);/\2, \1);/'
notices "$header" tariff_quote '/^uint64_t tariff_quote/,/;$/d'
notices "$header" tariff_quote '/^uint64_t tariff_quote/s/uint64_t/uint32_t/'
notices "$header" tariff_quote '/^uint64_t tariff_quote/s/(const uint32_t \*book, size_t book_length), (const uint8_t .*),$/\2, \1,/'
notices "$header" tariff_quote '/^uint64_t tariff_quote/s/const uint8_t/uint8_t/'
notices "$header" tariff_quote '/^uint64_t tariff_quote/s/uint8_t/uint32_t/'
notices "$header" tariff_quote '/^uint64_t tariff_quote/s/const uint32_t/uint32_t/'
notices "$header" tariff_quote 's/, size_t script_length//'
notices "$header" tariff_quote '/uint64_t \*ceiling/s/uint32_t \*out/uint64_t *out/'
notices "$header" tariff_quote '/uint64_t \*ceiling/s/uint32_t \*out/const &/'
notices "$header" tariff_quote '/uint64_t \*ceiling/s/, size_t out_length//'
notices "$header" tariff_quote 's/uint64_t \*ceiling/uint32_t *ceiling/'
notices "$header" tariff_quote 's/uint64_t \*ceiling/const &/'
notices "$header" tariff_quote 's/uint64_t \*ceiling/&, size_t ceiling_length/'
notices "$header" tariff_quote 's/(uint32_t \*out, size_t out_length), (uint64_t \*ceiling)/\2, \1/'
notices "$header" tariff_price '/^uint64_t tariff_price\(/,/;$/d'
notices "$header" tariff_price '/^uint64_t tariff_price\(/s/uint64_t/int64_t/'
notices "$header" tariff_price '/^uint64_t tariff_price\(/,/;$/s/int64_t base/uint64_t base/'
notices "$header" tariff_price '/^uint64_t tariff_price\(/,/;$/s/int64_t base/int32_t base/'
notices "$header" tariff_price '/^uint64_t tariff_price\(/,/;$/s/int64_t base, //'
notices "$header" tariff_price '/^uint64_t tariff_price\(/,/;$/s/const int32_t \*lines/int32_t *lines/'
notices "$header" tariff_price '/^uint64_t tariff_price\(/,/;$/s/const int32_t \*lines/const uint32_t *lines/'
notices "$header" tariff_price '/^uint64_t tariff_price\(/,/;$/s/const int32_t \*lines/const int64_t *lines/'
notices "$header" tariff_price '/^uint64_t tariff_price\(/,/;$/s/, size_t lines_length//'
notices "$header" tariff_price '/^uint64_t tariff_price\(/,/;$/s/int64_t \*amount/uint64_t *amount/'
notices "$header" tariff_price '/^uint64_t tariff_price\(/,/;$/s/int64_t \*amount/int32_t *amount/'
notices "$header" tariff_price '/^uint64_t tariff_price\(/,/;$/s/int64_t \*amount/const &/'
notices "$header" tariff_price '/^uint64_t tariff_price\(/,/;$/s/int64_t \*amount/&, size_t amount_length/'
notices "$header" tariff_price '/^uint64_t tariff_price\(/,/;$/s/(int64_t base), (const int32_t \*lines, size_t lines_length)/\2, \1/'
notices "$header" tariff_price '/^uint64_t tariff_price\(/,/;$/s/(const int32_t \*lines, size_t lines_length), (int64_t \*amount)/\2, \1/'
notices "$header" tariff_check_bands '/^uint64_t tariff_check_bands/d'
notices "$header" tariff_check_bands '/^uint64_t tariff_check_bands/s/uint64_t/uint32_t/'
notices "$header" tariff_check_bands '/^uint64_t tariff_check_bands/s/const uint32_t \*table/uint32_t *table/'
notices "$header" tariff_check_bands '/^uint64_t tariff_check_bands/s/const uint32_t \*table/const int32_t *table/'
notices "$header" tariff_check_bands '/^uint64_t tariff_check_bands/s/, size_t table_length//'
notices "$header" tariff_check_bands '/^uint64_t tariff_check_bands/s/uint32_t \*age/uint64_t *age/'
notices "$header" tariff_check_bands '/^uint64_t tariff_check_bands/s/uint32_t \*age/uint32_t age/'
notices "$header" tariff_check_bands '/^uint64_t tariff_check_bands/s/uint32_t \*age/const &/'
notices "$header" tariff_check_bands '/^uint64_t tariff_check_bands/s/uint32_t \*age/&, size_t age_length/'
notices "$header" tariff_price_for_age '/^uint64_t tariff_price_for_age/,/;$/d'
notices "$header" tariff_price_for_age '/^uint64_t tariff_price_for_age/,/;$/s/int64_t base/uint64_t base/'
notices "$header" tariff_price_for_age '/^uint64_t tariff_price_for_age/,/;$/s/const uint32_t \*table/uint32_t *table/'
notices "$header" tariff_price_for_age '/^uint64_t tariff_price_for_age/,/;$/s/, size_t table_length//'
notices "$header" tariff_price_for_age '/^uint64_t tariff_price_for_age/,/;$/s/uint32_t age, //'
notices "$header" tariff_price_for_age '/^uint64_t tariff_price_for_age/,/;$/s/uint32_t age/uint64_t age/'
notices "$header" tariff_price_for_age '/^uint64_t tariff_price_for_age/,/;$/s/uint32_t age/uint32_t *age/'
notices "$header" tariff_price_for_age '/^uint64_t tariff_price_for_age/,/;$/s/(const uint32_t \*table, size_t table_length), (uint32_t age)/\2, \1/'
notices "$header" tariff_price_for_age '/^uint64_t tariff_price_for_age/,/;$/s/const int32_t \*lines/const uint32_t *lines/'
notices "$header" tariff_price_for_age '/^uint64_t tariff_price_for_age/,/;$/s/int64_t \*amount/uint64_t *amount/'
notices "$header" tariff_write_field '/^uint64_t tariff_write_field/d'
notices "$header" tariff_write_field '/^uint64_t tariff_write_field/s/uint64_t/uint32_t/'
notices "$header" tariff_write_field '/^uint64_t tariff_write_field/s/int64_t value/uint64_t value/'
notices "$header" tariff_write_field '/^uint64_t tariff_write_field/s/int64_t value/int32_t value/'
notices "$header" tariff_write_field '/^uint64_t tariff_write_field/s/size_t bytes/uint32_t bytes/'
notices "$header" tariff_write_field '/^uint64_t tariff_write_field/s/size_t bytes, //'
notices "$header" tariff_write_field '/^uint64_t tariff_write_field/s/uint8_t \*out/const &/'
notices "$header" tariff_write_field '/^uint64_t tariff_write_field/s/uint8_t \*out/uint32_t *out/'
notices "$header" tariff_write_field '/^uint64_t tariff_write_field/s/, size_t out_length//'
notices "$header" tariff_write_field '/^uint64_t tariff_write_field/s/(int64_t value), (size_t bytes)/\2, \1/'
notices "$header" tariff_write_field '/^uint64_t tariff_write_field/s/(size_t bytes), (uint8_t \*out, size_t out_length)/\2, \1/'
notices "$header" tariff_read_field '/^uint64_t tariff_read_field/d'
notices "$header" tariff_read_field '/^uint64_t tariff_read_field/s/const uint8_t/uint8_t/'
notices "$header" tariff_read_field '/^uint64_t tariff_read_field/s/, size_t field_length//'
notices "$header" tariff_read_field '/^uint64_t tariff_read_field/s/int64_t \*value/uint64_t *value/'
notices "$header" tariff_read_field '/^uint64_t tariff_read_field/s/int64_t \*value/int64_t value/'
notices "$header" tariff_read_field '/^uint64_t tariff_read_field/s/int64_t \*value/const &/'
notices "$header" tariff_write_quote '/^uint64_t tariff_write_quote/d'
notices "$header" tariff_write_quote '/^uint64_t tariff_write_quote/s/uint8_t map/uint32_t map/'
notices "$header" tariff_write_quote '/^uint64_t tariff_write_quote/s/uint8_t map, //'
notices "$header" tariff_write_quote '/^uint64_t tariff_write_quote/s/int64_t premium/uint64_t premium/'
notices "$header" tariff_write_quote '/^uint64_t tariff_write_quote/s/, int64_t open_lines//'
notices "$header" tariff_write_quote '/^uint64_t tariff_write_quote/s/int64_t open_lines/int32_t open_lines/'
notices "$header" tariff_write_quote '/^uint64_t tariff_write_quote/s/uint8_t \*out/const &/'
notices "$header" tariff_write_quote '/^uint64_t tariff_write_quote/s/(uint8_t map), (int64_t base)/\2, \1/'
notices "$header" tariff_read_quote '/^uint64_t tariff_read_quote/d'
notices "$header" tariff_read_quote '/^uint64_t tariff_read_quote/s/const uint8_t/uint8_t/'
notices "$header" tariff_read_quote '/^uint64_t tariff_read_quote/s/, size_t quote_length//'
notices "$header" tariff_read_quote '/^uint64_t tariff_read_quote/s/int64_t \*open_lines/uint64_t *open_lines/'
notices "$header" tariff_read_quote '/^uint64_t tariff_read_quote/s/, int64_t \*open_lines//'
notices "$header" tariff_read_quote '/^uint64_t tariff_read_quote/s/int64_t \*premium/int64_t premium/'
notices "$header" tariff_read_quote '/^uint64_t tariff_read_quote/s/(int64_t \*base), (int64_t \*premium)/\2, \1/'
notices "$header" tariff_read_quote '/^uint64_t tariff_read_quote/s/(int64_t \*premium), (int64_t \*open_lines)/\2, \1/'
notices "$header" TARIFF_MOST_FIELD '/define TARIFF_MOST_FIELD/s/7/8/'
notices "$header" TARIFF_MOST_FIELD '/define TARIFF_MOST_FIELD/d'
notices "$header" TARIFF_MOST_RECORD '/define TARIFF_MOST_RECORD/s/22/21/'
notices "$header" TARIFF_MOST_RECORD '/define TARIFF_MOST_RECORD/d'
notices "$header" TARIFF_MOST_AGE '/define TARIFF_MOST_AGE/s/120/121/'
notices "$header" TARIFF_MOST_BANDS '/define TARIFF_MOST_BANDS/s/64/65/'
notices "$header" TARIFF_MOST_FACTOR '/define TARIFF_MOST_FACTOR/s/5000/5001/'
notices "$header" TARIFF_MOST_FACTOR '/define TARIFF_MOST_FACTOR/d'
notices "$header" TARIFF_MOST_LINES '/define TARIFF_MOST_LINES/s/200/201/'
notices "$header" TARIFF_MOST_LINES '/define TARIFF_MOST_LINES/d'
notices "$header" TARIFF_MOST_AMOUNT '/define TARIFF_MOST_AMOUNT/s/$/0/'
notices "$header" TARIFF_MOST_THOUSANDTHS '/define TARIFF_MOST_THOUSANDTHS/s/1000/-1000/'
notices "$header" TARIFF_MOST_BASE 's/^#define TARIFF_MOST_BASE.*/&\n#undef TARIFF_MOST_BASE/'
notices "$header" TARIFF_MOST_RUNNING '/define TARIFF_MOST_RUNNING/s/0$/1/'
notices "$header" TARIFF_CHAPTERS '/define TARIFF_CHAPTERS/s/32/31/'
notices "$header" TARIFF_CHAPTERS '/define TARIFF_CHAPTERS/d'
notices "$header" TARIFF_SESSION '/define TARIFF_SESSION/s/11505/11504/'
notices "$header" TARIFF_BOOK '/define TARIFF_BOOK/d'
notices "$header" TARIFF_RULES 's,^#define TARIFF_RULES,// &,'
notices "$header" TARIFF_FEATURES 's/^#define TARIFF_FEATURES.*/&\n#undef TARIFF_FEATURES/'
notices "$bench" tariff_open 's,fn tariff_open.*,/* & */,'
notices "$bench" tariff_open 's,fn tariff_open,// &,'
notices "$bench" tariff_open 's/fn tariff_open/#[cfg(test)] &/'
notices "$bench" tariff_open '/fn tariff_open/d'
notices "$bench" tariff_close 's/^(extern "C" \{)/\1 fn tariff_close(session: *mut u32, n: usize) -> u64;/'
notices "$bench" tariff_decide '/fn tariff_decide/s/literal: u32/literal: u64/'
notices "$bench" tariff_total '/fn tariff_total/s/sum: \*mut u64/sum: *mut u32/'
notices "$bench" tariff_chapters 's/totals: \*mut u64/totals: *mut u32/'
notices "$bench" tariff_chapters '/totals: \*mut u64/{n;d}'
notices "$bench" tariff_chapters 's/chapters: \*const u32/chapters: *mut u32/'
notices "$bench" tariff_quote '/fn tariff_quote/,/;$/d'
notices "$bench" tariff_quote 's/script: \*const u8/script: *mut u8/'
notices "$bench" tariff_quote 's/script: \*const u8/script: *const u32/'
notices "$bench" tariff_quote '/script: \*const u8/{n;d}'
notices "$bench" tariff_quote '/fn tariff_quote/,/;$/s/out: \*mut u32/out: *mut u64/'
notices "$bench" tariff_quote 's/ceiling: \*mut u64/ceiling: *mut u32/'
notices "$bench" tariff_quote '/ceiling: \*mut u64/d'
notices "$bench" tariff_price '/fn tariff_price\(/,/;$/d'
notices "$bench" tariff_price '/fn tariff_price\(/,/;$/s/base: i64/base: u64/'
notices "$bench" tariff_price '/fn tariff_price\(/,/;$/s/base: i64/base: i32/'
notices "$bench" tariff_price '/fn tariff_price\(/,/;$/s/base: i64,? *//'
notices "$bench" tariff_price '/fn tariff_price\(/,/;$/s/lines: \*const i32/lines: *mut i32/'
notices "$bench" tariff_price '/fn tariff_price\(/,/;$/s/lines: \*const i32/lines: *const u32/'
notices "$bench" tariff_price '/fn tariff_price\(/,/;$/{/lines: \*const i32/{n;d}}'
notices "$bench" tariff_price '/fn tariff_price\(/,/;$/s/amount: \*mut i64/amount: *mut u64/'
notices "$bench" tariff_price '/fn tariff_price\(/,/;$/s/amount: \*mut i64/amount: *const i64/'
notices "$bench" tariff_price '/fn tariff_price\(/,/;$/{/amount: \*mut i64/d}'
notices "$bench" tariff_check_bands '/fn tariff_check_bands/d'
notices "$bench" tariff_check_bands '/fn tariff_check_bands/s/table: \*const u32/table: *mut u32/'
notices "$bench" tariff_check_bands '/fn tariff_check_bands/s/age: \*mut u32/age: *mut u64/'
notices "$bench" tariff_check_bands '/fn tariff_check_bands/s/age: \*mut u32/age: u32/'
notices "$bench" tariff_price_for_age '/fn tariff_price_for_age/,/;$/d'
notices "$bench" tariff_price_for_age '/fn tariff_price_for_age/,/;$/s/table: \*const u32/table: *mut u32/'
notices "$bench" tariff_price_for_age '/fn tariff_price_for_age/,/;$/s/age: u32/age: u64/'
notices "$bench" tariff_price_for_age '/fn tariff_price_for_age/,/;$/s/age: u32,? *//'
notices "$bench" tariff_price_for_age '/fn tariff_price_for_age/,/;$/s/lines: \*const i32/lines: *const u32/'
notices "$bench" tariff_price_for_age '/fn tariff_price_for_age/,/;$/s/amount: \*mut i64/amount: *mut u64/'
notices "$bench" tariff_write_field '/fn tariff_write_field/d'
notices "$bench" tariff_write_field '/fn tariff_write_field/s/value: i64/value: u64/'
notices "$bench" tariff_write_field '/fn tariff_write_field/s/bytes: usize/bytes: u32/'
notices "$bench" tariff_write_field '/fn tariff_write_field/s/bytes: usize, //'
notices "$bench" tariff_write_field '/fn tariff_write_field/s/out: \*mut u8/out: *const u8/'
notices "$bench" tariff_write_field '/fn tariff_write_field/s/out: \*mut u8/out: *mut u32/'
notices "$bench" tariff_read_field '/fn tariff_read_field/d'
notices "$bench" tariff_read_field '/fn tariff_read_field/s/field: \*const u8/field: *mut u8/'
notices "$bench" tariff_read_field '/fn tariff_read_field/s/value: \*mut i64/value: *mut u64/'
notices "$bench" tariff_write_quote '/fn tariff_write_quote/s/map: u8/map: u32/'
notices "$bench" tariff_write_quote '/fn tariff_write_quote/s/open_lines: i64/open_lines: u64/'
notices "$bench" tariff_write_quote '/fn tariff_write_quote/s/, premium: i64//'
notices "$bench" tariff_read_quote '/fn tariff_read_quote/d'
notices "$bench" tariff_read_quote '/fn tariff_read_quote/s/quote: \*const u8/quote: *mut u8/'
notices "$bench" tariff_read_quote '/fn tariff_read_quote/s/open_lines: \*mut i64/open_lines: *const i64/'
notices "$bench" tariff_lookup '/fn tariff_lookup/s/session: \*const/session: *mut/'
notices "$bench" tariff_read '/fn tariff_read\(/s/u64;/u32;/'
notices "$source" tariff_open '/fn tariff_open/s/tariff_open/tariff_open(other: u32, /; /fn tariff_open/s/, \(book/, book/'
notices "$source" tariff_lookup '/fn tariff_lookup/s/session: &\[u32\]/session: \&mut [u32]/'
notices "$source" tariff_chapters 's/totals: &mut \[u64\]/totals: \&mut [u32]/'
notices "$source" tariff_chapters 's/totals: &mut \[u64\]/totals: \&mut u64/'
notices "$source" tariff_chapters 's/chapters: &\[u32\]/chapters: \&mut [u32]/'
notices "$source" tariff_quote 's/script: &\[u8\]/script: \&mut [u8]/'
notices "$source" tariff_quote 's/script: &\[u8\]/script: \&[u32]/'
notices "$source" tariff_quote '/fn tariff_quote/,/-> u64/s/out: &mut \[u32\]/out: \&mut [u64]/'
notices "$source" tariff_quote 's/ceiling: &mut u64/ceiling: \&mut [u64]/'
notices "$source" tariff_quote '/ceiling: &mut u64/d'
notices "$source" tariff_quote '/script: &\[u8\]/{h;d}; /ceiling: &mut u64/{G}'
notices "$source" tariff_price '/fn tariff_price\(/,/-> u64/s/base: i64/base: u64/'
notices "$source" tariff_price '/fn tariff_price\(/,/-> u64/s/base: i64/base: \&mut i64/'
notices "$source" tariff_price '/fn tariff_price\(/,/-> u64/s/lines: &\[i32\]/lines: \&mut [i32]/'
notices "$source" tariff_price '/fn tariff_price\(/,/-> u64/s/lines: &\[i32\]/lines: \&[u32]/'
notices "$source" tariff_price '/fn tariff_price\(/,/-> u64/s/amount: &mut i64/amount: \&mut u64/'
notices "$source" tariff_price '/fn tariff_price\(/,/-> u64/s/amount: &mut i64/amount: \&mut [i64]/'
notices "$source" tariff_price '/fn tariff_price\(/,/-> u64/s/amount: &mut i64,?//'
notices "$source" tariff_price '/fn tariff_price\(/,/-> u64/{s/base: i64/lines: \&[i32]/; t; s/lines: &\[i32\]/base: i64/}'
notices "$source" tariff_check_bands '/fn tariff_check_bands/s/table: &\[u32\]/table: \&mut [u32]/'
notices "$source" tariff_check_bands '/fn tariff_check_bands/s/age: &mut u32/age: \&mut u64/'
notices "$source" tariff_check_bands '/fn tariff_check_bands/s/age: &mut u32/age: \&mut [u32]/'
notices "$source" tariff_check_bands '/fn tariff_check_bands/s/age: &mut u32/age: u32/'
notices "$source" tariff_price_for_age '/fn tariff_price_for_age/,/-> u64/s/base: i64/base: u64/'
notices "$source" tariff_price_for_age '/fn tariff_price_for_age/,/-> u64/s/table: &\[u32\]/table: \&[i32]/'
notices "$source" tariff_price_for_age '/fn tariff_price_for_age/,/-> u64/s/age: u32/age: u64/'
notices "$source" tariff_price_for_age '/fn tariff_price_for_age/,/-> u64/s/age: u32/age: \&mut u32/'
notices "$source" tariff_price_for_age '/fn tariff_price_for_age/,/-> u64/s/lines: &\[i32\]/lines: \&[u32]/'
notices "$source" tariff_price_for_age '/fn tariff_price_for_age/,/-> u64/{s/table: &\[u32\]/age: u32/; t; s/age: u32/table: \&[u32]/}'
notices "$source" tariff_write_field '/fn tariff_write_field/s/value: i64/value: u64/'
notices "$source" tariff_write_field '/fn tariff_write_field/s/bytes: usize/bytes: u32/'
notices "$source" tariff_write_field '/fn tariff_write_field/s/out: &mut \[u8\]/out: \&[u8]/'
notices "$source" tariff_write_field '/fn tariff_write_field/s/out: &mut \[u8\]/out: \&mut [u32]/'
notices "$source" tariff_read_field '/fn tariff_read_field/s/field: &\[u8\]/field: \&mut [u8]/'
notices "$source" tariff_read_field '/fn tariff_read_field/s/value: &mut i64/value: \&mut [i64]/'
notices "$source" tariff_read_field '/fn tariff_read_field/s/value: &mut i64/value: i64/'
notices "$source" tariff_write_quote '/fn tariff_write_quote/,/-> u64/s/map: u8/map: u32/'
notices "$source" tariff_write_quote '/fn tariff_write_quote/,/-> u64/s/open_lines: i64/open_lines: u64/'
notices "$source" tariff_write_quote '/fn tariff_write_quote/,/-> u64/s/out: &mut \[u8\]/out: \&[u8]/'
notices "$source" tariff_read_quote '/fn tariff_read_quote/,/-> u64/s/quote: &\[u8\]/quote: \&mut [u8]/'
notices "$source" tariff_read_quote '/fn tariff_read_quote/,/-> u64/s/open_lines: &mut i64/open_lines: \&mut u64/'
notices "$source" tariff_read_quote '/fn tariff_read_quote/,/-> u64/{s/base: &mut i64/premium: \&mut i64/; t; s/premium: &mut i64/base: \&mut i64/}'
notices "$steps" step_decide '/fn step_decide/d'
notices "$steps" step_decide '/fn step_decide/s/literal: u32/literal: u64/'
notices "$steps" step_backtrack '/fn step_backtrack/s/session: \*mut/session: *const/'
notices "$steps" step_backtrack '/fn step_backtrack/s/;/ -> u64;/'
notices "$steps_source" step_decide '/fn step_decide/s/, literal: u32//'
notices "$steps_source" step_backtrack '/fn step_backtrack/s/k: u32\)/k: u32) -> u64/'
echo "header: notices $noticed wrong declarations"
