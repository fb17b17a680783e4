#!/usr/bin/env bash
# Checks that what the documents name exists. Of the words in backticks in README.md, CHANGELOG.md, docs/*.md and docs/requests/*.md these are
# looked up:
#   usage/specs/Lib.antt, tests/run    a file or folder, from the root of the checkout, from crates/ or from docs/
#   Separated                          right after an .antt file, or after another such name: a name in that file
#   usage/no_zero_byte                 a crate's must-fail edit
#   usage::usage_key                   a function of a crate
#   kv_usage_key                       a call of the header, or a function of one beside it
# A word that ends in a slash and other words are not looked up, nor are those of docs/EXPERIMENTS.md and docs/PORT.md, which speak of what is no more.
# Last line: 'N passed, M failed'.
set -u
cd "$(dirname "$0")/.." && . tools/common.sh || exit 1
shopt -s lastpipe # so that what is counted at the end of a pipe is kept

# words FILE: each word in backticks outside of a block of code, and the .antt file that it follows or -
words() {
    awk '/^    / { next } { text = text " " $0 }
        END {
            n = split(text, parts, "`")
            for (i = 2; i <= n; i += 2) {
                file = parts[i - 1] ~ /^,?( and)? *$/ ? last : "-"
                if (parts[i] !~ /[ "]/) print parts[i], file
                last = parts[i] ~ /\.antt$/ ? parts[i] : file
            }
        }' "$1"
}

is_there() { [ -e "$1" ] || [ -e "crates/$1" ] || [ -e "docs/$1" ] || [ -e "crates/${1%%/*}/must-fail/${1#*/}.edit" ]; }
is_function() { grep -qE "fn ${1##*::}[(<]" "crates/${1%%::*}/src/"*.rt 2>/dev/null; }
is_call() { awk -f tools/header.awk include/ketvaulo.h | cut -d ' ' -f 1 | grep -qx "$1" || grep -q "[ *]$1(" include/ketvaulo_*.h; }
is_in() { grep -qwF -- "$1" "$2" 2>/dev/null; }

# look_up DOCUMENT WORD FILE: checks a word that is of one of the kinds above
look_up() {
    case $2 in
    target/* | specs/* | */ | kv_ | *'*'* | *..*) ;;
    kv_*) check "$1: call $2" is_call "$2" ;;
    [a-z]*::*) check "$1: function $2" is_function "$2" ;;
    */*) check "$1: $2" is_there "$2" ;;
    *) [ "$3" = - ] || check "$1: $2 in $3" is_in "$2" "crates/${3#crates/}" ;;
    esac
}

for document in README.md CHANGELOG.md docs/*.md docs/requests/*.md; do
    case $document in docs/EXPERIMENTS.md | docs/PORT.md) continue ;; esac
    words "$document" | while read -r word file; do look_up "$document" "$word" "$file"; done
done
tell_counts
