#!/usr/bin/env bash
# Compares tools/icu2text with ICU's own tools over ICU's bundles. It reads each bundle from the package of ICU's data, and compiles the
# text by `resb compile` and by genrb to the formats 1, 2 and 3, that of 3 with a pool bundle. The texts that icu2text writes of these
# must compile to the same bytes, and derb must print ICU's file and ours alike. Then the texts in ICU's source, if it is there: genrb's
# files of three formats must compile to the bytes of the text itself. The last line counts the differences; they are listed before it.
#
# usage: icu.sh [PROGRAM [TREE..]]   (default: crates/rb_tool/out/rb_tool and all trees, which takes some minutes: by hand)
# ICU_PACKAGE is the package icudt*.dat (default: cut out of the installed libicudata), ICU_SOURCE the folder icu/source.
# If a tool or the data is missing, a line says `skipped` and which, and the status is 0.
set -u
export PATH="$PATH:/usr/sbin" LC_ALL=C.UTF-8
cd "$(dirname "$0")/.." || exit 2
program=$(realpath "${1:-crates/rb_tool/out/rb_tool}")
icu2text=$PWD/tools/icu2text
trees="${*:2}"
work=$(mktemp -d)
trap 'rm -rf "$work"' EXIT
differences=0 reasons=0

skip() {
    echo "skipped: $1 is not there"
    exit 0
}

for tool in genrb derb icupkg python3; do
    command -v $tool >/dev/null || skip $tool
done
[ -x "$program" ] || skip "$program"

# differ WHAT: counts a difference, and prints it
differ() {
    echo "difference: $1"
    differences=$((differences + 1))
}

reason() {
    echo "a difference with a reason: $1"
    reasons=$((reasons + 1))
}

# package: prints where the package of ICU's data is; libicudata has it unchanged in its one section of constants
package() {
    if [ -n "${ICU_PACKAGE:-}" ]; then
        data=$(realpath "$ICU_PACKAGE")
        return
    fi
    local library
    library=$(ldconfig -p | sed -n 's/.* => \(.*libicudata\.so\.[0-9]*\)$/\1/p' | head -n 1)
    [ -n "$library" ] || skip "libicudata, or a package in ICU_PACKAGE"
    command -v objcopy >/dev/null || skip "objcopy of binutils, or a package in ICU_PACKAGE"
    data=$work/icudt${library##*.}l.dat
    objcopy -O binary -j .rodata "$library" "$data"
}

# compile FOLDER: compiles each text of a folder to a file beside it
compile() {
    local text
    for text in "$1"/*.txt; do
        "$program" compile "$text" "${text%.txt}.bin" >/dev/null 2>"$work/error" || differ "$(cat "$work/error")"
    done
}

# convert FROM TO WHAT: writes the texts of the files in a folder
convert() {
    "$icu2text" --to "$2" "$1"/*.res 2>"$work/error" || differ "$3: $(cat "$work/error")"
}

# genrb_as TEXTS FILES NAMES OPTION..: compiles the texts with these names in a folder by genrb
genrb_as() {
    mkdir -p "$2"
    # shellcheck disable=SC2086 # the names are a pattern
    (cd "$1" && genrb -q -e UTF-8 "${@:4}" -d "$2" $3) >"$work/error" 2>&1
}

# formats TEXTS FILES NAMES: compiles the texts to the formats 1, 2 and 3, in folders of these names; those of 3 share a pool bundle
formats() {
    if ! {
        genrb_as "$1" "$2/1" "$3" --formatVersion 1 &&
            genrb_as "$1" "$2/2" "$3" &&
            genrb_as "$1" "$2/3" "$3" --writePoolBundle &&
            genrb_as "$1" "$2/3" "$3" --usePoolBundle "$2/3"
    }; then
        differ "genrb: $(head -n 1 "$work/error")"
    fi
}

# same_bytes TEXTS OTHERS WHAT: checks that each text and its other compile to the same bytes, as equal texts do
same_bytes() {
    local text other
    for text in "$1"/*.txt; do
        other=$2/${text##*/}
        cmp -s "$text" "$other" && continue
        if ! "$program" compile "$other" "$work/other.bin" >/dev/null 2>&1 || ! cmp -s "$work/other.bin" "${text%.txt}.bin"; then
            differ "${text##*/}: $3"
        fi
    done
}

# printed FOLDER OUT: writes what derb prints of the files in a folder, without its comments
printed() {
    mkdir -p "$2"
    # shellcheck disable=SC2035 # no bundle has a name with a dash in front
    (cd "$1" && derb -A -e UTF-8 -s "$1" -d "$2" *.res) >"$work/error" 2>&1 || differ "derb: $(tail -n 1 "$work/error")"
    sed -i '/^\/\//d; 1s/^\xEF\xBB\xBF//' "$2"/*.txt
}

# tree NAME: makes all checks of a tree of the package
tree() {
    local at=$work/$1 format pattern=$1/
    [ "$1" != main ] || pattern=
    mkdir -p "$at/icu" "$at/ours"
    (cd "$at" && icupkg -d icu -x "$pattern*.res" "$data") || differ "icupkg -x"
    [ -z "$pattern" ] || mv "$at/icu/$1"/*.res "$at/icu/"
    "$icu2text" --package "$data" --tree "$1" --to "$at/texts" 2>"$work/error" || differ "$1: $(cat "$work/error")"
    convert "$at/icu" "$at/unpacked" "unpacked"
    diff -rq "$at/texts" "$at/unpacked" >/dev/null || differ "$1: the texts of icupkg's files"
    "$icu2text" --package "$big" --tree "$1" --to "$at/big" 2>"$work/error" || differ "$1: $(cat "$work/error")"
    if ! diff -rq "$at/texts" "$at/big" >/dev/null; then
        diff -rq -I '%%CollationBin:bin' "$at/texts" "$at/big" >/dev/null || differ "$1: the texts of big-endian files"
        reason "$1: icupkg swaps the numbers in collation's binaries too"
    fi
    formats "$at/texts" "$at/genrb" "*.txt"
    compile "$at/texts"
    for format in 1 2 3; do
        convert "$at/genrb/$format" "$at/texts$format" "format $format"
        same_bytes "$at/texts" "$at/texts$format" "format $format"
    done
    for format in "$at"/texts/*.bin; do
        mv "$format" "$at/ours/$(basename "$format" .bin).res"
    done
    printed "$at/icu" "$at/printed"
    printed "$at/ours" "$at/printed_ours"
    rm -f "$at/printed/pool.txt"
    diff -rq "$at/printed" "$at/printed_ours" || differ "$1: what derb prints"
    echo "$1: $(find "$at/texts" -name '*.txt' | wc -l) bundles"
    rm -rf "$at"
}

# sources FOLDER: checks the texts of a folder that genrb compiles. Those that resb compiles too are compared with their files in three
# formats; of the others, which import or include something, the three files are compared with each other
sources() {
    local text name format taken=0 compiled=0 at
    for text in "$1"/*.txt; do
        at=$(mktemp -d -p "$work")
        name=$(basename "$text")
        genrb_as "$1" "$at/taken" "$name" || continue
        compgen -G "$at/taken/*.res" >/dev/null || continue
        taken=$((taken + 1))
        formats "$1" "$at" "$name"
        for format in 1 2 3; do
            convert "$at/$format" "$at/texts$format" "$name in format $format"
            "$program" compile "$at/texts$format"/*.txt "$at/$format.bin" >/dev/null 2>"$work/error" || differ "$(cat "$work/error")"
        done
        if "$program" compile "$text" "$at/text.bin" >/dev/null 2>&1; then
            compiled=$((compiled + 1))
        else
            cp "$at/1.bin" "$at/text.bin"
        fi
        if grep -q '%%CollationBin' "$at"/texts1/*.txt && ! cmp -s "$at/1.bin" "$at/text.bin"; then
            reason "$name: genrb adds binaries to a table collations (docs/LANGUAGE.md)"
            cp "$at/1.bin" "$at/text.bin"
        fi
        for format in 1 2 3; do
            cmp -s "$at/$format.bin" "$at/text.bin" || differ "$name: format $format"
        done
    done
    echo "$1: $taken texts that genrb takes, $compiled of them compiled by resb too"
}

package
big=$work/$(basename "$data" l.dat)b.dat
icupkg -tb "$data" "$big" || differ "icupkg -tb"
for name in ${trees:-main curr lang region unit zone brkitr coll rbnf translit}; do
    tree "$name"
done
if [ -n "${ICU_SOURCE:-}" ]; then
    for folder in test/testdata samples/uresb samples/ufortune/resources extra/uconv/resources; do
        sources "$(realpath "$ICU_SOURCE")/$folder"
    done
elif [ -z "$trees" ]; then
    echo "skipped: the texts of ICU's source, without ICU_SOURCE"
fi
echo "$differences differences without a reason, $reasons with one"
[ "$differences" = 0 ]
