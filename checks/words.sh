#!/bin/sh
# Counts the words of each document against its limit, and of all of them together, and looks whether each file that a
# document links, or names in backquotes by its path, is there; whether CONTRIBUTING.md has every crate; and whether the
# numbers of crates, lines and wrong edits that documents give are those of the sources. A document without a limit is a
# failure.
# Usage: checks/words.sh
. "$(dirname -- "$0")/common.sh"
cd "$top" || exit 2
# (no program is tried, so any will do)
begin /bin/sh

limit_of() {
    case $1 in
    README.md) echo 700 ;;
    CONTRIBUTING.md) echo 1200 ;;
    docs/LANGUAGE.md) echo 9000 ;;
    docs/MEANING.md) echo 4200 ;;
    docs/IDIOMS.md) echo 2900 ;;
    docs/ASSURANCE.md) echo 2500 ;;
    docs/DECISIONS.md) echo 3500 ;;
    docs/SPEED.md) echo 1000 ;;
    *) echo 0 ;;
    esac
}

all=0
for document in README.md CONTRIBUTING.md docs/*.md; do
    trying "$document"
    count=$(($(wc -w <"$document")))
    limit=$(limit_of "$document")
    all=$((all + count))
    echo "$document: $count of $limit"
    [ "$count" -le "$limit" ] || failure "$document: $count words, and $limit are allowed"
done
echo "together: $all of 25000"
[ "$all" -le 25000 ] || failure "the documents: $all words together, and 25000 are allowed"

# What stands in brackets is a place from the document's folder; a heading may follow it.
for document in README.md CONTRIBUTING.md docs/*.md examples/README.md; do
    grep -o '](\([^)]*\))' "$document" | sed 's/^](//; s/)$//; s/#.*//' | grep -v '^[a-z]*://' |
        while IFS= read -r link; do
            trying "$link"
            [ -z "$link" ] || [ -e "$(dirname -- "$document")/$link" ] || failure "$document: no file $link"
        done
    # A path from the top, as `docs/LANGUAGE.md`; one with a name in capitals or a star stands for several.
    grep -o '`[^` ]*`' "$document" | tr -d '`' |
        grep -E '^(\./)?(crates|checks|docs|examples|install|bench|\.ci)/[A-Za-z0-9_./-]*[A-Za-z0-9_]$' |
        grep -v '/[XF]\(/\|$\)' | sort -u | while IFS= read -r path; do
        trying "$path"
        [ -e "$path" ] || [ -e "$path.antt" ] || failure "$document: no file $path"
    done
    # A file of a crate, as `flat_circuit/specs/Run`.
    grep -o '`[^` ]*`' "$document" | tr -d '`' | grep -E '^[a-z_]+/(src|specs|proofs)(/[A-Za-z0-9_./+-]+)?$' |
        grep -v '^crates/' | sort -u | while IFS= read -r path; do
        trying "$path"
        [ -e "crates/$path" ] || [ -e "crates/$path.antt" ] || [ -e "crates/$path.rt" ] ||
            failure "$document: no file crates/$path"
    done
done

# Each crate is in the table of crates.
for crate in $(sed -n 's/^\([a-z_0-9]*\):.*/\1/p' crates.txt); do
    trying "$crate"
    grep -q "^|.*\`$crate\`" CONTRIBUTING.md || failure "CONTRIBUTING.md: no crate $crate in the table"
done

# says DOCUMENT TEXT: the document has this text, on one line
says() {
    trying "$2"
    grep -q -- "$2" "$1" || failure "$1: it does not say '$2'"
}
crates=$(grep -c '^[a-z_0-9]*:' crates.txt)
says README.md "$crates crates;"
timed=$(grep -o '^| `.* |$' CONTRIBUTING.md | grep '[0-9][.][0-9]' | grep -o '`[a-z_]*`' | wc -l)
says CONTRIBUTING.md "^$((crates - timed)) smaller ones"
says docs/ASSURANCE.md "tries $(find checks/mutants -name '*.edit' | wc -l) more by hand"
says docs/ASSURANCE.md "what $(lines checks/mutants/last) came to"

# Lines without blank ones, in thousands: README.md may be off by 3 of a hundred.
written=$(find crates/*/src -name '*.rt' -exec cat {} + | grep -c '[^ ]')
defined=$(find crates/*/specs -name '*.antt' -exec cat {} + | grep -c '[^ ]')
proved=$(find crates/*/proofs -name '*.antt' -exec cat {} + | grep -c '[^ ]')
sizes=$(grep -o '[0-9,]* lines of code and contracts, [0-9,]* of definitions, [0-9,]* of proofs' README.md |
    sed 's/,\([0-9]\)/\1/g; s/[^0-9 ]//g')
trying 'the size of the whole'
echo "$sizes $written $defined $proved" |
    awk '{ for (i = 1; i <= 3; i++) if ($i < $(i + 3) * 0.97 || $i > $(i + 3) * 1.03) exit 1; exit NF != 6 }' ||
    failure "README.md: the size is '$sizes', and there are $written, $defined and $proved lines"

ended
