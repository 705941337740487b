#!/bin/sh
# Tries wrong edits, each of which the prover has to refuse, on a copy of the repository. checks/mutants/CRATE/NAME.edit
# has the form of the edits in crates/*/must-fail, which are the few that every gate tries. These are tried by hand: an
# edit takes up to a minute, after the proof of its crate. The crates below are proved too, but for those of which `rt
# check` has built the library here, from the same text.
# What each comes to is compared with checks/mutants/last, a line for each edit: whether it was refused and, if that
# is written, by what. --keep writes there what this run found. --list says which edits there are, and tries none.
# Usage: checks/mutants.sh [--keep | --list] [CRATE | CRATE/NAME ..]. It ends with 0 if each edit is refused as before.
set -u
top=$(CDPATH='' cd -- "$(dirname -- "$0")/.." && pwd) || exit 2
edits=$top/checks/mutants
last=$edits/last
mode=try
case ${1-} in
--keep | --list)
    mode=${1#--}
    shift
    ;;
esac
[ $# -gt 0 ] || set -- $(cd "$edits" && ls -d -- */ | tr -d /)
for asked in "$@"; do
    [ -d "$edits/$asked" ] || [ -f "$edits/$asked.edit" ] && continue
    echo "checks/mutants.sh: no edits of the crate $asked, and no edit of this name" >&2
    exit 2
done

# names CRATE or CRATE/NAME ..: CRATE/NAME of each edit
names() {
    (cd "$edits" && for asked in "$@"; do
        case $asked in
        */*) echo "$asked" ;;
        *) ls -d -- "$asked"/*.edit ;;
        esac
    done) | sed 's/\.edit$//' | sort -u
}
if [ "$mode" = list ]; then
    names "$@"
    exit
fi

work=$(mktemp -d) || exit 2
trap 'rm -rf "$work"' EXIT
trap 'exit 2' HUP INT TERM
mkdir "$work/copy" || exit 2
(cd "$top" && tar -cf - --exclude='crates/*/out' crates crates.txt HANDLES) | tar -xf - -C "$work/copy" || exit 2
for built in "$top"/crates/*/out/rlib; do
    [ -f "$built/stamp" ] || continue
    out=$work/copy/${built#"$top/"}
    mkdir -p "$out" && { cp -al "$built/." "$out" 2>"$work/said" || cp -a "$built/." "$out"; } || exit 2
done
crates=$(names "$@" | cut -d / -f 1 | sort -u)
for crate in $crates; do
    rm -rf "$work/copy/crates/$crate/must-fail"
    mkdir "$work/copy/crates/$crate/must-fail" || exit 2
done
for name in $(names "$@"); do
    cp "$edits/$name.edit" "$work/copy/crates/${name%/*}/must-fail" || exit 2
done
(cd "$work/copy" && rt must-fail $crates) 2>&1 | tee "$work/said"

# Of each edit a line CRATE/NAME: WHAT. What refused it is the clause and the file that the prover names.
sed -n 's/^rt: must-fail \([^:]*\)\.edit: \(.*\)/\1: \2/p' "$work/said" |
    sed -e 's/: refused, as it must be.*: \(note: \)\{0,1\}\(\.\/\)\{0,1\}\([^ :]*\):[0-9]*:[0-9]*: \(error: \)\{0,1\}`\([^`]*\)`.*/: refused by `\5` in \3/' \
        -e 's/: refused, as it must be.*: \(note: \)\{0,1\}\(\.\/\)\{0,1\}\([^ :]*\):[0-9]*:[0-9]*: .*/: refused in \3/' \
        -e 's/: refused, as it must be.*/: refused/' \
        -e 's/: \(NOT REFUSED\|BAD EDIT\|NOT TRIED\): .*/: \1/' >"$work/now"

# before NAME: what it came to before; now NAME: what it comes to now
before() {
    sed -n "s|^$1: ||p" "$last"
}
now() {
    sed -n "s|^$1: ||p" "$work/now"
}
tried=0
failed=0
for name in $(names "$@"); do
    tried=$((tried + 1))
    case $(now "$name") in
    "$(before "$name")") continue ;;
    refused*) [ "$(before "$name")" != refused ] && [ "$mode" = try ] || continue ;;
    esac
    failed=$((failed + 1))
    found=$(now "$name")
    echo "FAILED $name: ${found:-no verdict} in place of $(before "$name")"
done
if [ "$mode" = keep ]; then
    # (of two lines for one edit sort keeps the first)
    cat "$work/now" "$last" | sort -t : -u -k 1,1 >"$work/last" && cp "$work/last" "$last"
fi
echo "checks/mutants.sh: $tried tried, $failed failed"
[ "$tried" -gt 0 ] && [ "$failed" -eq 0 ]
