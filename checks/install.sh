#!/bin/sh
# Installs the program in a folder of its own and tries what is installed: the script, the manual, the completions of
# bash and zsh, and the highlighting of every example by the TextMate grammar and by Vim. What this machine has no
# command for is said and passed over. Usage: checks/install.sh [PROGRAM]. If none is named and none is built it says
# so and ends with 0. Needs python3.
. "$(dirname -- "$0")/common.sh"
begin "${1-}"
home=$work/home
prefix=$work/prefix
first=$top/examples/first.scald
mkdir -p "$home/crates/scald/src" "$home/crates/scald/out"
cp -R "$top/scald" "$top/crates.txt" "$top/install" "$top/docs" "$top/examples" "$home"

# run STATUS NAME SCRIPT WORD ..: its output is in $work/out, and what it says in $work/said
run() {
    wanted=$1
    name=$2
    shift 2
    "$@" >"$work/out" 2>"$work/said" </dev/null
    status=$?
    trying "$name"
    [ "$status" -eq "$wanted" ] || failure "$name: status $status in place of $wanted"
}

# has NAME FILE TEXT: the text stands in the file
has() {
    trying "$1"
    grep -qF -- "$3" "$2" || failure "$1: nowhere $3"
}

# passed_over COMMAND: whether this machine does not have it
passed_over() {
    command -v "$1" >/dev/null 2>&1 && return 1
    echo "$check: no command $1, so that what needs it is passed over"
}

# --- what cannot be installed
run 21 'nothing is built' "$home/scald" install "$prefix"
trying 'nothing is installed'
[ ! -e "$prefix" ] || failure 'nothing is built: something is installed'
cp "$program" "$home/crates/scald/out/scald"
run 4 'no folder' "$home/scald" install
run 4 'two folders' "$home/scald" install "$prefix" "$prefix"
run 4 'unproved' "$home/scald" --unproved install "$prefix"
: >"$work/file"
run 23 'a file in place of a folder' "$home/scald" install "$work/file"
has 'a file in place of a folder, said' "$work/said" "scald: $work/file"

# --- the script that is installed
run 0 'installed' "$home/scald" install "$prefix"
has 'installed, said' "$work/said" "scald: installed in $prefix"
"$home/scald" --version >"$work/version"
rm -rf "$home"
scald=$prefix/bin/scald
run 0 'a file' "$scald" verify "$first"
trying 'its report'
cmp -s "$work/out" "${first%.scald}.report" || failure 'a file: another report'
run 1 'two files' "$scald" verify faults "$first" "$top/examples/skew_hold.scald"
has 'two files, the status of the second' "$work/said" "$top/examples/skew_hold.scald: 1"
run 22 'no such file' "$scald" format "$work/none"
run 0 'version' "$scald" --version
trying 'the same version'
cmp -s "$work/out" "$work/version" || failure 'version: another than what was installed'
run 0 'help' "$scald" --help
has 'help, its documents' "$work/out" "$prefix/share/doc/scald"
cp "$work/out" "$work/help"
run 21 'no sources' "$scald" --unproved verify "$first"
run 21 'nothing to install from' "$scald" install "$work/other"
for document in docs/LANGUAGE.md docs/MEANING.md docs/IDIOMS.md examples/README.md examples/machine.report; do
    trying "$document"
    cmp -s "$top/$document" "$prefix/share/doc/scald/$document" || failure "$document: not installed"
done
# again, over what is there
mkdir -p "$home/crates/scald/out"
cp -R "$top/scald" "$top/crates.txt" "$top/install" "$top/docs" "$top/examples" "$home"
cp "$program" "$home/crates/scald/out/scald"
run 0 'installed again' "$home/scald" --quiet install "$prefix"
trying 'installed again quietly'
[ ! -s "$work/said" ] || failure 'installed again: something is said'
mv "$prefix/libexec/scald" "$work/scald"
run 21 'no program' "$scald" verify "$first"
mv "$work/scald" "$prefix/libexec/scald"

# --- the manual
page=$prefix/share/man/man1/scald.1
warned() {
    trying "$1"
    [ ! -s "$work/said" ] || failure "$1: $(head -n 1 "$work/said")"
}
if ! passed_over groff; then
    run 0 'groff' groff -ww -man -Tascii -P-cbou "$page"
    warned 'groff warns'
    # one line, with one space between words and none if a word is cut
    tr -s ' \n' '  ' <"$work/out" | sed 's/- //g' >"$work/page"
    for text in 'verify [waves|faults] [rounds=N] [FILE ..]' 'bench N' 'install PREFIX' '--unproved' \
        '20 The arguments are unavailable' '23 scald install cannot write' \
        'The statuses of run, vcd and judge:' '11 The run would exceed 4,000,000 bits' 'WAVE net SKEW s v:w v:w ..' \
        'FAULT WIDTH w1<0> LOW FROM 150 WIDTH 350' "$prefix/share/vim/vimfiles" \
        'c1 : SETUP_HOLD_CHK {SETUP=20, HOLD=10} ("CK .P2-3", "D .S1-4");' 'WAVE D<0> SKEW 0 C:51 S:149 C:200'; do
        has 'the manual' "$work/page" "$text"
    done
fi
if ! passed_over man; then
    run 0 'man' env MANWIDTH=80 MANPAGER=cat man --warnings -l "$page"
    warned 'man warns'
    run 0 'man finds it' env -u MANPATH PATH="$prefix/bin:$PATH" man -w scald
    has 'man finds it' "$work/out" "$page"
fi
if ! passed_over mandoc; then
    run 0 'mandoc' mandoc -T lint -W warning "$page"
fi

# --- what the tables of docs/LANGUAGE.md name is in --help too, and every place that they name is there
PYTHONPATH=$top/install python3 -B - "$top/docs/LANGUAGE.md" "$work/names" "$work/places" <<'END' ||
import sys
from language import read_language
with open(sys.argv[1]) as file:
    language = read_language(file.read())
with open(sys.argv[2], "w") as names:
    for command in language.commands:
        print(command.form, file=names)
    for option in language.options:
        print(option.name.split(", ")[0], file=names)
    for status in language.statuses + language.run_statuses:
        if status.name.isdigit():
            print(f" {status.name}  ", file=names)
with open(sys.argv[3], "w") as places:
    for place in language.installed:
        print(place.name, file=places)
END
    failure 'the tables are not read'
while IFS= read -r text; do
    has 'help' "$work/help" "$text"
done <"$work/names"
while IFS= read -r place; do
    trying "$place"
    [ -e "$prefix/$place" ] || failure "$place: not installed"
done <"$work/places"

# --- what bash offers: LINE WORD ..., the last word of the line being typed
mkdir -p "$work/typed/sub folder"
: >"$work/typed/row.scald"
: >"$work/typed/vast.scald"
: >"$work/typed/notes.txt"
: >"$work/typed/cpu.json"
cat >"$work/offer" <<'END'
. "$1"
shift
COMP_WORDS=("$@")
COMP_CWORD=$(($# - 1))
_scald
printf '%s\n' "${COMPREPLY[@]}" | sort | paste -s -d ';' -
END
offers() {
    wanted=$1
    shift
    trying "bash: $*"
    given=$(cd "$work/typed" && bash "$work/offer" "$prefix/share/bash-completion/completions/scald" "$@" 2>&1)
    [ "$given" = "$wanted" ] || failure "bash offers after $*: $given in place of $wanted"
}
LC_ALL=C
export LC_ALL
if ! passed_over bash; then
    offers '--help;--quiet;--unproved;--version;-h;bench;chains;decide;draw;explain;format;import;install;judge;margins;notes;run;sections;slack;upgrade;vcd;verify' scald ''
    offers 'vcd;verify' scald v
    offers '--unproved' scald --u
    offers 'format' scald --quiet f
    offers 'faults;rounds=;row.scald;sub folder;vast.scald;waves' scald verify ''
    offers 'vast.scald' scald verify v
    offers 'waves' scald --unproved verify w
    offers 'row.scald;sub folder;vast.scald' scald format ''
    offers 'sub folder' scald upgrade s
    offers '' scald bench ''
    offers 'case=' scald run c
    offers 'tick=' scald vcd t
    offers 'case=;faults;rounds=;row.scald;sub folder;under=;vast.scald;waves;worst=' scald draw ''
    offers 'rounds=;row.scald' scald draw case=0 r
    offers 'vast.scald' scald judge 0 v
    offers 'cells;cpu.json;sub folder' scald import ''
    offers 'sub folder' scald install ''
    offers '' scald verify none
    trying 'bash: complete'
    bash -c '. "$1"; complete -p scald' - "$prefix/share/bash-completion/completions/scald" >"$work/out" 2>&1
    has 'bash: complete' "$work/out" 'complete -F _scald scald'
fi
if ! passed_over zsh; then
    run 0 'zsh' zsh -n "$prefix/share/zsh/site-functions/_scald"
    warned 'zsh warns'
    # a line that is typed, and what is offered after it
    cat >"$work/rows" <<'END'
scald |bench;chains;decide;draw;explain;format;import;install;judge;margins;notes;run;sections;slack;upgrade;vcd;verify
scald v|vcd;verify
scald --u|--unproved
scald --quiet f|format
scald verify |faults;rounds=;row.scald;sub folder;vast.scald;waves
scald verify v|vast.scald
scald --unproved verify w|waves
scald format |row.scald;sub folder;vast.scald
scald upgrade s|sub folder
scald bench |
scald run c|case=
scald vcd t|tick=
scald draw |case=;faults;rounds=;row.scald;sub folder;under=;vast.scald;waves;worst=
scald draw case=0 r|rounds=;row.scald
scald judge 0 v|vast.scald
scald import |cells;cpu.json;sub folder
scald install |sub folder
END
    cut -d '|' -f 1 "$work/rows" |
        zsh -f "$top/checks/offered.zsh" "$prefix/share/zsh/site-functions" "$work/typed" >"$work/offered" 2>&1 ||
        failure 'zsh offers nothing'
    number=0
    while IFS='|' read -r line wanted; do
        number=$((number + 1))
        trying "zsh: $line"
        given=$(sed -n "${number}p" "$work/offered")
        [ "$given" = "$wanted" ] || failure "zsh offers after $line: $given in place of $wanted"
    done <"$work/rows"
fi

# --- highlighting: every token of every example
coloured() {
    python3 -B "$top/checks/colours.py" "$1" "$prefix" "$top"/examples/*.scald >"$work/out" || failure "$1: no colours"
    while read -r name wrong; do
        trying "$1: $name"
        [ -z "$wrong" ] || failure "$1: $name: $wrong"
    done <"$work/out"
}
coloured textmate
passed_over vim || coloured vim

ended
