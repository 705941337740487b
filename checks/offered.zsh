# What zsh offers after each line of standard input, typed in a folder: a line of what it offers, with `;` between.
# Usage: zsh -f checks/offered.zsh FUNCTIONS FOLDER, where FUNCTIONS is the folder of the completion.
zmodload zsh/zpty || exit 2
hits=$(mktemp) || exit 2
trap 'rm -f $hits' EXIT
cd -- $2 || exit 2

# what a shell at a terminal of its own reads: it notes each match, and says so when a line is typed. (Its terminal
# shows what it reads, so the words to wait for are written in two parts.)
zpty shell zsh -f -i
zpty -w shell "module_path=($module_path); PS1=; fpath=(${(q)1} \$fpath); autoload -Uz compinit; compinit -u -D"
zpty -w shell 'compadd() {
    if [[ ${@[1,(i)(-|--)]} != *-(O|A|D)\ * ]]; then
        local -a found
        builtin compadd -A found "$@"
        print -rl -- ${(Q)found} >>'$hits'
    fi
    builtin compadd "$@"
}'
zpty -w shell 'typed() { zle -I; print TY''PED; BUFFER= }; zle -N typed; bindkey "^T" typed; print REA''DY'
zpty -r shell said '*READY*' || exit 2

while IFS= read -r line; do
    : >$hits
    zpty -w -n shell $line$'\t\C-t'
    zpty -r shell said '*TYPED*' || exit 2
    grep . $hits | sort -u | paste -s -d ';' -
done
zpty -d shell
