"""What bash and zsh offer after `scald`: its words, its options, and files."""


def options_of(language):
    """Each spelling of each option, with what it does."""
    return [(name, option.says) for option in language.options for name in option.name.split(", ")]


def bash_case(command):
    """What may follow one word."""
    offers = []
    if command.choices or command.fronts:
        words = " ".join(command.choices + command.fronts)
        offers.append(f"COMPREPLY=($(compgen -W '{words}' -- \"$word\"))")
        offers.append('[[ ${COMPREPLY[0]-} == *= ]] && compopt -o nospace 2>/dev/null')
    if command.takes == "FILES":
        offers.append("_scald_names -f -X '!*.scald'")
    if command.takes == "NETLISTS":
        offers.append("_scald_names -f -X '!*.json'")
    if command.takes == "JOINED":
        offers.append("_scald_names -f")
    if command.takes == "PREFIX":
        offers.append("_scald_names")
    lines = "".join(f"        {offer}\n" for offer in offers)
    return f"    {command.word})\n{lines}        ;;\n"


BASH = """# What bash offers after `scald`. Made from docs/LANGUAGE.md.

# adds folders, and the files that these words of compgen ask for
_scald_names() {{
    local name
    compopt -o filenames 2>/dev/null
    while IFS= read -r name; do
        COMPREPLY+=("$name")
    done < <(compgen -d -- "$word"; [[ $# -eq 0 ]] || compgen "$@" -- "$word")
}}

_scald() {{
    local word=${{COMP_WORDS[COMP_CWORD]}} command= place
    COMPREPLY=()
    for ((place = 1; place < COMP_CWORD; place++)); do
        case ${{COMP_WORDS[place]}} in
        -*) ;;
        *)
            command=${{COMP_WORDS[place]}}
            break
            ;;
        esac
    done
    case $command in
    '')
        COMPREPLY=($(compgen -W '{first}' -- "$word"))
        ;;
{cases}    esac
}}

complete -F _scald scald
"""


def bash(language):
    first = [command.word for command in language.commands] + [name for name, _ in options_of(language)]
    return BASH.format(first=" ".join(first), cases="".join(bash_case(command) for command in language.commands))


def plain(text):
    """What is said of a word, without the documents' marks and with nothing that zsh would read."""
    text = text.replace("`", "").replace("'", "").replace("[", "(").replace("]", ")")
    return text.replace(":", ",")


def zsh_case(command):
    offers = []
    if command.choices:
        offers.append(f"compadd -- {' '.join(command.choices)}")
    if command.fronts:
        offers.append(f"compadd -S '' -- {' '.join(command.fronts)}")
    if command.takes == "FILES":
        offers.append("_files -g '*.scald'")
    if command.takes == "NETLISTS":
        offers.append("_files -g '*.json'")
    if command.takes == "JOINED":
        offers.append("_files")
    if command.takes == "PREFIX":
        offers.append("_files -/")
    offers = offers or ["_message number"]
    return f"    {command.word})\n" + "".join(f"        {offer}\n" for offer in offers) + "        ;;\n"


ZSH = """#compdef scald
# What zsh offers after `scald`. Made from docs/LANGUAGE.md.

_scald() {{
    local context state state_descr line
    typeset -A opt_args
    local -a commands
    commands=(
{commands}    )
    _arguments -S \\
{options}        '1: :->command' \\
        '*:: :->rest'
    case $state in
    command)
        _describe -t commands word commands
        ;;
    rest)
        case $words[1] in
{cases}        esac
        ;;
    esac
}}

_scald "$@"
"""


def zsh(language):
    commands = "".join(f"        '{command.word}:{plain(command.says)}'\n" for command in language.commands)
    options = "".join(f"        '{name}[{plain(says)}]' \\\n" for name, says in options_of(language))
    cases = "".join(zsh_case(command) for command in language.commands)
    indented = "".join(f"    {line}\n" for line in cases.splitlines())
    return ZSH.format(commands=commands, options=options, cases=indented)
