"""Completion for the shell: actions, options, scripts, and the words that `explain` knows."""
from .actions import ACTIONS, OPTIONS, Option
from .explain import known_words
from .places import COMMAND

SHELLS = ("bash", "zsh", "fish")

BASH = """\
# Completion of rapid_cell for bash: source <({command} completion bash)
_rapid_cell() {{
    local word=${{COMP_WORDS[COMP_CWORD]}} action= it
    for it in "${{COMP_WORDS[@]:1:COMP_CWORD-1}}"; do
        case $it in -*) ;; *) action=$it; break ;; esac
    done
    COMPREPLY=()
    if [[ ${{COMP_WORDS[COMP_CWORD-1]}} == @({takes_name}) ]]; then
        COMPREPLY=($(compgen -f -- "$word"))
        return
    fi
    if [[ $word == -* ]]; then
        COMPREPLY=($(compgen -W "{options}" -- "$word"))
        return
    fi
    case $action in
    '') COMPREPLY=($(compgen -W "{actions}" -- "$word")) ;;
    {takes_cell})
        local IFS=$'\\n'
        compopt -o filenames 2>/dev/null
        COMPREPLY=($(compgen -d -- "$word") $(compgen -f -X '!*.toml' -- "$word")) ;;
    {takes_history})
        local IFS=$'\\n'
        compopt -o filenames 2>/dev/null
        COMPREPLY=($(compgen -f -- "$word")) ;;
    {takes_folders})
        local IFS=$'\\n'
        compopt -o filenames 2>/dev/null
        COMPREPLY=($(compgen -d -- "$word")) ;;
    explain|examples) COMPREPLY=($(compgen -W "{words}" -- "$word")) ;;
    completion) COMPREPLY=($(compgen -W "{shells}" -- "$word")) ;;
    esac
}}
complete -F _rapid_cell rapid_cell
"""

ZSH = """\
#compdef rapid_cell
# Completion of rapid_cell for zsh: source <({command} completion zsh)
_rapid_cell() {{
    local action= it
    for it in "${{(@)words[2,CURRENT-1]}}"; do
        case $it in -*) ;; *) action=$it; break ;; esac
    done
    if [[ ${{words[CURRENT-1]}} == ({takes_name}) ]]; then
        _files
        return
    fi
    if [[ ${{words[CURRENT]}} == -* ]]; then
        compadd -- {options}
        return
    fi
    case $action in
    '') compadd -- {actions} ;;
    {takes_cell}) _files -g '*.toml' ;;
    {takes_history}) _files ;;
    {takes_folders}) _files -/ ;;
    explain|examples) compadd -- {words} ;;
    completion) compadd -- {shells} ;;
    esac
}}
# As a file that zsh loads by its name, this is called at once.
if [[ $funcstack[1] == _rapid_cell ]]; then
    _rapid_cell "$@"
else
    compdef _rapid_cell rapid_cell
fi
"""

FISH = """\
# Completion of rapid_cell for fish: {command} completion fish | source
complete -c rapid_cell -f
complete -c rapid_cell -n 'not __fish_seen_subcommand_from {actions}' -a '{actions}'
complete -c rapid_cell -n '__fish_seen_subcommand_from {fish_cell}' -a '(__fish_complete_suffix .toml)'
complete -c rapid_cell -n '__fish_seen_subcommand_from {fish_history}' -F
complete -c rapid_cell -n '__fish_seen_subcommand_from {fish_folders}' -a '(__fish_complete_directories)'
complete -c rapid_cell -n '__fish_seen_subcommand_from explain' -a '{words}'
complete -c rapid_cell -n '__fish_seen_subcommand_from completion' -a '{shells}'
{fish_options}
"""


def script(shell: str, command: str = COMMAND) -> str:
    """The completion for a shell, as its own language has it."""
    cell = [it.name for it in ACTIONS if it.takes.startswith("CELL") and it.takes != "CELL HISTORY"]
    history = [it.name for it in ACTIONS if it.takes in ("CELL HISTORY", "RECORD")]
    return {"bash": BASH, "zsh": ZSH, "fish": FISH}[shell].format(
        command=command,
        options=" ".join([it.name for it in OPTIONS] + ["--help", "--version"]),
        actions=" ".join(it.name for it in ACTIONS),
        takes_cell="|".join(cell),
        takes_history="|".join(history),
        takes_name="|".join(it.name for it in OPTIONS if it.takes not in ("", "N")),
        takes_folders="|".join(it.name for it in ACTIONS if it.takes == "BACKUP OUT"),
        fish_folders=" ".join(it.name for it in ACTIONS if it.takes == "BACKUP OUT"),
        words=" ".join(known_words()),
        shells=" ".join(SHELLS),
        fish_cell=" ".join(cell),
        fish_history=" ".join(history),
        fish_options="\n".join(fish_option(it) for it in OPTIONS),
    )


def fish_option(option: Option) -> str:
    """The line of an option: a letter or a word, and files after one that takes a name."""
    name = f"-l {option.name[2:]}" if option.name.startswith("--") else f"-s {option.name[1:]}"
    does = option.does.replace("\\", "\\\\").replace("'", "\\'").replace("\n", " ")
    return f"complete -c rapid_cell {name}{' -r -F' if option.takes else ''} -d '{does}'"
