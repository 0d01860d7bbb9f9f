# Completion of sst(1) for bash: subcommands and options as its help has them, and files.
_sst()
{
    local word=${COMP_WORDS[COMP_CWORD]} before=${COMP_WORDS[COMP_CWORD - 1]}
    local commands options
    COMPREPLY=()
    if [ "$COMP_CWORD" -eq 1 ]; then
        commands=$("${COMP_WORDS[0]}" --help 2>/dev/null | sed -n 's/^  sst \([a-z]*\) .*/\1/p')
        mapfile -t COMPREPLY < <(compgen -W "$commands --help --version" -- "$word")
    elif [ "$before" = --warn ]; then
        mapfile -t COMPREPLY < <(compgen -W "all none" -- "$word")
    elif [[ $word == -* ]]; then
        options=$("${COMP_WORDS[0]}" "${COMP_WORDS[1]}" --help 2>/dev/null | sed -n 's/^  \(--[a-z-]*\).*/\1/p')
        mapfile -t COMPREPLY < <(compgen -W "$options --help" -- "$word")
    else
        compopt -o filenames 2>/dev/null
        mapfile -t COMPREPLY < <(compgen -f -- "$word")
    fi
}
complete -F _sst sst
