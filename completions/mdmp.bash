# What bash completes of a command line of mdmp. Installed as share/bash-completion/completions/mdmp.

_mdmp() {
    local word=${COMP_WORDS[COMP_CWORD]} before=${COMP_WORDS[COMP_CWORD - 1]} command= place=0 i
    # the command, and how many words of its own stand before this one
    for ((i = 1; i < COMP_CWORD; i++)); do
        case ${COMP_WORDS[i]} in
            --window | --name | --budget | --memory | --aside)
                # the number of an option is a word, alone or behind '='
                i=$((i + 1))
                [[ ${COMP_WORDS[i]} == = ]] && i=$((i + 1))
                ;;
            -*) ;;
            *) if [[ -z $command ]]; then command=${COMP_WORDS[i]}; else place=$((place + 1)); fi ;;
        esac
    done
    COMPREPLY=()
    case $before in
        = | --window | --name | --budget | --memory | --aside) return ;;
    esac
    local words= limits='--window --name --budget --memory --untrusted --help'
    case $command in
        '') words='summary check list hex copy help --help --version' ;;
        help) ((place == 0)) && words='summary check list hex copy' ;;
        check) words="--parts --json $limits" ;;
        list) words="--pdb --json --aside $limits" ;;
        summary) words="--json $limits" ;;
        hex | copy) words=$limits ;;
    esac
    if [[ $word == -* || -z $command || $command == help ]]; then
        mapfile -t COMPREPLY < <(compgen -W "$words" -- "$word")
    elif [[ $command == copy ]] && ((place >= 2)); then
        words='threads modules memory exception system memory64 unloaded regions threadnames'
        words+=' UnusedStream ThreadListStream ModuleListStream MemoryListStream ExceptionStream SystemInfoStream'
        words+=' Memory64ListStream CommentStreamA CommentStreamW UnloadedModuleListStream MiscInfoStream'
        words+=' MemoryInfoListStream ThreadNamesStream'
        mapfile -t COMPREPLY < <(compgen -W "$words" -- "$word")
    elif ((place == 0)) || [[ $command == copy || $command == summary ]]; then
        compopt -o filenames 2>/dev/null
        mapfile -t COMPREPLY < <(
            compgen -d -- "$word"
            compgen -f -X '!*.[dD][mM][pP]' -- "$word"
            compgen -f -X '!*.[mM][dD][mM][pP]' -- "$word"
        )
    fi
}

complete -F _mdmp mdmp
