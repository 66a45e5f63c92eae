# Completion of serialcheck's command line for bash: commands, then their options, then files.
_serialcheck() {
    local word=${COMP_WORDS[COMP_CWORD]} before=${COMP_WORDS[COMP_CWORD-1]} options
    local filter='--filter --filter-file --modules' form='--hex --base64 --base64url'
    local commands='check explain show list scan records find suggest'
    COMPREPLY=()
    if ((COMP_CWORD == 1)); then
        mapfile -t COMPREPLY < <(compgen -W "$commands help --help --version" -- "$word")
        return
    fi
    if [[ ${COMP_WORDS[1]} == help ]]; then
        mapfile -t COMPREPLY < <(compgen -W "$commands" -- "$word")
        return
    fi
    case ${COMP_WORDS[1]} in
    check | explain) options="$filter --strict $form --anywhere --help" ;;
    show) options="$form --values --limit --help" ;;
    suggest) options="$form --slack --help" ;;
    list) options="$filter $form --anywhere --help" ;;
    records) options="$filter --strict $form --frames --sized --zero --copy --field --most --anywhere --refused --json --progress --pass --help" ;;
    find) options="$filter --strict --text --all --most --effort --json --progress --carve --most-files --help" ;;
    scan) options="$filter --strict $form --anywhere --refused --json --progress --help" ;;
    esac
    case $before in
    --filter | --limit | --field | --most | --effort | --most-files | --slack) return ;;
    --carve)
        mapfile -t COMPREPLY < <(compgen -d -- "$word")
        return
        ;;
    esac
    if [[ $word == -* ]]; then
        mapfile -t COMPREPLY < <(compgen -W "$options" -- "$word")
    else
        mapfile -t COMPREPLY < <(compgen -f -- "$word")
    fi
}
complete -o filenames -F _serialcheck serialcheck
