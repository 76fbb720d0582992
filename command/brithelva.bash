# Completion of brithelva's commands, options and files for bash.
_brithelva() {
    local word=${COMP_WORDS[COMP_CWORD]} before=${COMP_WORDS[COMP_CWORD - 1]} options
    local commands='pack new open offer status verify hand-out close describe description'
    COMPREPLY=()
    if [ "$COMP_CWORD" -eq 1 ]; then
        mapfile -t COMPREPLY < <(compgen -W "$commands help --help --version" -- "$word")
        return
    fi
    case ${COMP_WORDS[1]} in
    pack) options='--resource --type --update --protection --rows --size --edition --order --output --force' ;;
    new) options='--size' ;;
    open) options='--resource --count --type --update --protection --rows --size --edition --order --wait' ;;
    offer) options='--each --json --strict --wait' ;;
    status) options='--resource --type --json --wait' ;;
    verify) options='--resource --type --mend --json --wait' ;;
    hand-out) options='--resource --type --length --output --force --despite-conflicts --wait' ;;
    close) options='--resource --type --force --wait' ;;
    describe) options='--json' ;;
    description)
        options='--service --mode --resource --update --name --kind --length --file --title --summary --keywords --charset --path --from --until --delete --output --force'
        ;;
    help)
        mapfile -t COMPREPLY < <(compgen -W "$commands" -- "$word")
        return
        ;;
    esac
    case $before in
    --type | --edition) mapfile -t COMPREPLY < <(compgen -W '1 2' -- "$word") ;;
    --order) mapfile -t COMPREPLY < <(compgen -W 'rows columns' -- "$word") ;;
    --protection) mapfile -t COMPREPLY < <(compgen -W '0 1' -- "$word") ;;
    --mode) mapfile -t COMPREPLY < <(compgen -W 'stream file' -- "$word") ;;
    --resource | --count | --update | --rows | --size | --length | --wait | --service | --kind | --charset | --name | --title | --summary | --keywords | --path | --from | --until) ;;
    *)
        case $word in
        -*) mapfile -t COMPREPLY < <(compgen -W "$options --help --quiet --verbose" -- "$word") ;;
        *) compopt -o filenames && mapfile -t COMPREPLY < <(compgen -f -- "$word") ;;
        esac
        ;;
    esac
}
complete -F _brithelva brithelva
