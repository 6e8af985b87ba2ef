# Completion of port1 for bash.

_port1() {
    local word=${COMP_WORDS[COMP_CWORD]} at=$((COMP_CWORD - 1)) words=
    if [[ $word == '=' ]]; then
        word=
    elif [[ ${COMP_WORDS[at]} == '=' ]]; then
        at=$((at - 1))
    fi
    case ${COMP_WORDS[at]} in
    *[\<\>])
        # File names, which bash completes.
        return
        ;;
    --kind)
        words='frame damaged overlong abort idle stray answered missing spoilt late open pending'
        ;;
    --dict | --origin | --rest | --station | --type | --depth)
        # A text or a number: no file names, but whatever bash completes within "$(cat FILE)".
        [[ $word == *'$('* ]] || compopt +o default 2> /dev/null
        return
        ;;
    *)
        case ${COMP_WORDS[1]} in
        list) words='--dict --origin --bits --two --arrivals --rest --station --type --kind -h --help' ;;
        check) words='--dict --origin --bits --two --arrivals --rest --depth -h --help' ;;
        show) words='--dict -h --help' ;;
        encode) words='-h --help' ;;
        help) words='list check show encode help' ;;
        *) words='list check show encode help -h --help -V --version' ;;
        esac
        ;;
    esac
    compopt +o default 2> /dev/null
    mapfile -t COMPREPLY < <(compgen -W "$words" -- "$word")
}

complete -o bashdefault -o default -F _port1 port1
