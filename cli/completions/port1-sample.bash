# Completion of port1-sample for bash.

_port1_sample() {
    local word=${COMP_WORDS[COMP_CWORD]} words
    case ${COMP_WORDS[COMP_CWORD - 1]} in
    *[\<\>])
        # File names, which bash completes.
        return
        ;;
    --octets)
        words='1 2 3 4 5 6 7 8'
        ;;
    --hold | --jump | --rest)
        # A number.
        words=
        ;;
    *)
        words='--octets --runs --jump --facts --live --hold --rest --falling'
        words+=' --invert-txc --invert-txd --invert-rxc --invert-rxd -h --help -V --version'
        ;;
    esac
    compopt +o default 2> /dev/null
    mapfile -t COMPREPLY < <(compgen -W "$words" -- "$word")
}

complete -o bashdefault -o default -F _port1_sample port1-sample
