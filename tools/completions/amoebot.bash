# Completes the words of amoebot and amoebot-why in bash.

_amoebot() {
    local words=
    case $COMP_CWORD:${COMP_WORDS[1]} in
    1:*) words='run interleave replay check measure show sample renew rewind rounds elect tickets' ;;
    2:show) words='hexagon erosion line' ;;
    esac
    mapfile -t COMPREPLY < <(compgen -W "$words" -- "${COMP_WORDS[COMP_CWORD]}")
}

complete -F _amoebot amoebot amoebot-why
