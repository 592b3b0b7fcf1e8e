# Completion of kube_lens for bash: the commands and options that its help tells.

_kube_lens() {
    COMPREPLY=()
    case "$COMP_CWORD:${COMP_WORDS[1]}:${COMP_WORDS[2]}" in
        1:*)
            mapfile -t COMPREPLY < <(compgen -W "$(kube_lens --help 2>/dev/null | sed -n 's/^ *kube_lens \([a-z]*\).*/\1/p' | sort -u) --help --version" \
                -- "${COMP_WORDS[COMP_CWORD]}") ;;
        2:tune:*) mapfile -t COMPREPLY < <(compgen -W '--failover --timeout --skew --wait-factor --stall --delay --least-retry --beat --json' \
            -- "${COMP_WORDS[COMP_CWORD]}") ;;
        2:margin:* | 2:bounds:* | 2:leaders:* | 2:lines:* | 2:explain:*) mapfile -t COMPREPLY < <(compgen -W --json -- "${COMP_WORDS[COMP_CWORD]}") ;;
        2:summary:*) mapfile -t COMPREPLY < <(compgen -W '--json --document' -- "${COMP_WORDS[COMP_CWORD]}") ;;
        3:summary:--document) mapfile -t COMPREPLY < <(compgen -f -W --json -- "${COMP_WORDS[COMP_CWORD]}") ;;
        3:summary:--json) mapfile -t COMPREPLY < <(compgen -W --document -- "${COMP_WORDS[COMP_CWORD]}") ;;
        4:summary:--document) mapfile -t COMPREPLY < <(compgen -W --json -- "${COMP_WORDS[COMP_CWORD]}") ;;
        4:summary:--json) mapfile -t COMPREPLY < <(compgen -f -- "${COMP_WORDS[COMP_CWORD]}") ;;
    esac
}

complete -F _kube_lens kube_lens
