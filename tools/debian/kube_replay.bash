# Completion of kube_replay and its tools for bash.

_kube_replay() {
    COMPREPLY=()
    [ "$COMP_CWORD" -ne 1 ] ||
        mapfile -t COMPREPLY < <(compgen -W 'replay check state audit collect place generate --help --version' -- "${COMP_WORDS[COMP_CWORD]}")
}

# The options of a tool are those that its own help tells; all else is a file.
_kube_replay_tool() {
    local cur=${COMP_WORDS[COMP_CWORD]} command=()
    COMPREPLY=()
    if [[ $1 == *kube_replay-sweep && $COMP_CWORD -eq 1 ]]; then
        mapfile -t COMPREPLY < <(compgen -W 'all plan replay missing table measure pods questions' -- "$cur")
        return
    fi
    [[ $cur == -* ]] || return
    [[ $1 != *kube_replay-sweep ]] || command=("${COMP_WORDS[1]}")
    mapfile -t COMPREPLY < <(compgen -W "$("$1" "${command[@]}" --help 2>/dev/null | grep -o -e '--[a-z][a-z-]*' | sort -u)" -- "$cur")
}

# The plugin of kubectl says itself what may stand next, as it does to kubectl.
_kubectl_replay() {
    mapfile -t COMPREPLY < <(kubectl_complete-replay "${COMP_WORDS[@]:1:COMP_CWORD}" 2>/dev/null | sed -e '/^:/d' -e 's/\t.*//')
}

complete -F _kube_replay kube_replay
complete -o default -F _kubectl_replay kubectl-replay
complete -o default -F _kube_replay_tool kube_replay-timeline kube_replay-playground kube_replay-sweep kube_replay-from-cluster kube_replay-from-audit-log
