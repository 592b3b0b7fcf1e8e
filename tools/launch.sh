# What the launchers ./kube_replay and ./kube_lens share with the installed commands: help, the version, words that are no command, faults,
# a sentence after a refusal, signals. Read in by `.`, after these are set:
#
#     name            the command's name
#     program         the program's file
#     lens            the file of kube_lens, which can say why a document is refused; may be empty, or of a file that isn't there
#     auditor         the file of kube_replay, which can say why a trace is refused; may be empty, or of a file that isn't there
#     version         the file with its version
#     called          how the command is called
#     examples pages  the folders of the examples and of the pages
#     place           where the lines to try are to be tried; may be empty
#     more_statuses   exit statuses beside the program's own; may be empty
child=''
feeder=''
room=''
explained=''

tell_command() {
    printf '  %-35s %s\n' "$1" "$2"
}

tell_commands() {
    tell_command "$called check < DOCUMENT" 'reads a document (JSON) and says in one line what is in it, and whether its'
    tell_command '' 'settings rule out two leaders (premise=yes)'
    tell_command "$called replay < DOCUMENT" 'writes its trace: who leads, each write of the Lease, taints, evictions'
    tell_command "$called state BEAT < DOCUMENT" 'writes what is stored after a beat, as a v1 List (JSON): for jq, diff, another run'
    tell_command "$called audit < TRACE" 'reads the text of a trace and says whether it is safe'
    tell_command "$called collect < LIST" 'reads nodes and pods: which pods the garbage collector would delete now'
    tell_command "$called place < LIST" 'reads nodes and pods: where pods without a node may run, by taints'
    echo "  $called generate SEED NODES PODS BEATS"
    tell_command '' 'reads nothing: makes a cluster from four numbers, runs it and counts'
    tell_command "$called --help, --version" 'these lines, and the version'
}

tell_help() {
    cat <<HELP
kube_replay simulates the leader election of kube-controller-manager, and what the leader does to nodes and pods.
It reads standard input and writes standard output; no command takes the name of a file.

$(tell_commands)

Exit status: 0 answered, 1 the input is refused (refused CODE PATH), 2 no such command, 3 the input can't be read,
4 the output can't be written, 5 memory ran out, 6 a word isn't UTF-8$more_statuses.

Three lines to try$place:

  $called check < $examples/leader-crashes/document.json
  $called replay < $examples/leader-crashes/document.json
  $called generate 7 100 3000 600

$pages/document.md has all keys and refusals, $pages/trace.md the lines of a trace, $pages/questions.md what operators ask.
HELP
}

tell_lens_help() {
    cat <<HELP
kube_lens answers what one asks of a document or a trace. It reads standard input and writes standard output.

$(tell_command "$called margin < DOCUMENT" 'how much room each lease leaves, the least that would do, how long a leader may stand still')
$(tell_command "$called margin --json < DOCUMENT" '')
$(tell_command '' 'the same as one JSON object')
$(tell_command "$called margin --lease 15s ..." 'the same of flags: --lease --renew --retry --timeout --skew --beat --release --in-release --json')
$(tell_command "$called bounds < DOCUMENT" 'how long nobody leads and a dead node'"'"'s pods stay, at least and at most; with --json as one JSON object')
$(tell_command "$called bounds --timeout 5s ..." 'the same of flags: those of margin but of releases, --wait --delay --grace --monitor ...')
$(tell_command "$called tune --failover 10s ..." 'the lease, renew deadline and retry period by which another leads so soon after a crash: --timeout --skew ...')
$(tell_command "$called leaders < TRACE" 'who led from when to when, when nobody did, and whether two did at once')
$(tell_command "$called leaders --json < TRACE" 'the same as one JSON object')
$(tell_command "$called summary < TRACE" 'what a trace comes to, as tables: terms, zones, nodes, evictions, totals')
$(tell_command "$called summary --json < TRACE" 'the same as one JSON object')
$(tell_command "$called summary --document DOCUMENT < TRACE" '')
$(tell_command '' 'the tables, and how late each pod was evicted; with --json as one JSON object')
$(tell_command "$called lines --json < TRACE" 'each line of a trace as a JSON object on a line of its own, for jq')
$(tell_command "$called explain < DOCUMENT" 'why a document is refused, where, and what may stand there')
$(tell_command "$called explain --json < DOCUMENT" '')
$(tell_command '' 'the same as one JSON object')
$(tell_command "$called --help, --version" 'these lines, and the version')

Exit status: 0 answered, 1 unsafe, none, two at once, or the input is refused, 2 no such command, 3 the input can't be read,
4 the output can't be written, 5 memory ran out, 6 a word isn't UTF-8$more_statuses.

Two lines to try$place:

  $called margin < $examples/leader-crashes/document.json
  $called leaders < $examples/uneven-clocks/trace.txt

$pages/lens.md has all commands.
HELP
}

say() {
    echo "$name: $1" >&2
}

are_utf8() {
    case "$*" in *[!\ -~]*) ;; *) return 0 ;; esac
    printf '%s\n' "$@" | iconv -f UTF-8 -t UTF-16 >/dev/null 2>&1
}

# Whether a word is a number in decimal digits without a sign or a leading zero, from $2 to $3.
is_number() {
    case "$1" in '' | *[!0-9]* | 0?*) return 1 ;; esac
    [ ${#1} -ge ${#2} ] && [ ${#1} -le ${#3} ] || return 1
    [ ${#1} -gt ${#2} ] || ! expr "x$1" '<' "x$2" >/dev/null || return 1
    [ ${#1} -lt ${#3} ] || ! expr "x$1" '>' "x$3" >/dev/null
}

is_command() {
    case "$#:$1" in
        1:replay | 1:check | 1:audit | 1:collect | 1:place) return 0 ;;
        2:state) is_number "$2" 0 604800000 && return 0 || return 1 ;;
        5:generate) ;;
        *) return 1 ;;
    esac
    is_number "$2" 0 18446744073709551615 && is_number "$3" 1 1000 && is_number "$4" 0 30000 && is_number "$5" 0 100000
}

# The answer to words that are no command: the program's line and status, and a hint beneath.
refuse_words() {
    are_utf8 "$@" || end_with 6
    { echo 'usage: kube_replay COMMAND'; } 2>/dev/null || end_with 4
    case "$1" in
        replay | check | audit | collect | place)
            say "$1 takes no further word: its input is standard input, as in $called $1 < FILE" ;;
        state) say "state takes one number, a beat up to 604800000, and the document on standard input: $called state 364 < FILE" ;;
        generate) say "generate takes four numbers: a seed up to 18446744073709551615, 1 to 1000 nodes, 0 to 30000 pods, 0 to 100000 beats" ;;
        '') say "a command is missing: replay, check, state, audit, collect, place or generate; --help tells them" ;;
        *) say "'$1' is no command; there are replay, check, state, audit, collect, place and generate; --help tells them" ;;
    esac
    exit 2
}

# The same of kube_lens, where it isn't built.
refuse_lens_words() {
    are_utf8 "$@" || end_with 6
    { echo "usage: kube_lens COMMAND (kube_lens --help tells them)"; } 2>/dev/null || end_with 4
    if [ $# -eq 0 ]; then say "a command is missing; $called --help tells them"; else say "'$1' is no command; $called --help tells them"; fi
    exit 2
}

# Ends with the program's status, and after a fault with a sentence that names it.
end_with() {
    case "$1" in
        3) if [ -d /dev/stdin ]; then say "standard input is a directory"; else say "standard input can't be read"; fi ;;
        4) say "standard output can't be written: it is closed or full, or its reader has ended" ;;
        5) say "memory ran out, so what was written may be cut short" ;;
        6) say "a word of the command isn't UTF-8" ;;
    esac
    exit "$1"
}

# Runs a command beside this one with the input and output of this call, so that a signal is obeyed while it runs.
attend() {
    if ( : 3<&0 ) 2>/dev/null; then
        exec 3<&0
        "$@" <&3 3<&- &
    else
        "$@" <&- &
    fi
    child=$!
    wait "$child"
    status=$?
    child=''
}

# Ends the child, with all of its group where it has one of its own, and then this call.
end_child() {
    trap '' HUP INT TERM
    if [ -n "$child" ]; then
        # Some shells take `--` here for a number.
        kill -TERM "-$child" 2>/dev/null || kill -TERM "$child" 2>/dev/null
        wait "$child" 2>/dev/null
    fi
    [ -z "$feeder" ] || kill -TERM "$feeder" 2>/dev/null
    exit "$1"
}

obey_signals() {
    trap '[ -z "$room" ] || rm -rf "$room"' EXIT
    trap 'end_child 129' HUP
    trap 'end_child 130' INT
    trap 'end_child 143' TERM
}

# Goes on only where the words are a command that the program has to answer.
answer_words() {
    case "$#:$1" in
        1:--help | 1:-h | 1:help) { tell_help; } 2>/dev/null || end_with 4; exit 0 ;;
        1:--version) { echo "kube_replay $(cat "$version")"; } 2>/dev/null || end_with 4; exit 0 ;;
    esac
    is_command "$@" || refuse_words "$@"
}

# Whether the help of kube_lens has a command. A further one is named there.
is_lens_command() {
    case "$(tell_lens_help)" in *"  $called $1 "*) return 0 ;; *) return 1 ;; esac
}

# The same of kube_lens, whose program knows its own words: where it is built its help is told and it answers all other words, else what
# stands here.
answer_lens_words() {
    case "$#:$1" in
        1:--version) { echo "kube_lens $(cat "$version")"; } 2>/dev/null || end_with 4; exit 0 ;;
        1:--help | 1:-h | 1:help) ;;
        *)
            is_current "$program" || is_lens_command "$1" || refuse_lens_words "$@"
            return 0 ;;
    esac
    if is_current "$program" && told=$("$program" --help </dev/null 2>/dev/null); then
        { printf '%s\n' "$told"; } 2>/dev/null || end_with 4
    else
        { tell_lens_help; } 2>/dev/null || end_with 4
    fi
    exit 0
}

# Of `summary --document FILE`, with `--json` before or behind the two, puts the document in FILE before the trace on standard input, which then has
# both, and sets `form` to `--json` or nothing. Of an input with more bytes than these, the bytes behind make no difference.
join_document() {
    form=''
    case "$#:$1:$2:$3:$4" in
        3:summary:--document:--json:) return 1 ;;
        3:summary:--document:*) document=$3 ;;
        4:summary:--document:*:--json) document=$3 form=--json ;;
        4:summary:--json:--document:*) document=$4 form=--json ;;
        *) return 1 ;;
    esac
    if [ -d "$document" ] || [ ! -r "$document" ]; then say "$document can't be read"; exit 3; fi
    room=$(mktemp -d 2>/dev/null) || { say "no temporary folder can be made under ${TMPDIR:-/tmp}"; exit 5; }
    attend head -c 16777217 <"$document" >"$room/both" 2>/dev/null
    [ "$status" -eq 0 ] || { say "$document can't be read"; exit 3; }
    echo >>"$room/both"
    attend head -c 16777217 >>"$room/both" 2>/dev/null
    [ "$status" -eq 0 ] || end_with 3
    exec <"$room/both"
    rm -rf "$room"
    room=''
}

# Of `explain`, whether standard input is a trace, which `audit` then answers, where it is as new as the sources. What a pipe gives is put into a file
# for this. Of an input with more bytes than these, the bytes behind make no difference.
is_trace_to_explain() {
    [ "$#:$1" = 1:explain ] && is_current "$auditor" || return 1
    if [ -p /dev/stdin ] && room=$(mktemp -d 2>/dev/null); then
        attend head -c 16777217 >"$room/whole" 2>/dev/null
        [ "$status" -eq 0 ] || end_with 3
        exec <"$room/whole"
        rm -rf "$room"
        room=''
    fi
    [ -f /dev/stdin ] && [ "$(head -c 6 </dev/stdin 2>/dev/null | tr -d '\0')" = 'trace ' ]
}

# Sees to it that a document, or what is given for a trace, can be read once more after a refusal: from its file, or from a copy of what a pipe gives.
keep_document() {
    case "$1" in
        replay | check | state) [ -x "$lens" ] || return 0 ;;
        audit) ;;
        *) return 0 ;;
    esac
    if [ -f /dev/stdin ]; then
        explained=/dev/stdin
    elif [ -p /dev/stdin ] && room=$(mktemp -d 2>/dev/null) && mkfifo "$room/pipe" 2>/dev/null; then
        exec 4<&0
        tee "$room/input" <&4 4<&- >"$room/pipe" 2>/dev/null &
        feeder=$!
        exec 4<&-
        explained=$room/input
    fi
}

# Of a taint that is refused as too soon, and is one of the first of its term, one for each zone of it: by buckets that are full at first it isn't.
explain_spacing() {
    verdict=$({ "$program" audit <"$explained"; } 2>/dev/null)
    case "$verdict" in 'refused 43 /'*) ;; *) return 0 ;; esac
    awk -v at="${verdict##*/}" '
        NR == at { actor = $2 }
        $3 == "lead" && NR > at && $2 == actor { exit }
        $3 == "lead" { term[$2]++; zones[$2] = taints[$2] = 0 }
        $3 == "zone" && !(($2, term[$2], $4) in seen) { seen[$2, term[$2], $4]; zones[$2]++ }
        $3 == "taint" && NR < at { taints[$2]++ }
        END { exit !(taints[actor] < zones[actor]) }' <"$explained" 2>/dev/null || return 0
    say "line ${verdict##*/} is one of the first taints of its term: by \"bucket\":\"full\", as with \"rules\":\"1.20\", that is lawful"
}

# Says why a document is refused, where kube_lens is as new as the sources: what `explain` says behind the line of the refusal. Of a document that
# is given for a trace it says that it is none.
explain_refusal() {
    [ "$status" -eq 1 ] && [ -n "$explained" ] || return 0
    if [ "$1" = audit ]; then
        [ "$(head -c 1 <"$explained" 2>/dev/null)" != '{' ] || say "this is JSON, as a document is; audit reads a trace, as $called replay writes it"
        explain_spacing
        return 0
    fi
    is_current "$lens" || return 0
    sentence=$({ "$lens" explain <"$explained"; } 2>/dev/null)
    [ $? -eq 1 ] || return 0
    printf '%s\n' "$sentence" | sed "1d;s/^/$name: /" >&2
}

run_program() {
    keep_document "$1"
    if [ -n "$feeder" ]; then attend "$program" "$@" <"$room/pipe"; else attend "$program" "$@"; fi
    [ -z "$feeder" ] || kill -TERM "$feeder" 2>/dev/null
    explain_refusal "$1"
    end_with "$status"
}
