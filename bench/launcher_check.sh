#!/bin/sh
# Tries the launchers ./kube_replay and ./kube_lens: help, words that are no command, input and output at fault, input that is slow, a
# sentence after a refusal, and a signal.
#
#     bench/launcher_check.sh [unproved|proved|hints]
#
# Both ways of the launcher are tried, or the one named: the unproved build, in a copy of the sources that has no built program,
# which takes some minutes, and the proved program, where it is built. The sentences after refusals are tried with scripts in the place of both
# programs. Each line has the exit status and `same`, or what
# was wrong. The exit status is 1 where anything was.
top=$(cd "$(dirname "$0")/.." && pwd) || exit 1
room=$(mktemp -d) || exit 1
trap 'rm -rf "$room"' EXIT
document='{"version":1,"settings":{"endBeat":60},"controllers":[{"name":"cp-east-1"}]}'
line='ok controllers=1 kubelets=0 nodes=0 leases=0 pods=0 skipped=0 events=0 premise=yes'
echo "$document" >"$room/document.json"
wrong=0

# A document of which the second half comes five seconds after the first one.
slowly() {
    printf '%s' "${document%\}\]\}}"
    sleep 5
    echo '}]}'
}

run() {
    began=$(date +%s)
    "$launcher" "$@" >"$room/output" 2>"$room/errors"
    echo $? >"$room/status"
}

# Runs `check` where the output is what this call's own is.
run_into() {
    : >"$room/output"
    "$launcher" check <"$room/document.json" 2>"$room/errors"
    echo $? >"$room/status"
}

# Whether the last run ended with this status, wrote this text, and said on standard error what it has to. The program is
# the one that this mode has, so the unproved build says what it is.
expect() {
    said=same
    grep -q 'this build is not proved' "$room/errors" && is=unproved || is=proved
    [ "$is" = "$mode" ] || said="ran the $is program"
    compare "$@"
}

# The same of what the launcher answers by itself: within three seconds, and without a build.
expect_at_once() {
    said=same
    ! grep -q 'this build is not proved' "$room/errors" || said="ran the unproved program"
    [ $(($(date +%s) - began)) -le 3 ] || said="took longer than 3 s"
    compare "$@"
}

compare() {
    status=$(cat "$room/status")
    told=$(grep -v -e 'this build is not proved' -e 'to have answers at once' "$room/errors" | tail -1)
    [ "$(cat "$room/output")" = "$3" ] || said="wrote '$(head -c 100 "$room/output")', and not '$3'"
    [ "$status" -eq "$2" ] || said="ended with $status, and not with $2"
    case "$told" in "${4:+$(basename "$launcher"): }$4"*) ;; *) said="said '$told', and not '$4'" ;; esac
    [ -n "$4" ] || [ -z "$told" ] || said="said '$told'"
    [ "$said" = same ] || wrong=1
    printf '%-10s %-34s %2d  %s\n' "$mode" "$1" "$status" "$said"
}

# What /proc says of each process, a line each. One that has ended meanwhile is left out; awk itself would stop there.
processes() {
    cat /proc/[0-9]*/stat 2>/dev/null
}

# The launcher's own children: what it runs and, where kube_lens is built and the input is a pipe, what copies the input.
children_of() {
    processes | awk -v parent="$1" '{ number = $1; sub(/^.*\) /, ""); if ($2 == parent) print number }'
}

# Which processes there are of these children, by their sessions or as the children themselves.
left_of() {
    processes | awk -v children="$(echo $1)" 'BEGIN { split(children, list); for (i in list) child[list[i]] }
        { number = $1; sub(/^.*\) /, ""); if (($4 in child || number in child) && $1 != "Z") print number }'
}

# The same of an unproved build that is long and has processes of its own, with a script in the place of the kit's command.
try_signal_to_build() {
    mkdir -p "$room/kit" "$room/hints/crates/kube_replay"
    printf '#!/bin/sh\nsleep 60 & sleep 60\n' >"$room/kit/rt"
    chmod +x "$room/kit/rt"
    rm -f "$room/hints/crates/kube_replay/out/kube_replay"
    PATH=$room/kit:$PATH "$room/hints/kube_replay" check <"$room/document.json" >"$room/output" 2>"$room/errors" &
    started=$!
    sleep 2
    child=$(children_of "$started")
    before=$(left_of "$child" | wc -l)
    kill -TERM "$started"
    wait "$started"
    echo $? >"$room/status"
    sleep 1
    hint 'a signal TERM in a build' 143 '' ''
    [ "$before" -eq 3 ] && [ -z "$(left_of "$child")" ] && return
    wrong=1
    echo "$mode: $before processes before the signal, and after it: $(left_of "$child" | tr '\n' ' ')"
}

# A signal to the launcher ends the launcher within five seconds, and what it started.
try_signal() {
    mkfifo "$room/never" 2>/dev/null
    sleep 60 >"$room/never" &
    writer=$!
    if [ "$mode" = proved ]; then input=$room/never; else input=$room/document.json; fi
    "$launcher" check <"$input" >"$room/output" 2>"$room/errors" &
    started=$!
    sleep 3
    child=$(children_of "$started")
    before=$(left_of "$child" | wc -l)
    began=$(date +%s)
    kill -TERM "$started"
    wait "$started"
    echo $? >"$room/status"
    kill "$writer" 2>/dev/null
    sleep 1
    expect 'a signal TERM' 143 '' ''
    [ "$before" -gt 0 ] && [ -z "$(left_of "$child")" ] && [ $(($(date +%s) - began)) -le 5 ] && return
    wrong=1
    echo "$mode: $before processes before the signal, and after it: $(left_of "$child" | tr '\n' ' ')"
}

try_words() {
    for word in --help -h help; do
        run "$word" </
        grep -q '^  ./kube_replay audit < TRACE ' "$room/output" && grep -q '^Exit status: ' "$room/output" && echo told >"$room/output"
        expect_at_once "$word" 0 told ''
    done
    run --version </
    expect_at_once '--version' 0 "kube_replay $(cat "$top/VERSION")" ''
    usage='usage: kube_replay COMMAND'
    run </
    expect_at_once 'no words' 2 "$usage" 'a command is missing'
    run chek </
    expect_at_once "a word that isn't a command" 2 "$usage" "'chek' is no command"
    run check "$top" </
    expect_at_once 'a file as a word' 2 "$usage" 'check takes no further word'
    run replay --help </
    expect_at_once 'a word behind a command' 2 "$usage" 'replay takes no further word'
    run generate 7 0 3 60 </
    expect_at_once 'a number that is out of range' 2 "$usage" 'generate takes four numbers'
    run generate 18446744073709551616 1 3 60 </
    expect_at_once 'a seed that is too great' 2 "$usage" 'generate takes four numbers'
    run state </
    expect_at_once 'a state without its beat' 2 "$usage" 'state takes one number'
    run state 01 <"$room/document.json"
    expect_at_once 'a beat with a zero before it' 2 "$usage" 'state takes one number'
    run state 604800001 <"$room/document.json"
    expect_at_once 'a beat that is too great' 2 "$usage" 'state takes one number'
    run "$(printf 'check\377')" <"$room/document.json"
    expect_at_once "an argument that isn't UTF-8" 6 '' "a word of the command isn't UTF-8"
}

try_all() {
    unwritten="standard output can't be written"
    try_words
    slowly | run check
    expect 'input that pauses' 0 "$line" ''
    run check </
    expect 'a directory as input' 3 '' 'standard input is a directory'
    run check <&-
    expect 'no standard input' 3 '' "standard input can't be read"
    run check </dev/zero
    expect 'input without end' 1 'refused 33 /' ''
    run_into >/dev/full
    expect 'a full device as output' 4 '' "$unwritten"
    run_into >&-
    expect 'no standard output' 4 '' "$unwritten"
    { sleep 1; run_into; } | :
    expect 'a reader that has gone' 4 '' "$unwritten"
    run state 2 <"$room/document.json"
    expect 'what is stored after a beat' 0 '{"apiVersion":"v1","items":[],"kind":"List"}' ''
    run state 61 <"$room/document.json"
    expect 'a beat after the end' 1 'refused 34 /' ''
    run generate 18446744073709551615 1 0 60
    # The first leader crashes in the middle, and with a lease of 20 s there is a second one before the end.
    expect 'the greatest seed' 0 "generated controllers=3 nodes=1 pods=0 beats=60 leads=2 taints=0 evictions=0" ''
    try_signal
}

# A script in the place of a program.
stand_in() {
    mkdir -p "$room/hints/crates/$1/out"
    { echo '#!/bin/sh'; cat; } >"$room/hints/crates/$1/out/$1"
    chmod +x "$room/hints/crates/$1/out/$1"
}

hint() {
    said=same
    compare "$@"
}

# The program says `refused` of what has the word bad, and kube_lens the same, and the bytes that it was given.
try_hints() {
    mode=hints launcher=$room/hints/kube_replay bytes=$(($(wc -c <"$room/bad.json")))
    stand_in kube_replay <<'PROGRAM'
input=$(cat 2>/dev/null)
case "$input" in
    *bad*) echo 'refused 3 /'; exit 1 ;;
    *taint*) echo 'refused 43 /5'; exit 1 ;;
esac
echo ok
PROGRAM
    stand_in kube_lens <<'LENS'
[ "$*" = explain ] || { echo 'usage: kube_lens COMMAND'; exit 2; }
echo 'refused 3 /'
echo "$(wc -c) bytes"
exit 1
LENS
    run check <"$room/bad.json"
    hint 'a refusal, from a file' 1 'refused 3 /' "$bytes bytes"
    cat "$room/bad.json" | run replay
    hint 'a refusal, from a pipe' 1 'refused 3 /' "$bytes bytes"
    { sleep 1; cat "$room/bad.json"; } | run state 7
    hint 'a refusal, from a slow pipe' 1 'refused 3 /' "$bytes bytes"
    { cat "$room/bad.json"; head -c 20000000 /dev/zero; } | run check
    hint 'a refusal of 20 MB, from a pipe' 1 'refused 3 /' "$((bytes + 20000000)) bytes"
    run check <"$room/document.json"
    hint 'no refusal' 0 ok ''
    run audit <"$room/bad.json"
    hint 'a document given for a trace' 1 'refused 3 /' 'this is JSON, as a document is; audit reads a trace, as ./kube_replay replay writes it'
    echo bad | run audit
    hint 'a refusal of what is no document' 1 'refused 3 /' ''
    printf '%s\n' 'trace 1 beat=100 end=9 premise=yes' '4 a_1 lead v=1' '4 a_1 zone r/z Normal rate=1' '4 a_1 taint n not-ready v=2' \
        '5 a_1 taint n not-ready v=3' >"$room/early"
    run audit <"$room/early"
    hint 'a second taint that is early' 1 'refused 43 /5' ''
    sed '4s/.*/4 a_1 zone r\/y Normal rate=1/' "$room/early" | run audit
    hint 'a first taint of a zone, which a full bucket allows' 1 'refused 43 /5' \
        'line 5 is one of the first taints of its term: by "bucket":"full", as with "rules":"1.20", that is lawful'
    run check </
    hint 'a directory as input' 0 ok ''
    touch "$room/hints/crates.txt"
    touch "$room/hints/crates/kube_replay/out/kube_replay"
    touch -d '1 hour ago' "$room/hints/crates/kube_lens/out/kube_lens"
    run check <"$room/bad.json"
    hint 'kube_lens is older than the sources' 1 'refused 3 /' ''
    echo 'exit 2' | stand_in kube_lens
    run check <"$room/bad.json"
    hint 'kube_lens knows no explain' 1 'refused 3 /' ''
    rm "$room/hints/crates/kube_lens/out/kube_lens"
    run check <"$room/bad.json"
    hint 'no kube_lens' 1 'refused 3 /' ''
    try_signal_to_build
}

# The other launcher, with and without a program.
try_lens() {
    mode=lens launcher=$room/hints/kube_lens
    for word in --help -h help; do
        run "$word" </
        grep -q '^  ./kube_lens margin < DOCUMENT ' "$room/output" && echo told >"$room/output"
        hint "$word, not built" 0 told ''
    done
    run --version </
    hint '--version' 0 "kube_lens $(cat "$top/VERSION")" ''
    if [ -x "$top/crates/kube_lens/out/kube_lens" ]; then
        for word in $("$top/crates/kube_lens/out/kube_lens" --help </dev/null | sed -n 's/^ *kube_lens \([a-z]*\).*/\1/p' | sort -u); do
            run --help </
            grep -o "^  ./kube_lens $word " "$room/output" | head -1 >"$room/found" && mv "$room/found" "$room/output"
            hint "$word is told, not built" 0 "  ./kube_lens $word " ''
        done
    fi
    run leaderz </
    hint "no command, not built" 2 'usage: kube_lens COMMAND (kube_lens --help tells them)' "'leaderz' is no command"
    run </
    hint 'no words, not built' 2 'usage: kube_lens COMMAND (kube_lens --help tells them)' 'a command is missing'
    run "$(printf 'leaders\377')" </
    hint "no UTF-8, not built" 6 '' "a word of the command isn't UTF-8"
    stand_in kube_lens <<'LENS'
case "$*" in --help) echo 'the help of the program' ;; margin) wc -c; exit 1 ;; 'summary --document') cat ;; *) echo 'usage: kube_lens COMMAND'; exit 2 ;; esac
LENS
    run help </
    hint 'help, built' 0 'the help of the program' ''
    run margin <"$room/document.json"
    hint 'unsafe' 1 "$(wc -c <"$room/document.json")" ''
    run leaderz </
    hint "a word that isn't a command" 2 'usage: kube_lens COMMAND' ''
    echo 'trace 1 beat=100 end=60 premise=yes' >"$room/trace.txt"
    both="$(cat "$room/document.json"; echo; cat "$room/trace.txt")"
    run summary --document "$room/document.json" <"$room/trace.txt"
    hint 'a document in a file' 0 "$both" ''
    run summary --document </dev/null
    hint 'a document on standard input' 0 '' ''
    run summary --document "$room/none.json" <"$room/trace.txt"
    hint "a document that isn't there" 3 '' "$room/none.json can't be read"
    run summary --document "$room" <"$room/trace.txt"
    hint 'a folder in place of a document' 3 '' "$room can't be read"
    run summary --document "$room/document.json" </
    hint 'a folder in place of a trace' 3 '' 'standard input is a directory'
    try_traces_to_explain
}

# What `explain` answers of a trace is what `audit` of kube_replay says, and the sentence behind it; of all else it is the answer of kube_lens.
try_traces_to_explain() {
    bytes=$(wc -c <"$room/document.json")
    lawful='line 5 is one of the first taints of its term: by "bucket":"full", as with "rules":"1.20", that is lawful'
    sed '4s/.*/4 a_1 zone r\/y Normal rate=1/' "$room/early" >"$room/lawful"
    stand_in kube_replay <<'PROGRAM'
[ "$*" = audit ] || exit 2
case "$(cat)" in *taint*) echo 'refused 43 /5'; exit 1 ;; *) echo ok ;; esac
PROGRAM
    { echo '[ "${1:-}" = explain ] || exit 2'; echo 'echo "$# $(wc -c 2>/dev/null)"'; } | stand_in kube_lens
    run explain <"$room/document.json"
    hint 'a document to explain' 0 "1 $bytes" ''
    { sleep 1; cat "$room/document.json"; } | run explain
    hint 'a document to explain, slow pipe' 0 "1 $bytes" ''
    { cat "$room/document.json"; head -c 20000000 /dev/zero; } | run explain
    hint 'explain of 20 MB, from a pipe' 0 '1 16777217' ''
    run explain <"$room/lawful"
    hint 'explain: lawful by a full bucket' 1 'refused 43 /5' "$lawful"
    { sleep 1; cat "$room/lawful"; } | run explain
    hint 'the same, from a slow pipe' 1 'refused 43 /5' "$lawful"
    run explain <"$room/early"
    hint 'explain: a taint that is early' 1 'refused 43 /5' ''
    run explain <"$room/trace.txt"
    hint 'explain: a safe trace' 0 ok ''
    run explain --json <"$room/lawful"
    hint 'explain --json of a trace' 0 "2 $(($(wc -c <"$room/lawful")))" ''
    run explain </
    hint 'explain of a directory' 0 '1 0' ''
    touch -d '1 hour ago' "$room/hints/crates/kube_replay/out/kube_replay"
    run explain <"$room/lawful"
    hint 'kube_replay is older than sources' 0 "1 $(($(wc -c <"$room/lawful")))" ''
}

if [ "${1:-hints}" = hints ]; then
    sed 's/version/bad/' "$room/document.json" >"$room/bad.json"
    mkdir -p "$room/hints/tools" "$room/hints/crates" && cp "$top/kube_replay" "$top/kube_lens" "$top/VERSION" "$top/crates.txt" "$room/hints" &&
        cp "$top/tools/launch.sh" "$top/tools/unproved.sh" "$room/hints/tools" || exit 1
    try_hints
    try_lens
fi
if [ "${1:-unproved}" = unproved ]; then
    mode=unproved launcher=$room/sources/kube_replay
    mkdir "$room/sources"
    tar -C "$top" -cf - --exclude=out crates crates.txt kube_replay VERSION tools/launch.sh tools/unproved.sh | tar -C "$room/sources" -xf - || exit 1
    try_all
fi
if [ "${1:-proved}" = proved ]; then
    mode=proved launcher=$top/kube_replay
    if [ -x "$top/crates/kube_replay/out/kube_replay" ]; then
        try_all
    else
        echo "proved     left out: it isn't built"
    fi
fi
exit "$wrong"
