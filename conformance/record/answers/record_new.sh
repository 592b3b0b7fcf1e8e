#!/bin/sh
# Records the answers of a newer client-go: record_new.sh ROOT FOLDER
# ROOT is a Debian root with golang-go, golang-k8s-client-go-dev, golang-k8s-component-helpers-dev and golang-k8s-component-base-dev, of
# which no package needs to be configured. The Go files here are put beside upstream's own for as long as this runs, and its own tests, which
# need more packages, are set aside; the answers go to FOLDER. It needs no network. RECORD_RUN is a pattern of tests, and RECORD_GOFLAGS are
# flags for go, such as -overlay=FILE with another version of one of upstream's files.
set -eu
root=$(CDPATH= cd -- "${1:?the root}" && pwd -P)
mkdir -p "${2:?the folder}"
RECORD_OUT=$(CDPATH= cd -- "$2" && pwd -P)
here=$(CDPATH= cd -- "$(dirname -- "$0")" && pwd -P)
GOROOT=$(ls -d "$root"/usr/lib/go-1.* | tail -1)
GOPATH=$root/usr/share/gocode
export RECORD_OUT GOROOT GOPATH GO111MODULE=off GOFLAGS="${RECORD_GOFLAGS:-}" GOPROXY=off CGO_ENABLED=0 GOCACHE="${GOCACHE:-$root/cache}" PATH="$GOROOT/bin:$PATH"
election=$GOPATH/src/k8s.io/client-go/tools/leaderelection
kubelet=$GOPATH/src/k8s.io/component-helpers/apimachinery/lease
own=$GOPATH/src/record.local/tolerations
aside=$(mktemp -d)
clean() {
    rm -rf "$election"/zz_*_test.go "$kubelet"/zz_*_test.go "$own"
    for place in election kubelet; do
        eval "folder=\$$place"
        [ ! -d "$aside/$place" ] || find "$aside/$place" -name '*_test.go' -exec mv {} "$folder/" \;
    done
    rm -rf "$aside"
}
trap clean EXIT INT TERM
mkdir -p "$own" "$aside/election" "$aside/kubelet"
mv "$election"/*_test.go "$aside/election/" 2>/dev/null || true
mv "$kubelet"/*_test.go "$aside/kubelet/" 2>/dev/null || true
for name in election election_more election_two election_ends election_release election_emptied new/election_coordinated; do
    cp "$here/${name}_test.go" "$election/zz_$(basename "$name")_test.go"
done
cp "$here/new/kubelet_lease_test.go" "$kubelet/zz_kubelet_lease_test.go"
cp "$here/new/tolerations_test.go" "$own/tolerations_test.go"
record() {
    (cd "$RECORD_OUT" && go test ${3:-} -vet=off -c -o "$aside/$1" "$2" \
        && GOMAXPROCS=1 "$aside/$1" -test.timeout 0 -test.run "${RECORD_RUN:-^TestRecord}" 2>&1 | tr -cd '\11\12\40-\176' | grep -a -E '^PASS|FAIL|panic:|_test.go' | tail -20)
}
export GODEBUG=randautoseed=0
record election.test k8s.io/client-go/tools/leaderelection "-tags faketime"
record kubelet.test k8s.io/component-helpers/apimachinery/lease "-tags faketime"
record tolerations.test record.local/tolerations
ls "$RECORD_OUT"
