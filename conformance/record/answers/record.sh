#!/bin/sh
# Records the answers: record.sh TREE FOLDER
# TREE is the unpacked source of Debian's package `kubernetes` 1.20 in GOPATH form, SOME/src/k8s.io/kubernetes. It needs Go 1.16 or newer
# and no network. The Go files here are put beside upstream's own for as long as this runs, and the answers go to FOLDER.
set -eu
tree=$(CDPATH= cd -- "${1:?the tree}" && pwd -P)
mkdir -p "${2:?the folder}"
RECORD_OUT=$(CDPATH= cd -- "$2" && pwd -P)
here=$(CDPATH= cd -- "$(dirname -- "$0")" && pwd -P)
case $tree in
*/src/k8s.io/kubernetes) GOPATH=${tree%/src/k8s.io/kubernetes} ;;
*) echo "the tree has to be SOME/src/k8s.io/kubernetes" >&2 && exit 2 ;;
esac
export RECORD_OUT GOPATH GO111MODULE=off GOFLAGS= GOPROXY=off CGO_ENABLED=0 GOCACHE="${GOCACHE:-$GOPATH/cache}"
election=staging/src/k8s.io/client-go/tools/leaderelection
lifecycle=pkg/controller/nodelifecycle
clean() { rm -f "$tree/$election"/zz_*_test.go "$tree/$lifecycle"/zz_*_test.go "$tree/$lifecycle/scheduler"/zz_*_test.go; }
place() {
    for name in $2; do cp "$here/${name}_test.go" "$tree/$1/zz_${name}_test.go"; done
}
trap clean EXIT INT TERM
clean
place "$election" "election election_more election_two election_ends election_release election_emptied"
place "$lifecycle" "lifecycle health_more"
place "$lifecycle/scheduler" "scheduler taint_more"
cd "$tree"
for package in ./vendor/k8s.io/client-go/tools/leaderelection "./$lifecycle/scheduler" "./$lifecycle"; do
    go test -tags faketime -count=1 -timeout 0 -run "${RECORD_RUN:-^TestRecord}" "$package" 2>&1 \
        | tr -cd '\11\12\40-\176' | grep -a -E '^ok|FAIL|panic:|_test.go' | tail -20
done
ls "$RECORD_OUT"
