// SPDX-License-Identifier: Apache-2.0

// Package kubereplay calls kube_replay as a library: the words, bytes and statuses are those of the program.
//
// It links c/libkube_replay.so of the checkout that it lies in, which tools/shared-library makes.
package kubereplay

// #cgo CFLAGS: -I${SRCDIR}/../c
// #cgo LDFLAGS: -L${SRCDIR}/../c -lkube_replay -Wl,-rpath,${SRCDIR}/../c
// #include "kube_replay.h"
import "C"

import (
	"fmt"
	"strconv"
	"strings"
)

// Status is how a run ended: the exit status of the program.
type Status int

// The statuses that a run in memory ends with.
const (
	Done        Status = C.KUBE_REPLAY_DONE
	Refused     Status = C.KUBE_REPLAY_REFUSED
	Usage       Status = C.KUBE_REPLAY_USAGE
	OutOfMemory Status = C.KUBE_REPLAY_OUT_OF_MEMORY
	BadWords    Status = C.KUBE_REPLAY_BAD_WORDS
)

func (s Status) String() string {
	switch s {
	case Done:
		return "done"
	case Refused:
		return "refused"
	case Usage:
		return "words that are no command"
	case OutOfMemory:
		return "out of memory"
	case BadWords:
		return "words that are not UTF-8"
	}
	return "status " + strconv.Itoa(int(s))
}

// The room for a text at first; most are shorter.
const room = 1 << 16

// Run does what the words say, as "replay" or "state 600", with what the program would read from standard input, and
// returns all that the program would write. After OutOfMemory that is a prefix.
func Run(words string, input []byte) (Status, []byte) {
	text := make([]byte, room)
	for {
		status, put, whole := call(words, input, text)
		if put == whole {
			return status, text[:put]
		}
		text = make([]byte, whole)
	}
}

// call is the one call: it tells how many bytes were put into the buffer, and how many the whole text has.
func call(words string, input, buffer []byte) (status Status, put, whole int) {
	var cPut, cWhole C.size_t
	said := C.kube_replay_run(start([]byte(words)), C.size_t(len(words)), start(input), C.size_t(len(input)),
		start(buffer), C.size_t(len(buffer)), &cPut, &cWhole)
	return Status(said), int(cPut), int(cWhole)
}

// start is the address of the first byte; for no bytes it is one of a byte of its own, since NULL may not be passed.
func start(b []byte) *C.uint8_t {
	if len(b) == 0 {
		return new(C.uint8_t)
	}
	return (*C.uint8_t)(&b[0])
}

// A RefusedError tells why a document is refused: docs/document.md lists the codes.
type RefusedError struct {
	Code int
	Path string
}

func (e *RefusedError) Error() string {
	return fmt.Sprintf("refused %d %s", e.Code, e.Path)
}

// Replay returns the trace of a document. The error is a *RefusedError where the document is refused.
func Replay(document []byte) (string, error) {
	status, text := Run("replay", document)
	switch status {
	case Done:
		return string(text), nil
	case Refused:
		return "", refusal(string(text))
	}
	return "", fmt.Errorf("kube_replay: %v", status)
}

func refusal(line string) error {
	words := strings.SplitN(strings.TrimSuffix(line, "\n"), " ", 3)
	if len(words) == 3 {
		if code, err := strconv.Atoi(words[1]); err == nil {
			return &RefusedError{Code: code, Path: words[2]}
		}
	}
	return fmt.Errorf("kube_replay: %q", line)
}

// CheckTrace returns nil where this is the trace that the model gives for the document, and else tells the first line
// that differs.
func CheckTrace(document, trace []byte) error {
	model, err := Replay(document)
	if err != nil {
		return err
	}
	if string(trace) == model {
		return nil
	}
	ours, theirs := strings.SplitAfter(model, "\n"), strings.SplitAfter(string(trace), "\n")
	line := 0
	for line < len(ours) && line < len(theirs) && ours[line] == theirs[line] {
		line++
	}
	return fmt.Errorf("line %d of the trace is %q, and the model gives %q", line+1, at(theirs, line), at(ours, line))
}

// at is a line, or nothing behind the last one.
func at(lines []string, i int) string {
	if i < len(lines) {
		return lines[i]
	}
	return ""
}
