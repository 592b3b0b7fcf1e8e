// SPDX-License-Identifier: Apache-2.0

package kubereplay

import (
	"errors"
	"strings"
	"testing"
)

const document = `{"version":1,"settings":{"endBeat":60},"controllers":[{"name":"c1"}]}`

const trace = `trace 1 beat=100 end=60 premise=yes
0 c1_1 start
3 c1_1 create election v=1 t=0
4 c1_1 lead v=1
7 c1_1 update election v=2 t=0
31 c1_1 update election v=3 t=0
55 c1_1 update election v=4 t=0
`

const usage = "usage: kube_replay COMMAND\n"

func TestRun(t *testing.T) {
	for _, c := range []struct {
		words, input string
		status       Status
		text         string
	}{
		{"replay", document, Done, trace},
		{"replay", "", Refused, "refused 1 /\n"},
		{"", document, Usage, usage},
		{"replay ", document, Usage, usage},
		{"replay\xff", document, BadWords, ""},
	} {
		if status, text := Run(c.words, []byte(c.input)); status != c.status || string(text) != c.text {
			t.Errorf("%q of %q ends with %v and %q", c.words, c.input, status, text)
		}
	}
}

func TestSmallBuffers(t *testing.T) {
	for _, size := range []int{0, 1, len(trace) - 1, len(trace), len(trace) + 1} {
		buffer := []byte(strings.Repeat("#", size))
		status, put, whole := call("replay", []byte(document), buffer)
		want := size
		if want > len(trace) {
			want = len(trace)
		}
		if status != Done || put != want || whole != len(trace) {
			t.Errorf("with room for %d bytes: %v, %d put of %d", size, status, put, whole)
		}
		if got := string(buffer); got != trace[:want]+strings.Repeat("#", size-want) {
			t.Errorf("with room for %d bytes the buffer is %q", size, got)
		}
	}
}

func TestCheckTrace(t *testing.T) {
	if err := CheckTrace([]byte(document), []byte(trace)); err != nil {
		t.Error(err)
	}
	for _, c := range []struct{ trace, says string }{
		{strings.Replace(trace, "4 c1_1 lead", "5 c1_1 lead", 1),
			`line 4 of the trace is "5 c1_1 lead v=1\n", and the model gives "4 c1_1 lead v=1\n"`},
		{strings.TrimSuffix(trace, "55 c1_1 update election v=4 t=0\n"),
			`line 7 of the trace is "", and the model gives "55 c1_1 update election v=4 t=0\n"`},
		{trace + "60 c1_1 end\n", `line 8 of the trace is "60 c1_1 end\n", and the model gives ""`},
		{strings.TrimSuffix(trace, "\n"),
			`line 7 of the trace is "55 c1_1 update election v=4 t=0", and the model gives "55 c1_1 update election v=4 t=0\n"`},
	} {
		if err := CheckTrace([]byte(document), []byte(c.trace)); err == nil || err.Error() != c.says {
			t.Errorf("%q: %v", c.trace, err)
		}
	}
	var refused *RefusedError
	if err := CheckTrace([]byte(`[]`), nil); !errors.As(err, &refused) || refused.Code != 2 || refused.Path != "/" {
		t.Errorf("a refused document: %v", err)
	}
}
