package qlock

import (
	"bytes"
	"errors"
	"math"
	"strings"
	"testing"
)

// What is written is read back, behind and in front of other bytes.
func TestHeaders(t *testing.T) {
	for line, h := range map[string]WrittenHeader{
		"qlock2 prod 0a1b c 63 4 1099511627776 app-77 9\n": {Kind: 'c', Number: 63, First: 4, Second: 1 << 40, Third: 9, Cluster: "prod",
			Coterie: "0a1b", Name: "app-77"},
		"qlock2 prod 0a1b v 5 2 7 id 3 level=1\n": {Kind: 'v', Number: 5, First: 2, Second: 7, Third: 3, Level: 1, Cluster: "prod",
			Coterie: "0a1b", Name: "id"},
		"qlock2 prod 0a1b v 0 18446744073709551615 0 id 0 level=18446744073709551615\n": {Kind: 'v', First: math.MaxUint64,
			Level: math.MaxUint64, Cluster: "prod", Coterie: "0a1b", Name: "id"},
		"qlock2 p 0 o Q_9-z\n": {Kind: 'o', Cluster: "p", Coterie: "0", Name: "Q_9-z"},
	} {
		out, err := h.Append([]byte("before"))
		if err != nil || string(out) != "before"+line {
			t.Errorf("%q is written, %v", out, err)
		}
		read, err := HeaderOf([]byte(line + "orders request 1 2 3\n"))
		again := WrittenHeader{read.Kind, read.Number, read.First, read.Second, read.Third, read.Level, string(read.Cluster),
			string(read.Coterie), string(read.Name)}
		if err != nil || again != h || string(read.Lines) != "orders request 1 2 3\n" {
			t.Errorf("%q is read as %+v, %v", line, read, err)
		}
	}
}

// Words with another key are ignored, and nothing else is read.
func TestWhatIsNoHeader(t *testing.T) {
	read, err := HeaderOf([]byte("qlock2 a b c 1 2 3 n 4 level=5 caps=a,b later==\n"))
	if err != nil || read.Level != 5 || string(read.Name) != "n" || len(read.Lines) != 0 {
		t.Errorf("%+v, %v", read, err)
	}
	for _, text := range []string{"", "\n", "qlock2", "qlock2 a b o n", "qlock1 a b o n\n", "qlock2 a b x n\n", "qlock2  a b o n\n",
		"qlock2 a b o n \n", "qlock2 a b c 64 2 3 n 4\n", "qlock2 a b c 1 02 3 n 4\n", "qlock2 a b o n.m\n", "qlock2 a b o n level=0\n",
		"qlock2 a b o n x=1 level=1\n", "qlock2 a b o n =x\n", "qlock2 a b o n x\n"} {
		if _, err := HeaderOf([]byte(text)); !errors.Is(err, BadMessage) {
			t.Errorf("%q: %v", text, err)
		}
	}
}

// A header that has no line is refused, and nothing is written.
func TestHeadersWithoutALine(t *testing.T) {
	right := WrittenHeader{Kind: 'c', Number: 1, Cluster: "a", Coterie: "b", Name: "n"}
	for i, wrong := range []func(h *WrittenHeader){
		func(h *WrittenHeader) { h.Kind = 'x' },
		func(h *WrittenHeader) { h.Number = 64 },
		func(h *WrittenHeader) { h.Number = 257 },
		func(h *WrittenHeader) { h.Number = -1 },
		func(h *WrittenHeader) { h.Cluster = "" },
		func(h *WrittenHeader) { h.Coterie = "a b" },
		func(h *WrittenHeader) { h.Name = strings.Repeat("n", 65) },
		func(h *WrittenHeader) { h.Name = "n\n" },
	} {
		h := right
		wrong(&h)
		if out, err := h.Append([]byte("x")); !errors.Is(err, BadArgument) || string(out) != "x" {
			t.Errorf("%d: %q, %v", i, out, err)
		}
	}
}

// What a client says is written and read back, and so is what a voter says.
func TestSaying(t *testing.T) {
	for line, says := range map[string]ClientSays{
		"hello": {Kind: Hello}, "plan": {Kind: AskPlan}, "open 7": {Kind: Open, First: 7}, "close": {Kind: Close},
		"claim 5 7": {Kind: ClaimNone, Number: 5, First: 7}, "claim 63 1 64": {Kind: ClaimStamps, Number: 63, First: 1, Second: 64},
		"drop 0 9": {Kind: Drop, First: 9}, "greet": {Kind: Greet},
	} {
		if out, err := says.Append(nil); err != nil || string(out) != ". "+line+"\n" {
			t.Errorf("%q is written, %v", out, err)
		}
		if read, err := ReadClientSays([]byte(line)); err != nil || read != says {
			t.Errorf("%q is read as %+v, %v", line, read, err)
		}
	}
	for line, says := range map[string]VoterSays{
		"number 5 0 2": {Kind: NumberIs, Number: 5, Second: 2}, "claimed 1 2 3 4": {Kind: Claimed, Number: 1, First: 2, Second: 3, Third: 4},
		"refused 1 2": {Kind: Denied, Number: 1, First: 2}, "closed 1 2": {Kind: Closed, Number: 1, First: 2},
		"opened 1 2 3 4 5 6": {Kind: Opened, Number: 1, First: 2, Second: 3, Third: 4, Fourth: 5, Fifth: 6},
		"taken 1 2":          {Kind: Taken, Number: 1, First: 2}, "unknown 1 2": {Kind: Unknown, Number: 1, First: 2},
		"quiet 18446744073709551615": {Kind: Quiet, First: math.MaxUint64}, "leaving": {Kind: Leaving}, "greeted": {Kind: Greeted},
		"run 63 4": {Kind: RunIs, Number: 63, First: 4},
	} {
		if out, err := says.Append([]byte("x")); err != nil || string(out) != "x. "+line+"\n" {
			t.Errorf("%q is written, %v", out, err)
		}
		if read, err := ReadVoterSays([]byte(line)); err != nil || read != says {
			t.Errorf("%q is read as %+v, %v", line, read, err)
		}
	}
}

// A line of which the first word is not known is told from one that is wrong.
func TestWhoSaysSomethingElse(t *testing.T) {
	for _, line := range []string{"what", "hellos", "claims 1 2", "gone x 5", "Hello", "a  b "} {
		if says, err := ReadClientSays([]byte(line)); err != nil || says != (ClientSays{}) {
			t.Errorf("%q: %+v, %v", line, says, err)
		}
	}
	for _, line := range []string{"", " hello", "hello ", "hello 1", "plan x", "open", "open 1 2", "open 01", "close 1", "claim 64 1", "claim 1 0",
		"claim 1", "claim 1 2 3 4", "drop 1 2 3", "drop 1 x", "greet 1", "open 18446744073709551616"} {
		if says, err := ReadClientSays([]byte(line)); !errors.Is(err, BadMessage) {
			t.Errorf("%q: %+v, %v", line, says, err)
		}
	}
	for _, line := range []string{"", "hello", "gone x 5", "number 1 2 3", "number 64 1 1", "claimed 1 2 3", "opened 1 2 3 4 5", "opened 1 2 3 4 5 6 7",
		"quiet", "leaving ", "taken 1 02", "run 64 1", "run 1"} {
		if says, err := ReadVoterSays([]byte(line)); !errors.Is(err, BadMessage) {
			t.Errorf("%q: %+v, %v", line, says, err)
		}
	}
	for _, says := range []ClientSays{{}, {Kind: 9}, {Kind: ClaimNone, Number: 64, First: 1}, {Kind: ClaimNone}, {Kind: Drop, Number: -1, First: 1}} {
		if out, err := says.Append(nil); !errors.Is(err, BadArgument) || len(out) > 0 {
			t.Errorf("%+v: %q, %v", says, out, err)
		}
	}
	for _, says := range []VoterSays{{}, {Kind: 12}, {Kind: NumberIs, Second: 3}, {Kind: Taken, Number: 64}, {Kind: RunIs, Number: 64}} {
		if out, err := says.Append(nil); !errors.Is(err, BadArgument) || len(out) > 0 {
			t.Errorf("%+v: %q, %v", says, out, err)
		}
	}
}

// How long a line of control takes.
func BenchmarkReadClientSays(b *testing.B) {
	line := []byte("claim 17 123456 64")
	b.ReportAllocs()
	for i := 0; i < b.N; i++ {
		if says, err := ReadClientSays(line); err != nil || says.Second != 64 {
			b.Fatal(err)
		}
	}
}

func BenchmarkReadVoterSays(b *testing.B) {
	line := []byte("opened 17 4 65536 131072 123456 3")
	b.ReportAllocs()
	for i := 0; i < b.N; i++ {
		if says, err := ReadVoterSays(line); err != nil || says.Fifth != 3 {
			b.Fatal(err)
		}
	}
}

func BenchmarkAppendVoterSays(b *testing.B) {
	says, out := VoterSays{Kind: Opened, Number: 17, First: 4, Second: 65536, Third: 131072, Fourth: 123456, Fifth: 3}, make([]byte, 0, 512)
	b.ReportAllocs()
	for i := 0; i < b.N; i++ {
		var err error
		if out, err = says.Append(out[:0]); err != nil || !bytes.HasSuffix(out, []byte("3\n")) {
			b.Fatal(err)
		}
	}
}
