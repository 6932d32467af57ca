package wire

import (
	"bytes"
	"strings"
	"testing"
)

// asks are lines of control that have a text, or ask who has a lock, and what voters say to them.
var asks = []string{"note", "note m0 17 root nightly", "about orders 17 m0 1 root x", "who 1 orders", "list 3 0", "list 3 512 ord", "noted",
	"has 1 orders 0", "has 1 orders 18446744073709551615 63 17 900 jobs", "has 0 orders 4 0 1 2 - m0 17 root nightly run", "listed 3 0 512",
	"sessions 64 900 0", "for orders", "want 64 orders", "want 64", "want 0", "process jobs-77", "bundles", "watch 3 orders", "skipped 3 orders 5 77",
	"holder 3 orders 4 0 1 2 - m0 17 root nightly", "roll jobs-77 65535", "beat 64 18446744073709551615 7", "rolled 65535 1", "beaten 7 65472", "unbeaten 7 65472", "refuses", "",
	"skipped 3 orders 5", "skipped orders 5 77", "skipped 3 orders 5 077", "watch", "watch 3", "watch 03 orders", "watch 3 orders ", "watch 3 orders x",
	"holder 3 orders", "holder 3 orders 0 64 1 1 -",
	"want", "want ", "want 64 ", "want 64 .x", "want 064", "want 64 orders 1", "want orders", "want 0 orders",
	"roll", "roll jobs", "roll jobs 65536", "roll jobs 01", "roll .x 1", "roll jobs 1 1", "beat 64 0 7", "beat 63 1 7", "beat 65536 1 7", "beat 0 1",
	"beat 0 1 7 1", "rolled 1", "rolled 1 0", "rolled 65536 1", "beaten 7", "beaten 7 1", "beaten 7 65536", "beaten 7 64 1", "unbeaten 7", "unbeaten 7 1", "unbeaten 7 64 1", "refuses 1",
	"process", "process ", "process a b", "process .x", "bundles 1", " ", "for", "for ", "for .x", "for orders ", "for orders 1", "note ", "note  x", "note x ", "about orders 17", "who 1", "who 01 orders", "who 1 orders ", "list 3", "has 1 orders 0 64 1 1 -",
	"has 1 orders 0 1 1 1", "listed 3 0", "hello", "note " + strings.Repeat("x", 129)}

// What is read of such a line is what it was made of: it is the line that is written again. A line of which only the first word
// is known is wrong, and one of which nothing is known is none.
func FuzzAsks(f *testing.F) {
	for _, line := range asks {
		f.Add([]byte(line))
	}
	f.Fuzz(func(t *testing.T, line []byte) {
		word, _, _ := bytes.Cut(line, []byte(" "))
		isKnown := map[string]bool{"note": true, "about": true, "who": true, "list": true, "turn": true, "for": true, "want": true, "process": true,
			"watch": true, "roll": true, "beat": true}[string(word)]
		ask, err := ReadAsk(line)
		if (ask.Kind != NoAsk || err != nil) != isKnown || ask.Kind != NoAsk && err != nil {
			t.Fatalf("%q is %+v, %v", line, ask, err)
		}
		if again := string(ask.Append(nil)); ask.Kind != NoAsk && again != ". "+string(line)+"\n" {
			t.Fatalf("%q is written as %q", line, again)
		}
		if len(ask.Text) > MostNote || len(ask.Lock) > 64 {
			t.Fatalf("%+v", ask)
		}
		told, ok := ReadTold(line)
		if again := string(told.Append(nil)); ok && again != ". "+string(line)+"\n" || !ok && told != (Told{}) {
			t.Fatalf("%q is written as %q: %+v", line, again, told)
		}
		if ok && (told.Number < 0 || told.Number > 63 || len(told.Note) > MostNote || len(told.User) > 32) {
			t.Fatalf("%+v", told)
		}
	})
}

// Each right line of the samples is read, and no wrong one.
func TestAsks(t *testing.T) {
	for i, line := range asks {
		ask, err := ReadAsk([]byte(line))
		_, ok := ReadTold([]byte(line))
		if isRight := ask.Kind != NoAsk && err == nil || ok; isRight != (i < 27) {
			t.Errorf("%q: %+v, %v, %v", line, ask, err, ok)
		}
	}
	for text, want := range map[string]bool{"x": true, "a b": true, "": false, " x": false, "x ": false, "a\tb": false, "\xc3\xbc": false,
		"~": true, "\x7f": false, strings.Repeat("x", 128): true, strings.Repeat("x", 129): false} {
		if IsNote([]byte(text)) != want {
			t.Errorf("%q", text)
		}
	}
}
