package wire

import (
	"bytes"
	"testing"
)

// The messages of a bundle are what is between its empty lines, whatever the bytes are: none has an empty line, and together they are the
// bundle. Made a bundle again they are the same.
func FuzzMessages(f *testing.F) {
	for _, h := range headers {
		for _, lines := range talk {
			one := append(h.Append(nil), lines...)
			f.Add(one)
			f.Add(append(append(one, '\n'), one...))
		}
	}
	f.Add([]byte("\n\n\n\n\n"))
	f.Add(bytes.Repeat([]byte("x\n\n"), MostBundled+1))
	f.Fuzz(func(t *testing.T, bundle []byte) {
		before := append([]byte(nil), bundle...)
		var messages [][]byte
		all := Messages(bundle, func(message []byte) { messages = append(messages, message) })
		if !bytes.Equal(bundle, before) || len(messages) == 0 || len(messages) > MostBundled {
			t.Fatalf("%d messages, or they changed", len(messages))
		}
		var again Bundle
		for i, message := range messages {
			if bytes.Contains(message, []byte("\n\n")) {
				t.Fatalf("%q has an empty line", message)
			}
			if last := i == len(messages)-1; !(last && all) && !bytes.HasSuffix(message, []byte("\n")) {
				t.Fatalf("message %d, %q, does not end", i, message)
			}
			again.Add(message)
		}
		if joined := again.Take(); !bytes.HasPrefix(bundle, joined) || all && len(joined) != len(bundle) || !all && len(messages) != MostBundled {
			t.Fatalf("%q of %q, all: %v", joined, bundle, all)
		}
	})
}

// A line that says to which session a message is names one, and nothing is lost of the others.
func FuzzAddressee(f *testing.F) {
	for _, lines := range append(talk, ". to jobs-77\norders locked 0 5 17 3\n", ". to \n", ". to x", ". to a b\n") {
		f.Add([]byte(lines))
	}
	f.Fuzz(func(t *testing.T, lines []byte) {
		to, rest := Addressee(lines)
		if to == "" {
			if !bytes.Equal(rest, lines) {
				t.Fatalf("%q of %q", rest, lines)
			}
			return
		}
		message := AddressTo(to, append(headers[1].Append(nil), rest...))
		if _, again, err := Read(message); err != nil || !bytes.Equal(again, lines) || !IsID([]byte(to)) {
			t.Fatalf("%q and %q of %q, %v", to, rest, lines, err)
		}
	})
}
