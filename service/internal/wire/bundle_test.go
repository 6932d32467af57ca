package wire

import (
	"bytes"
	"fmt"
	"strings"
	"testing"
)

// session returns a message of a session.
func session(name, lines string) []byte {
	h := Header{Cluster: "prod", Coterie: "0a1b2c3d4e5f", Kind: FromClient, Number: 5, Epoch: 4, Reserved: 100, Name: name}
	return append(h.Append(nil), lines...)
}

// messagesOf returns the messages of a bundle, and whether these were all.
func messagesOf(bundle []byte) (messages []string, all bool) {
	all = Messages(bundle, func(message []byte) { messages = append(messages, string(message)) })
	return messages, all
}

// The messages of a bundle are those that were added, also those that look like several.
func TestBundle(t *testing.T) {
	var b Bundle
	added := []string{string(session("one", ". open 0\n")), string(session("two", "qlock2 request 5 0 17\nqlock2 release 5 0 17\n")),
		string(session("three", "")), string(session("four", ". note one two\n"))}
	for _, message := range added {
		if !b.HasRoom([]byte(message)) {
			t.Fatal("there is no room")
		}
		b.Add([]byte(message))
	}
	if b.Count() != len(added) {
		t.Errorf("%d messages", b.Count())
	}
	messages, all := messagesOf(b.Take())
	if !all || fmt.Sprintf("%q", messages) != fmt.Sprintf("%q", added) || b.Count() != 0 {
		t.Errorf("%q", messages)
	}
	if messages, all := messagesOf([]byte(added[1])); !all || len(messages) != 1 || messages[0] != added[1] {
		t.Errorf("alone: %q", messages)
	}
}

// Who keeps a message of several keeps nothing else of the bundle. One that came alone is not copied.
func TestMessageIsACopy(t *testing.T) {
	bundle := []byte("one\n\ntwo\n\nthree\n")
	var kept [][]byte
	Messages(bundle, func(message []byte) { kept = append(kept, message) })
	copy(bundle, bytes.Repeat([]byte("x"), len(bundle)))
	if text := fmt.Sprintf("%q", kept); text != `["one\n" "two\n" "three\n"]` {
		t.Error(text)
	}
	alone := []byte("one\n")
	Messages(alone, func(message []byte) {
		if &message[0] != &alone[0] {
			t.Error("a message alone is copied")
		}
	})
}

// A bundle is no longer than a message may be, and has a bounded number of messages. A message that is longer is alone.
func TestBundleIsBounded(t *testing.T) {
	long := session("one", strings.Repeat("orders request 5 0 17\n", MostBytes/25))
	var b Bundle
	if b.Add(long); b.HasRoom(long) || !b.HasRoom(long[:MostBytes-len(long)-1]) || b.HasRoom(long[:MostBytes-len(long)]) {
		t.Error("the bound of the bytes")
	}
	b.Take()
	if b.Add(append(long, long...)); b.HasRoom(nil) {
		t.Error("something goes with a message that is too long")
	}
	b.Take()
	for i := 0; i < MostBundled; i++ {
		if !b.HasRoom(session("one", "")) {
			t.Fatalf("message %d has no room", i)
		}
		b.Add(session("one", ""))
	}
	if b.HasRoom(session("one", "")) {
		t.Error("the bound of the messages")
	}
	bundle := b.Take()
	if messages, all := messagesOf(bundle); !all || len(messages) != MostBundled {
		t.Errorf("%d messages, all: %v", len(messages), all)
	}
	if messages, all := messagesOf(append(append(bundle, '\n'), session("one", "")...)); all || len(messages) != MostBundled {
		t.Errorf("of more: %d messages, all: %v", len(messages), all)
	}
}

// A message says to which session it is, in one line behind its header, and nothing else of it changes.
func TestAddressee(t *testing.T) {
	message := session("one", "orders request 5 0 17\n")
	addressed := AddressTo("two", message)
	h, lines, err := Read(addressed)
	if err != nil || h.Name != "one" {
		t.Fatalf("%+v, %v", h, err)
	}
	if to, rest := Addressee(lines); to != "two" || string(rest) != "orders request 5 0 17\n" {
		t.Errorf("%q, %q", to, rest)
	}
	for _, lines := range []string{"", "orders request 5 0 17\n", ". to \n", ". to a b\n", ". to two", ". to " + strings.Repeat("x", 33) + "\n",
		". open 0\n. to two\n"} {
		if to, rest := Addressee([]byte(lines)); to != "" || string(rest) != lines {
			t.Errorf("%q: %q, %q", lines, to, rest)
		}
	}
	if !bytes.Equal(message, session("one", "orders request 5 0 17\n")) {
		t.Error("the message changed")
	}
}
