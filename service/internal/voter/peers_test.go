package voter

import (
	"encoding/json"
	"errors"
	"testing"
)

// What is kept of a place, and what others tell of one, is read if its words are those that voters make up.
func TestWordsOfAPeer(t *testing.T) {
	for text, isRead := range map[string]bool{
		`{}`: true,
		`{"identity":"` + identity("A") + `","process":"` + process("p") + `"}`:             true,
		`{"identity":"` + identity("A") + `"}`:                                              false,
		`{"process":"` + process("p") + `"}`:                                                false,
		`{"identity":"A","process":"` + process("p") + `"}`:                                 false,
		`{"identity":"` + identity("")[:32] + `","process":"` + process("p") + `"}`:         false,
		`{"identity":"` + identity("A")[:30] + `AA","process":"` + process("p") + `"}`:      false,
		`{"identity":"` + identity("A") + `","process":"` + process("p")[:15] + `g"}`:       false,
		`{"identity":"` + identity("A") + `","process":"` + process("p") + `","run":"one"}`: false,
	} {
		var p Peer
		if err := json.Unmarshal([]byte(text), &p); (err == nil) != isRead {
			t.Errorf("%s: %v", text, err)
		}
	}
	one := Peer{Identity: identity("A"), Run: 1, Start: 2, Process: process("p"), Ceiling: 3, Ended: 4}
	if q, err := one.proved(); err != nil || peerOf(q) != one {
		t.Errorf("%+v: %+v, %v", one, q, err)
	}
	if _, err := one.meets(Peer{Identity: "other", Run: 2, Process: process("p")}); !errors.Is(err, errPeer) {
		t.Errorf("who has no identity: %v", err)
	}
}
