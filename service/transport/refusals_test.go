package transport

import (
	"errors"
	"strings"
	"testing"

	"github.com/nats-io/nats.go"
)

// What a server refuses again and again is said once.
func TestRefusalsAreSaidOnce(t *testing.T) {
	var said strings.Builder
	r := newRefusals(&said)
	for i := 0; i < 20; i++ {
		r.handle(nil, nil, errors.New("not to a"))
		r.handle(nil, nil, errors.New("not to b"))
		r.handle(nil, &nats.Subscription{Subject: "x"}, errors.New("slow"))
	}
	if want := "not to a\nnot to b\nslow, of \"x\"\n"; said.String() != want {
		t.Errorf("%q", said.String())
	}
}
