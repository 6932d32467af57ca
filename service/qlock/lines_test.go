package qlock

import (
	"bytes"
	"errors"
	"math"
	"math/rand"
	"reflect"
	"strings"
	"testing"
)

// Each line with the name of a lock is written as package wire (service/internal/wire) has it, and read back.
func TestWhatVotersSayOfLocks(t *testing.T) {
	long := strings.Repeat("x", 64)
	for line, says := range map[string]LockSays{
		"gone orders 17": {Kind: LockGone, Lock: []byte("orders"), Stamp: 17},
		"full a.b:c-_ 0": {Kind: LockFull, Lock: []byte("a.b:c-_")},
		"held " + long + " 18446744073709551615 18446744073709551615": {Kind: LockHeld, Lock: []byte(long), Stamp: math.MaxUint64,
			Milliseconds: math.MaxUint64},
	} {
		if out, err := says.Append([]byte("x")); err != nil || string(out) != "x. "+line+"\n" {
			t.Errorf("%q is written, %v", out, err)
		}
		if read, err := ReadLockSays([]byte(line)); err != nil || !reflect.DeepEqual(read, says) {
			t.Errorf("%q is read as %+v, %v", line, read, err)
		}
	}
	for _, line := range []string{"", "gone", "gone x", "gone x 1 2", "gone  x 1", "gone x  1", "gone x 01", "gone x 1 ", "gone .x 1", "gone x/y 1", "full x -1",
		"held x 1", "held x 1 2 3", "gone " + long + "x 1", "gones x 1", "Gone x 1", "opened x 1", "gone x 18446744073709551616"} {
		if says, err := ReadLockSays([]byte(line)); !errors.Is(err, BadMessage) {
			t.Errorf("%q: %+v, %v", line, says, err)
		}
	}
	for _, says := range []LockSays{{Lock: []byte("x")}, {Kind: 4, Lock: []byte("x")}, {Kind: LockGone}, {Kind: LockGone, Lock: []byte(".x")},
		{Kind: LockHeld, Lock: []byte("a b")}} {
		if out, err := says.Append(nil); !errors.Is(err, BadArgument) || len(out) > 0 {
			t.Errorf("%+v: %q, %v", says, out, err)
		}
	}
}

// isName is a lock's name by the rules of the service.
func isName(name []byte) bool {
	for _, b := range name {
		if !strings.ContainsRune("ABCDEFGHIJKLMNOPQRSTUVWXYZabcdefghijklmnopqrstuvwxyz0123456789_-.:", rune(b)) {
			return false
		}
	}
	return len(name) > 0 && len(name) <= 64 && name[0] != '.'
}

// A text is cut by the rules of the service, whatever its bytes are.
func TestCutLine(t *testing.T) {
	random := rand.New(rand.NewSource(41))
	alphabet, cuts := []byte(" \n..:ab-_Z9/\x00\xff"), 0
	for run := 0; run < 100000; run++ {
		text := make([]byte, random.Intn(12))
		if random.Intn(10) == 0 {
			text = make([]byte, random.Intn(80))
		}
		for i := range text {
			if text[i] = alphabet[random.Intn(len(alphabet))]; len(text) > 12 {
				text[i] = 'x'
			}
		}
		if len(text) > 12 {
			text = append(text, " y\n"...)
		}
		first, rest, ended := bytes.Cut(text, []byte("\n"))
		name, line, spaced := bytes.Cut(first, []byte(" "))
		want := ended && spaced && (isName(name) || string(name) == ".")
		gotName, gotLine, gotRest, found := CutLine(text)
		if found != want || found && !(bytes.Equal(gotName, name) && bytes.Equal(gotLine, line) && bytes.Equal(gotRest, rest)) {
			t.Fatalf("%q is cut into %q, %q and %q: %v", text, gotName, gotLine, gotRest, found)
		}
		if IsLockName(name) != isName(name) {
			t.Fatalf("%q: %v", name, IsLockName(name))
		}
		if found {
			cuts++
		}
	}
	if cuts == 0 {
		t.Error("no line was cut off")
	}
}

func BenchmarkCutLine(b *testing.B) {
	text := []byte("an-ordinary-lock request 17 3 65537\nan-ordinary-lock request 17 3 65537\n")
	b.ReportAllocs()
	for i := 0; i < b.N; i++ {
		if _, _, _, found := CutLine(text); !found {
			b.Fatal("no line")
		}
	}
}
