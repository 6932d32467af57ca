package wire

import (
	"bytes"
	"math"
	"reflect"
	"strings"
	"testing"

	"calvundek.example/service/qlock"
)

// What is written is read back.
func TestHeaders(t *testing.T) {
	for _, h := range []Header{
		{Cluster: "prod", Coterie: "0a1b", Kind: FromClient, Number: 63, Epoch: 4, Reserved: 1 << 40, Seq: 9, Name: "app-77"},
		{Cluster: "prod", Coterie: "0a1b", Kind: FromClient, Number: 1, Epoch: 1, Seq: 1, Name: "x"},
		{Cluster: "prod", Coterie: "0a1b", Kind: FromVoter, Number: 5, Run: 2, Start: 7, Lapses: 3,
			Name: "id"},
		{Cluster: "prod", Coterie: "0a1b", Kind: FromVoter, Number: 63, Run: math.MaxUint64, Start: math.MaxUint64, Lapses: math.MaxUint64,
			Level: math.MaxUint64, Name: strings.Repeat("Z_9-", 16)},
		{Cluster: "prod", Coterie: "0a1b", Kind: FromOperator, Name: "op"},
	} {
		got, lines, err := Read(append(h.Append(nil), "orders request 1 2 3\n"...))
		if err != nil || got != h || string(lines) != "orders request 1 2 3\n" {
			t.Errorf("%v, not %v: %v", got, h, err)
		}
	}
}

// Words KEY=VALUE behind a header that nobody knows are ignored, in a line of at most 512 bytes.
func TestUnknownKeys(t *testing.T) {
	long := "qlock2 a b o n x=" + strings.Repeat("y", 512-len("qlock2 a b o n x="))
	if got, lines, err := Read([]byte(long + "\nx\n")); err != nil || got.Name != "n" || string(lines) != "x\n" {
		t.Error(got, err)
	}
	h := Header{Cluster: "prod", Coterie: "0a1b", Kind: FromVoter, Number: 5, Run: 2, Start: 7, Name: "id"}
	text := strings.TrimSuffix(string(h.Append(nil)), "\n")
	if got, lines, err := Read([]byte(text + " caps=a,b later=2\n. hello\n")); err != nil || got != h || string(lines) != ". hello\n" {
		t.Error(got, err)
	}
}

// A header is written as its line alone, behind what is there.
func TestLineOfHeader(t *testing.T) {
	h := Header{Cluster: "prod", Coterie: "0a1b", Kind: FromVoter, Number: 5, Run: 2, Start: 7, Lapses: 3, Level: 1, Name: "id"}
	if got := string(h.Append([]byte("x"))); got != "xqlock2 prod 0a1b v 5 2 7 id 3 level=1\n" {
		t.Errorf("%q", got)
	}
}

// Anything else is foreign, and nothing panics.
func TestForeign(t *testing.T) {
	for _, text := range []string{"", "\n", "qlock2", "qlock1 a b o x\n", "qlock2 a b o x", "qlock2 a b c 1 2 3 n\n",
		"qlock2 a b c 64 2 3 n 4\n", "qlock2 a b c 1 x 3 n 4\n", "qlock2 a b c 1 2 3 n -5\n", "qlock2 a b c 1 2 3 n 4 =x\n",
		"qlock2 a b v -1 0 1 n 0\n", "qlock2 a b v 1 0 1 n\n", "qlock2 a b v 1 0 1 n 0 x\n",
		"qlock2 a b q n\n", "qlock2 a b vv 1 0 1 n 0\n",
		// one space between two words, no leading zero, and no mark in a name
		"qlock2  a b c 1 2 3 n 4\n", " qlock2 a b c 1 2 3 n 4\n", "qlock2 a b c 1 2 3 n 4 \n", "qlock2 a\tb c 1 2 3 n 4\n",
		"qlock2 a b c 01 2 3 n 4\n", "qlock2 a b c 1 02 3 n 4\n", "qlock2 a b c +1 2 3 n 4\n", "qlock2 a b c 1 2 3 n.m 4\n",
		"qlock2 a b c 1 18446744073709551616 3 n 4\n", "qlock2 a. b o n\n", "qlock2 a b o " + strings.Repeat("n", 65) + "\n",
		// a level stands in front of other keys, once, and is not 0
		"qlock2 a b o n level=0\n", "qlock2 a b o n level=01\n", "qlock2 a b o n level=\n", "qlock2 a b o n level=1 level=2\n",
		"qlock2 a b o n x=1 level=2\n", "qlock2 a b o n x\n", "qlock2 a b o n x= \n",
		"qlock2 a b o n x=" + strings.Repeat("y", 512-len("qlock2 a b o n x=")+1) + "\n"} {
		if _, _, err := Read([]byte(text)); err != ErrForeign {
			t.Errorf("%q: %v", text, err)
		}
	}
}

// A long batch is sent as several messages, and no line is cut.
func TestSplit(t *testing.T) {
	line := "orders " + strings.Repeat("x", 99) + "\n"
	lines := bytes.Repeat([]byte(line), 2*MostBytes/len(line))
	h, count, total := Header{Cluster: "a", Coterie: "b", Kind: FromOperator, Name: "n"}, 0, 0
	h.Split(nil, lines, func(message []byte) {
		_, rest, err := Read(message)
		if err != nil || len(message) > MostBytes+qlock.LineRoom || !bytes.HasSuffix(rest, []byte(line)) || len(rest)%len(line) != 0 {
			t.Error(len(message), err)
		}
		count, total = count+1, total+len(rest)
	})
	if count < 2 || total != len(lines) {
		t.Error(count, total)
	}
}

// A line that is too long for one message is sent alone, and does not hold up the others.
func TestSplitOfLongLines(t *testing.T) {
	short, long := "orders x\n", "orders "+strings.Repeat("x", 2*MostBytes)+"\n"
	var got []string
	(Header{Cluster: "a", Coterie: "b", Kind: FromOperator, Name: "n"}).Split(nil, []byte(short+long+short+long[:2*MostBytes]), func(message []byte) {
		_, rest, err := Read(message)
		if err != nil {
			t.Error(err)
		}
		got = append(got, string(rest))
	})
	if want := []string{short, long, short, long[:2*MostBytes]}; !reflect.DeepEqual(got, want) {
		t.Errorf("%d messages", len(got))
	}
}

func TestNames(t *testing.T) {
	for name, want := range map[string]bool{"orders": true, "a.b:c-d_E9": true, "": false, ".": false, ".a": false, "a b": false,
		"a/b": false, "ü": false, strings.Repeat("a", 64): true, strings.Repeat("a", 65): false} {
		if IsName([]byte(name)) != want {
			t.Errorf("%q", name)
		}
	}
	if IsID([]byte("a.b")) || !IsID([]byte("prod-1")) {
		t.Error("a cluster's name is a part of a subject")
	}
}

// A line is read with or without its end, and nothing of what is no line.
func TestLines(t *testing.T) {
	for text, want := range map[string]Line{
		"request 5 0 17":             {[]byte("request"), 5, 0, 17, 0},
		"fail 2 63 17\n":             {[]byte("fail"), 2, 63, 17, 0},
		"locked 0 5 17 3\n":          {[]byte("locked"), 0, 5, 17, 3},
		"release 5 0 ":               {[]byte("release"), 5, 0, 0, 0},
		"release 5 0 1x":             {[]byte("release"), 5, 0, 0, 0},
		"request 5 0":                {[]byte("request"), -1, -1, 0, 0},
		"request 5 -1 2":             {[]byte("request"), 5, -1, 2, 0},
		"request 5 2147483648 2":     {[]byte("request"), 5, -1, 2, 0},
		"a 1 2 18446744073709551615": {[]byte("a"), 1, 2, 1<<64 - 1, 0},
		"a 1 2 18446744073709551616": {[]byte("a"), 1, 2, 0, 0},
		"":                           {[]byte{}, -1, -1, 0, 0},
	} {
		if got := ReadLine([]byte(text)); string(got.Word) != string(want.Word) || got.From != want.From || got.To != want.To ||
			got.Stamp != want.Stamp || got.Grant != want.Grant {
			t.Errorf("%q: %v", text, got)
		}
	}
}

// How long a header takes, of a message of a client.
func BenchmarkReadHeader(b *testing.B) {
	message := []byte("qlock2 prod 0a1b2c3d4e5f c 17 4 1099511627776 0123456789abcdef0123456789abcdef 123456 level=1\norders request 17 0 99\n")
	b.ReportAllocs()
	for i := 0; i < b.N; i++ {
		if _, _, err := Read(message); err != nil {
			b.Fatal(err)
		}
	}
}

func BenchmarkAppendHeader(b *testing.B) {
	h := Header{Cluster: "prod", Coterie: "0a1b2c3d4e5f", Kind: FromClient, Number: 17, Epoch: 4, Reserved: 1 << 40,
		Name: "0123456789abcdef0123456789abcdef", Seq: 123456, Level: 1}
	out := make([]byte, 0, 512)
	b.ReportAllocs()
	for i := 0; i < b.N; i++ {
		out = h.Append(out[:0])
	}
}
