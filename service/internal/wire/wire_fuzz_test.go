package wire

import (
	"bytes"
	"fmt"
	"regexp"
	"strings"
	"testing"
)

// headers are one of each kind of sender, as they are sent.
var headers = []Header{
	{Cluster: "prod", Coterie: "0a1b2c3d4e5f", Kind: FromClient, Number: 63, Epoch: 4, Reserved: 1 << 40, Seq: 9,
		Name: "jobs-77"},
	{Cluster: "prod", Coterie: "0a1b2c3d4e5f", Kind: FromVoter, Number: 5, Run: 2, Start: 1<<64 - 1,
		Name: "0123456789abcdef"},
	{Cluster: "prod", Coterie: "0a1b2c3d4e5f", Kind: FromOperator, Name: "fedcba9876543210"},
}

// talk is the lines that clients, voters and operators say.
var talk = []string{
	". hello\n", ". claim 5 7\n. drop 5 6\n", ". open 0\norders request 5 0 17\n", ". close\n", ". plan\n",
	". number 5 7 1\n. number 6 0 2\n", ". claimed 5 7 4096\n", ". opened 5 7 8192 12 3\n. gone orders 17\n",
	". taken 5 7\n", "orders locked 0 5 17 3\n", "orders release 5 0 17\norders relinquish 5 0 17 3\n", "unlock orders 3\n", "",
	"no end", "\n\n",
}

// What is read of a message is what it was made of: it reads the same once it is written again.
func FuzzRead(f *testing.F) {
	for _, h := range headers {
		for _, lines := range talk {
			f.Add(append(h.Append(nil), lines...))
		}
	}
	f.Add([]byte("qlock2  a\tb c 0 0 0 x 0\n"))
	f.Fuzz(func(t *testing.T, message []byte) {
		before := append([]byte(nil), message...)
		h, lines, err := Read(message)
		if !bytes.Equal(message, before) {
			t.Fatal("the message changes")
		}
		if err != nil {
			if err != ErrForeign || lines != nil {
				t.Fatalf("%v, with %d bytes of lines", err, len(lines))
			}
			return
		}
		if !bytes.HasSuffix(message, lines) || h.Number < 0 || h.Number >= 64 {
			t.Fatalf("%+v, with %q", h, lines)
		}
		line, _, _ := bytes.Cut(message, []byte("\n"))
		own := bytes.TrimSuffix(h.Append(nil), []byte("\n"))
		if !bytes.HasPrefix(line, own) || len(line) > len(own) && line[len(own)] != ' ' {
			t.Fatalf("%q is read of %q", own, line) // behind it there are only words that are ignored
		}
		again, rest, err := Read(append(h.Append(nil), lines...))
		if err != nil || again != h || !bytes.Equal(rest, lines) {
			t.Fatalf("%+v is read again as %+v, %v", h, again, err)
		}
	})
}

// lockLine is a line that may be right: a lock's name or a dot, a space, and anything.
var lockLine = regexp.MustCompile(`^(\.|[A-Za-z0-9_:-][A-Za-z0-9_.:-]{0,63}) [^\n]*\n`)

// Lines are handed out one after the other, whole and in their order, up to the first one that can't be right, and no byte of a line
// is left out.
func FuzzNext(f *testing.F) {
	for _, lines := range talk {
		f.Add([]byte(lines))
	}
	f.Fuzz(func(t *testing.T, lines []byte) {
		var again []byte
		for rest := lines; ; {
			lock, line, behind, found := Next(rest)
			if !found {
				if lockLine.Match(rest) {
					t.Fatalf("%q is left", rest)
				}
				return
			}
			if !lockLine.Match(rest) || bytes.ContainsAny(lock, " \n") || bytes.IndexByte(line, '\n') >= 0 || len(behind) >= len(rest) {
				t.Fatalf("%q and %q of %q", lock, line, rest)
			}
			again = append(append(append(append(again, lock...), ' '), line...), '\n')
			if rest = behind; !bytes.HasPrefix(lines, again) || len(again)+len(rest) != len(lines) {
				t.Fatalf("%q is handed out of %q", again, lines)
			}
		}
	})
}

// Lines of any length come through messages that are not too long, in their order. No line is cut
// that fits into one.
func FuzzSplit(f *testing.F) {
	for _, lines := range talk {
		f.Add([]byte(lines), uint16(1), uint8(0))
		f.Add([]byte(lines), uint16(40000), uint8(1))
	}
	f.Add([]byte(strings.Repeat("x", 1000)), uint16(600), uint8(2))
	f.Fuzz(func(t *testing.T, lines []byte, times uint16, kind uint8) {
		h := headers[int(kind)%len(headers)]
		for len(lines) > 0 && int(times) > 8*MostBytes/len(lines) {
			times /= 2
		}
		all := bytes.Repeat(lines, int(times))
		var got []byte
		messages := 0
		h.Split(nil, all, func(message []byte) {
			again, part, err := Read(message)
			if err != nil || again != h || len(part) == 0 {
				t.Fatalf("%+v, %v", again, err)
			}
			if len(part) > MostBytes && bytes.IndexByte(part[:len(part)-1], '\n') >= 0 {
				t.Fatalf("a message of %d bytes has several lines", len(message))
			}
			if got = append(got, part...); len(got) < len(all) && got[len(got)-1] != '\n' {
				t.Fatal("a line is cut")
			}
			messages++
		})
		if !bytes.Equal(got, all) || messages > bytes.Count(all, []byte("\n"))+1 {
			t.Fatalf("%d of %d bytes come, in %d messages", len(got), len(all), messages)
		}
	})
}

// What a line says of its sender, its receiver and its stamp is what it was made of, and nothing is
// read of a shorter line.
func FuzzLines(f *testing.F) {
	for _, line := range []string{"request 5 0 17", "locked 0 5 17 3 1", "relinquish 63 4 1099511627775 2", "gone",
		"request 5 0", "request -1 0 1", "a  b c"} {
		f.Add([]byte(line), uint32(5), uint32(0), uint64(17))
	}
	f.Fuzz(func(t *testing.T, line []byte, from, to uint32, stamp uint64) {
		said := ReadLine(line)
		if said.From < -1 || said.To < -1 ||
			bytes.Count(line, []byte(" ")) < 3 && (said.From != -1 || said.To != -1 || said.Stamp != 0) {
			t.Fatalf("%q says %v", line, said)
		}
		from, to = from>>1, to>>1
		word, _, _ := bytes.Cut(line, []byte(" "))
		for _, made := range []string{"%s %d %d %d", "%s %d %d %d 1"} {
			made = fmt.Sprintf(made, word, from, to, stamp)
			said := ReadLine([]byte(made))
			if said.From != int(from) || said.To != int(to) || said.Stamp != stamp {
				t.Fatalf("%q says %v", made, said)
			}
		}
	})
}

// A lock's name is one word of a line. A cluster's name is a part of a mailbox, and comes through a
// message as any name of its header does.
func FuzzNames(f *testing.F) {
	for _, name := range []string{"orders", "a.b:c-d_E9", "prod-1", "", ".a", "a b", "a/b", "ü", "*", ">",
		strings.Repeat("a", 65)} {
		f.Add([]byte(name))
	}
	f.Fuzz(func(t *testing.T, name []byte) {
		if IsName(name) {
			lock, line, _, found := Next(append(append([]byte(nil), name...), " request 1 2 3\n"...))
			if !found || !bytes.Equal(lock, name) || string(line) != "request 1 2 3" {
				t.Fatalf("%q is %q", name, lock)
			}
		}
		if IsID(name) {
			h := headers[0]
			h.Cluster, h.Coterie, h.Name = string(name), string(name), string(name)
			if again, _, err := Read(h.Append(nil)); err != nil || again != h {
				t.Fatalf("%q: %+v, %v", name, again, err)
			}
		}
		box := SessionBox(string(name), SessionName(string(name), string(name)), 3)
		if IsID(name) && (strings.Count(box, ".") != 5 || strings.ContainsAny(box, "*> \t\r\n")) {
			t.Fatalf("%q is a mailbox", box)
		}
		if IsID(name) && !IsName(name) {
			t.Fatalf("%q names a cluster and no lock", name)
		}
	})
}
