package transport

import (
	"fmt"
	"testing"
)

// Who sends very much leaves room for others, in messages and in bytes. What has room comes out in its order.
func TestRoomOfSenders(t *testing.T) {
	for _, size := range []int{100, 256 << 10} {
		r := newRoom()
		of := func(sender string, n int) Message {
			return Message{"box." + sender, append(make([]byte, size), fmt.Sprint(sender, n)...)}
		}
		taken, count := 0, 0
		for ; r.put(of("flood", count)); count++ {
		}
		if most := RoomBytes / weight(of("flood", 0)); count < most/2 || count > most*3/4+2 {
			t.Fatalf("one sender has room for %d messages of %d", count, most)
		}
		for _, sender := range []string{"one", "two"} {
			for n := 0; n < 5; n++ {
				if !r.put(of(sender, n)) {
					t.Fatalf("there is no room for message %d of %s", n, sender)
				}
			}
		}
		if r.put(of("flood", count)) || r.count() != count+10 {
			t.Errorf("who has most of the room has more: %d", r.count())
		}
		for want := []string{"one0", "one1"}; taken < count+10; taken++ {
			m, isThere := r.take()
			if last := string(m.Data[size:]); !isThere || taken < count && last != fmt.Sprint("flood", taken) ||
				taken >= count && taken < count+2 && last != want[taken-count] {
				t.Fatalf("%q is message %d", last, taken)
			}
		}
		if _, isThere := r.take(); isThere || r.used != 0 || len(r.by) != 0 {
			t.Errorf("%d bytes are used, by %v", r.used, r.by)
		}
	}
}

// What is dropped is counted by its sender, and not more senders than there is room for.
func TestDropsBySender(t *testing.T) {
	var d Drops
	for n := 0; n < 10*mostSenders; n++ {
		d.Add(fmt.Sprint("user-", n))
		d.Add("user-0")
	}
	counts := map[string]uint64{"user-0": 1}
	var wrong Drops
	if wrong.Add("a\xff"); wrong.by["a?"] != 1 {
		t.Errorf("%q", wrong.by)
	}
	if d.AddTo(counts); d.Load() != 20*mostSenders || counts["user-0"] != 10*mostSenders+2 || len(counts) != mostSenders+1 || counts[""] != 9*mostSenders {
		t.Errorf("%d: %v", d.Load(), counts)
	}
}

// What waits never takes more than the room of a mailbox, whatever its size.
func TestRoomIsNotExceeded(t *testing.T) {
	r := newRoom()
	for n, size := 0, RoomBytes*5/8; size > 0; n++ {
		if m := (Message{fmt.Sprint("box.", n), make([]byte, size)}); !r.put(m) {
			size = size * 3 / 4
		}
		if r.used > RoomBytes {
			t.Fatalf("%d bytes wait", r.used)
		}
	}
}
