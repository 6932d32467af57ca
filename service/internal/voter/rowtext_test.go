package voter

import (
	"encoding/json"
	"fmt"
	"math"
	"math/rand"
	"testing"
)

// rowsOfAllForms are rows of which each part has some value.
func rowsOfAllForms(random *rand.Rand) (rows []Session) {
	numbers := []uint64{0, 1, 9, 10, 12345, math.MaxInt64, 9999999999999999999, 10000000000000000000, math.MaxUint64}
	number := func() uint64 { return numbers[random.Intn(len(numbers))] }
	for _, hash := range []string{"", "x", hashed("jobs.session"), "a b~", `quo"te`, `back\slash`, "<", ">", "&", "é", "\x00", "\x1f", "\x7f", "\xff", "\u2028"} {
		for flags := 0; flags < 8; flags++ {
			rows = append(rows, Session{Hash: hash, Epoch: number(), Base: number(), Reserved: number(), Open: flags&1 > 0, Used: flags&2 > 0,
				Dropped: flags&4 > 0, Lapses: number() * uint64(random.Intn(2))})
		}
	}
	return rows
}

// The text of a row is that of package json, letter by letter, and what has no escapes and no number of 20 digits is read without it.
func TestTextOfRows(t *testing.T) {
	read := 0
	for _, row := range rowsOfAllForms(rand.New(rand.NewSource(1))) {
		want, err := json.Marshal(row)
		if err != nil {
			t.Fatal(err)
		}
		text, err := appendRow([]byte("before"), row)
		if err != nil || string(text) != "before"+string(want) {
			t.Errorf("%s is written as %s: %v", want, text, err)
		}
		isShort := true
		for _, number := range []uint64{row.Epoch, row.Base, row.Reserved, row.Lapses} {
			isShort = isShort && number < 1e19
		}
		if got, ok := readRow(want); ok != (isPlain(row.Hash) && isShort) || ok && got != row {
			t.Errorf("%s is read as %+v: %v", want, got, ok)
		} else if ok {
			read++
		}
	}
	if read < 10 {
		t.Errorf("%d rows are read", read)
	}
}

// What a row takes to be read, and to be written.
func BenchmarkRowText(b *testing.B) {
	row := Session{Hash: hashed("jobs.session"), Epoch: 3, Base: 1000, Reserved: 2000, Open: true, Used: true}
	text, _ := json.Marshal(row)
	room := make([]byte, 0, 256)
	for name, step := range map[string]func() error{
		"read":       func() error { _, _, err := rowOfText(text); return err },
		"write":      func() error { _, err := appendRow(room, row); return err },
		"read json":  func() error { return json.Unmarshal(text, new(Session)) },
		"write json": func() error { _, err := json.Marshal(row); return err },
	} {
		b.Run(name, func(b *testing.B) {
			for i := 0; i < b.N; i++ {
				if err := step(); err != nil {
					b.Fatal(fmt.Errorf("%s: %w", text, err))
				}
			}
		})
	}
}
