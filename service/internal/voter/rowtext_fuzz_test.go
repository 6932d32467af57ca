package voter

import (
	"bytes"
	"encoding/json"
	"math/rand"
	"testing"
)

// A row is read as package json reads it, or not at all.
func FuzzRowText(f *testing.F) {
	for _, row := range rowsOfAllForms(rand.New(rand.NewSource(2))) {
		text, _ := json.Marshal(row)
		f.Add(text)
	}
	for _, text := range []string{"", "{}", `{"name":"old","epoch":7,"base":100,"reserved":9000,"open":true,"used":true}`,
		`{"hash":"","epoch":1,"base":0,"reserved":0,"open":true,"used":true}`, `{"epoch":01,"base":0,"reserved":0,"open":true,"used":true}`,
		`{"epoch":1,"base":0,"reserved":0,"open":true,"used":true,"lapses":0}`, `{"epoch":1,"base":0,"reserved":0,"open":true,"used":true} `,
		`{"epoch":1,"base":0,"reserved":0,"open":true,"used":true,"dropped":false}`, `{"base":0,"epoch":1,"reserved":0,"open":true,"used":true}`} {
		f.Add([]byte(text))
	}
	f.Fuzz(func(t *testing.T, text []byte) {
		got, ok := readRow(text)
		var want Session
		if err := json.Unmarshal(text, &want); err != nil {
			if ok {
				t.Fatalf("%q is read as %+v, and is none: %v", text, got, err)
			}
			return
		}
		if ok && got != want {
			t.Fatalf("%q is read as %+v, and not as %+v", text, got, want)
		}
		form, err := json.Marshal(want)
		if err != nil {
			t.Fatal(err)
		}
		written, err := appendRow(nil, want)
		if err != nil || !bytes.Equal(written, form) {
			t.Fatalf("%s is written as %s: %v", form, written, err)
		}
		if ok && !bytes.Equal(text, form) {
			t.Fatalf("%q is read, and would be written as %s", text, form)
		}
	})
}
