package qlockd

import (
	"encoding/json"
	"errors"
	"testing"
)

// A body that is taken is an object of JSON with a note or nothing, and the note is that of package json. One that is not is refused with
// its word.
func FuzzNote(f *testing.F) {
	for _, body := range []string{"", "{}", `{"note":"nightly"}`, `{"note":"a","note":"b"}`, `{"Note":"a"}`, `{"note":1}`, `{"note":"\ud800\u0062"} `, `[]`, `{"note":"a"}{}`} {
		f.Add([]byte(body))
	}
	f.Fuzz(func(t *testing.T, body []byte) {
		note, isThere, err := readNote(body)
		if err != nil {
			if !errors.Is(err, errRequest) {
				t.Errorf("%q: %v", body, err)
			}
			return
		}
		if len(body) == 0 {
			return
		}
		var all map[string]string
		if err := json.Unmarshal(body, &all); err != nil || all == nil {
			t.Fatalf("%q: %v", body, err)
		}
		if text, has := all["note"]; has != isThere || text != note || len(all) > 1 || len(all) == 1 && !has {
			t.Errorf("%q: %q %v, not %q", body, note, isThere, all)
		}
	})
}
