package voter

import (
	"bytes"
	"encoding/json"
	"strconv"
)

// The text of a session's row is JSON. A state may have a million of them, and each step of a session may write one. So there is a writer, and a
// reader, of the one form that rows have. Package json takes over if a row needs another form.

// appendRow appends the text of a row, as package json writes it.
func appendRow(text []byte, row Session) ([]byte, error) {
	if !isPlain(row.Hash) {
		other, err := json.Marshal(row)
		return append(text, other...), err
	}
	text = append(text, '{')
	if row.Hash != "" {
		text = append(append(append(text, `"hash":"`...), row.Hash...), `",`...)
	}
	text = strconv.AppendUint(append(text, `"epoch":`...), row.Epoch, 10)
	text = strconv.AppendUint(append(text, `,"base":`...), row.Base, 10)
	text = strconv.AppendUint(append(text, `,"reserved":`...), row.Reserved, 10)
	text = strconv.AppendBool(append(text, `,"open":`...), row.Open)
	text = strconv.AppendBool(append(text, `,"used":`...), row.Used)
	if row.Dropped {
		text = append(text, `,"dropped":true`...)
	}
	if row.Lapses > 0 {
		text = strconv.AppendUint(append(text, `,"lapses":`...), row.Lapses, 10)
	}
	return append(text, '}'), nil
}

// rowOfText reads a row, in whatever form it was saved. It is old if it would be saved in another one.
func rowOfText(text []byte) (row Session, isOld bool, err error) {
	row, ok := readRow(text)
	if ok {
		return row, false, nil
	}
	if err := row.UnmarshalJSON(text); err != nil {
		return row, false, err
	}
	again, err := appendRow(nil, row)
	return row, !bytes.Equal(again, text), err
}

// isPlain returns whether package json writes a text without escapes.
func isPlain(text string) bool {
	for i := 0; i < len(text); i++ {
		if !isPlainByte(text[i]) {
			return false
		}
	}
	return true
}

func isPlainByte(c byte) bool {
	return c >= ' ' && c < 0x7f && c != '"' && c != '\\' && c != '<' && c != '>' && c != '&'
}

// readRow reads a row of which appendRow writes this text, letter by letter, if it is one without escapes. It returns false for any other text.
func readRow(text []byte) (row Session, ok bool) {
	r := rowReader{rest: text, ok: true}
	r.takes(`{`)
	if r.has(`"hash":"`) {
		row.Hash = r.plain()
		r.takes(`",`)
	}
	r.takes(`"epoch":`)
	row.Epoch = r.number()
	r.takes(`,"base":`)
	row.Base = r.number()
	r.takes(`,"reserved":`)
	row.Reserved = r.number()
	r.takes(`,"open":`)
	row.Open = r.truth()
	r.takes(`,"used":`)
	row.Used = r.truth()
	row.Dropped = r.has(`,"dropped":true`)
	if r.has(`,"lapses":`) {
		row.Lapses = r.number()
		r.ok = r.ok && row.Lapses > 0
	}
	r.takes(`}`)
	return row, r.ok && len(r.rest) == 0
}

// rowReader reads the parts of a row's text, until one is not as it is written.
type rowReader struct {
	rest []byte
	ok   bool
}

// has returns whether this word comes next, and takes it.
func (r *rowReader) has(word string) bool {
	is := len(r.rest) >= len(word) && string(r.rest[:len(word)]) == word
	if is {
		r.rest = r.rest[len(word):]
	}
	return is
}

// takes takes a word that has to come next.
func (r *rowReader) takes(word string) { r.ok = r.has(word) && r.ok }

// plain takes a text, which may not be empty.
func (r *rowReader) plain() string {
	n := 0
	for n < len(r.rest) && isPlainByte(r.rest[n]) {
		n++
	}
	text := string(r.rest[:n])
	r.rest, r.ok = r.rest[n:], r.ok && n > 0
	return text
}

// number takes a number, without zeros in front.
func (r *rowReader) number() (number uint64) {
	const most = 19 // digits: all such numbers fit
	n := 0
	for n < len(r.rest) && r.rest[n]-'0' <= 9 {
		number = 10*number + uint64(r.rest[n]-'0')
		n++
	}
	r.ok = r.ok && n > 0 && n <= most && (r.rest[0] != '0' || n == 1)
	r.rest = r.rest[n:]
	return number
}

// truth takes true or false.
func (r *rowReader) truth() bool {
	is := r.has("true")
	if !is {
		r.takes("false")
	}
	return is
}
