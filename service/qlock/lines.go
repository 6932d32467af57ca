package qlock

/*
#include "qlock.h"

typedef struct {
    int32_t refusal;
    uint64_t words[QLOCK_LOCK_WORDS];
} lock_words;

static lock_words lock_word_read(const uint8_t *line, size_t len) {
    lock_words r;
    r.refusal = qlock_lock_word_read(line, len, r.words, QLOCK_LOCK_WORDS);
    return r;
}

static int64_t lock_word_write(uint8_t kind, const uint8_t *lock, size_t len, uint64_t stamp, uint64_t milliseconds, uint8_t *out) {
    size_t n = 0;
    int32_t refusal = qlock_lock_word_write(kind, lock, len, stamp, milliseconds, out, QLOCK_LINE_OUT, &n);
    return refusal ? -(int64_t)refusal : (int64_t)n;
}

typedef struct {
    int32_t refusal;
    uint64_t words[QLOCK_LINE_WORDS];
} cut_line;

static cut_line line_cut(const uint8_t *text, size_t len) {
    cut_line r;
    r.refusal = qlock_line_cut(text, len, r.words, QLOCK_LINE_WORDS);
    return r;
}
*/
import "C"

// LockSays is what a voter says of a lock, to a session that has a request for it.
type LockSays struct {
	Kind         LockKind
	Lock         []byte // its name; of a line that was read a part of it
	Stamp        uint64 // of the request
	Milliseconds uint64 // of LockHeld: for how long somebody else has had the vote
}

// LockKind is what a voter's line says of a lock.
type LockKind byte

// The kinds of voters' lines with the name of a lock.
const (
	LockGone LockKind = C.QLOCK_LOCK_GONE // it let the request go
	LockFull LockKind = C.QLOCK_LOCK_FULL // it has no room for the lock
	LockHeld LockKind = C.QLOCK_LOCK_HELD // somebody else has the vote
)

// ReadLockSays reads what a voter says of a lock, without the dot in front. It returns BadMessage if the line is none of these.
func ReadLockSays(line []byte) (LockSays, error) {
	read := C.lock_word_read(at(line), C.size_t(len(line)))
	if err := refusal(read.refusal); err != nil {
		return LockSays{}, err
	}
	w := &read.words
	name := line[w[C.QLOCK_LOCK_NAME] : w[C.QLOCK_LOCK_NAME]+w[C.QLOCK_LOCK_NAME_LEN]]
	return LockSays{Kind: LockKind(w[C.QLOCK_LOCK_KIND]), Lock: name, Stamp: uint64(w[C.QLOCK_LOCK_STAMP]),
		Milliseconds: uint64(w[C.QLOCK_LOCK_TIME])}, nil
}

// Append appends the line, as it is in a message. It returns BadArgument if there is no such line.
func (s LockSays) Append(out []byte) ([]byte, error) {
	out, room := lineRoom(out)
	return appended(out, C.lock_word_write(C.uint8_t(s.Kind), at(s.Lock), C.size_t(len(s.Lock)), C.uint64_t(s.Stamp),
		C.uint64_t(s.Milliseconds), room))
}

// CutLine cuts the first line off a text: the name of a lock, or a dot for a line of control, what is behind the space, and the text
// behind the line. All are parts of the text. It returns false if the text begins with no such line.
func CutLine(text []byte) (name, line, rest []byte, found bool) {
	cut := C.line_cut(at(text), C.size_t(len(text)))
	if cut.refusal != C.QLOCK_DONE {
		return nil, nil, nil, false
	}
	space, behind := cut.words[C.QLOCK_LINE_NAME_LEN], cut.words[C.QLOCK_LINE_REST]
	return text[:space], text[space+1 : behind-1], text[behind:], true
}

// IsLockName returns whether bytes may name a lock: 1 to 64 of A-Z a-z 0-9 _ - . : with no dot first.
func IsLockName(name []byte) bool {
	var yes C.uint32_t
	mustBeDone(C.qlock_is_lock_name(at(name), C.size_t(len(name)), &yes))
	return yes != 0
}
