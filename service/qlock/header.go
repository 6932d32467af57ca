package qlock

/*
#include "qlock.h"

typedef struct {
    int32_t refusal;
    uint64_t words[QLOCK_HEADER_WORDS];
} read_header;

static read_header header_read(const uint8_t *message, size_t n) {
    read_header r;
    r.refusal = qlock_header_read(message, n, r.words, QLOCK_HEADER_WORDS);
    return r;
}

// No name may be at null, so an empty one is at another place.
static const uint8_t *bytes_of(_GoString_ text) {
    return _GoStringLen(text) ? (const uint8_t *)_GoStringPtr(text) : (const uint8_t *)"";
}

static int64_t header_write(uint8_t kind, uint8_t number, uint64_t first, uint64_t second, uint64_t third, uint64_t level,
                            _GoString_ cluster, _GoString_ coterie, _GoString_ name, uint8_t *out) {
    size_t n = 0;
    int32_t refusal = qlock_header_write(kind, number, first, second, third, level, bytes_of(cluster), _GoStringLen(cluster),
                                         bytes_of(coterie), _GoStringLen(coterie), bytes_of(name), _GoStringLen(name), out,
                                         QLOCK_LINE_OUT, &n);
    return refusal ? -(int64_t)refusal : (int64_t)n;
}
*/
import "C"

// LineRoom is how many bytes are always enough for the line of a header, and for a line of control.
const LineRoom = C.QLOCK_LINE_OUT

// ReadHeader is the header of a message that was read. Its names and its lines are parts of the message.
type ReadHeader struct {
	Kind                   byte // of the sender: a client 'c', a voter 'v', or an operator 'o'
	Number                 int  // of a client or a voter
	First, Second, Third   uint64
	Level                  uint64 // 0 if the header says none
	Cluster, Coterie, Name []byte
	Lines                  []byte // behind the header
}

// HeaderOf reads the header of a message. It returns BadMessage if the message begins with none.
func HeaderOf(message []byte) (h ReadHeader, err error) {
	read := C.header_read(at(message), C.size_t(len(message)))
	if err = refusal(read.refusal); err != nil {
		return h, err
	}
	w := &read.words
	part := func(place int) []byte { return message[w[place] : w[place]+w[place+1]] }
	return ReadHeader{Kind: byte(w[C.QLOCK_HEADER_KIND]), Number: int(w[C.QLOCK_HEADER_NUMBER]),
		First: uint64(w[C.QLOCK_HEADER_FIRST]), Second: uint64(w[C.QLOCK_HEADER_SECOND]), Third: uint64(w[C.QLOCK_HEADER_THIRD]),
		Level: uint64(w[C.QLOCK_HEADER_LEVEL]), Cluster: part(C.QLOCK_HEADER_CLUSTER), Coterie: part(C.QLOCK_HEADER_COTERIE),
		Name: part(C.QLOCK_HEADER_NAME), Lines: message[w[C.QLOCK_HEADER_LINES]:]}, nil
}

// WrittenHeader is the header of a message to write. Of an operator the numbers say nothing.
type WrittenHeader struct {
	Kind                   byte
	Number                 int
	First, Second, Third   uint64
	Level                  uint64
	Cluster, Coterie, Name string
}

// Append appends the header's line. It returns BadArgument if the kind is none, a name is no name, or the number of a client
// or a voter is above 63.
func (h WrittenHeader) Append(out []byte) ([]byte, error) {
	if h.Kind == 'o' {
		h.Number = 0
	}
	if h.Number < 0 || h.Number >= MaxClients {
		return out, BadArgument
	}
	out, room := lineRoom(out)
	return appended(out, C.header_write(C.uint8_t(h.Kind), C.uint8_t(h.Number), C.uint64_t(h.First), C.uint64_t(h.Second),
		C.uint64_t(h.Third), C.uint64_t(h.Level), h.Cluster, h.Coterie, h.Name, room))
}

// lineRoom returns the bytes with room for a line, and where that room begins.
func lineRoom(out []byte) ([]byte, *C.uint8_t) {
	out = grown(out, LineRoom)
	return out, at(out[len(out) : len(out)+LineRoom])
}
