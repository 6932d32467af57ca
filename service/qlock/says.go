package qlock

/*
#include "qlock.h"

typedef struct {
    int32_t refusal;
    uint64_t words[QLOCK_CLIENT_WORDS];
} client_words;

static client_words client_word_read(const uint8_t *line, size_t len) {
    client_words r;
    r.refusal = qlock_client_word_read(line, len, r.words, QLOCK_CLIENT_WORDS);
    return r;
}

static int64_t client_word_write(uint8_t kind, uint8_t number, uint64_t first, uint64_t second, uint8_t *out) {
    size_t n = 0;
    int32_t refusal = qlock_client_word_write(kind, number, first, second, out, QLOCK_LINE_OUT, &n);
    return refusal ? -(int64_t)refusal : (int64_t)n;
}

typedef struct {
    int32_t refusal;
    uint64_t words[QLOCK_VOTER_WORDS];
} voter_words;

static voter_words voter_word_read(const uint8_t *line, size_t len) {
    voter_words r;
    r.refusal = qlock_voter_word_read(line, len, r.words, QLOCK_VOTER_WORDS);
    return r;
}

static int64_t voter_word_write(uint8_t kind, uint8_t number, uint64_t first, uint64_t second, uint64_t third, uint64_t fourth,
                                uint64_t fifth, uint8_t *out) {
    size_t n = 0;
    int32_t refusal = qlock_voter_word_write(kind, number, first, second, third, fourth, fifth, out, QLOCK_LINE_OUT, &n);
    return refusal ? -(int64_t)refusal : (int64_t)n;
}
*/
import "C"

// ClientSays is what a session of a client says in a line of control: its kind, and the numbers that such a line has.
type ClientSays struct {
	Kind          ClientKind
	Number        int    // of the client
	First, Second uint64 // of open: a plan; of a claim: the epoch, and how many stamps; of drop: the epoch
}

// ClientKind is what a client's line of control says.
type ClientKind byte

// The kinds of clients' lines of control.
const (
	SaysUnknown ClientKind = C.QLOCK_SAYS_UNKNOWN // the first word is not known: it is ignored
	Hello       ClientKind = C.QLOCK_HELLO
	AskPlan     ClientKind = C.QLOCK_PLAN
	Open        ClientKind = C.QLOCK_OPEN
	Close       ClientKind = C.QLOCK_CLOSE
	ClaimNone   ClientKind = C.QLOCK_CLAIM
	ClaimStamps ClientKind = C.QLOCK_CLAIM_STAMPS
	Drop        ClientKind = C.QLOCK_DROP
	Greet       ClientKind = C.QLOCK_GREET
)

// ReadClientSays reads a line of control of a client, without the dot in front. It returns BadMessage if the first word is known,
// and the line is wrong.
func ReadClientSays(line []byte) (ClientSays, error) {
	read := C.client_word_read(at(line), C.size_t(len(line)))
	if err := refusal(read.refusal); err != nil {
		return ClientSays{}, err
	}
	w := &read.words
	return ClientSays{Kind: ClientKind(w[0]), Number: int(w[1]), First: uint64(w[2]), Second: uint64(w[3])}, nil
}

// Append appends the line, as it is in a message. It returns BadArgument if there is no such line.
func (s ClientSays) Append(out []byte) ([]byte, error) {
	if s.Number < 0 || s.Number >= MaxClients {
		return out, BadArgument
	}
	out, room := lineRoom(out)
	return appended(out, C.client_word_write(C.uint8_t(s.Kind), C.uint8_t(s.Number), C.uint64_t(s.First), C.uint64_t(s.Second), room))
}

// VoterSays is what a voter says in a line of control that has numbers only: its kind, and the numbers that such a line has.
type VoterSays struct {
	Kind          VoterKind
	Number        int    // of the client; of run: the place of a voter
	First         uint64 // the epoch; of quiet: milliseconds; of run: how often that voter was made again
	Second        uint64 // of number: 0 taken, 1 free, 2 silent; of claimed and opened: the base
	Third         uint64 // of claimed and opened: what is reserved
	Fourth, Fifth uint64 // of opened: which heartbeat, and how many requests
}

// VoterKind is what a voter's line of control says.
type VoterKind byte

// The kinds of voters' lines of control.
const (
	NumberIs VoterKind = C.QLOCK_NUMBER
	Claimed  VoterKind = C.QLOCK_CLAIMED
	Denied   VoterKind = C.QLOCK_DENIED
	Opened   VoterKind = C.QLOCK_OPENED
	Closed   VoterKind = C.QLOCK_CLOSED
	Taken    VoterKind = C.QLOCK_TAKEN
	Unknown  VoterKind = C.QLOCK_UNKNOWN
	Quiet    VoterKind = C.QLOCK_QUIET
	Leaving  VoterKind = C.QLOCK_LEAVING
	Greeted  VoterKind = C.QLOCK_GREETED
	RunIs    VoterKind = C.QLOCK_RUN
)

// ReadVoterSays reads a line of control of a voter, without the dot in front. It returns BadMessage if it is none with numbers only.
func ReadVoterSays(line []byte) (VoterSays, error) {
	read := C.voter_word_read(at(line), C.size_t(len(line)))
	if err := refusal(read.refusal); err != nil {
		return VoterSays{}, err
	}
	w := &read.words
	return VoterSays{Kind: VoterKind(w[0]), Number: int(w[1]), First: uint64(w[2]), Second: uint64(w[3]), Third: uint64(w[4]),
		Fourth: uint64(w[5]), Fifth: uint64(w[6])}, nil
}

// Append appends the line, as it is in a message. It returns BadArgument if there is no such line.
func (s VoterSays) Append(out []byte) ([]byte, error) {
	if s.Number < 0 || s.Number >= MaxClients {
		return out, BadArgument
	}
	out, room := lineRoom(out)
	return appended(out, C.voter_word_write(C.uint8_t(s.Kind), C.uint8_t(s.Number), C.uint64_t(s.First), C.uint64_t(s.Second),
		C.uint64_t(s.Third), C.uint64_t(s.Fourth), C.uint64_t(s.Fifth), room))
}
