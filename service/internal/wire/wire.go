// Package wire has the messages between voters, clients and operators: a header line, and lines of locks, "LOCK LINE",
// or of control, ". WORDS". One message may have the lines of many locks.
//
//	qlock2 CLUSTER COTERIE c NUMBER EPOCH RESERVED SESSION SEQ     from a client's session
//	qlock2 CLUSTER COTERIE v NUMBER RUN START IDENTITY LAPSES      from a voter
//	qlock2 CLUSTER COTERIE o NAME                                  from an operator: the name of a question
//
// Behind these there may be level=LEVEL of clients and voters (package level), and then words KEY=VALUE. Who does not know a key
// ignores it, and so it is with words of control. There is one space between two words, and no number has a leading zero. The
// names CLUSTER, COTERIE, IDENTITY and NAME are 1 to 64 of A-Z a-z 0-9 _ - and SESSION is 1 to 32 of them.
//
// The header, the lines of a message, and lines of control that have numbers only or the name of a lock ("gone", "full", "held") are
// read and written by proved calls of libqlock (package qlock): each is read if and only if it is there, and what is written is read
// back. LOCK is 1 to 64 of A-Z a-z 0-9 _ - . : with no dot first. Mailboxes, what a line of a lock says as a client or a voter here
// reads it, and lines of control with a text ("generation", "plan" of a voter, "marker", and those of asks.go) are not proved.
//
// COTERIE is a part of the SHA-256 of the TTL, the coterie, and how often the plan was exchanged. RUN is how often the voter was made
// again after its state was lost, and START how often its process started. LAPSES counts how often the voter let a grant of the
// session go since it was silent. Lines of control, and the replies:
//
//	hello         number N EPOCH STATE for each number: 0 taken, 1 free, 2 its session is silent, and
//	              sessions OPEN SILENT-MS WAITS-MS [AHEAD HIGHEST]: how many, and the longest silence and wait of a
//	              request; where some wait for a number, how many do before this one, and the highest reserved stamp
//	claim N EPOCH STAMPS   claimed N EPOCH BASE RESERVED, or refused N EPOCH; it reserves so many
//	              stamps above BASE, none without STAMPS
//	for LOCK      none: for which lock hello wants a number. It comes in front of hello
//	want STAMPS LOCK   claimed N EPOCH BASE RESERVED, in front of the replies to hello, and none of these is of N then: a claim
//	              whose number and epoch the voter fills in, if numbers are free and nobody waits for one. It comes in
//	              front of hello, and without LOCK if none is known. Of 0 STAMPS it gives back what a want brought and
//	              under which nothing came
//	drop N EPOCH  none: a claim had no quorum
//	open PLAN     opened N EPOCH BASE RESERVED SEQ REQUESTS, and after an exchange generation PLAN
//	              COTERIE OLDEST. This is the heartbeat; PLAN is the number of the oldest plan of
//	              which a request is left
//	plan          plan PLAN COTERIE-TEXT PLAN-TEXT
//	close         closed N EPOCH
//	greet         greeted, from a level on
//	note TEXT     noted: what the session says of itself, nothing without TEXT
//	about LOCK STAMP TEXT  none: what it says of one request
//	who ID LOCK   has ID LOCK WAITING NUMBER STAMP MS USER NOTE: who has the voter's vote, for how long, and
//	              the numbers that wait, one bit for each. It ends behind WAITING if nobody has it, and behind
//	              USER if he has no note. In front of it comes skipped ID LOCK STAMP TOP if he asked for his turn
//	watch ID LOCK none, and then for a TTL "holder ID LOCK ..", as has, whenever another one has the voter's vote, or the note is
//	              another one. It is said again and again
//	list ID PLACE PREFIX   has ID .. for some locks, and listed ID PLACE NEXT; 0 begins, and is the end
//	turn LOCK STAMP GRANT TOP  turned LOCK STAMP TOP: the voter skipped the numbers of the lock's grants up to TOP, and saved
//	              that. None if the request of this stamp does not have the vote by the grant of this number
//
// A TEXT is 1 to 128 printable bytes of ASCII. None of the last six words decides who has a vote (asks.go); "turn" decides how the next
// grants are numbered. Who has no number may say "who", "watch" and "list", too.
//
// A voter also sends "gone LOCK STAMP" when it let a request go, "full LOCK STAMP" if it has no
// room for the lock of a REQUEST, or for another one of its user, "taken N EPOCH" to a session that is over, and "unknown N EPOCH"
// to one that has to claim its number there. From such a session it takes nothing else. A REQUEST's stamp
// is above BASE and at most RESERVED, and no line of a lock has one above RESERVED.
//
// A client that is inside has the word "inside" behind its REQUEST. A voter that starts, and may not
// know whom it granted its votes, is quiet for a TTL: it takes no REQUEST but of who is inside, and
// says "quiet MS" to others. A vote stays quiet while one waits for it who said then that he is
// inside. A client that does not want to wait for somebody has the word "try" there: to it a voter
// says "held LOCK STAMP MS" if somebody else has the vote, and for how long, and "has 0 LOCK .." before.
//
// Voters speak to one another in mailboxes of their own, a line of JSON behind the header (package
// voter, peers.go).
//
// A voter that ends by a signal says "leaving" to all sessions. Where all numbers of a shard are in use it shows a free one to who waits
// longest for it, says "free" to him, and "wanted" to the sessions of the shard: those that want nothing give their numbers back.
//
// In a cluster with shards the name of a session begins with the number of its shard, and "-". It is the mark's, too, how many there are.
//
// The last word of a mailbox says who speaks, and a broker with users lets nobody else send to it:
//
//	qlock.CLUSTER.v.VOTER.USER             what a user's sessions say to a voter
//	qlock.CLUSTER.c.USER.SESSION.VOTER     what a voter says to a session
//	qlock.CLUSTER.p.VOTER.VOTER            what the second voter says to the first one
//	qlock.CLUSTER.read.VOTER.OPERATOR      what an operator wants to know of a voter
//	qlock.CLUSTER.write.VOTER.OPERATOR     what an operator wants done; few may publish to it
//	qlock.CLUSTER.o.OPERATOR.NAME.VOTER    a voter's reply to a question with this name
//
// A message of which the header names another voter than the mailbox is dropped. The user of a
// session is that of the mailbox. Without users it is "-".
//
// A voter sends a marker to itself, from time to time: "marker NUMBER WORD". What was sent to it
// before comes before the marker.
//
// One message to a voter may be a bundle: several messages of sessions of one user, with an empty line between two (bundle.go). A session
// says "process NAME" for that, and a voter that reads bundles says "bundles". From then on sessions of the process send it bundles, and it
// sends what it says to sessions of the process at one time to the mailbox of a session of that name, as a bundle. There the first line of
// each message is "to SESSION". Who does not know these words ignores them, and neither sends bundles nor gets any.
//
// A session says "roll NAME PLACE" besides, and a voter "rolled PLACE ENTRY". From then on a message of the process, with its name and no
// number in the header, may stand for heartbeats of such sessions: "beat PLACE MASK SUM" for those at sixty-four places, and the voter says
// "beaten SEQ PLACE" to the process if it heard all of them (asks.go).
//
// A message has at most 256 KiB and a little more, one "hello", one "plan", and 16 lines of
// control. It ends at its first line that can't be right.
package wire

import (
	"bytes"
	"errors"
	"fmt"
	"math"
	"strings"

	"calvundek.example/service/qlock"
)

// MostBytes is how long a message may be: a quarter of what NATS takes.
const MostBytes = 256 << 10

// ErrForeign is returned for a message that is not of this protocol.
var ErrForeign = errors.New("wire: no message of this protocol")

// Kind says what a sender is.
type Kind byte

// The kinds of senders.
const (
	FromClient   Kind = 'c'
	FromVoter    Kind = 'v'
	FromOperator Kind = 'o'
)

// Header says who sends a message.
type Header struct {
	Cluster, Coterie string // the cluster's name, and the hash of its coterie
	Kind             Kind
	Number           int    // of a client or a voter
	Epoch            uint64 // of a client: which session of its number it is, 0 while it has none
	Reserved         uint64 // of a client: no stamp of the session is greater
	Seq              uint64 // of a client: counts its heartbeats
	Run              uint64 // of a voter: how often it was made again, after its state was lost
	Start            uint64 // of a voter: how often its process started
	Level            uint64 // of a voter: the cluster's level; of a client: the newest one that it knows; 0 if it says none
	Lapses           uint64 // of a voter: how often it let a grant of the session go
	Name             string // of a session or a question, or a voter's identity
}

// Append appends the header's line. It panics if the header has none: a name is no name, or a number is too great.
func (h Header) Append(out []byte) []byte {
	w := qlock.WrittenHeader{Kind: byte(h.Kind), Number: h.Number, First: h.Epoch, Second: h.Reserved, Third: h.Seq, Level: h.Level,
		Cluster: h.Cluster, Coterie: h.Coterie, Name: h.Name}
	if h.Kind == FromVoter {
		w.First, w.Second, w.Third = h.Run, h.Start, h.Lapses
	}
	out, err := w.Append(out)
	if err != nil {
		panic(fmt.Sprintf("wire: %+v has no line: %v", h, err))
	}
	return out
}

// Read reads the header of a message, and returns the lines behind it.
func Read(message []byte) (h Header, lines []byte, err error) {
	r, err := qlock.HeaderOf(message)
	if err != nil {
		return h, nil, ErrForeign
	}
	h = Header{Cluster: string(r.Cluster), Coterie: string(r.Coterie), Kind: Kind(r.Kind), Number: r.Number, Level: r.Level,
		Name: string(r.Name)}
	switch h.Kind {
	case FromClient:
		h.Epoch, h.Reserved, h.Seq = r.First, r.Second, r.Third
	case FromVoter:
		h.Run, h.Start, h.Lapses = r.First, r.Second, r.Third
	}
	return h, r.Lines, nil
}

// Next returns the first of these lines, as the lock's name or "." and what is behind the space, and the other lines. It finds none if
// there is none, and if the first one can't be right.
func Next(lines []byte) (lock, line, rest []byte, found bool) { return qlock.CutLine(lines) }

// Split hands lines to a function as messages with this header, none of them much longer than MostBytes. Each begins with the first lines. A
// line that is longer by itself has a message of its own.
func (h Header) Split(first, lines []byte, send func(message []byte)) {
	for len(lines) > 0 {
		end := len(lines)
		if end > MostBytes {
			end = bytes.LastIndexByte(lines[:MostBytes], '\n') + 1
		}
		if end == 0 {
			end = bytes.IndexByte(lines, '\n') + 1
		}
		if end == 0 {
			end = len(lines)
		}
		message := append(h.Append(make([]byte, 0, qlock.LineRoom+len(first)+end)), first...)
		send(append(message, lines[:end]...))
		lines = lines[end:]
	}
}

// Number returns the small number in a word, -1 if there is none.
func Number(word []byte) int {
	n, ok := Decimal(word)
	if !ok || n > math.MaxInt32 {
		return -1
	}
	return int(n)
}

// Decimal reads a number of 64 bits. It is called for each word of each line, so it makes no string.
func Decimal(word []byte) (n uint64, ok bool) {
	for _, digit := range word {
		if digit -= '0'; digit > 9 || n > (math.MaxUint64-uint64(digit))/10 {
			return 0, false
		}
		n = 10*n + uint64(digit)
	}
	return n, len(word) > 0
}

// Line is what a line of the automata says.
type Line struct {
	Word     []byte // what it is, as "request"
	From, To int    // who sent it, and whom it is for; both are -1 if it is no such line
	Stamp    uint64 // the stamp that comes first, the grant of INQUIRE and RELINQUISH; 0 if there is none
	Grant    uint64 // the number behind it, of a LOCKED that of its grant; 0 if there is none
}

// ReadLine reads a line of the automata, with or without its end.
func ReadLine(line []byte) Line {
	word, rest, _ := bytes.Cut(bytes.TrimSuffix(line, []byte("\n")), []byte(" "))
	from, rest, _ := bytes.Cut(rest, []byte(" "))
	to, rest, found := bytes.Cut(rest, []byte(" "))
	if !found {
		return Line{Word: word, From: -1, To: -1}
	}
	stamp, rest, _ := bytes.Cut(rest, []byte(" "))
	grant, _, _ := bytes.Cut(rest, []byte(" "))
	l := Line{Word: word, From: Number(from), To: Number(to)}
	l.Stamp, _ = Decimal(stamp)
	l.Grant, _ = Decimal(grant)
	return l
}

// IsName returns whether a word may name a lock: 1 to 64 of A-Z a-z 0-9 _ - . : with no dot first.
func IsName(name []byte) bool { return qlock.IsLockName(name) }

// IsID returns whether a word may name a cluster, a part of a subject: 1 to 32 of A-Z a-z 0-9 _ -
func IsID(name []byte) bool { return len(name) > 0 && len(name) <= 32 && only(name, "_-") }

// IsUser returns whether a word may name a user, a part of a subject: as that of a cluster, with a letter first.
func IsUser(name []byte) bool { return IsID(name) && isLetter(name[0]) }

func isLetter(b byte) bool { return b >= 'a' && b <= 'z' || b >= 'A' && b <= 'Z' }

// only returns whether a word has letters, digits and these marks only.
func only(word []byte, marks string) bool {
	for _, b := range word {
		if !isLetter(b) && (b < '0' || b > '9') && strings.IndexByte(marks, b) < 0 {
			return false
		}
	}
	return true
}

// NoUser is the user where there are none, as on one machine.
const NoUser = "-"

// SessionName returns what a voter calls a session, or a question: its user, and the name in its
// header. So no user has a session of another one.
func SessionName(user, name string) string { return user + "." + name }

// IsSession returns whether a user and a word name a session.
func IsSession(user, name string) bool { return isSpeaker(user) && IsID([]byte(name)) }

// IsQuestion returns whether an operator, or a voter by its number, and a word name a question.
func IsQuestion(from, name string) bool {
	return (isSpeaker(from) || IsVoter(from)) && IsID([]byte(name))
}

func isSpeaker(user string) bool { return user == NoUser || IsUser([]byte(user)) }

// VoterBox returns the mailbox in which a voter takes what a user says, or, by its number, it itself.
func VoterBox(cluster string, voter int, from string) string {
	return fmt.Sprintf("qlock.%s.v.%d.%s", cluster, voter, from)
}

// VoterBoxes returns all mailboxes in which a voter takes what users say.
func VoterBoxes(cluster string, voter int) string { return VoterBox(cluster, voter, "*") }

// PeerBox returns the mailbox in which a voter takes what another one says.
func PeerBox(cluster string, to, from int) string {
	return fmt.Sprintf("qlock.%s.p.%d.%d", cluster, to, from)
}

// PeerBoxes returns all mailboxes in which a voter takes what others say.
func PeerBoxes(cluster string, to int) string { return fmt.Sprintf("qlock.%s.p.%d.*", cluster, to) }

// IsVoter returns whether a word is the number of a voter.
func IsVoter(word string) bool {
	number := Number([]byte(word))
	return number >= 0 && number < 64 && fmt.Sprint(number) == word
}

// IsRead returns whether what is asked changes nothing, and shows nothing of sessions that only voters need.
func IsRead(from, words string) bool {
	switch word, _, _ := strings.Cut(words, " "); word {
	case "status", "sessions", "votes", "lock":
		return true
	case "knows":
		return IsVoter(from)
	}
	return false
}

// ReadBox returns the mailbox in which a voter takes what somebody wants to know.
func ReadBox(cluster string, voter int, from string) string {
	return fmt.Sprintf("qlock.%s.read.%d.%s", cluster, voter, from)
}

// WriteBox returns the mailbox in which a voter takes what an operator wants done.
func WriteBox(cluster string, voter int, from string) string {
	return fmt.Sprintf("qlock.%s.write.%d.%s", cluster, voter, from)
}

// SessionBox returns the mailbox in which a session takes what a voter says.
func SessionBox(cluster, session string, from int) string {
	return fmt.Sprintf("qlock.%s.c.%s.%d", cluster, session, from)
}

// SessionBoxes returns all mailboxes in which a session takes what voters say.
func SessionBoxes(cluster, session string) string { return "qlock." + cluster + ".c." + session + ".*" }

// ReplyBox returns the mailbox in which an operator takes what a voter replies to a question, which has a name as a
// session has.
func ReplyBox(cluster, question string, from int) string {
	return fmt.Sprintf("qlock.%s.o.%s.%d", cluster, question, from)
}

// ReplyBoxes returns all mailboxes in which an operator takes replies to a question.
func ReplyBoxes(cluster, question string) string { return "qlock." + cluster + ".o." + question + ".*" }
