package wire

import (
	"bytes"
	"errors"
	"strconv"
)

// MostNote is how many bytes a note has at most.
const MostNote = 128

// ErrAsk is returned for a line of which the first word is known, and the rest is wrong.
var ErrAsk = errors.New("wire: a line of control is wrong")

// Ask is what a session says of itself, or wants to know of locks, and that it wants a turn. The proved calls do not know these words, and
// who gets a vote does not depend on them.
type Ask struct {
	Kind   AskKind
	ID     uint64 // of a question, or of Watches: what is said to it has it, too
	Lock   string // a lock's name; of AskNames what names begin with, "" for all; of WantsNumber "" if it is not known
	Number uint64 // of SaysAbout and WantsTurn the stamp of a request; of AskNames where to go on, 0 to begin; of WantsNumber how many stamps
	Grant  uint64 // of WantsTurn: the number of the grant that the request has here
	Top    uint64 // of WantsTurn: up to which number the voter is to skip
	Text   string // a note; of SaysNote "" if there is none; of SaysProcess and SaysRoll the name of a mailbox
	Place  int    // of SaysRoll: the session's place on the roll of its process; of Beats the first one of sixty-four
	Mask   uint64 // of Beats: which of these places
	Sum    uint64 // of Beats: the sum of their entries' numbers
}

// AskKind is what an Ask is.
type AskKind byte

// The kinds of Ask.
const (
	NoAsk       AskKind = iota // the first word is not known
	SaysNote                   // note [TEXT]: of the session
	SaysAbout                  // about LOCK STAMP TEXT: a note of a request
	AskWho                     // who ID LOCK
	AskNames                   // list ID PLACE [PREFIX]
	WantsTurn                  // turn LOCK STAMP GRANT TOP
	WantsFor                   // for LOCK: what a session wants a number for. It is in front of hello, and older voters ignore it
	WantsNumber                // want STAMPS [LOCK]: a claim whose number and epoch the voter fills in. It is as WantsFor; of 0 stamps it is taken back
	SaysProcess                // process NAME: bundles of messages to sessions of this process may go to the mailbox of this name
	Watches                    // watch ID LOCK: for a TTL the voter says each change of who has the lock. Older voters ignore it
	SaysRoll                   // roll NAME PLACE: the session is on the roll of this process, at this place. Older voters ignore it
	Beats                      // beat PLACE MASK SUM: a heartbeat of a process, for the sessions at these places of its roll
)

// MostRoll is how many places the roll of a process has: one for each shard that a cluster may have. A beat is for those of RollShare
// places one behind the other.
const (
	MostRoll  = 1 << 16
	RollShare = 64
)

// Told is what a voter says to an Ask.
type Told struct {
	Kind         ToldKind
	ID           uint64 // of the question, 0 of HasVote that nobody asked for; of HasChanged that of Watches; of Beaten and Unbeaten the count of the beat
	Lock         string
	Top          uint64 // of Turned and HasTurn: up to which number the voter skipped
	Waiting      uint64 // of HasVote and HasChanged: the numbers of those that wait, one bit for each
	IsHeld       bool   // of these: somebody has the vote. Without that there is nothing of what follows
	Number       int    // who has it
	Stamp        uint64 // of its request; of Turned and HasTurn that of the request that has the vote
	Milliseconds uint64 // for how long
	User         string // NoUser if there are no users, or it is not known
	Note         string // "" if there is none
	From, Next   uint64 // of IsListed: the place that was asked for, and where to go on, 0 at the end
	Open         uint64 // of Sessions: how many are open
	Silent       uint64 // of Sessions: for how many milliseconds one of them was silent at most
	Waits        uint64 // of Sessions: for how many milliseconds a request has waited at most
	Ahead        uint64 // of Sessions: how many sessions wait for a number before this one
	Highest      uint64 // of Sessions, where some wait: the highest stamp that any session reserved
	Place        int    // of Rolled, Beaten and Unbeaten: as the Ask has it
	Entry        uint64 // of Rolled: the number of the entry, above those of all entries before
}

// ToldKind is what a Told is.
type ToldKind byte

// The kinds of Told.
const (
	NotTold      ToldKind = iota
	Noted                 // noted: the voter has the session's note
	HasVote               // has ID LOCK WAITING [NUMBER STAMP MS USER [NOTE]]
	IsListed              // listed ID FROM NEXT
	Sessions              // sessions OPEN SILENT WAITS [AHEAD HIGHEST], behind the reply to hello
	Turned                // turned LOCK STAMP TOP
	Free                  // free: a number is, for who waits for one
	Wanted                // wanted: somebody waits for a number
	Bundles               // bundles: the voter reads bundles, and knows the session's process
	HasTurn               // skipped ID LOCK STAMP TOP: who has the vote asked for its turn. It is in front of HasVote, and older clients ignore it
	HasChanged            // holder ID LOCK .., as HasVote: another one has the vote, or its note is another one, for who watches the lock
	Rolled                // rolled PLACE ENTRY: the session is on the roll of its process
	Beaten                // beaten ID PLACE: the voter heard all sessions that the beat was for, and each entry is as it was made
	Unbeaten              // unbeaten ID PLACE: it is not so, and the sessions have to send heartbeats of their own. Older clients ignore it
	SaysUnbeaten          // refuses: the voter says Unbeaten, so what it does not reply to was lost, or comes late. Older clients ignore it
)

// IsNote returns whether a text may be a note: 1 to 128 printable bytes of ASCII, with no space at either end.
func IsNote(text []byte) bool {
	for _, b := range text {
		if b < ' ' || b > '~' {
			return false
		}
	}
	return len(text) > 0 && len(text) <= MostNote && text[0] != ' ' && text[len(text)-1] != ' '
}

// Append appends the line, as it is in a message.
func (a Ask) Append(out []byte) []byte {
	switch a.Kind {
	case SaysNote:
		out = withText(append(out, ". note"...), a.Text)
	case SaysAbout:
		out = withText(withNumber(withText(append(out, ". about"...), a.Lock), a.Number), a.Text)
	case AskWho:
		out = withText(withNumber(append(out, ". who"...), a.ID), a.Lock)
	case AskNames:
		out = withText(withNumber(withNumber(append(out, ". list"...), a.ID), a.Number), a.Lock)
	case WantsFor:
		out = withText(append(out, ". for"...), a.Lock)
	case WantsNumber:
		out = withText(withNumber(append(out, ". want"...), a.Number), a.Lock)
	case SaysProcess:
		out = withText(append(out, ". process"...), a.Text)
	case Watches:
		out = withText(withNumber(append(out, ". watch"...), a.ID), a.Lock)
	case SaysRoll:
		out = withNumber(withText(append(out, ". roll"...), a.Text), uint64(a.Place))
	case Beats:
		out = withNumber(withNumber(withNumber(append(out, ". beat"...), uint64(a.Place)), a.Mask), a.Sum)
	case WantsTurn:
		out = withNumber(withNumber(withNumber(withText(append(out, ". turn"...), a.Lock), a.Number), a.Grant), a.Top)
	}
	return append(out, '\n')
}

// ReadAsk reads such a line, without the dot in front. It returns NoAsk if the first word is not known, and ErrAsk if that is and the
// line is wrong.
func ReadAsk(line []byte) (a Ask, err error) {
	w := wordsOf(line)
	switch string(w.next()) {
	case "note":
		a = Ask{Kind: SaysNote, Text: w.note()}
	case "about":
		a = Ask{Kind: SaysAbout, Lock: w.lock(), Number: w.number(), Text: w.note()}
		w.isWrong = w.isWrong || a.Text == ""
	case "who":
		a = Ask{Kind: AskWho, ID: w.number(), Lock: w.lock()}
	case "list":
		a = Ask{Kind: AskNames, ID: w.number(), Number: w.number()}
		if w.rest != nil {
			a.Lock = w.lock()
		}
	case "turn":
		a = Ask{Kind: WantsTurn, Lock: w.lock(), Number: w.number(), Grant: w.number(), Top: w.number()}
		w.isWrong = w.isWrong || a.Grant > a.Top
	case "for":
		a = Ask{Kind: WantsFor, Lock: w.lock()}
	case "want":
		if a = (Ask{Kind: WantsNumber, Number: w.number()}); w.rest != nil {
			a.Lock = w.lock()
			w.isWrong = w.isWrong || a.Number == 0
		}
	case "watch":
		a = Ask{Kind: Watches, ID: w.number(), Lock: w.lock()}
	case "process":
		a = Ask{Kind: SaysProcess, Text: w.name()}
	case "roll":
		a = Ask{Kind: SaysRoll, Text: w.name(), Place: w.place()}
	case "beat":
		a = Ask{Kind: Beats, Place: w.place(), Mask: w.number(), Sum: w.number()}
		w.isWrong = w.isWrong || a.Place%RollShare != 0 || a.Mask == 0
	default:
		return Ask{}, nil
	}
	if w.isWrong || w.rest != nil {
		return Ask{}, ErrAsk
	}
	return a, nil
}

// Append appends the line, as it is in a message.
func (t Told) Append(out []byte) []byte {
	switch t.Kind {
	case Noted:
		out = append(out, ". noted"...)
	case HasVote:
		out = t.appendHolder(append(out, ". has"...))
	case HasTurn:
		out = withNumber(withNumber(withText(withNumber(append(out, ". skipped"...), t.ID), t.Lock), t.Stamp), t.Top)
	case HasChanged:
		out = t.appendHolder(append(out, ". holder"...))
	case IsListed:
		out = withNumber(withNumber(withNumber(append(out, ". listed"...), t.ID), t.From), t.Next)
	case Sessions:
		out = withNumber(withNumber(withNumber(append(out, ". sessions"...), t.Open), t.Silent), t.Waits)
		if t.Ahead > 0 || t.Highest > 0 {
			out = withNumber(withNumber(out, t.Ahead), t.Highest)
		}
	case Turned:
		out = withNumber(withNumber(withText(append(out, ". turned"...), t.Lock), t.Stamp), t.Top)
	case Free:
		out = append(out, ". free"...)
	case Wanted:
		out = append(out, ". wanted"...)
	case Bundles:
		out = append(out, ". bundles"...)
	case Rolled:
		out = withNumber(withNumber(append(out, ". rolled"...), uint64(t.Place)), t.Entry)
	case Beaten:
		out = withNumber(withNumber(append(out, ". beaten"...), t.ID), uint64(t.Place))
	case Unbeaten:
		out = withNumber(withNumber(append(out, ". unbeaten"...), t.ID), uint64(t.Place))
	case SaysUnbeaten:
		out = append(out, ". refuses"...)
	}
	return append(out, '\n')
}

// appendHolder appends what a line says of who has a vote.
func (t Told) appendHolder(out []byte) []byte {
	out = withNumber(withText(withNumber(out, t.ID), t.Lock), t.Waiting)
	if !t.IsHeld {
		return out
	}
	out = withNumber(withNumber(withNumber(out, uint64(t.Number)), t.Stamp), t.Milliseconds)
	return withText(withText(out, t.User), t.Note)
}

// ReadTold reads such a line, without the dot in front, and returns whether it is one.
func ReadTold(line []byte) (t Told, ok bool) {
	w := wordsOf(line)
	switch string(w.next()) {
	case "noted":
		t = Told{Kind: Noted}
	case "has":
		t = w.holder(HasVote)
	case "skipped":
		t = Told{Kind: HasTurn, ID: w.number(), Lock: w.lock(), Stamp: w.number(), Top: w.number()}
	case "holder":
		t = w.holder(HasChanged)
	case "listed":
		t = Told{Kind: IsListed, ID: w.number(), From: w.number(), Next: w.number()}
	case "sessions":
		if t = (Told{Kind: Sessions, Open: w.number(), Silent: w.number(), Waits: w.number()}); w.rest != nil {
			t.Ahead, t.Highest = w.number(), w.number()
			w.isWrong = w.isWrong || t.Ahead == 0 && t.Highest == 0
		}
	case "turned":
		t = Told{Kind: Turned, Lock: w.lock(), Stamp: w.number(), Top: w.number()}
	case "free":
		t = Told{Kind: Free}
	case "wanted":
		t = Told{Kind: Wanted}
	case "bundles":
		t = Told{Kind: Bundles}
	case "rolled":
		t = Told{Kind: Rolled, Place: w.place(), Entry: w.number()}
		w.isWrong = w.isWrong || t.Entry == 0
	case "beaten":
		t = w.reply(Beaten)
	case "unbeaten":
		t = w.reply(Unbeaten)
	case "refuses":
		t = Told{Kind: SaysUnbeaten}
	default:
		return Told{}, false
	}
	if w.isWrong || w.rest != nil {
		return Told{}, false
	}
	return t, true
}

func withNumber(out []byte, n uint64) []byte { return strconv.AppendUint(append(out, ' '), n, 10) }

// withText appends a word, or none if it is empty.
func withText(out []byte, text string) []byte {
	if text == "" {
		return out
	}
	return append(append(out, ' '), text...)
}

// words are those of a line that were not read yet.
type words struct {
	rest    []byte // nil if there is none
	isWrong bool
}

func wordsOf(line []byte) *words {
	if line == nil {
		line = []byte{}
	}
	return &words{rest: line}
}

// next reads a word. A line that has none is wrong.
func (w *words) next() []byte {
	word, rest, found := bytes.Cut(w.rest, []byte(" "))
	if w.isWrong = w.isWrong || len(word) == 0; !found {
		rest = nil
	}
	w.rest = rest
	return word
}

// number reads a number, which has no leading zero.
func (w *words) number() uint64 {
	word := w.next()
	n, ok := Decimal(word)
	w.isWrong = w.isWrong || !ok || len(word) > 1 && word[0] == '0'
	return n
}

// name reads the name of a mailbox.
func (w *words) name() string {
	word := w.next()
	w.isWrong = w.isWrong || !IsID(word)
	return string(word)
}

// place reads a place on a roll.
func (w *words) place() int {
	place := w.number()
	w.isWrong = w.isWrong || place >= MostRoll
	return int(place % MostRoll)
}

// reply reads what a voter says to a beat.
func (w *words) reply(kind ToldKind) Told {
	t := Told{Kind: kind, ID: w.number(), Place: w.place()}
	w.isWrong = w.isWrong || t.Place%RollShare != 0
	return t
}

// lock reads the name of a lock.
func (w *words) lock() string {
	word := w.next()
	w.isWrong = w.isWrong || !IsName(word)
	return string(word)
}

// note reads all that is left, "" if there is nothing.
func (w *words) note() string {
	text := w.rest
	if w.rest = nil; text != nil && !IsNote(text) {
		w.isWrong = true
	}
	return string(text)
}

// holder reads what a line says of who has a vote.
func (w *words) holder(kind ToldKind) Told {
	t := Told{Kind: kind, ID: w.number(), Lock: w.lock(), Waiting: w.number()}
	if t.IsHeld = w.rest != nil; t.IsHeld {
		number := w.number()
		t.Number, t.Stamp, t.Milliseconds, t.User, t.Note = int(number&63), w.number(), w.number(), string(w.next()), w.note()
		w.isWrong = w.isWrong || number > 63 || !isSpeaker(t.User)
	}
	return t
}
