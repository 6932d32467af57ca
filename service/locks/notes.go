package locks

// What a session says of itself: its host, its process, its user of the system, and a text of the program. Voters keep it in memory, show
// it to whoever asks who has a lock, and decide nothing by it. A session says it with its first heartbeat, again until a voter says that
// it has it, and again to one that started. A voter that never says so is of an older program: then it hears less and less of it.

import (
	"context"
	"math/bits"
	"os"
	"os/user"
	"strconv"
	"strings"
	"time"

	"calvundek.example/service/internal/wire"
)

// mostAsks is how many lines of control one turn sends to a voter besides those of the session: a voter takes sixteen of a message.
const mostAsks = 8

// The note of a lock that is held is said again, as the line may be lost: after two heartbeats at first, and then less and less often.
const (
	firstAgain = 2
	lastAgain  = 128
)

// due says with which heartbeat a voter hears the note of a lock again, and how many there were since the last time.
type due struct{ at, pause uint64 }

// For says for whom a lock is taken: what Who shows of it, in place of what it shows of the session.
type For struct {
	Note  string // in place of Config.Note
	Pid   int    // of the process that uses the lock, if it is another one, as that of an agent's caller is
	Login string // its user of the system
}

// LockFor is Lock, with a note of its own. With Config.NoNote it has only what is said here.
func (c *Client) LockFor(ctx context.Context, name string, whom For) (*Held, error) {
	return c.lock(ctx, name, &waiter{note: c.noteFor(whom)})
}

// TryLockFor is TryLock, with a note of its own.
func (c *Client) TryLockFor(ctx context.Context, name string, whom For) (*Held, error) {
	return c.lock(ctx, name, &waiter{tries: true, note: c.noteFor(whom)})
}

// noteFor returns the note of a lock.
func (c *Client) noteFor(whom For) string {
	host, process, login := "", "", whom.Login
	if whom.Pid != 0 {
		process = strconv.Itoa(whom.Pid)
	}
	if !c.config.NoNote {
		own := strings.SplitN(c.ownNote, " ", 4)
		if host = own[0]; process == "" && login == "" {
			process, login = own[1], own[2]
		}
	}
	return noteOf(host, process, login, whom.Note)
}

// ownNote returns the note of this process, with a text.
func ownNote(text string) string {
	host, _ := os.Hostname()
	login := strconv.Itoa(os.Getuid())
	if who, err := user.Current(); err == nil {
		login = who.Username
	}
	return noteOf(host, strconv.Itoa(os.Getpid()), login, text)
}

// noteOf returns a note of three words and a text, of 128 printable bytes of ASCII at most. What is not printable is a question mark.
func noteOf(host, process, login, text string) string {
	words := []string{oneWord(host), oneWord(process), oneWord(login), strings.TrimSpace(printable(text))}
	note := strings.TrimSpace(strings.Join(words, " "))
	if len(note) > wire.MostNote {
		note = strings.TrimSpace(note[:wire.MostNote])
	}
	return note
}

// oneWord returns a word of at most 40 bytes, "-" if there is none.
func oneWord(text string) string {
	text = strings.ReplaceAll(printable(text), " ", "?")
	if text == "" {
		return "-"
	}
	if len(text) > 40 {
		text = text[:40]
	}
	return text
}

// printable returns a text with a question mark for each character that is not printable ASCII.
func printable(text string) string {
	return strings.Map(func(r rune) rune {
		if r < ' ' || r > '~' {
			return '?'
		}
		return r
	}, text)
}

// readNote puts what a note says into a Holder.
func (h *Holder) readNote(note string) {
	words := append(strings.SplitN(note, " ", 4), "", "", "", "")
	for i, into := range []*string{&h.Host, nil, &h.Login, &h.Note} {
		if word := words[i]; into == nil {
			h.Pid, _ = strconv.Atoi(word)
		} else if *into = word; word == "-" && i < 3 {
			*into = ""
		}
	}
}

// sayNotes says the session's note to a voter that knows the session and does not have it, with a heartbeat, and those of locks that are
// held.
func (c *Client) sayNotes(voter int, now time.Time) {
	p := &c.peers[voter]
	if !p.accepts || now.Sub(p.heard) > c.config.FailOver {
		return
	}
	if !p.noted {
		if p.notes++; p.notes&(p.notes-1) == 0 { // the first time, the second, the fourth..
			c.out[voter] = wire.Ask{Kind: wire.SaysNote, Text: c.ownNote}.Append(c.out[voter])
		}
		return
	}
	for l := range c.busy {
		if c.isNoteDue(l, voter) {
			c.sayAbout(l.held, voter)
		}
	}
}

// isNoteDue returns whether a voter hears the note of a lock with the next heartbeat.
func (c *Client) isNoteDue(l *lock, voter int) bool {
	return l.held != nil && l.held.note != "" && l.held.quorum>>voter&1 == 1 && c.header.Seq >= l.held.noteDue[voter].at
}

// owesNote returns whether the next heartbeat to a voter has a note.
func (c *Client) owesNote(voter int) bool {
	if !c.peers[voter].noted {
		return true
	}
	for l := range c.busy {
		if c.isNoteDue(l, voter) {
			return true
		}
	}
	return false
}

// sayAbout says the note of a lock that is held to a voter, if this turn has room for it. What is left out the next heartbeats say.
func (c *Client) sayAbout(h *Held, voter int) {
	if !c.peers[voter].noted || !c.hasRoom(voter, 1) {
		return
	}
	again := due{pause: 2 * h.noteDue[voter].pause}
	switch {
	case again.pause == 0:
		again.pause = firstAgain
	case again.pause > lastAgain:
		again.pause = lastAgain
	}
	again.at = c.header.Seq + again.pause
	h.noteDue[voter] = again
	c.out[voter] = wire.Ask{Kind: wire.SaysAbout, Lock: h.lock.name, Number: h.stamp, Text: h.note}.Append(c.out[voter])
}

// sayAboutToAll says the note of a lock that was just got.
func (c *Client) sayAboutToAll(h *Held) {
	for rest := h.quorum; h.note != "" && rest != 0; rest &= rest - 1 {
		c.sayAbout(h, bits.TrailingZeros64(rest))
	}
}

// hasRoom counts lines that one turn sends to a voter, and returns whether there may be as many more.
func (c *Client) hasRoom(voter, lines int) bool {
	if c.sent[voter]+lines > mostAsks {
		return false
	}
	c.sent[voter] += lines
	return true
}

// forgetNotes notes that a voter may have no note: it started.
func (c *Client) forgetNotes(voter int) {
	c.peers[voter].noted, c.peers[voter].notes = false, 0
	for l := range c.busy {
		if l.held != nil {
			delete(l.held.noteDue, voter)
		}
	}
}
