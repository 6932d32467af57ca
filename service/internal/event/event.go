// Package event writes log lines: one line an event, with key=value.
package event

import (
	"fmt"
	"io"
	"os"
	"strconv"
	"strings"
	"sync"
	"syscall"
	"time"
)

// Level is how much an event matters.
type Level int

// The levels. The one that is 0 is that of a log to which nobody gave another one.
const (
	Debug   Level = iota - 1 // of use to who looks for a fault
	Info                     // what is as it should be
	Warning                  // a lock may have been lost, or something is missing
	Error                    // somebody has to do something
)

// words are the words of the levels, from the least on, and priorities those of syslog.
var (
	words      = []string{"debug", "info", "warning", "error"}
	priorities = []int{7, 6, 4, 3}
)

// String returns the word of a level.
func (l Level) String() string { return words[l-Debug] }

// UnmarshalText reads the word of a level.
func (l *Level) UnmarshalText(text []byte) error {
	for i, word := range words {
		if word == string(text) {
			*l = Level(i) + Debug
			return nil
		}
	}
	return fmt.Errorf("a level is one of %s", strings.Join(words, ", "))
}

// Log writes events to a writer. Several goroutines may use it at once.
type Log struct {
	mutex     sync.Mutex
	out       io.Writer
	least     Level
	isJournal bool // each line begins with the priority that systemd reads
}

// To returns a log that writes to a writer.
func To(out io.Writer) *Log { return &Log{out: out} }

// Stderr is the log on standard error.
var Stderr = &Log{out: os.Stderr, isJournal: isJournal(os.Stderr, os.Getenv("JOURNAL_STREAM"))}

// isJournal returns whether a file is the stream to systemd's journal that a variable names.
func isJournal(file *os.File, stream string) bool {
	info, err := file.Stat()
	if err != nil {
		return false
	}
	status, is := info.Sys().(*syscall.Stat_t)
	return is && stream == fmt.Sprintf("%d:%d", status.Dev, status.Ino)
}

// SetLeast lets out events of lower levels from now on.
func (l *Log) SetLeast(least Level) {
	l.mutex.Lock()
	defer l.mutex.Unlock()
	l.least = least
}

// Priority returns what begins a line of a level: nothing unless the log is the journal.
func (l *Log) Priority(level Level) string {
	if !l.isJournal {
		return ""
	}
	return fmt.Sprintf("<%d>", priorities[level-Debug])
}

// Write writes an event and its pairs of a key and a value: level=LEVEL event=NAME key=value ..
func (l *Log) Write(level Level, name string, pairs ...interface{}) {
	l.mutex.Lock()
	defer l.mutex.Unlock()
	if level < l.least {
		return
	}
	var line strings.Builder
	line.WriteString(l.Priority(level) + "time=" + time.Now().UTC().Format("2006-01-02T15:04:05.000Z"))
	line.WriteString(" level=" + level.String() + " event=" + name)
	for i := 0; i+1 < len(pairs); i += 2 {
		fmt.Fprintf(&line, " %v=%s", pairs[i], quoted(fmt.Sprint(pairs[i+1])))
	}
	line.WriteString("\n")
	_, _ = io.WriteString(l.out, line.String())
}

// quoted quotes a value if it would not stay one word on one line.
func quoted(value string) string {
	if value == "" || strings.ContainsAny(value, " \"=") || strconv.Quote(value) != `"`+value+`"` {
		return strconv.Quote(value)
	}
	return value
}
