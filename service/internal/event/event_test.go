package event

import (
	"errors"
	"fmt"
	"os"
	"path/filepath"
	"regexp"
	"strings"
	"syscall"
	"testing"
)

func TestOneEventIsOneLine(t *testing.T) {
	var out strings.Builder
	To(&out).Write(Warning, "refused", "voter", "hub", "why", errors.New("a \"bad\"\nday"), "empty", "")
	_, rest, _ := strings.Cut(out.String(), " ")
	if want := `level=warning event=refused voter=hub why="a \"bad\"\nday" empty=""` + "\n"; rest != want {
		t.Fatalf("%q, not %q", rest, want)
	}
}

// Events below the least level are left out, and it is info if nobody says another one.
func TestLeast(t *testing.T) {
	for least, want := range map[string]int{"": 3, "debug": 4, "info": 3, "warning": 2, "error": 1} {
		var out strings.Builder
		log := To(&out)
		if least != "" {
			var level Level
			if err := level.UnmarshalText([]byte(least)); err != nil {
				t.Fatal(err)
			}
			log.SetLeast(level)
		}
		for level := Debug; level <= Error; level++ {
			log.Write(level, "x")
		}
		if got := strings.Count(out.String(), "event=x"); got != want {
			t.Errorf("%q: %d lines", least, got)
		}
	}
	var level Level
	if err := level.UnmarshalText([]byte("loud")); err == nil {
		t.Error("a level that is none")
	}
}

// A line for the journal begins with the priority that systemd reads. Whatever else standard error
// is: no line does.
func TestJournal(t *testing.T) {
	file, err := os.Create(filepath.Join(t.TempDir(), "stream"))
	if err != nil {
		t.Fatal(err)
	}
	defer file.Close()
	var status syscall.Stat_t
	if err := syscall.Fstat(int(file.Fd()), &status); err != nil {
		t.Fatal(err)
	}
	stream := fmt.Sprintf("%d:%d", status.Dev, status.Ino)
	if !isJournal(file, stream) || isJournal(file, "") || isJournal(os.Stderr, stream) {
		t.Error("which file the journal is")
	}
	var out strings.Builder
	log := &Log{out: &out, isJournal: true, least: Debug}
	for level := Debug; level <= Error; level++ {
		log.Write(level, "x")
	}
	var begins []string
	for _, line := range strings.Split(strings.TrimSpace(out.String()), "\n") {
		begins = append(begins, line[:len("<7>time=")])
	}
	if got := strings.Join(begins, " "); got != "<7>time= <6>time= <4>time= <3>time=" {
		t.Error(got)
	}
}

// The man page of a program lists each event that it writes, with its level, and no other one.
func TestPageListsEvents(t *testing.T) {
	pages := map[string][]string{
		"qlock-voter": {"../voter/*.go", "../../cmd/qlock-voter/*.go"},
		"qlockd":      {"../qlockd/*.go", "../../cmd/qlockd/*.go"},
	}
	for name, patterns := range pages {
		page, err := os.ReadFile("../../../docs/" + name + ".1")
		if err != nil {
			t.Fatal(err)
		}
		listed, written := listedIn(string(page)), writtenBy(t, patterns)
		if len(written) < 8 {
			t.Fatalf("only %d events are found in the code of %s", len(written), name)
		}
		for event, level := range written {
			if listed[event] != level {
				t.Errorf("%s: %s is of level %s; the page says %q", name, event, level, listed[event])
			}
		}
		for event := range listed {
			if written[event] == "" {
				t.Errorf("%s: the page lists %s, which nothing writes", name, event)
			}
		}
	}
}

// listedIn returns the events of a man page, and their levels.
func listedIn(page string) map[string]string {
	_, section, _ := strings.Cut(page, "\n.SH LOG\n")
	section, _, _ = strings.Cut(section, "\n.SH ")
	listed := map[string]string{}
	for _, found := range regexp.MustCompile(`(?m)^\.BR (\S+) " \((\w+)\)"$`).FindAllStringSubmatch(section, -1) {
		listed[found[1]] = found[2]
	}
	return listed
}

// writtenBy returns the events that files write, and their levels.
func writtenBy(t *testing.T, patterns []string) map[string]string {
	t.Helper()
	written := map[string]string{}
	call := regexp.MustCompile(`\.(?:Write|note)\(event\.(\w+), "([^"]+)"`)
	for _, pattern := range patterns {
		files, err := filepath.Glob(pattern)
		if err != nil || len(files) == 0 {
			t.Fatal(pattern, err)
		}
		for _, path := range files {
			text, err := os.ReadFile(path)
			if err != nil {
				t.Fatal(err)
			}
			for _, found := range call.FindAllStringSubmatch(string(text), -1) {
				written[found[2]] = strings.ToLower(found[1])
			}
		}
	}
	return written
}
