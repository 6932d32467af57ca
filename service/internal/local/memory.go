package local

import (
	"bufio"
	"fmt"
	"os"
	"strings"
)

// Memory is what a process has in memory, in bytes.
type Memory struct {
	Own     uint64 // that nobody else has
	OfFiles uint64 // pages of files, which the system can drop or share
}

// Memory returns what the process has in memory now.
func (p *Process) Memory() (Memory, error) {
	return memoryIn(fmt.Sprintf("/proc/%d/status", p.Pid()))
}

// memoryIn reads what a process has in memory from its status, as Linux shows it: proc(5).
func memoryIn(status string) (m Memory, err error) {
	file, err := os.Open(status)
	if err != nil {
		return m, err
	}
	defer file.Close()
	for lines := bufio.NewScanner(file); lines.Scan(); {
		name, rest, _ := strings.Cut(lines.Text(), ":")
		var kilobytes uint64
		if _, err := fmt.Sscan(rest, &kilobytes); err != nil {
			continue
		}
		switch name {
		case "RssAnon":
			m.Own = kilobytes << 10
		case "RssFile", "RssShmem":
			m.OfFiles += kilobytes << 10
		}
	}
	if m.Own == 0 {
		return m, fmt.Errorf("%s does not say what is in memory", status)
	}
	return m, nil
}
