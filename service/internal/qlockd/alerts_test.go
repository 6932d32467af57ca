package qlockd

import (
	"encoding/json"
	"os"
	"regexp"
	"strings"
	"testing"
)

// shown returns the names of the numbers that the programs show, of their sources.
func shown(t *testing.T) map[string]bool {
	t.Helper()
	names := map[string]bool{"up": true, "process_resident_memory_bytes": true}
	for prefix, file := range map[string]string{"qlock_voter_": "../voter/metrics.go", "qlock_client_": "../../locks/metrics.go",
		"qlock_agent_": "metrics.go"} {
		text, err := os.ReadFile(file)
		if err != nil {
			t.Fatal(err)
		}
		made := regexp.MustCompile(`(?:counter|gauge|histogram|read|desc)\("([a-z_]+)"|Name: "` + prefix + `([a-z_]+)"`)
		found := made.FindAllStringSubmatch(string(text), -1)
		if len(found) < 5 {
			t.Fatalf("only %d names are found in %s", len(found), file)
		}
		for _, one := range found {
			names[prefix+one[1]+one[2]] = true
		}
	}
	return names
}

// uses returns an error for each name in a text that no program shows.
func uses(t *testing.T, what, text string) {
	t.Helper()
	names := shown(t)
	for _, name := range regexp.MustCompile(`\b(?:qlock|process)_[a-z_]+`).FindAllString(text, -1) {
		if !names[strings.TrimSuffix(name, "_bucket")] {
			t.Errorf("%s: nothing shows %s", what, name)
		}
	}
}

// Each number of the rules and of the dashboard is one that a program shows. Each alarm of the page has a rule.
func TestRulesAndDashboard(t *testing.T) {
	rules, err := os.ReadFile("../../../packaging/alerts.yml")
	if err != nil {
		t.Fatal(err)
	}
	uses(t, "the rules", string(rules))
	page, err := os.ReadFile("../../../docs/operating.md")
	if err != nil {
		t.Fatal(err)
	}
	_, table, _ := strings.Cut(string(page), "\n| `qlock_voter_` | Alarm |\n")
	table, _, _ = strings.Cut(table, "\n\n")
	alarms := 0
	for _, row := range strings.Split(table, "\n")[1:] {
		first, _, _ := strings.Cut(strings.TrimPrefix(row, "|"), "|")
		for _, found := range regexp.MustCompile("`([a-z_]+)`").FindAllStringSubmatch(first, -1) {
			if alarms++; !strings.Contains(string(rules), "qlock_voter_"+found[1]) {
				t.Errorf("there is no rule for %s", found[1])
			}
		}
	}
	if alarms < 10 {
		t.Errorf("only %d alarms are found on the page", alarms)
	}
	text, err := os.ReadFile("../../../packaging/dashboard.json")
	if err != nil {
		t.Fatal(err)
	}
	var board struct {
		Panels []struct {
			Title   string
			Targets []struct{ Expr string }
		}
	}
	if err := json.Unmarshal(text, &board); err != nil || len(board.Panels) < 10 {
		t.Fatal(len(board.Panels), err)
	}
	for _, panel := range board.Panels {
		for _, target := range panel.Targets {
			uses(t, panel.Title, target.Expr)
		}
	}
}
