// Command cmd runs clusters in virtual time, each from a seed, and prints what happened. Of the first run that violates a check it
// prints the seed, what was violated, and the schedule of its events. The same seed gives the same run.
//
//	service/go run ./simulation/cmd -seed 1 -runs 100 -events 100000
//	service/go run ./simulation/cmd -seed 17 -trace              the schedule of one run
//	service/go run ./simulation/cmd -wrong stale-time -runs 50   a wrong host
package main

import (
	"flag"
	"fmt"
	"os"
	"sort"
	"strings"
	"time"

	"calvundek.example/service/simulation"
)

func main() {
	seed := flag.Int64("seed", 1, "the seed of the first run; each next run has the next one")
	runs := flag.Int("runs", 1, "how many runs")
	events := flag.Int("events", 100000, "how many events happen in a run before its faults stop")
	passes := flag.Uint64("passes", 0, "go on until so many passes were made, in place of -runs")
	only := flag.String("only", "", "the kinds of incidents that may happen, with commas; all if empty")
	calm := flag.Bool("calm", false, "let no incident happen")
	wrong := flag.String("wrong", "", "a duty of the hosts that is broken: "+strings.Join(duties(), ", "))
	trace := flag.Bool("trace", false, "print the schedule of the first run")
	often := flag.Bool("often", false, "let incidents come often, and programs want locks at once")
	brief := flag.Bool("brief", false, "let programs want locks at once, and stay inside briefly")
	copies := flag.Bool("copies", false, "make copies of states often, and put mostly the newest one back")
	messages := flag.Bool("messages", false, "show messages in the schedule")
	last := flag.Int("last", 400, "how many lines of the schedule of a run with a fault are printed")
	flag.Parse()
	o := simulation.Options{Events: *events, Calm: *calm, Often: *often, Brief: *brief, Copies: *copies, ShowMessages: *messages}
	if *only != "" {
		o.Only = strings.Split(*only, ",")
		for _, kind := range o.Only {
			if !isOneOf(kind, simulation.Kinds()) {
				fmt.Fprintf(os.Stderr, "there is no kind %q of incidents: %s\n", kind, strings.Join(simulation.Kinds(), ", "))
				os.Exit(2)
			}
		}
	}
	for _, duty := range simulation.Duties {
		if duty.Name == *wrong {
			duty.Breaks(&o.Wrong)
			*wrong = ""
		}
	}
	if *wrong != "" {
		fmt.Fprintf(os.Stderr, "there is no duty %q\n", *wrong)
		os.Exit(2)
	}
	os.Exit(run(o, *seed, *runs, *passes, *trace, *last))
}

func isOneOf(word string, words []string) bool {
	for _, one := range words {
		if one == word {
			return true
		}
	}
	return false
}

func duties() (names []string) {
	for _, duty := range simulation.Duties {
		names = append(names, duty.Name)
	}
	return names
}

// run makes runs, and returns the exit status.
func run(o simulation.Options, seed int64, runs int, passes uint64, trace bool, last int) int {
	var total simulation.Figures
	began, hash, done := time.Now(), uint64(0), 0
	for ; done < runs && passes == 0 || total.Passes < passes; done++ {
		o.Seed = seed + int64(done)
		if o.Trace = nil; trace && done == 0 {
			o.Trace = func(line string) { fmt.Println(line) }
		}
		r := simulation.Run(o)
		total.Add(r.Figures)
		hash = hash*1099511628211 ^ r.Hash
		if r.Fault != nil {
			show(total, done+1, time.Since(began), hash)
			schedule(o, r, last)
			return 1
		}
	}
	show(total, done, time.Since(began), hash)
	return 0
}

// show prints figures.
func show(f simulation.Figures, runs int, took time.Duration, hash uint64) {
	fmt.Printf("%d passes in %d runs of %d events, %.0f s of virtual time and %.0f s\n", f.Passes, runs, f.Steps, f.Virtual.Seconds(), took.Seconds())
	fmt.Printf("  %d messages sent; %d passes shown to guards, which refused %d; %d locks that may have been lost\n", f.Messages, f.Shows+f.Refused, f.Refused, f.Lost)
	var kinds []string
	for kind := range f.Incidents {
		kinds = append(kinds, kind)
	}
	sort.Strings(kinds)
	for _, kind := range kinds {
		fmt.Printf("  %d %s\n", f.Incidents[kind], kind)
	}
	fmt.Printf("longest wait once no fault happened any more: %.2f s\nhash of all events: %016x\n", f.Longest.Seconds(), hash)
}

// schedule makes a run again, and prints the end of its schedule.
func schedule(o simulation.Options, was simulation.Result, last int) {
	var lines []string
	o.Trace = func(line string) {
		if lines = append(lines, line); len(lines) > 2*last {
			lines = append(lines[:0], lines[last:]...)
		}
	}
	again := simulation.Run(o)
	if len(lines) > last {
		lines = lines[len(lines)-last:]
	}
	fmt.Println(strings.Join(lines, "\n"))
	if again.Hash != was.Hash {
		fmt.Println("the run is not repeated by its seed")
	}
	fmt.Printf("seed %d: %v\n", o.Seed, was.Fault)
}
