package main

import (
	"context"
	"encoding/json"
	"errors"
	"fmt"
	"math/bits"
	"os"
	"sort"
	"strconv"
	"strings"
	"time"

	"calvundek.example/service/internal/config"
	"calvundek.example/service/internal/level"
	"calvundek.example/service/internal/operator"
	"calvundek.example/service/internal/voter"
	"calvundek.example/service/internal/wire"
	"calvundek.example/service/locks"
	"calvundek.example/service/qlock"
	"github.com/spf13/cobra"
)

// The errors of commands.
var (
	errSilent  = errors.New("some voters did not reply")
	errRefused = errors.New("some voters did not do it")
	errFree    = errors.New("nobody has the votes of a quorum")
	errNobody  = errors.New("nobody has this client number; qlockctl report shows the numbers")
)

func initCommand(s *settings) *cobra.Command {
	c := &config.Cluster{}
	var coterie string
	command := &cobra.Command{Use: "init", Args: cobra.NoArgs, Short: "Make the cluster's file, with a plan of a coterie",
		RunE: func(*cobra.Command, []string) error { return initialise(s.cluster, coterie, c) }}
	flags := command.Flags()
	flags.StringVar(&c.ID, "id", "", "the cluster's name")
	flags.StringVar(&coterie, "coterie", "", "the file of the coterie")
	flags.StringSliceVar(&c.Servers, "servers", []string{"nats://127.0.0.1:4222"}, "the servers of NATS")
	flags.StringVar(&c.CA, "ca", "", "the file of the authority that signs the servers' certificates")
	flags.IntVar(&c.Shards, "shards", 1, "how many shards locks have, a power of two: each has 64 numbers for client processes")
	flags.DurationVar(&c.TTL.Duration, "ttl", 10*time.Second, "for how long a silent client keeps what others want")
	for _, name := range []string{"id", "coterie"} {
		if err := command.MarkFlagRequired(name); err != nil {
			panic(err)
		}
	}
	return command
}

// initialise plans, and makes the cluster's file. It never writes over one.
func initialise(path, coterieFile string, c *config.Cluster) error {
	coterie, err := os.ReadFile(coterieFile)
	if err != nil {
		return err
	}
	plan, err := qlock.BestPlan(string(coterie))
	if err != nil {
		return fmt.Errorf("%s: %w", coterieFile, err)
	}
	c.Coterie, c.Plan, c.Level = plan.Coterie, plan.Text, level.Newest
	if err := c.Check(); err != nil {
		return err
	}
	text, err := c.Text()
	if err != nil {
		return err
	}
	file, err := os.OpenFile(path, os.O_WRONLY|os.O_CREATE|os.O_EXCL, 0o644)
	if err != nil {
		return err
	}
	_, err = file.Write(text)
	if closed := file.Close(); err == nil {
		err = closed
	}
	if err == nil {
		fmt.Printf("%s: %d voters, load %s\n", path, len(plan.Names), plan.LoadText())
	}
	return err
}

// answer is one voter's reply, as --json prints it.
type answer struct {
	Voter string          `json:"voter"`
	Reply json.RawMessage `json:"reply,omitempty"`
	Error string          `json:"error,omitempty"`
}

// printJSON prints replies as JSON.
func printJSON(replies []operator.Reply) error {
	answers := make([]answer, 0, len(replies))
	for _, r := range replies {
		one := answer{Voter: r.Name}
		if r.Err != nil {
			one.Error = r.Err.Error()
		} else {
			one.Reply = r.Body
		}
		answers = append(answers, one)
	}
	return json.NewEncoder(os.Stdout).Encode(answers)
}

// complete returns an error if some voter did not reply, or did not do what it was asked.
func complete(replies []operator.Reply) (err error) {
	var silent, refused []string
	for _, r := range replies {
		if errors.Is(r.Err, operator.ErrSilent) {
			silent = append(silent, r.Name)
		} else if r.Err != nil {
			refused = append(refused, fmt.Sprintf("%s (%v)", r.Name, r.Err))
		}
	}
	if silent != nil {
		err = fmt.Errorf("%w: %s", errSilent, strings.Join(silent, ", "))
	}
	if refused == nil {
		return err
	}
	why := fmt.Errorf("%w: %s", errRefused, strings.Join(refused, ", "))
	if err == nil {
		return why
	}
	return fmt.Errorf("%w; %v", err, why)
}

// exitPartly is the exit status if a quorum of the voters did what they were asked, and not all.
const exitPartly = 3

// verdict returns nil if all voters did what they were asked. If those that did are enough, the exit
// status says so.
func verdict(replies []operator.Reply, isEnough func(voters uint64) bool) error {
	err, did := complete(replies), uint64(0)
	for _, r := range replies {
		if r.Err == nil {
			did |= 1 << r.Voter
		}
	}
	if err != nil && isEnough(did) {
		return status{exitPartly, err}
	}
	return err
}

// simple makes a command that asks all voters the same, prints a line for each, and ends as a function judges.
func simple(ctx context.Context, s *settings, command *cobra.Command, words func(args []string) (string, error), line func(r operator.Reply) (string, error),
	judge func(replies []operator.Reply, isEnough func(voters uint64) bool) error) *cobra.Command {
	command.RunE = func(_ *cobra.Command, args []string) error {
		text, err := words(args)
		if err != nil {
			return err
		}
		return s.ask(ctx, func(ctx context.Context, cluster *config.Cluster, console *operator.Console) error {
			replies, err := console.Ask(ctx, text, console.All()...)
			if err != nil {
				return err
			}
			if s.json {
				err = printJSON(replies)
			} else {
				err = printLines(replies, line)
			}
			if err != nil {
				return err
			}
			return judge(replies, cluster.HasQuorums)
		})
	}
	return command
}

func printLines(replies []operator.Reply, line func(r operator.Reply) (string, error)) error {
	for _, r := range replies {
		text := ""
		if r.Err != nil {
			text = r.Err.Error()
		} else {
			var err error
			if text, err = line(r); err != nil {
				return fmt.Errorf("%s: %w", r.Name, err)
			}
		}
		fmt.Printf("%-12s %s\n", r.Name, text)
	}
	return nil
}

func statusCommand(ctx context.Context, s *settings) *cobra.Command {
	return &cobra.Command{Use: "status", Args: cobra.NoArgs, Short: "Show each voter", RunE: func(*cobra.Command, []string) error {
		return s.ask(ctx, func(short context.Context, cluster *config.Cluster, console *operator.Console) error {
			replies, err := console.Ask(short, "status", console.All()...)
			if err != nil {
				return err
			}
			if s.json {
				s.eachGood(ctx, replies, func(ctx context.Context, r *operator.Reply) error { return addLists(ctx, console, r) })
				err = printJSON(replies)
			} else {
				err = printLines(replies, shown)
			}
			if err != nil {
				return err
			}
			return verdict(replies, cluster.HasQuorums)
		})
	}}
}

// eachGood hands the replies of those that replied to a function, each with as long again as for all replies, and notes why it fails.
func (s *settings) eachGood(ctx context.Context, replies []operator.Reply, use func(ctx context.Context, r *operator.Reply) error) {
	for i := range replies {
		if r := &replies[i]; r.Err == nil {
			ctx, cancel := context.WithTimeout(ctx, s.timeout)
			r.Err = use(ctx, r)
			cancel()
		}
	}
}

// addLists adds all sessions and votes to the reply to `status`.
func addLists(ctx context.Context, console *operator.Console, r *operator.Reply) error {
	var all struct {
		voter.Status
		voter.Lists
	}
	all.Lists = voter.Lists{Sessions: []voter.SessionView{}, Votes: []voter.VoteView{}} // not null in JSON
	err := json.Unmarshal(r.Body, &all.Status)
	if err == nil {
		err = readList(ctx, console, "sessions", r.Voter, &all.Lists)
	}
	if err == nil {
		err = readList(ctx, console, "votes", r.Voter, &all.Lists)
	}
	if err == nil {
		r.Body, err = json.Marshal(all)
	}
	return err
}

// readList reads all pages of a list of a voter. They show some votes twice, and the later one counts.
func readList(ctx context.Context, console *operator.Console, list string, number int, into *voter.Lists) error {
	places := map[string]int{}
	return console.List(ctx, list, number, func(text []byte) error {
		var page voter.Lists
		if err := json.Unmarshal(text, &page); err != nil {
			return err
		}
		into.Sessions = append(into.Sessions, page.Sessions...)
		for _, v := range page.Votes {
			if place, isThere := places[v.Lock]; isThere {
				into.Votes[place] = v
				continue
			}
			places[v.Lock] = len(into.Votes)
			into.Votes = append(into.Votes, v)
		}
		return nil
	})
}

// shown returns the line of a reply to `status`. It says whether the voter gives no votes yet.
func shown(r operator.Reply) (string, error) {
	var one voter.Status
	if err := json.Unmarshal(r.Body, &one); err != nil {
		return "", err
	}
	text := fmt.Sprintf("locks=%d busy=%d sessions=%d granted=%d runs=%s start=%d run=%d identity=%.8s", one.Locks, one.Busy,
		one.Open, one.Granted, seconds(one.Runs), one.Start, one.Run, one.Identity) + plans(one.Planned)
	if !one.Serves {
		text += " serves=false"
	}
	if awaits := one.Awaits; awaits != nil {
		text += fmt.Sprintf(" awaits=%s why=%q", awaits.Voters, awaits.Why)
		if awaits.Seconds > 0 {
			text += fmt.Sprintf(" for=%s", seconds(awaits.Seconds))
		}
	}
	if one.Quiet > 0 {
		text += fmt.Sprintf(" quiet=%s", seconds(one.Quiet))
	}
	return text, nil
}

// seconds returns a time in whole seconds.
func seconds(s float64) time.Duration {
	return time.Duration(s * float64(time.Second)).Round(time.Second)
}

func evictCommand(ctx context.Context, s *settings) *cobra.Command {
	atOnce := false
	command := &cobra.Command{Use: "evict CLIENT", Args: cobra.ExactArgs(1), Short: "End a client's session",
		Long: "Ends a client's session. The client hears so, and stops. What it has goes once the voters did not hear it for a TTL, so that " +
			"nobody else gets it while the client may work. With --now it goes at once: the client may still believe then that it has its " +
			"locks, and only guards refuse what it writes. `qlockctl report` shows the numbers of clients."}
	command.Flags().BoolVar(&atOnce, "now", false, "let all go at once that the client has: only guards refuse what it writes then")
	return simple(ctx, s, command, func(args []string) (string, error) {
		if !isClient(args[0]) {
			return "", fmt.Errorf("%q is no client number, 0 to %d, or with its shard in front, as 7/5", args[0], qlock.MaxClients-1)
		}
		if atOnce {
			return "evict " + args[0] + " now", nil
		}
		return "evict " + args[0], nil
	}, letGo, evicted)
}

// evicted returns errNobody if the voters of a quorum say that no session had the number, and no voter had one, or has votes of one. Else it
// returns the verdict on the replies.
func evicted(replies []operator.Reply, isEnough func(voters uint64) bool) error {
	without := uint64(0)
	for _, r := range replies {
		var gone voter.LetGo
		if r.Err != nil {
			continue
		}
		if json.Unmarshal(r.Body, &gone) != nil || !gone.Nobody || gone.LetGo+gone.Later > 0 {
			return verdict(replies, isEnough)
		}
		without |= 1 << r.Voter
	}
	if isEnough(without) {
		return errNobody
	}
	return verdict(replies, isEnough)
}

// isClient returns whether a word may be the number of a client, or the number of a shard, a slash, and the number of a client there.
func isClient(word string) bool {
	isBelow := func(word string, end int) bool {
		number, err := strconv.Atoi(word)
		return err == nil && number >= 0 && number < end
	}
	shard, number, isOfShard := strings.Cut(word, "/")
	if !isOfShard {
		return isBelow(word, qlock.MaxClients)
	}
	return isBelow(shard, config.MostShards) && isBelow(number, qlock.MaxClients)
}

// letGo returns the line of a reply to `evict` and `unlock`.
func letGo(r operator.Reply) (string, error) {
	var gone voter.LetGo
	err := json.Unmarshal(r.Body, &gone)
	text := fmt.Sprintf("let_go=%d", gone.LetGo)
	if gone.Later > 0 {
		text += fmt.Sprintf(" later=%d", gone.Later)
	}
	if gone.Nobody {
		text += " nobody=true"
	}
	return text, err
}

func unlockCommand(ctx context.Context, s *settings) *cobra.Command {
	return &cobra.Command{Use: "unlock LOCK", Args: cobra.ExactArgs(1), Short: "Let a lock go, whoever has it",
		Long: "Lets the grants of a lock go that the client has who has the votes of a quorum. That client may still believe that it " +
			"has the lock: only the guard refuses what it writes then.",
		RunE: func(_ *cobra.Command, args []string) error {
			if !wire.IsName([]byte(args[0])) {
				return fmt.Errorf("%w: %q", locks.ErrName, args[0])
			}
			return s.ask(ctx, func(ctx context.Context, cluster *config.Cluster, console *operator.Console) error {
				return unlock(ctx, s, cluster, console, args[0])
			})
		}}
}

// unlock finds who has a lock, and lets these grants go and no newer ones.
func unlock(ctx context.Context, s *settings, cluster *config.Cluster, console *operator.Console, lock string) error {
	replies, err := console.Ask(ctx, "lock "+lock, console.All()...)
	if err != nil {
		return err
	}
	votes := map[[2]uint64]uint64{} // by client and stamp: who granted
	grants := map[int]uint64{}
	for i, r := range replies {
		var v voter.VoteView
		if r.Err != nil {
			continue
		}
		if replies[i].Err = json.Unmarshal(r.Body, &v); replies[i].Err == nil && v.Client >= 0 {
			votes[[2]uint64{uint64(v.Client), v.Stamp}] |= 1 << r.Voter
			grants[r.Voter] = v.Grant
		}
	}
	for _, mask := range votes {
		if cluster.HasAny(mask) {
			return letGoAll(ctx, s, cluster, console, lock, mask, grants)
		}
	}
	if err := complete(replies); err != nil {
		return fmt.Errorf("%s: by the replies nobody has the votes of a quorum, but %w", lock, err)
	}
	return fmt.Errorf("%s: %w", lock, errFree)
}

// letGoAll lets the grants of these voters go. It is enough if a quorum of any plan did.
func letGoAll(ctx context.Context, s *settings, cluster *config.Cluster, console *operator.Console, lock string,
	mask uint64, grants map[int]uint64) error {
	var all []operator.Reply
	for ; mask != 0; mask &= mask - 1 {
		one := bits.TrailingZeros64(mask)
		replies, err := console.Ask(ctx, fmt.Sprintf("unlock %s %d", lock, grants[one]), one)
		if err != nil {
			return err
		}
		all = append(all, replies...)
	}
	if s.json {
		if err := printJSON(all); err != nil {
			return err
		}
	} else if err := printLines(all, letGo); err != nil {
		return err
	}
	return verdict(all, cluster.HasAny)
}

// use is how often a voter is asked: its share by the plan, and its share of the grants.
type use struct {
	Voter   string  `json:"voter"`
	Planned float64 `json:"planned_share"`
	Grants  uint64  `json:"grants"`
	Share   float64 `json:"share"`
}

// holding is one vote of a lock that somebody has or waits for.
type holding struct {
	Voter string `json:"voter"`
	voter.VoteView
}

// report is what `report` prints.
type report struct {
	Cluster string    `json:"cluster"`
	Load    string    `json:"load"`
	Bound   string    `json:"bound"` // no plan has a load below it
	Use     []use     `json:"use"`
	Votes   []holding `json:"votes"`
	Silent  []string  `json:"silent,omitempty"`

	loadText string
}

func reportCommand(ctx context.Context, s *settings) *cobra.Command {
	return &cobra.Command{Use: "report", Args: cobra.NoArgs, Short: "Show who has which votes, who waits, and the use of voters beside the plan",
		RunE: func(*cobra.Command, []string) error {
			return s.ask(ctx, func(short context.Context, cluster *config.Cluster, console *operator.Console) error {
				replies, err := console.Ask(short, "status", console.All()...)
				if err != nil {
					return err
				}
				lists := make([]voter.Lists, len(replies))
				s.eachGood(ctx, replies, func(ctx context.Context, r *operator.Reply) error {
					return readList(ctx, console, "votes", r.Voter, &lists[r.Voter])
				})
				r := newReport(cluster, replies, lists)
				if s.json {
					err = json.NewEncoder(os.Stdout).Encode(r)
				} else {
					r.print()
				}
				if err != nil {
					return err
				}
				return verdict(replies, cluster.HasQuorums)
			})
		}}
}

// newReport collects what the voters replied, and their lists of votes.
func newReport(cluster *config.Cluster, replies []operator.Reply, lists []voter.Lists) report {
	plan := cluster.Planned
	r := report{Cluster: cluster.ID, Load: fmt.Sprintf("%d/%d", plan.LoadP, plan.LoadQ),
		Bound: fmt.Sprintf("%d/%d", plan.BoundP, plan.BoundQ), Votes: []holding{}, loadText: plan.LoadText()}
	planned, grants := 0, uint64(0)
	for number, name := range cluster.Names() {
		one := use{Voter: name}
		uses := 0
		for _, quorum := range plan.Quorums {
			uses += int(quorum >> number & 1)
		}
		one.Planned, planned = float64(uses), planned+uses
		r.Use = append(r.Use, one)
	}
	for _, reply := range replies {
		var status voter.Status
		if reply.Err != nil || json.Unmarshal(reply.Body, &status) != nil {
			r.Silent = append(r.Silent, reply.Name)
			continue
		}
		r.Use[reply.Voter].Grants, grants = status.Granted, grants+status.Granted
		for _, v := range lists[reply.Voter].Votes {
			r.Votes = append(r.Votes, holding{reply.Name, v})
		}
	}
	for i := range r.Use {
		r.Use[i].Planned /= float64(planned)
		if grants > 0 {
			r.Use[i].Share = float64(r.Use[i].Grants) / float64(grants)
		}
	}
	sort.SliceStable(r.Votes, func(i, j int) bool { return r.Votes[i].Lock < r.Votes[j].Lock })
	return r
}

func (r report) print() {
	fmt.Printf("cluster %s, load %s; grants since each voter's start\n\nvoter        planned   share   grants\n", r.Cluster, r.loadText)
	for _, one := range r.Use {
		fmt.Printf("%-12s %5.1f %%  %5.1f %%  %d\n", one.Voter, 100*one.Planned, 100*one.Share, one.Grants)
	}
	if len(r.Votes) > 0 {
		fmt.Println("\nlock                 voter        client  since s  waiting, and the holder's note")
	}
	for _, v := range r.Votes {
		var waiting []string
		for _, w := range v.Waiting {
			waiting = append(waiting, fmt.Sprintf("%s (%.1f s)", w.Session, w.Waits))
		}
		if v.Note != "" {
			waiting = append(waiting, fmt.Sprintf("note=%q", v.Note))
		}
		client := v.Session
		if client == "" {
			client = "-"
		}
		fmt.Printf("%-20s %-12s %6s  %7.1f  %s\n", v.Lock, v.Voter, client, v.Held, strings.Join(waiting, ", "))
	}
}
