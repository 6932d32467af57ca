package voter

import (
	"context"
	"encoding/json"
	"errors"
	"fmt"
	"sort"
	"strings"
	"time"

	"calvundek.example/service/internal/config"
	"calvundek.example/service/internal/level"
	"calvundek.example/service/internal/operator"
	"calvundek.example/service/qlock"
)

// The errors of making a voter again.
var (
	ErrFewer = errors.New("too few voters replied to know what this voter forgot")
	ErrNew   = errors.New("no voter knows one of this place: a new one needs `qlock-voter init`")
)

// Init makes the state of a new voter, once. Its first start asks the others whether there was one.
func Init(own *config.Voter, cluster *config.Cluster) (Meta, error) {
	return InitIn(Surroundings{}, own, cluster)
}

// InitIn is Init in other surroundings than those of this machine.
func InitIn(around Surroundings, own *config.Voter, cluster *config.Cluster) (Meta, error) {
	return create(around, own, cluster, Knows{Level: cluster.Level}, 0)
}

// InitLost makes the state of a voter in place of one that was lost. Its grants are numbered above all that it gave, and
// the sessions are those that the other voters know.
//
// The old state may never come back. Clients that have a vote of this voter lose their locks.
func InitLost(ctx context.Context, own *config.Voter, cluster *config.Cluster, console *operator.Console) (Meta, error) {
	place := cluster.Number(own.Voter)
	var others []int
	for voter := range cluster.Names() {
		if voter != place {
			others = append(others, voter)
		}
	}
	for wait := 2 * time.Second; ; wait *= 2 { // there may be many sessions, so many pages to read
		short, cancel := context.WithTimeout(ctx, wait)
		replies, err := AskKnown(short, console, others...)
		cancel()
		if err != nil {
			return Meta{}, err
		}
		if meta, err := MakeAgain(Surroundings{}, own, cluster, replies); !errors.Is(err, ErrFewer) || ctx.Err() != nil {
			return meta, err
		}
	}
}

// MakeAgain makes the state of a voter in place of one that was lost, of what other voters replied that were asked what they
// know: of a quorum of each plan, or of all others. One of those that replied keeps whatever a quorum with this voter keeps, and knows how often it
// was made again. Else it returns ErrFewer.
func MakeAgain(around Surroundings, own *config.Voter, cluster *config.Cluster, replies []operator.Reply) (Meta, error) {
	known, heard, err := Merge(replies)
	place := cluster.Number(own.Voter)
	switch {
	case err != nil:
		return Meta{}, err
	case cluster.HasAny(^heard), !cluster.HasQuorums(heard) && heard != others(cluster, place):
		return Meta{}, fmt.Errorf("%w: %s did not", ErrFewer, silent(replies))
	case known.Peers[place].Identity == "":
		return Meta{}, ErrNew
	}
	return create(around, own, cluster, known, known.Peers[place].Run+1)
}

// others returns the voters of a cluster without one of them.
func others(cluster *config.Cluster, place int) uint64 {
	return (uint64(1)<<len(cluster.Names()) - 1) &^ (1 << place)
}

// AskKnown asks voters for all that they know. One that did not tell all of it did not reply.
func AskKnown(ctx context.Context, console *operator.Console, voters ...int) ([]operator.Reply, error) {
	replies, err := console.Ask(ctx, "knows", voters...)
	for i := range replies {
		if err == nil && replies[i].Err == nil {
			replies[i], err = askRest(ctx, console, replies[i])
		}
	}
	return replies, err
}

// askRest returns the reply of a voter with the sessions for which it had no room.
func askRest(ctx context.Context, console *operator.Console, first operator.Reply) (operator.Reply, error) {
	var all Knows
	if json.Unmarshal(first.Body, &all) != nil || all.Next == 0 || all.Sessions == nil {
		return first, nil
	}
	for all.Next > 0 {
		replies, err := console.Ask(ctx, fmt.Sprint("knows ", all.Next), first.Voter)
		if err != nil || len(replies) != 1 {
			return first, err
		}
		var more Knows
		if replies[0].Err != nil || json.Unmarshal(replies[0].Body, &more) != nil || more.Next > 0 && more.Next <= all.Next {
			first.Err = operator.ErrSilent
			return first, nil
		}
		for key, row := range more.Sessions {
			all.Sessions[key] = row
		}
		for shard, floor := range more.Floors {
			if all.Floors == nil {
				all.Floors = map[int]Floor{}
			}
			all.Floors[shard] = floor
		}
		all.Next = more.Next
	}
	body, err := json.Marshal(all)
	first.Body = body
	return first, err
}

// Texts returns what is known as texts of which each has room in a message.
func (k Knows) Texts() (texts []string, err error) {
	parts := []Knows{k.part()}
	last := func() *Knows {
		if parts[len(parts)-1].isFull() {
			parts = append(parts, k.part())
		}
		return &parts[len(parts)-1]
	}
	for _, key := range sorted(k.Sessions) {
		last().Sessions[key] = k.Sessions[key]
	}
	for _, shard := range sorted(k.Floors) {
		last().Floors[shard] = k.Floors[shard]
	}
	for _, part := range parts {
		text, err := json.Marshal(part)
		if err != nil {
			return nil, err
		}
		texts = append(texts, string(text))
	}
	return texts, nil
}

// part returns what is known without sessions and floors.
func (k Knows) part() Knows {
	return Knows{Peers: k.Peers, Level: k.Level, Sessions: map[int]Session{}, Floors: map[int]Floor{}}
}

// sorted returns the keys of a map in order.
func sorted[V any](of map[int]V) []int {
	keys := make([]int, 0, len(of))
	for key := range of {
		keys = append(keys, key)
	}
	sort.Ints(keys)
	return keys
}

// create makes a state with a new identity.
func create(around Surroundings, own *config.Voter, cluster *config.Cluster, known Knows, run uint64) (Meta, error) {
	around = around.complete()
	meta := Owner(own, cluster)
	meta.Run = run
	var err error
	if meta.Identity, err = around.nonce(); err != nil {
		return meta, err
	}
	meta.Made = around.Now().UTC()
	meta.Format = formatOf(known.Level)
	ceiling := known.Peers[meta.Voter].Ceiling
	delete(known.Peers, meta.Voter)
	if around.Disk != nil {
		return meta, fill(around.Disk, meta, NewGenerations(cluster), known, ceiling)
	}
	return meta, Create(own.Data, meta, NewGenerations(cluster), known, ceiling)
}

// Merge returns what voters together know: of each place the last voter, with the highest ceiling; of each number the
// newest session, and the highest stamp that one keeps as reserved; of each shard that all dropped the floor above all of theirs. It also
// returns which voters replied.
func Merge(replies []operator.Reply) (all Knows, heard uint64, err error) {
	all.Sessions, all.Peers, all.Floors = map[int]Session{}, map[int]Peer{}, map[int]Floor{}
	for _, r := range replies {
		if r.Err != nil {
			continue
		}
		var one Knows
		if err := json.Unmarshal(r.Body, &one); err != nil || one.Sessions == nil {
			return Knows{}, 0, fmt.Errorf("%s: %w", r.Name, operator.ErrRefused)
		}
		heard |= 1 << r.Voter
		all.Level = greatest(all.Level, one.Level)
		for shard, floor := range one.Floors {
			if shard >= 0 && shard < config.MostShards {
				all.Floors[shard] = all.Floors[shard].with(floor)
			}
		}
		for place, p := range one.Peers {
			if place >= 0 && place < places {
				all.Peers[place] = laterPeer(all.Peers[place], p)
			}
		}
		for key, row := range one.Sessions {
			if row.Lapses = 0; key >= 0 && key < config.MostShards*qlock.MaxClients && row.Epoch > 0 { // those are another voter's
				all.Sessions[key] = newer(all.Sessions[key], row)
			}
		}
	}
	if all.Level > level.Newest {
		return Knows{}, 0, fmt.Errorf("%w: %d, and this one knows levels up to %d", ErrLevel, all.Level, level.Newest)
	}
	all.raise()
	return all, heard, nil
}

// raise puts the rows of floors in place of the floors of those shards of which some voter knows rows.
func (k *Knows) raise() {
	used := map[int]bool{}
	for key := range k.Sessions {
		used[key/qlock.MaxClients] = true
	}
	for shard, floor := range k.Floors {
		if !used[shard] {
			continue
		}
		for number := range floor.Epochs {
			if row, key := floor.row(number), shard*qlock.MaxClients+number; row.Epoch > 0 {
				k.Sessions[key] = newer(k.Sessions[key], row)
			}
		}
		delete(k.Floors, shard)
	}
}

// newer returns the session of two that counts, with the higher of what both reserved: one in use
// before a claim alone, then the one with the higher epoch. Its stamps are above what the other one
// reserved. An epoch that two sessions use has none.
func newer(a, b Session) Session {
	if a.Used && !b.Used || a.Used == b.Used && a.Epoch > b.Epoch {
		a, b = b, a
	}
	switch {
	case a.Epoch == b.Epoch && a.Hash == b.Hash: // over for one is over
		b.Open, b.Dropped = a.Open && b.Open, a.Dropped && b.Dropped
		b.Base = greatest(a.Base, b.Base)
	case a.Epoch == b.Epoch && a.Used == b.Used:
		b = Session{Epoch: b.Epoch, Base: greatest(a.Reserved, b.Reserved), Reserved: b.Reserved}
	default:
		b.Base = greatest(b.Base, a.Reserved)
	}
	b.Reserved = greatest(a.Reserved, b.Reserved)
	return b
}

// silent returns the names of those that did not reply.
func silent(replies []operator.Reply) string {
	var names []string
	for _, r := range replies {
		if r.Err != nil {
			names = append(names, r.Name)
		}
	}
	return strings.Join(names, " ")
}
