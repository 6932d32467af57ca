// Package config reads the two files of a process: the cluster's, which all processes share and `qlockctl init` makes,
// and a voter's own. What is not of the cluster may be in the environment, too.
package config

import (
	"bytes"
	"crypto/rand"
	"crypto/sha256"
	"encoding/hex"
	"errors"
	"fmt"
	"io"
	"os"
	"strconv"
	"strings"
	"time"

	"calvundek.example/service/internal/event"
	"calvundek.example/service/internal/level"
	"calvundek.example/service/internal/wire"
	"calvundek.example/service/qlock"
	"github.com/BurntSushi/toml"
)

// The errors of this package.
var (
	ErrConfig = errors.New("bad configuration")
	ErrPlaces = errors.New("a voter has another number in the new plan: list the same voters in the same order, new ones behind them")
	ErrBridge = errors.New("some quorum of the old plan has no common voter with some quorum of the new one")
)

// shortestTTL is the shortest TTL: what delays a client's word beside a busy machine is to be small
// beside the margin of a lease.
const shortestTTL = time.Second

// MostPlan is how many bytes a coterie and its plan may have together that come over the network. A cycle has at most
// 999999 tickets, so such a plan is read in less than a second.
const MostPlan = 96 << 10

// Duration is a time that is written as "250ms".
type Duration struct{ time.Duration }

// UnmarshalText reads a duration.
func (d *Duration) UnmarshalText(text []byte) (err error) {
	d.Duration, err = time.ParseDuration(string(text))
	return err
}

// MarshalText writes a duration.
func (d Duration) MarshalText() ([]byte, error) { return []byte(d.String()), nil }

// Cluster is what voters and clients have to agree on.
type Cluster struct {
	ID      string   `toml:"id"`
	Servers []string `toml:"servers"`
	TTL     Duration `toml:"ttl"`
	CA      string   `toml:"ca,omitempty"` // the file of the authority that signs the servers' certificates
	Coterie string   `toml:"coterie"`
	Plan    string   `toml:"plan"`
	Shards  int      `toml:"shards,omitzero"` // each has 64 numbers for sessions; 1 if 0
	Level   uint64   `toml:"level,omitzero"`  // at which the cluster began; the oldest one if 0

	Generation uint64 `toml:"generation,omitzero"` // how often the plan was exchanged
	OldCoterie string `toml:"old_coterie,omitempty"`
	OldPlan    string `toml:"old_plan,omitempty"` // the plan before, until it is retired

	Planned    *qlock.Plan `toml:"-"` // the plan, once it was checked
	OldPlanned *qlock.Plan `toml:"-"` // nil if none is being exchanged
}

// Access is how a process shows the servers of NATS who it is. All of it may be empty. Of a password, a
// seed and credentials there is one at most. The user is also a word of the mailboxes of clients.
type Access struct {
	User   string `toml:"user"`
	Secret string `toml:"secret"` // the file of the password
	Seed   string `toml:"seed"`   // the file of the seed of an nkey, which is the user
	Creds  string `toml:"creds"`  // the file of credentials: a JWT, and the seed of its user
	Cert   string `toml:"cert"`   // the files of a certificate and of its key
	Key    string `toml:"key"`
}

// ErrUser is returned for who has no name that may be a word of a mailbox.
var ErrUser = fmt.Errorf("%w: a user has 1 to 32 letters, digits, - and _, a letter first; a seed and creds need one", ErrConfig)

// Speaker returns the user as a word of a mailbox.
func (a Access) Speaker() (string, error) {
	switch {
	case a.User == "" && a.Seed+a.Creds == "":
		return wire.NoUser, nil
	case !wire.IsUser([]byte(a.User)):
		return "", fmt.Errorf("%w: %q", ErrUser, a.User)
	}
	return a.User, nil
}

// Voter is the configuration of one voter.
type Voter struct {
	Cluster      string   `toml:"cluster"` // the cluster's file
	Voter        string   `toml:"voter"`   // its name in the coterie
	Data         string   `toml:"data"`    // the folder of its state
	Listen       string   `toml:"listen"`  // the address of /metrics and /healthz, none if it is empty
	MaxLocks     int      `toml:"max_locks"`
	MaxLocksUser int      `toml:"max_locks_user"` // 0 for as many as MaxLocks
	First        Duration `toml:"remind_first"`
	Most         Duration `toml:"remind_most"`

	Log event.Level `toml:"log"` // the least level of what is logged
	Access
}

// ReadCluster reads a cluster's file, and checks it and its plan.
func ReadCluster(path string) (*Cluster, error) {
	c := &Cluster{TTL: Duration{10 * time.Second}}
	if err := decode(path, c); err != nil {
		return nil, err
	}
	if err := c.Check(); err != nil {
		return nil, fmt.Errorf("%s: %w", path, err)
	}
	return c, nil
}

// Check checks a cluster, and its plan.
func (c *Cluster) Check() (err error) {
	switch {
	case !wire.IsID([]byte(c.ID)):
		return fmt.Errorf("%w: id is %q, and has to be 1 to 32 letters, digits, - and _", ErrConfig, c.ID)
	case len(c.Servers) == 0:
		return fmt.Errorf("%w: there are no servers", ErrConfig)
	case c.TTL.Duration < shortestTTL:
		return fmt.Errorf("%w: ttl is %v, and has to be %v or longer", ErrConfig, c.TTL, shortestTTL)
	case c.checkShards() != "":
		return fmt.Errorf("%w: %s", ErrConfig, c.checkShards())
	case c.Level > level.Newest:
		return fmt.Errorf("%w: the cluster began at level %d, and this program knows levels up to %d", ErrConfig, c.Level, level.Newest)
	}
	if c.Planned, err = qlock.ReadPlan(c.Coterie, c.Plan); err != nil {
		return fmt.Errorf("%w: %v", ErrConfig, err)
	}
	if c.OldPlanned = nil; c.OldCoterie == "" {
		return nil
	}
	if c.OldPlanned, err = qlock.ReadPlan(c.OldCoterie, c.OldPlan); err != nil || c.Generation == 0 {
		return fmt.Errorf("%w: old_coterie, old_plan or generation: %v", ErrConfig, err)
	}
	if err := CheckExchange(c.OldPlanned, c.Planned); err != nil {
		return fmt.Errorf("%w: %v", ErrConfig, err)
	}
	return nil
}

// CheckExchange returns an error unless one plan may be exchanged for another while both are in use: each voter keeps its
// number, and each quorum of one meets each one of the other.
func CheckExchange(old, now *qlock.Plan) error {
	for i := 0; i < len(old.Names) && i < len(now.Names); i++ {
		if old.Names[i] != now.Names[i] {
			return fmt.Errorf("%w: %d is %q and %q", ErrPlaces, i, old.Names[i], now.Names[i])
		}
	}
	if old.IsBridged(now) {
		return nil
	}
	if first, second, found := old.Apart(now); found {
		return fmt.Errorf("%w: %s of the old one, and %s of the new one", ErrBridge, strings.Join(old.NamesOf(first), " "),
			strings.Join(now.NamesOf(second), " "))
	}
	return ErrBridge
}

// Names returns the names of all voters by their numbers, also of those that only one of two plans has.
func (c *Cluster) Names() []string {
	if c.OldPlanned != nil && len(c.OldPlanned.Names) > len(c.Planned.Names) {
		return c.OldPlanned.Names
	}
	return c.Planned.Names
}

// Number returns the number of a voter by its name, -1 if no plan has it.
func (c *Cluster) Number(name string) int {
	for number, other := range c.Names() {
		if other == name {
			return number
		}
	}
	return -1
}

// HasQuorums returns whether a set of voters contains a quorum of each plan.
func (c *Cluster) HasQuorums(voters uint64) bool {
	return c.Planned.HasQuorum(voters) && (c.OldPlanned == nil || c.OldPlanned.HasQuorum(voters))
}

// HasAny returns whether a set of voters contains a quorum of any plan.
func (c *Cluster) HasAny(voters uint64) bool {
	return c.Planned.HasQuorum(voters) || c.OldPlanned != nil && c.OldPlanned.HasQuorum(voters)
}

// Marks returns what messages say of the plan, and of the one before it while it is exchanged.
func (c *Cluster) Marks() []string {
	if c.OldPlanned == nil {
		return []string{c.Mark(Mark(c.Generation, c.Coterie))}
	}
	return []string{c.Mark(Mark(c.Generation, c.Coterie)), c.Mark(Mark(c.Generation-1, c.OldCoterie))}
}

// Mark returns what messages say of the plan with this mark, "" for none: it has the TTL and the number of shards, too. Who
// has another one drops the message.
func (c *Cluster) Mark(plan string) string {
	switch {
	case plan == "":
		return ""
	case c.HasShards():
		return Hash(fmt.Sprintf("%v %d %s", c.TTL, c.Shards, plan))
	}
	return Hash(c.TTL.String() + " " + plan)
}

// Text returns the text of a cluster's file.
func (c *Cluster) Text() ([]byte, error) {
	var text bytes.Buffer
	err := toml.NewEncoder(&text).Encode(c)
	return text.Bytes(), err
}

// VoterFile is the voter's file if nobody names another one. It need not be there.
const VoterFile = "voter.toml"

// ReadVoter reads a voter's file, the environment, which goes before it, and the cluster's file.
// Without a path it is VoterFile, if that is there.
func ReadVoter(path string) (*Voter, *Cluster, error) {
	v := &Voter{MaxLocks: 100000, First: Duration{250 * time.Millisecond}, Most: Duration{5 * time.Second}}
	place := path // what an error names
	if path == "" {
		place = VoterFile
	}
	if _, err := os.Stat(place); path == "" && errors.Is(err, os.ErrNotExist) {
		place = "there is no " + VoterFile + ", and in the environment"
	} else if err := decode(place, v); err != nil {
		return nil, nil, err
	}
	if err := CheckEnvironment(); err != nil {
		return nil, nil, err
	}
	if err := Environ(v); err != nil {
		return nil, nil, err
	}
	if why := v.fault(); why != "" {
		return nil, nil, fmt.Errorf("%w: %s: %s", ErrConfig, place, why)
	}
	cluster, err := ReadCluster(v.Cluster)
	if err != nil {
		return nil, nil, err
	}
	if cluster.Number(v.Voter) < 0 {
		return nil, nil, fmt.Errorf("%w: %s: the coterie has no voter %q", ErrConfig, place, v.Voter)
	}
	return v, cluster, nil
}

// LocksOfUser returns how many locks of a voter one user may have or wait for.
func (v *Voter) LocksOfUser() int {
	if v.MaxLocksUser == 0 {
		return v.MaxLocks
	}
	return v.MaxLocksUser
}

// fault returns what is wrong with a voter's settings, "" if nothing is.
func (v *Voter) fault() string {
	switch {
	case v.Cluster == "":
		return "cluster is not set"
	case v.Voter == "":
		return "voter is not set"
	case v.Data == "":
		return "data is not set"
	case v.MaxLocks < 1:
		return "max_locks has to be 1 or more"
	case v.MaxLocksUser < 0:
		return "max_locks_user may not be below 0"
	case v.First.Duration <= 0 || v.Most.Duration < v.First.Duration:
		return "remind_first has to be above 0, and remind_most may not be shorter"
	}
	return ""
}

// decode reads a file. A key that nothing reads is refused.
func decode(path string, into interface{}) error {
	meta, err := toml.DecodeFile(path, into)
	if err != nil {
		return fmt.Errorf("%w: %s: %v", ErrConfig, path, err)
	}
	if unknown := meta.Undecoded(); len(unknown) > 0 {
		return fmt.Errorf("%w: %s: unknown key %s", ErrConfig, path, unknown[0])
	}
	return nil
}

// Hash returns a part of the SHA-256 of a text, in hexadecimal.
func Hash(text string) string {
	sum := sha256.Sum256([]byte(text))
	return hex.EncodeToString(sum[:6])
}

// Mark returns the mark of a plan: of its coterie, and of how often the plan was exchanged before
// it.
func Mark(generation uint64, coterie string) string {
	if generation == 0 {
		return Hash(coterie)
	}
	return Hash(strconv.FormatUint(generation, 10) + " " + coterie)
}

// Nonce returns 128 random bits in hexadecimal.
func Nonce() (string, error) { return NonceOf(rand.Reader) }

// NonceOf returns 128 bits in hexadecimal, of a source of random ones.
func NonceOf(random io.Reader) (string, error) {
	b := make([]byte, 16)
	if _, err := io.ReadFull(random, b); err != nil {
		return "", err
	}
	return hex.EncodeToString(b), nil
}
