// Package users says what the broker lets each user of a cluster do, as the file of a server of NATS has it.
package users

import (
	"fmt"
	"strings"

	"calvundek.example/service/internal/config"
	"calvundek.example/service/internal/wire"
)

// User is who a connection is, and what it may do.
type User struct {
	Name               string
	Subscribe, Publish []string
}

// List names the users of a cluster besides its voters.
type List struct {
	Clients   []string // they take locks
	Operators []string // they also evict, unlock, and exchange plans
	Readers   []string // they look
}

// VoterName returns the user of the voter with this number.
func VoterName(number int) string { return fmt.Sprintf("voter-%d", number) }

// Of returns all users of a cluster: its voters by their numbers, and those of a list.
func Of(cluster *config.Cluster, list List) (all []User, err error) {
	at := func(format string, words ...interface{}) string {
		return "qlock." + cluster.ID + "." + fmt.Sprintf(format, words...)
	}
	for n := range cluster.Names() {
		all = append(all, User{VoterName(n),
			[]string{at("v.%d.*", n), at("p.%d.*", n), at("read.%d.*", n), at("write.%d.*", n), at("o.%d.>", n)},
			[]string{at("c.*.*.%d", n), at("p.*.%d", n), at("v.%d.%d", n, n), at("o.*.*.%d", n), at("read.*.%d", n)}})
	}
	for _, name := range list.Clients {
		all = append(all, User{name, []string{at("c.%s.>", name)}, []string{at("v.*.%s", name)}})
	}
	for _, name := range list.Operators {
		all = append(all, User{name, []string{at("o.%s.>", name)}, []string{at("read.*.%s", name), at("write.*.%s", name)}})
	}
	for _, name := range list.Readers {
		all = append(all, User{name, []string{at("o.%s.>", name)}, []string{at("read.*.%s", name)}})
	}
	return all, check(all)
}

// check returns an error if a name is none, or two users have it.
func check(all []User) error {
	seen := map[string]bool{}
	for _, user := range all {
		switch {
		case !wire.IsUser([]byte(user.Name)):
			return fmt.Errorf("%w: %q", config.ErrUser, user.Name)
		case seen[user.Name]:
			return fmt.Errorf("%w: two users are named %s", config.ErrConfig, user.Name)
		}
		seen[user.Name] = true
	}
	return nil
}

// Block returns the block of a server's file with these users. A function says how each shows who it is.
func Block(all []User, shows func(name string) (string, error)) (string, error) {
	var text strings.Builder
	text.WriteString("authorization { users: [\n")
	for _, user := range all {
		shown, err := shows(user.Name)
		if err != nil {
			return "", err
		}
		fmt.Fprintf(&text, "  { %s, permissions: {\n      subscribe: [%s],\n      publish: [%s] } }\n", shown,
			quoted(user.Subscribe), quoted(user.Publish))
	}
	return text.String() + "] }\n", nil
}

// quoted returns subjects as a server's file has them. The quotes have to be there.
func quoted(subjects []string) string { return `"` + strings.Join(subjects, `", "`) + `"` }

// ByPassword says that a user has a password, which is to be put there.
func ByPassword(name string) (string, error) {
	return fmt.Sprintf(`user: %s, password: "..."`, name), nil
}
