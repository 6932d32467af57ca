package config

import (
	"encoding"
	"fmt"
	"os"
	"reflect"
	"regexp"
	"strconv"
	"strings"
)

// A setting is given by the environment, too: `max_locks` by QLOCK_MAX_LOCKS. An empty variable is
// none.
const prefix = "QLOCK_"

// others are the variables of this project that are no settings of a voter's or an agent's file.
var others = []string{"TIMEOUT", // of qlockctl
	"AGENT",        // the socket of a host's agent, for who asks it
	"PASS", "TURN", // which a program finds that `qlockctl run` runs
	"BUILD", "LIBRARY", "PLAN_LIBRARY", "WHEEL_LIBRARIES", "PROGRAMS", "PGHOST"}

// links are the ends of variables that Kubernetes makes of the names of services.
var links = regexp.MustCompile(`^(.*_)?(SERVICE_HOST|SERVICE_PORT(_.+)?|PORT(_\d+_(TCP|UDP|SCTP)(_.+)?)?)$`)

// variable returns the name of the variable of a setting.
func variable(key string) string {
	return prefix + strings.ToUpper(strings.ReplaceAll(key, "-", "_"))
}

// FromEnvironment returns what the environment says of a setting, "" if it says nothing.
func FromEnvironment(key string) string { return os.Getenv(variable(key)) }

// CheckEnvironment returns an error if there is a variable QLOCK_.. that nothing reads: it may be
// a slip of the pen.
func CheckEnvironment() error {
	known := map[string]bool{}
	for _, name := range others {
		known[prefix+name] = true
	}
	for _, settings := range []interface{}{&Voter{}, &Agent{}} {
		for _, field := range fields(reflect.ValueOf(settings).Elem()) {
			known[variable(field.key)] = true
		}
	}
	for _, pair := range os.Environ() {
		name, _, _ := strings.Cut(pair, "=")
		if rest, is := cutPrefix(name, prefix); is && !known[name] && !links.MatchString(rest) {
			return fmt.Errorf("%w: the environment has %s, which is no setting", ErrConfig, name)
		}
	}
	return nil
}

// Environ puts what the environment says into the settings of a struct, by their keys in a file.
func Environ(into interface{}) error {
	for _, field := range fields(reflect.ValueOf(into).Elem()) {
		if text := FromEnvironment(field.key); text != "" {
			if err := field.set(text); err != nil {
				return fmt.Errorf("%w: the environment's %s is %q: %v", ErrConfig, variable(field.key), text, err)
			}
		}
	}
	return nil
}

// field is a setting: its key in a file, and where it is.
type field struct {
	key  string
	into reflect.Value
}

// fields returns the settings of a struct, and of those in it.
func fields(of reflect.Value) (all []field) {
	for i := 0; i < of.NumField(); i++ {
		if kind := of.Type().Field(i); kind.Anonymous {
			all = append(all, fields(of.Field(i))...)
		} else if key, _, _ := strings.Cut(kind.Tag.Get("toml"), ","); key != "" && key != "-" {
			all = append(all, field{key, of.Field(i)})
		}
	}
	return all
}

// set reads a text as the setting has it.
func (f field) set(text string) error {
	if reader, is := f.into.Addr().Interface().(encoding.TextUnmarshaler); is {
		return reader.UnmarshalText([]byte(text))
	}
	switch f.into.Kind() {
	case reflect.String:
		f.into.SetString(text)
	case reflect.Uint64:
		n, err := strconv.ParseUint(text, 10, 64)
		f.into.SetUint(n)
		return err
	default:
		n, err := strconv.Atoi(text)
		f.into.SetInt(int64(n))
		return err
	}
	return nil
}

// cutPrefix returns a text without its beginning, and whether it begins so.
func cutPrefix(text, beginning string) (string, bool) {
	return strings.TrimPrefix(text, beginning), strings.HasPrefix(text, beginning)
}
