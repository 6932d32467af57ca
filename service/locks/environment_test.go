package locks

import (
	"errors"
	"testing"

	"calvundek.example/service/internal/config"
)

// A client's configuration may be in the environment; a slip of the pen is no setting.
func TestFromEnvironment(t *testing.T) {
	for _, name := range []string{"CLUSTER", "USER", "SECRET", "SEED", "CREDS", "CERT", "KEY"} {
		t.Setenv("QLOCK_"+name, "the "+name)
	}
	c, err := FromEnvironment()
	want := Config{Cluster: "the CLUSTER", User: "the USER", Secret: "the SECRET",
		Seed: "the SEED", Creds: "the CREDS", Cert: "the CERT", Key: "the KEY"}
	if err != nil || c != want {
		t.Errorf("%+v, %v", c, err)
	}
	t.Setenv("QLOCK_USR", "slip")
	if _, err := FromEnvironment(); !errors.Is(err, config.ErrConfig) {
		t.Error(err)
	}
}
