package transport_test

import (
	"encoding/base64"
	"encoding/json"
	"errors"
	"fmt"
	"os"
	"path/filepath"
	"testing"
	"time"

	"calvundek.example/service/internal/config"
	"calvundek.example/service/transport"
	"github.com/nats-io/nkeys"
)

// keys returns a new pair of keys, its public key, and its seed.
func keys(t *testing.T, create func() (nkeys.KeyPair, error)) (nkeys.KeyPair, string, string) {
	t.Helper()
	pair, err := create()
	if err != nil {
		t.Fatal(err)
	}
	public, err := pair.PublicKey()
	if err != nil {
		t.Fatal(err)
	}
	seed, err := pair.Seed()
	if err != nil {
		t.Fatal(err)
	}
	return pair, public, string(seed)
}

// written writes a file, and returns its path.
func written(t *testing.T, name, text string) string {
	t.Helper()
	path := filepath.Join(t.TempDir(), name)
	if err := os.WriteFile(path, []byte(text), 0o600); err != nil {
		t.Fatal(err)
	}
	return path
}

// isHeard returns whether a message comes back.
func isHeard(t *testing.T, link *transport.NATS) bool {
	t.Helper()
	box, err := link.Listen("box")
	if err != nil {
		t.Fatal(err)
	}
	for n := 0; n < 100; n++ {
		_ = link.Send("box", []byte("word"))
		select {
		case <-box:
			return true
		case <-time.After(20 * time.Millisecond):
		}
	}
	return false
}

// A seed says who the user is. A new one in the same file counts from the next connection on.
func TestSeed(t *testing.T) {
	_, first, firstSeed := keys(t, nkeys.CreateUser)
	_, second, secondSeed := keys(t, nkeys.CreateUser)
	_, _, strangers := keys(t, nkeys.CreateUser)
	users := written(t, "nats.conf", fmt.Sprintf("authorization { users: [ { nkey: %s }, { nkey: %s } ] }", first, second))
	s := beginWith(t, "-c", users)
	path := written(t, "jobs.nk", firstSeed+"\n")
	link := connect(t, s.address, config.Access{Seed: path})
	if !isHeard(t, link) {
		t.Fatal("nothing comes back")
	}
	stranger := connect(t, s.address, config.Access{Seed: written(t, "stranger.nk", strangers)})
	s.kill()
	for file, text := range map[string]string{path: secondSeed, users: fmt.Sprintf("authorization { users: [ { nkey: %s } ] }",
		second)} {
		if err := os.WriteFile(file, []byte(text), 0o600); err != nil {
			t.Fatal(err)
		}
	}
	s.start(t)
	until(t, "the connection is back with the new seed", link.Connected)
	if stranger.Connected() {
		t.Error("a stranger is connected")
	}
}

// token returns a JWT of NATS by whoever signs it.
func token(t *testing.T, signer nkeys.KeyPair, subject string, claims string) string {
	t.Helper()
	issuer, err := signer.PublicKey()
	if err != nil {
		t.Fatal(err)
	}
	body, err := json.Marshal(map[string]interface{}{"jti": subject, "iat": time.Now().Unix(), "iss": issuer, "name": "test",
		"sub": subject, "nats": json.RawMessage(claims)})
	if err != nil {
		t.Fatal(err)
	}
	encoded := base64.RawURLEncoding.EncodeToString
	text := encoded([]byte(`{"typ":"JWT","alg":"ed25519-nkey"}`)) + "." + encoded(body)
	signature, err := signer.Sign([]byte(text))
	if err != nil {
		t.Fatal(err)
	}
	return text + "." + encoded(signature)
}

// A file of credentials says who the user is.
func TestCredentials(t *testing.T) {
	operator, itself, _ := keys(t, nkeys.CreateOperator)
	account, name, _ := keys(t, nkeys.CreateAccount)
	_, user, seed := keys(t, nkeys.CreateUser)
	limits := `"subs":-1,"data":-1,"payload":-1`
	settings := fmt.Sprintf("operator: %s\nresolver: MEMORY\nresolver_preload: { %s: %s }\n",
		token(t, operator, itself, `{"type":"operator","version":2}`), name,
		token(t, operator, name, `{"limits":{`+limits+`,"imports":-1,"exports":-1,"conn":-1,"leaf":-1},"type":"account","version":2}`))
	s := beginWith(t, "-c", written(t, "nats.conf", settings))
	jwt := token(t, account, user, `{`+limits+`,"type":"user","version":2}`)
	path := written(t, "jobs.creds", fmt.Sprintf("-----BEGIN NATS USER JWT-----\n%s\n------END NATS USER JWT------\n\n"+
		"-----BEGIN USER NKEY SEED-----\n%s\n------END USER NKEY SEED------\n", jwt, seed))
	link := connect(t, s.address, config.Access{Creds: path})
	if !isHeard(t, link) {
		log, _ := os.ReadFile(s.log)
		t.Fatalf("nothing comes back: %v\n%s", link.Why(), log)
	}
}

// What can't be read, or says two things, is refused at once.
func TestBadAccess(t *testing.T) {
	junk := written(t, "junk", "junk\n")
	_, _, account := keys(t, nkeys.CreateAccount)
	for what, access := range map[string]config.Access{"no seed": {Seed: "/there/is/none"}, "no creds": {Creds: "/there/is/none"},
		"a bad seed": {Seed: junk}, "bad creds": {Creds: junk}, "the seed of an account": {Seed: written(t, "a", account)}} {
		if link, err := transport.Connect(&config.Cluster{Servers: []string{"nats://127.0.0.1:1"}}, access, "test"); err == nil {
			link.Close()
			t.Error(what)
		}
	}
	for _, access := range []config.Access{{User: "u", Secret: junk, Seed: junk}, {Secret: junk, Creds: junk},
		{Seed: junk, Creds: junk}} {
		_, err := transport.Connect(&config.Cluster{Servers: []string{"nats://127.0.0.1:1"}}, access, "test")
		if !errors.Is(err, transport.ErrAccess) || !errors.Is(err, config.ErrConfig) {
			t.Errorf("%+v: %v", access, err)
		}
	}
}
