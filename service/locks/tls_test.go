package locks

import (
	"context"
	"crypto/ecdsa"
	"crypto/elliptic"
	"crypto/rand"
	"crypto/x509"
	"crypto/x509/pkix"
	"encoding/pem"
	"fmt"
	"io"
	"math/big"
	"net"
	"os"
	"os/exec"
	"path/filepath"
	"strings"
	"testing"
	"time"

	"calvundek.example/service/internal/config"
	"calvundek.example/service/internal/event"
	"calvundek.example/service/internal/local"
	"calvundek.example/service/internal/operator"
	"calvundek.example/service/internal/users"
	"calvundek.example/service/internal/voter"
	"calvundek.example/service/internal/wire"
	"calvundek.example/service/internal/worlds"
	"calvundek.example/service/transport"
)

// serverFile is a server with TLS that wants certificates of its clients, and says what each user may do.
const serverFile = `listen: "127.0.0.1:%d"
tls { cert_file: "%s/server.pem", key_file: "%s/server.key", ca_file: "%s/ca.pem", verify: true }
%s`

// authority makes an authority and certificates of it in a folder: NAME.pem and NAME.key.
func authority(t *testing.T, folder string, names ...string) {
	t.Helper()
	caKey := newKey(t)
	ca := &x509.Certificate{SerialNumber: big.NewInt(1), Subject: pkix.Name{CommonName: "ca"}, NotBefore: time.Now().Add(-time.Hour),
		NotAfter: time.Now().Add(time.Hour), IsCA: true, BasicConstraintsValid: true, KeyUsage: x509.KeyUsageCertSign}
	sign(t, folder, "ca", ca, ca, caKey, caKey)
	for i, name := range names {
		one := &x509.Certificate{SerialNumber: big.NewInt(int64(i + 2)), Subject: pkix.Name{CommonName: name}, NotBefore: ca.NotBefore,
			NotAfter: ca.NotAfter, IPAddresses: []net.IP{net.IPv4(127, 0, 0, 1)}, KeyUsage: x509.KeyUsageDigitalSignature,
			ExtKeyUsage: []x509.ExtKeyUsage{x509.ExtKeyUsageServerAuth, x509.ExtKeyUsageClientAuth}}
		sign(t, folder, name, one, ca, newKey(t), caKey)
	}
}

func newKey(t *testing.T) *ecdsa.PrivateKey {
	t.Helper()
	key, err := ecdsa.GenerateKey(elliptic.P256(), rand.Reader)
	if err != nil {
		t.Fatal(err)
	}
	return key
}

func sign(t *testing.T, folder, name string, one, by *x509.Certificate, key, byKey *ecdsa.PrivateKey) {
	t.Helper()
	certificate, err := x509.CreateCertificate(rand.Reader, one, by, &key.PublicKey, byKey)
	if err != nil {
		t.Fatal(err)
	}
	secret, err := x509.MarshalECPrivateKey(key)
	if err != nil {
		t.Fatal(err)
	}
	write(t, filepath.Join(folder, name+".pem"), string(pem.EncodeToMemory(&pem.Block{Type: "CERTIFICATE", Bytes: certificate})))
	write(t, filepath.Join(folder, name+".key"), string(pem.EncodeToMemory(&pem.Block{Type: "EC PRIVATE KEY", Bytes: secret})))
}

func write(t *testing.T, path, text string) {
	t.Helper()
	if err := os.WriteFile(path, []byte(text), 0o600); err != nil {
		t.Fatal(err)
	}
}

// secured starts a server with TLS and users, and returns the cluster and the folder of the certificates.
func secured(t *testing.T) (*config.Cluster, string) {
	t.Helper()
	server, err := local.NATSServer()
	if err != nil {
		t.Skip("apt-get install nats-server")
	}
	folder := t.TempDir()
	authority(t, folder, "server", "process")
	cluster := worlds.NewCluster(t, worlds.Majority, 2*time.Second)
	all, err := users.Of(cluster, users.List{Clients: []string{"shop", "spy"}, Operators: []string{"alice"}, Readers: []string{"bob"}})
	if err != nil {
		t.Fatal(err)
	}
	block, err := users.Block(all, func(user string) (string, error) {
		write(t, filepath.Join(folder, user+".secret"), "secret-"+user+"\n")
		shown, err := users.ByPassword(user)
		return strings.Replace(shown, "...", "secret-"+user, 1), err
	})
	if err != nil {
		t.Fatal(err)
	}
	ports, err := local.FreePorts(1)
	if err != nil {
		t.Fatal(err)
	}
	write(t, filepath.Join(folder, "nats.conf"), fmt.Sprintf(serverFile, ports[0], folder, folder, folder, block))
	run := exec.Command(server, "-c", filepath.Join(folder, "nats.conf"))
	if err := run.Start(); err != nil {
		t.Fatal(err)
	}
	t.Cleanup(func() { _ = run.Process.Kill(); _ = run.Wait() })
	cluster.Servers, cluster.CA = []string{fmt.Sprintf("tls://127.0.0.1:%d", ports[0])}, filepath.Join(folder, "ca.pem")
	return cluster, folder
}

func access(folder, user string) config.Access {
	return config.Access{User: user, Secret: filepath.Join(folder, user+".secret"),
		Cert: filepath.Join(folder, "process.pem"), Key: filepath.Join(folder, "process.key")}
}

// connect connects a user.
func connect(t *testing.T, cluster *config.Cluster, access config.Access) *transport.NATS {
	t.Helper()
	link, err := transport.Connect(cluster, access, "test")
	if err != nil {
		t.Fatal(err)
	}
	t.Cleanup(link.Close)
	return link
}

// serve starts the voters of a cluster, each as its own user.
func serve(t *testing.T, cluster *config.Cluster, folder string) {
	t.Helper()
	serveBy(t, cluster, folder, func(i int) *transport.NATS {
		return connect(t, cluster, access(folder, users.VoterName(i)))
	})
}

// serveBy starts the voters of a cluster, each by a connection of its own.
func serveBy(t *testing.T, cluster *config.Cluster, folder string, by func(i int) *transport.NATS) {
	t.Helper()
	for i, name := range cluster.Planned.Names {
		own := worlds.NewVoter(name, filepath.Join(folder, "voter-"+name))
		if _, err := voter.Init(own, cluster); err != nil {
			t.Fatal(err)
		}
		d, err := voter.Open(own, cluster, by(i), event.To(io.Discard))
		if err != nil {
			t.Fatal(i, err)
		}
		ctx, cancel := context.WithCancel(context.Background())
		ended := make(chan error, 1)
		go func() { ended <- d.Run(ctx) }()
		t.Cleanup(func() {
			cancel()
			if err := <-ended; err != nil {
				t.Error(err)
			}
		})
	}
}

// With certificates and users a client passes and an operator sees it. Another client hears nothing of it, and can't
// speak to voters as an operator, or as a voter to it.
func TestCertificatesAndUsers(t *testing.T) {
	cluster, folder := secured(t)
	serve(t, cluster, folder)
	shop := connect(t, cluster, access(folder, "shop"))
	client, err := open(within(t, 20*time.Second), cluster, Config{User: "shop", Transport: shop})
	if err != nil {
		t.Fatal(err)
	}
	spy := connect(t, cluster, access(folder, "spy"))
	var heard []<-chan transport.Message
	for _, box := range []string{"qlock.test.c.shop.>", "qlock.test.c.*.*.*", "qlock.test.v.0.*", "qlock.test.o.>", ">"} {
		messages, err := spy.Listen(box)
		if err != nil {
			t.Fatal(err)
		}
		heard = append(heard, messages)
	}
	operators := wire.Header{Cluster: "test", Coterie: cluster.Marks()[0], Kind: wire.FromOperator, Name: "spy"}
	for _, name := range []string{"spy", "alice"} {
		_ = spy.Send(wire.WriteBox("test", 0, name), append(operators.Append(nil), fmt.Sprintf("evict %d\n", client.Number())...))
	}
	_ = spy.Send(wire.SessionBox("test", wire.SessionName("shop", client.header.Name), 0), []byte("anything"))
	held := take(t, client, "x")
	time.Sleep(700 * time.Millisecond) // some heartbeats
	for _, one := range []struct {
		user, words string
		may         bool
	}{{"bob", "lock x", true}, {"bob", "status", true}, {"bob", "knows", false},
		{"bob", fmt.Sprint("evict ", client.Number()), false}, {"alice", "lock x", true}, {"alice", "knows", true}} {
		console := operator.New(cluster, connect(t, cluster, access(folder, one.user)), one.user)
		patience := 10 * time.Second
		if !one.may {
			patience = time.Second
		}
		replies, err := console.Ask(within(t, patience), one.words, console.All()...)
		if err != nil {
			t.Fatal(err)
		}
		for _, r := range replies {
			if (r.Err == nil) != one.may {
				t.Errorf("%s asks %s: %s: %v", one.user, one.words, r.Name, r.Err)
			}
		}
	}
	select {
	case <-held.Lost():
		t.Error("a client could evict another one")
	default:
	}
	for i, messages := range heard {
		select {
		case message := <-messages:
			t.Errorf("%d: heard %q", i, message.Data)
		default:
		}
	}
	if refused := client.Stats().Refused; refused > 0 {
		t.Errorf("%d messages were not those of voters", refused)
	}
	if err := held.Unlock(); err != nil {
		t.Error(err)
	}
	if err := client.Close(within(t, 20*time.Second)); err != nil {
		t.Error(err)
	}
}

// Without a certificate, with a wrong password, or with a server of another authority there is no connection.
func TestWrongCertificatesAndUsers(t *testing.T) {
	cluster, folder := secured(t)
	other := t.TempDir()
	authority(t, other, "process")
	right := access(folder, "shop")
	for what, how := range map[string]func(a *config.Access, c *config.Cluster){
		"a wrong password":    func(a *config.Access, _ *config.Cluster) { a.Secret = filepath.Join(folder, "spy.secret") },
		"no user":             func(a *config.Access, _ *config.Cluster) { a.User = "" },
		"no certificate":      func(a *config.Access, _ *config.Cluster) { a.Cert = "" },
		"another authority":   func(_ *config.Access, c *config.Cluster) { c.CA = filepath.Join(other, "ca.pem") },
		"another's signature": func(a *config.Access, _ *config.Cluster) { a.Cert, a.Key = other+"/process.pem", other+"/process.key" },
		"everything is right": func(*config.Access, *config.Cluster) {},
	} {
		a, c := right, *cluster
		how(&a, &c)
		link := connect(t, &c, a)
		connected := false
		for i := 0; i < 20 && !connected; i++ {
			time.Sleep(50 * time.Millisecond)
			connected = link.Connected()
		}
		if !connected && link.Returns() > 0 {
			t.Errorf("%s: %d returns", what, link.Returns())
		}
		if connected != (what == "everything is right") {
			t.Errorf("%s: connected is %v", what, connected)
		}
	}
}

// A process that runs shows the certificate and the password that are in its files when it
// connects, not those of its start.
func TestRenewedFiles(t *testing.T) {
	cluster, folder := secured(t)
	other, mine := t.TempDir(), t.TempDir()
	authority(t, other, "process")
	right := cluster.CA
	cluster.CA = mine + "/ca.pem"
	copyFile := func(from, to string) {
		text, err := os.ReadFile(from)
		if err != nil {
			t.Fatal(err)
		}
		write(t, to, string(text))
	}
	a := config.Access{User: "shop", Secret: mine + "/secret", Cert: mine + "/process.pem", Key: mine + "/process.key"}
	put := func(from, secret string) {
		copyFile(from+"/process.pem", a.Cert)
		copyFile(from+"/process.key", a.Key)
		copyFile(folder+"/"+secret+".secret", a.Secret)
	}
	connects := func(link *transport.NATS, most time.Duration) bool {
		for end := time.Now().Add(most); time.Now().Before(end) && !link.Connected(); {
			time.Sleep(20 * time.Millisecond)
		}
		return link.Connected()
	}
	copyFile(right, cluster.CA)
	put(other, "shop") // as one that has ended
	link := connect(t, cluster, a)
	if connects(link, 500*time.Millisecond) {
		t.Fatal("a certificate of another authority")
	}
	if left := time.Until(link.CertificateEnd()); left < 50*time.Minute || left > time.Hour {
		t.Errorf("the certificate ends in %v", left)
	}
	copyFile(other+"/ca.pem", cluster.CA)
	put(folder, "spy")
	if connects(link, 1500*time.Millisecond) {
		t.Fatal("a wrong password")
	}
	if why := link.Why(); why == nil {
		t.Error("nothing says why there is no connection")
	}
	put(folder, "shop")
	if connects(link, 1500*time.Millisecond) {
		t.Fatal("a server of another authority")
	}
	copyFile(right, cluster.CA)
	if !connects(link, 10*time.Second) {
		t.Error("new files are not read:", link.Why())
	}
}

// routed returns the file of a server as docs/service.md has it, without the users, with these
// ports and folders of certificates.
func routed(t *testing.T, port, own, first int, machines, routes string) string {
	t.Helper()
	text, err := os.ReadFile("../../docs/service.md")
	if err != nil {
		t.Fatal(err)
	}
	_, file, found := strings.Cut(string(text), "listen: \"0.0.0.0:4222\"")
	if file, _, _ = strings.Cut(file, "include "); !found {
		t.Fatal("the page has no file of a server")
	}
	return fmt.Sprintf("listen: \"127.0.0.1:%d\"", port) + strings.NewReplacer("server_name: m0", "",
		"0.0.0.0:6222", fmt.Sprintf("127.0.0.1:%d", own),
		`"tls://m0:6222", "tls://m1:6222", "tls://m2:6222"`, fmt.Sprintf(`"tls://127.0.0.1:%d"`, first),
		"/etc/qlock/routes.", routes+"/process.", "/etc/qlock/routes-ca.", routes+"/ca.",
		"/etc/qlock/machine.", machines+"/server.", "/etc/qlock/ca.", machines+"/ca.").Replace(file)
}

// A server whose routes are by the certificate of a machine, which clients may read, gets no route.
// One with a certificate of the routes' authority does.
func TestRogueRoute(t *testing.T) {
	server, err := local.NATSServer()
	if err != nil {
		t.Skip("apt-get install nats-server")
	}
	machines, routes := t.TempDir(), t.TempDir()
	authority(t, machines, "server", "process")
	authority(t, routes, "process")
	ports, err := local.FreePorts(6)
	if err != nil {
		t.Fatal(err)
	}
	begin := func(i int, folder string) *transport.NATS {
		file := filepath.Join(t.TempDir(), "nats.conf")
		write(t, file, routed(t, ports[i], ports[i+3], ports[3], machines, folder))
		run := exec.Command(server, "-c", file)
		if err := run.Start(); err != nil {
			t.Fatal(err)
		}
		t.Cleanup(func() { _ = run.Process.Kill(); _ = run.Wait() })
		c := &config.Cluster{Servers: []string{fmt.Sprintf("tls://127.0.0.1:%d", ports[i])},
			CA: filepath.Join(machines, "ca.pem")}
		link := connect(t, c, config.Access{Cert: machines + "/process.pem", Key: machines + "/process.key"})
		soon(t, "there is a server", link.Connected)
		return link
	}
	first, rogue, second := begin(0, routes), begin(1, machines), begin(2, routes)
	stolen, err := rogue.Listen("qlock.>")
	if err != nil {
		t.Fatal(err)
	}
	passed, err := second.Listen("qlock.>")
	if err != nil {
		t.Fatal(err)
	}
	soon(t, "servers with a route pass nothing on", func() bool {
		_ = first.Send("qlock.test.v.0.jobs",
			[]byte("x"))
		return len(passed) > 0
	})
	for i := 0; i < 20; i++ {
		_ = first.Send("qlock.test.v.0.jobs", []byte("x"))
		time.Sleep(50 * time.Millisecond)
	}
	if len(stolen) > 0 {
		t.Error("a server with the certificate of a machine hears all")
	}
}
