package local

import (
	"bytes"
	"fmt"
	"os"
	"os/exec"
	"path/filepath"
	"strings"
)

// Island is the network namespace of one process, with one cable to this machine, which passes on what is for others. It needs root
// and iproute2, and nftables for one direction and for losses.
type Island struct {
	name, cable string
	number      int
}

// ip runs commands of ip, one for each line.
func ip(lines string) error {
	for _, line := range strings.Split(strings.TrimSpace(lines), "\n") {
		if out, err := exec.Command("ip", strings.Fields(line)...).CombinedOutput(); err != nil {
			return fmt.Errorf("ip %s: %s", strings.TrimSpace(line), bytes.TrimSpace(out))
		}
	}
	return nil
}

// newIsland makes a namespace, from which the servers can be reached. It loses some of 100 packets.
func newIsland(number, loss int) (*Island, error) {
	i := &Island{fmt.Sprintf("qlock-%d-%d", os.Getpid(), number), fmt.Sprintf("ql%d-%d", os.Getpid(), number), number}
	err := ip(fmt.Sprintf(`netns add %[1]s
		link add %[2]s type veth peer name eth0 netns %[1]s
		addr add 10.77.%[3]d.1/30 dev %[2]s
		link set %[2]s up
		-n %[1]s link set lo up
		-n %[1]s addr add 10.77.%[3]d.2/30 dev eth0
		-n %[1]s link set eth0 up
		-n %[1]s route add default via 10.77.%[3]d.1`, i.name, i.cable, number))
	if err != nil || loss == 0 {
		return i, err
	}
	return i, i.filter(fmt.Sprintf(`add table inet loss
		add chain inet loss out { type filter hook output priority 1; policy accept; }
		add chain inet loss in { type filter hook input priority 1; policy accept; }
		add rule inet loss out numgen random mod 100 < %[1]d drop
		add rule inet loss in numgen random mod 100 < %[1]d drop`, loss))
}

// filter gives commands to the packet filter of the island.
func (i *Island) filter(rules string) error {
	words := i.within([]string{"nft", rules})
	if out, err := exec.Command(words[0], words[1:]...).CombinedOutput(); err != nil {
		return fmt.Errorf("nft: %s", bytes.TrimSpace(out))
	}
	return nil
}

// remove removes the namespace, and with it its cable.
func (i *Island) remove() { _ = ip("netns del " + i.name) }

// Cut cuts the island off, or connects it again.
func (i *Island) Cut(cut bool) error {
	if cut {
		return ip("link set " + i.cable + " down")
	}
	return ip("link set " + i.cable + " up")
}

// Mute drops all that leaves the island, while what comes to it arrives, or ends that.
func (i *Island) Mute(mute bool) error {
	if !mute {
		return i.filter("delete table inet qlock")
	}
	return i.filter("add table inet qlock; add chain inet qlock out { type filter hook output priority 0; policy drop; }")
}

// Address is where the process of the island is.
func (i *Island) Address() string { return fmt.Sprintf("10.77.%d.2", i.number) }

// Part cuts the island off from another one alone, or ends that.
func (i *Island) Part(from *Island, cut bool) error {
	word := "del"
	if cut {
		word = "add"
	}
	return ip(fmt.Sprintf("-n %s route %s blackhole %s", i.name, word, from.Address()))
}

// within returns the words that run a program on the island.
func (i *Island) within(words []string) []string {
	return append([]string{"ip", "netns", "exec", i.name}, words...)
}

// forward lets this machine pass on what comes from one island for another, and returns what ends that.
func forward() (func(), error) {
	const file = "/proc/sys/net/ipv4/ip_forward"
	before, err := os.ReadFile(file)
	if err != nil {
		return nil, err
	}
	return func() { _ = os.WriteFile(file, before, 0o644) }, os.WriteFile(file, []byte("1\n"), 0o644)
}

// smallDisk mounts a small file system over a voter's folder, and returns what takes it away. It needs root.
func smallDisk(folder string) (func(), error) {
	if err := os.MkdirAll(folder, 0o700); err != nil {
		return nil, err
	}
	if out, err := exec.Command("mount", "-t", "tmpfs", "-o", "size=8m", "none", folder).CombinedOutput(); err != nil {
		return nil, fmt.Errorf("mount: %s", bytes.TrimSpace(out))
	}
	return func() { _ = exec.Command("umount", "-l", folder).Run() }, nil
}

// FillDisk fills the small disk of the first voter, and EmptyDisk makes room again.
func (c *Cluster) FillDisk() error {
	file, err := os.Create(filepath.Join(c.Data(0), "full"))
	if err != nil {
		return err
	}
	defer file.Close()
	for block := make([]byte, 4096); err == nil; {
		_, err = file.Write(block)
	}
	return nil // there is no room any more
}

// EmptyDisk makes room again.
func (c *Cluster) EmptyDisk() error { return os.Remove(filepath.Join(c.Data(0), "full")) }
