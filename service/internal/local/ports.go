package local

import (
	"errors"
	"fmt"
	"math/rand"
	"net"
	"os"
	"sync"
	"time"
)

// Ports come from below those that the system gives to connections. A connection could take one of those before the
// program binds it that the port is for. Each process has blocks of ports of its own: while it runs, it listens at the
// first port of each.
const (
	firstPort = 15000
	endPort   = 31000
	BlockSize = 100 // how many ports a block has, with the first one
)

// ErrPorts is returned if no ports are left.
var ErrPorts = errors.New("there are no free ports")

// own are the blocks of this process.
var own struct {
	sync.Mutex
	held       []net.Listener // at the first port of each block
	next, left int            // the next port of the newest block, and how many are left there
}

// FreePorts returns ports that nobody uses. No process gets a port twice.
func FreePorts(n int) (ports []int, err error) {
	own.Lock()
	defer own.Unlock()
	for len(ports) < n {
		if own.left == 0 {
			if err := takeBlock(); err != nil {
				return nil, err
			}
		}
		if l, err := listen(own.next); err == nil {
			l.Close()
			ports = append(ports, own.next)
		}
		own.next, own.left = own.next+1, own.left-1
	}
	return ports, nil
}

// takeBlock takes a block that no process has.
func takeBlock() error {
	count := (portsEnd() - firstPort) / BlockSize
	begin := rand.New(rand.NewSource(time.Now().UnixNano())).Intn(count)
	for i := 0; i < count; i++ {
		first := firstPort + (begin+i)%count*BlockSize
		if l, err := listen(first); err == nil {
			own.held, own.next, own.left = append(own.held, l), first+1, BlockSize-1
			return nil
		}
	}
	return ErrPorts
}

func listen(port int) (net.Listener, error) {
	return net.Listen("tcp", fmt.Sprint("127.0.0.1:", port))
}

// portsEnd returns where the ports end that may be taken.
func portsEnd() int {
	var first int
	text, err := os.ReadFile("/proc/sys/net/ipv4/ip_local_port_range")
	if err == nil {
		_, err = fmt.Sscan(string(text), &first)
	}
	if err != nil || first < firstPort+BlockSize || first > endPort {
		return endPort
	}
	return first
}
