// Programs with a race, which nearly always succeed: netrev-go run . NAME. To count the failures in 1,000 runs: go run . NAME 1000
package main

import (
	"fmt"
	"net"
	"os"
	"sort"
	"strconv"
	"time"
)

const (
	moment = 2 * time.Millisecond
	limit  = 250 * time.Millisecond // what isn't done by then counts as hanging
	hour   = time.Hour
)

var past = time.Unix(1, 0)

// Each function returns whether its run succeeded.
var races = map[string]func() bool{
	"taken-back": takenBack, "lost-wake-up": lostWakeUp, "left-behind": leftBehind, "behind-shut": behindShut,
	"early-cancel": earlyCancel, "http-hijack": httpHijack, "http-watchdog": httpWatchdog, "http-idle": httpIdle,
	"tls-shut": tlsShut, "tls-handshake": tlsHandshake, "rpc-keepalive": rpcKeepalive, "rpc-call": rpcCall,
}

func must(err error) {
	if err != nil {
		panic(err)
	}
}

// pair connects two ends over the loopback.
func pair() (*net.TCPConn, *net.TCPConn) {
	listener, err := net.Listen("tcp", "127.0.0.1:0")
	must(err)
	defer listener.Close()
	end, err := net.Dial("tcp", listener.Addr().String())
	must(err)
	other, err := listener.Accept()
	must(err)
	return end.(*net.TCPConn), other.(*net.TCPConn)
}

// ended returns whether the expected result came in time, and was good.
func ended(done <-chan bool) bool {
	select {
	case well := <-done:
		return well
	case <-time.After(limit):
		return false
	}
}

func main() {
	runs, name := 1, ""
	if len(os.Args) > 1 {
		name = os.Args[1]
	}
	if len(os.Args) > 2 {
		runs, _ = strconv.Atoi(os.Args[2])
	}
	race := races[name]
	if race == nil || runs < 1 {
		var names []string
		for name := range races {
			names = append(names, name)
		}
		sort.Strings(names)
		fmt.Fprintln(os.Stderr, "one of", names)
		os.Exit(2)
	}
	wrong := 0
	for i := 0; i < runs; i++ {
		if !race() {
			wrong++
		}
	}
	fmt.Println(wrong)
}
