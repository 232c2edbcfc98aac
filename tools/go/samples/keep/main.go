// A server with clients over keep-alive connections that send requests repeatedly:  keep CONNECTIONS SECONDS BUG PAUSE
//
// A client pauses PAUSE milliseconds between requests. One connection is as old as the server: every 20 ms its client sends a line, and gets an answer. After SECONDS, the bug BUG occurs:
//
//	none      the program ends
//	deadline  the old connection's server has set both deadlines once, and then moves only the read deadline: a write fails
//	mutex     a write to a client that has stopped reading holds the mutex that each request needs
//	wakeup    the old connection's server reads from the descriptor, and waits before it has tried to read
//
// Even without a bug, goroutines wait all the time: two read the same connection, one reads with a deadline, and one writes.
package main

import (
	"bufio"
	"fmt"
	"io"
	"net"
	"net/http"
	"os"
	"strconv"
	"sync"
	"sync/atomic"
	"syscall"
	"time"
)

const moment = 20 * time.Millisecond

var bug = os.Args[3]
var after = time.Duration(number(2)) * time.Second
var requests, lines, isStuck int64

func must(err error) {
	if err != nil {
		panic(err)
	}
}

func number(at int) int {
	value, err := strconv.Atoi(os.Args[at])
	must(err)
	return value
}

func listen() net.Listener {
	listener, err := net.Listen("tcp", "127.0.0.1:0")
	must(err)
	return listener
}

func dial(listener net.Listener) net.Conn {
	connection, err := net.Dial("tcp", listener.Addr().String())
	must(err)
	return connection
}

// A hub sends each request's number to a subscriber.
type hub struct {
	sync.Mutex
	subscriber net.Conn
}

func (h *hub) publish(text []byte) {
	h.Lock()
	defer h.Unlock()
	h.subscriber.Write(text) // BUG mutex
}

// echo answers lines on the old connection.
func echo(connection net.Conn) {
	defer connection.Close()
	connection.SetDeadline(time.Now().Add(after))
	if bug != "deadline" {
		connection.SetDeadline(time.Time{})
	}
	reader := bufio.NewReader(connection)
	if bug == "wakeup" {
		raw, err := connection.(*net.TCPConn).SyscallConn()
		must(err)
		reader = bufio.NewReader(byDescriptor{raw})
	}
	for {
		connection.SetReadDeadline(time.Now().Add(time.Hour))
		line, err := reader.ReadString('\n')
		if err != nil {
			return
		}
		if _, err := connection.Write([]byte(line)); err != nil {
			fmt.Fprintln(os.Stderr, "echo:", err)
			return
		}
	}
}

// A byDescriptor reads with system calls. It tries to read first, and waits if no bytes have arrived; after some seconds, it waits first.
type byDescriptor struct{ syscall.RawConn }

func (b byDescriptor) Read(into []byte) (n int, failed error) {
	isLate := atomic.LoadInt64(&isStuck) != 0
	if isLate {
		time.Sleep(3 * moment) // the next line has arrived by then
	}
	err := b.RawConn.Read(func(descriptor uintptr) bool { // BUG wakeup
		if isLate {
			isLate = false
			return false
		}
		n, failed = syscall.Read(int(descriptor), into)
		return failed != syscall.EAGAIN
	})
	if err != nil {
		return 0, err
	}
	if n == 0 && failed == nil {
		return 0, io.EOF
	}
	return n, failed
}

// talk sends a line at regular intervals, until no answer comes.
func talk(connection net.Conn) {
	answers := bufio.NewReader(connection)
	for {
		fmt.Fprintln(connection, "line")
		if _, err := answers.ReadString('\n'); err != nil {
			return
		}
		atomic.AddInt64(&lines, 1)
		time.Sleep(moment)
	}
}

// idle starts the calls that wait all the time: two reads of one connection, a read with a deadline, and a write.
func idle() {
	listener := listen()
	for i := 0; i < 3; i++ {
		connection := dial(listener)
		other, err := listener.Accept()
		must(err)
		switch i {
		case 0:
			go connection.Read(make([]byte, 1))
			go connection.Read(make([]byte, 1))
		case 1:
			connection.SetReadDeadline(time.Now().Add(time.Hour))
			go connection.Read(make([]byte, 1))
		case 2:
			go io.Copy(connection, zeros{})
		}
		kept = append(kept, connection, other)
	}
}

// kept are connections that stay open to the end.
var kept []net.Conn

type zeros struct{}

func (zeros) Read(into []byte) (int, error) { return len(into), nil }

// ask is a client with its own connection.
func ask(address string, text string) {
	client := &http.Client{Transport: &http.Transport{}}
	for {
		response, err := client.Get("http://" + address + "/" + text)
		if err != nil {
			return
		}
		io.Copy(io.Discard, response.Body)
		response.Body.Close()
		atomic.AddInt64(&requests, 1)
		time.Sleep(time.Duration(number(4)) * time.Millisecond)
	}
}

func main() {
	if bug == "none" {
		idle()
	}
	old := listen()
	go talk(dial(old))
	server, err := old.Accept()
	must(err)
	go echo(server)
	feed := listen()
	reader := dial(feed)
	subscriber, err := feed.Accept()
	must(err)
	kept = append(kept, reader)
	events := &hub{subscriber: subscriber}
	go func() {
		for into := make([]byte, 4096); bug != "mutex" || atomic.LoadInt64(&isStuck) == 0; {
			reader.Read(into)
		}
	}()
	listener := listen()
	go http.Serve(listener, http.HandlerFunc(func(w http.ResponseWriter, r *http.Request) {
		text := make([]byte, 1024)
		if bug == "mutex" && atomic.LoadInt64(&isStuck) != 0 {
			text = make([]byte, 1<<24)
		}
		events.publish(text)
		fmt.Fprintln(w, "done")
	}))
	for i := 0; i < number(1); i++ {
		go ask(listener.Addr().String(), strconv.Itoa(i))
	}
	time.Sleep(after)
	if bug != "none" {
		atomic.StoreInt64(&isStuck, 1)
		time.Sleep(time.Hour)
	}
	fmt.Println(atomic.LoadInt64(&requests), "requests,", atomic.LoadInt64(&lines), "lines")
}
