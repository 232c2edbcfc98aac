// Programs in which a goroutine doesn't do what another goroutine waits for: it returns a connection twice, never calls Done, doesn't flush, or gives
// up early. The line marked BUG causes that, and netrev-go names it first. With the argument `good`, each program runs without its bug.
//
//	turns NAME bad|good
package main

import (
	"bufio"
	"context"
	"encoding/binary"
	"errors"
	"fmt"
	"io"
	"net"
	"net/http"
	"os"
	"sync"
	"time"
)

const short, long = 10 * time.Millisecond, 80 * time.Millisecond

func must(err error) {
	if err != nil {
		panic(err)
	}
}

func listen() net.Listener {
	listener, err := net.Listen("tcp", "127.0.0.1:0")
	must(err)
	return listener
}

func dial(listener net.Listener) net.Conn {
	end, err := net.Dial("tcp", listener.Addr().String())
	must(err)
	return end
}

// serve accepts connections, and starts a goroutine for each.
func serve(listener net.Listener, session func(net.Conn)) {
	for {
		end, err := listener.Accept()
		if err != nil {
			return
		}
		go session(end)
	}
}

// echo sends each line back.
func echo(end net.Conn) {
	defer end.Close()
	for in := bufio.NewScanner(end); in.Scan(); {
		fmt.Fprintln(end, in.Text())
	}
}

func ask(end net.Conn, line string) (string, error) {
	if _, err := fmt.Fprintln(end, line); err != nil {
		return "", err
	}
	return bufio.NewReader(end).ReadString('\n')
}

// doubled: after an answer that asks for a retry, a connection is returned to its pool twice.
func doubled(bad bool) error {
	listener, free := listen(), make(chan net.Conn, 1)
	go serve(listener, echo)
	free <- dial(listener)
	for _, line := range []string{"one", "two", "again", "three"} {
		if err := borrow(free, line, bad); err != nil {
			return err
		}
	}
	return nil
}

func borrow(free chan net.Conn, line string, bad bool) error {
	end := <-free
	defer func() { free <- end }()
	answer, err := ask(end, line)
	if answer == "again\n" && bad {
		free <- end // BUG doubled
	}
	return err
}

type account struct {
	lock  sync.Mutex
	cents int
}

func move(from, to *account) {
	from.lock.Lock()
	defer from.lock.Unlock()
	time.Sleep(short)
	to.lock.Lock() // BUG ring
	defer to.lock.Unlock()
	from.cents, to.cents = from.cents-1, to.cents+1
}

// ring: two mutexes are locked in two orders.
func ring(bad bool) error {
	listener, rent, wages := listen(), &account{}, &account{}
	go serve(listener, func(end net.Conn) {
		for in := bufio.NewScanner(end); in.Scan(); {
			if in.Text() == "back" && bad {
				move(wages, rent)
			} else {
				move(rent, wages)
			}
			fmt.Fprintln(end, "moved")
		}
	})
	var both sync.WaitGroup
	for _, line := range []string{"forth", "back"} {
		both.Add(1)
		go func(line string) {
			defer both.Done()
			_, err := ask(dial(listener), line)
			must(err)
		}(line)
	}
	both.Wait()
	return nil
}

type survey struct {
	pending sync.WaitGroup
	bad     bool
}

func (s *survey) visit(address string) {
	end, err := net.Dial("tcp", address) // BUG undone
	if err != nil && s.bad {
		return
	}
	if err == nil {
		_, err = ask(end, "hello")
		end.Close()
	}
	s.pending.Done()
}

// undone: a WaitGroup counts several goroutines, and a goroutine whose Dial fails never calls Done.
func undone(bad bool) error {
	listener, away := listen(), listen()
	go serve(listener, echo)
	address := listener.Addr().String()
	away.Close()
	visits := &survey{bad: bad}
	for _, to := range []string{address, away.Addr().String(), address} {
		visits.pending.Add(1)
		go visits.visit(to)
	}
	visits.pending.Wait()
	return nil
}

// unflushed: the last of several requests stays in a buffer.
func unflushed(bad bool) error {
	listener := listen()
	go serve(listener, echo)
	end := dial(listener)
	out, in := bufio.NewWriter(end), bufio.NewReader(end)
	request := func(line string, flushes bool) error {
		fmt.Fprintln(out, line)
		if flushes {
			must(out.Flush())
		}
		_, err := in.ReadString('\n')
		return err
	}
	for range [3]int{} {
		must(request("more", true))
	}
	return request("last", !bad) // BUG unflushed
}

func frames(end net.Conn) {
	for {
		var head [2]byte
		if _, err := io.ReadFull(end, head[:]); err != nil {
			return
		}
		if _, err := io.ReadFull(end, make([]byte, binary.BigEndian.Uint16(head[:]))); err != nil {
			return
		}
		end.Write([]byte("+"))
	}
}

func send(end net.Conn, text string, more int) error {
	if _, err := end.Write(append([]byte{0, byte(len(text) + more)}, text...)); err != nil {
		return err
	}
	_, err := io.ReadFull(end, make([]byte, 1))
	return err
}

// longer: the length of a message includes its own two bytes.
func longer(bad bool) error {
	listener, more := listen(), 0
	go serve(listener, frames)
	end := dial(listener)
	for _, text := range []string{"one", "three", "seven"} {
		must(send(end, text, 0))
	}
	if bad {
		more = 2
	}
	return send(end, "the last one", more) // BUG longer
}

// queued: the goroutine that accepts serves a client itself, and the client stays.
func queued(bad bool) error {
	listener := listen()
	go func() {
		for {
			end, err := listener.Accept()
			must(err)
			if bad {
				echo(end) // BUG queued
			} else {
				go echo(end)
			}
		}
	}()
	stays := dial(listener)
	_, err := ask(stays, "first")
	must(err)
	_, err = ask(dial(listener), "second")
	return err
}

// dropped: a datagram server doesn't answer the last request, and the client waits without a deadline.
func dropped(bad bool) error {
	server, err := net.ListenUDP("udp", &net.UDPAddr{IP: net.IPv4(127, 0, 0, 1)})
	must(err)
	go func() {
		buffer := make([]byte, 64)
		for {
			n, from, err := server.ReadFromUDP(buffer)
			must(err)
			if string(buffer[:n]) != "drop me" || !bad {
				server.WriteToUDP(buffer[:n], from)
			}
		}
	}()
	end, err := net.Dial("udp", server.LocalAddr().String())
	must(err)
	for _, text := range []string{"a", "bc", "def", "drop me"} {
		_, err = end.Write([]byte(text))
		must(err)
		_, err = end.Read(make([]byte, 64)) // BUG dropped
		must(err)
	}
	return nil
}

func slow(w http.ResponseWriter, r *http.Request) {
	fmt.Fprintln(w, "begin")
	w.(http.Flusher).Flush()
	time.Sleep(2 * short)
	fmt.Fprintln(w, "end")
}

// limited: a client gives its request less time than the server needs.
func limited(bad bool) error {
	listener, limit := listen(), 4*long
	go http.Serve(listener, http.HandlerFunc(func(w http.ResponseWriter, r *http.Request) { time.Sleep(2 * long) }))
	if bad {
		limit = long
	}
	client := http.Client{Timeout: limit}
	answer, err := client.Get("http://" + listener.Addr().String()) // BUG limited
	if err == nil {
		answer.Body.Close()
	}
	return err
}

func open(url string, bad bool) (io.ReadCloser, error) {
	within, cancel := context.WithTimeout(context.Background(), time.Second)
	if bad {
		defer cancel()
	}
	request, err := http.NewRequestWithContext(within, "GET", url, nil)
	must(err)
	answer, err := http.DefaultClient.Do(request)
	must(err)
	return answer.Body, nil // BUG cancelled
}

// cancelled: a request's context is cancelled before its answer is read.
func cancelled(bad bool) error {
	listener := listen()
	go http.Serve(listener, http.HandlerFunc(slow))
	body, err := open("http://"+listener.Addr().String(), bad)
	must(err)
	_, err = io.ReadAll(body)
	return err
}

// expired: a client sends on a connection that the server has closed because it was idle.
func expired(bad bool) error {
	listener := listen()
	go serve(listener, func(end net.Conn) {
		defer end.Close()
		for in := bufio.NewReader(end); ; {
			end.SetReadDeadline(time.Now().Add(long)) // BUG expired
			line, err := in.ReadString('\n')
			if err != nil {
				return
			}
			fmt.Fprint(end, line)
		}
	})
	end := dial(listener)
	_, err := ask(end, "one")
	must(err)
	if bad {
		time.Sleep(2 * long)
	}
	_, err = ask(end, "two")
	return err
}

type mailbox struct {
	lock    sync.Mutex
	changed *sync.Cond
	letters []string
	closed  bool
}

func (m *mailbox) put(text string) {
	m.lock.Lock()
	defer m.lock.Unlock()
	m.letters = append(m.letters, text)
	m.changed.Signal()
}

func (m *mailbox) take() (string, bool) {
	m.lock.Lock()
	defer m.lock.Unlock()
	for len(m.letters) == 0 && !m.closed {
		m.changed.Wait()
	}
	if len(m.letters) == 0 {
		return "", false
	}
	text := m.letters[0]
	m.letters = m.letters[1:]
	return text, true
}

func (m *mailbox) close() {
	m.lock.Lock()
	m.closed = true // BUG unwoken
	m.lock.Unlock()
}

// unwoken: a goroutine waits for a change of state, but the code that makes the change signals nothing.
func unwoken(bad bool) error {
	listener := listen()
	go serve(listener, echo)
	box := &mailbox{}
	box.changed = sync.NewCond(&box.lock)
	var done sync.WaitGroup
	done.Add(1)
	go func() {
		defer done.Done()
		end := dial(listener)
		for {
			text, more := box.take()
			if !more {
				return
			}
			_, err := ask(end, text)
			must(err)
		}
	}()
	for _, text := range []string{"one", "two"} {
		box.put(text)
		time.Sleep(short)
	}
	box.close()
	if !bad {
		box.changed.Broadcast()
	}
	done.Wait()
	return nil
}

type relay struct {
	listener net.Listener
	sessions sync.WaitGroup
}

func (r *relay) run() {
	for {
		end, err := r.listener.Accept()
		if err != nil {
			return
		}
		r.sessions.Add(1)
		go r.session(end)
	}
}

func (r *relay) session(end net.Conn) {
	defer r.sessions.Done()
	echo(end)
}

func (r *relay) stop() {
	r.listener.Close()
	r.sessions.Wait() // BUG stays
}

// stays: a server that stops waits for a client that stays connected.
func stays(bad bool) error {
	server := &relay{listener: listen()}
	go server.run()
	end := dial(server.listener)
	_, err := ask(end, "hello")
	must(err)
	if !bad {
		end.Close()
	}
	server.stop()
	return nil
}

func work(address, line string, results chan<- string, bad bool) {
	end, err := net.Dial("tcp", address)
	must(err)
	defer end.Close()
	answer, err := ask(end, line)
	if answer == "odd\n" && bad {
		fmt.Fprintln(end, "bye") // BUG uncounted
		return
	}
	results <- answer
}

// uncounted: several goroutines should each send a result, but one of them ends without sending a result.
func uncounted(bad bool) error {
	listener, results, lines := listen(), make(chan string), []string{"one", "odd", "two"}
	go serve(listener, echo)
	for _, line := range lines {
		go work(listener.Addr().String(), line, results, bad)
	}
	for range lines {
		<-results
	}
	return nil
}

// overdue: a deadline meant for the request has passed when the answer is written.
func overdue(bad bool) error {
	listener, failed := listen(), make(chan error, 1)
	go serve(listener, func(end net.Conn) {
		end.SetDeadline(time.Now().Add(long)) // BUG overdue
		line, err := bufio.NewReader(end).ReadString('\n')
		must(err)
		if bad {
			time.Sleep(2 * long)
		}
		_, err = fmt.Fprint(end, line)
		failed <- err
		end.Close()
	})
	_, err := ask(dial(listener), "hello")
	return errors.Join(err, <-failed)
}

func main() {
	programs := map[string]func(bool) error{
		"doubled": doubled, "ring": ring, "undone": undone, "unflushed": unflushed, "longer": longer, "queued": queued, "dropped": dropped,
		"limited": limited, "cancelled": cancelled, "expired": expired, "unwoken": unwoken, "stays": stays, "uncounted": uncounted, "overdue": overdue,
	}
	time.AfterFunc(10*long, func() { os.Exit(2) })
	if err := programs[os.Args[1]](os.Args[2] == "bad"); err != nil {
		fmt.Println(err)
		os.Exit(1)
	}
	fmt.Println("well")
}
