// Programs in which a call fails because a goroutine hangs, or a goroutine hangs because a call failed; the reason is one step further
// back. The line marked BUG causes that, and the first cause names it. With the argument `good`, each program runs without its bug.
//
//	joins NAME bad|good
package main

import (
	"bufio"
	"context"
	"errors"
	"fmt"
	"io"
	"net"
	"net/http"
	"net/rpc"
	"os"
	"sync"
	"time"
)

const short, long = 10 * time.Millisecond, 150 * time.Millisecond

func must(err error) {
	if err != nil {
		panic(err)
	}
}

func listen() net.Listener {
	listener, err := net.Listen("tcp", "127.0.0.1:0")
	must(err)
	return listener
}

func dial(listener net.Listener) net.Conn {
	end, err := net.Dial("tcp", listener.Addr().String())
	must(err)
	return end
}

// serve accepts connections, and starts a goroutine for each.
func serve(listener net.Listener, session func(net.Conn)) {
	for {
		end, err := listener.Accept()
		if err != nil {
			return
		}
		go session(end)
	}
}

// gaveup: the only goroutine that takes from a queue returns after a timeout, and the goroutines that fill the queue wait.
type outbox struct {
	lines chan string
	end   net.Conn
	in    *bufio.Reader
	isBad bool
}

func (o *outbox) send(line string) error {
	must(o.end.SetReadDeadline(time.Now().Add(long)))
	fmt.Fprintln(o.end, line)
	_, err := o.in.ReadString('\n')
	return err
}

func (o *outbox) run() {
	defer o.end.Close()
	for line := range o.lines {
		if err := o.send(line); err != nil && o.isBad {
			return // BUG gaveup
		}
	}
}

func gaveup(isBad bool) {
	listener := listen()
	go serve(listener, func(end net.Conn) {
		in := bufio.NewScanner(end)
		for count := 0; in.Scan(); count++ {
			if count == 3 {
				time.Sleep(2 * long)
			}
			fmt.Fprintln(end, "ok")
		}
	})
	end := dial(listener)
	box := &outbox{make(chan string, 2), end, bufio.NewReader(end), isBad}
	go box.run()
	var writers sync.WaitGroup
	for turn := 0; turn < 2; turn++ {
		writers.Add(1)
		go func() {
			defer writers.Done()
			for turn := 0; turn < 5; turn++ {
				box.lines <- "entry"
			}
		}()
	}
	writers.Wait()
}

// guarded: a client's Read times out, because the server's goroutine waits for a mutex that another goroutine left locked.
type ledger struct {
	mutex  sync.Mutex
	counts map[string]int
	isBad  bool
}

func (l *ledger) add(name string) error {
	l.mutex.Lock() // BUG guarded
	if name == "" && l.isBad {
		return errors.New("no name")
	}
	l.counts[name]++
	l.mutex.Unlock()
	return nil
}

func (l *ledger) count(name string) int {
	l.mutex.Lock()
	defer l.mutex.Unlock()
	return l.counts[name]
}

func (l *ledger) session(end net.Conn) {
	defer end.Close()
	for in := bufio.NewScanner(end); in.Scan(); {
		if in.Text() == "none" {
			fmt.Fprintln(end, l.add(""))
		} else {
			fmt.Fprintln(end, l.add(in.Text()), l.count(in.Text()))
		}
	}
}

func guarded(isBad bool) {
	listener := listen()
	go serve(listener, (&ledger{counts: map[string]int{}, isBad: isBad}).session)
	end := dial(listener)
	in := bufio.NewReader(end)
	for _, name := range []string{"a", "b", "none", "c"} {
		must(end.SetReadDeadline(time.Now().Add(long)))
		fmt.Fprintln(end, name)
		if _, err := in.ReadString('\n'); err != nil {
			os.Exit(1)
		}
	}
}

// rounds: calls over net/rpc each lock two of three mutexes, in a circle.
type Bank struct {
	accounts [3]struct {
		mutex   sync.Mutex
		balance int
	}
	all   sync.Mutex
	isBad bool
}

func (b *Bank) Move(from int, balance *int) error {
	if !b.isBad {
		b.all.Lock()
		defer b.all.Unlock()
	}
	source, target := &b.accounts[from], &b.accounts[(from+1)%3]
	source.mutex.Lock()
	defer source.mutex.Unlock()
	time.Sleep(short)
	target.mutex.Lock() // BUG rounds
	defer target.mutex.Unlock()
	source.balance--
	target.balance++
	*balance = source.balance
	return nil
}

func rounds(isBad bool) {
	server, listener := rpc.NewServer(), listen()
	must(server.Register(&Bank{isBad: isBad}))
	go serve(listener, func(end net.Conn) { server.ServeConn(end) })
	var clients sync.WaitGroup
	for from := 0; from < 3; from++ {
		clients.Add(1)
		go func(from int) {
			defer clients.Done()
			client := rpc.NewClient(dial(listener))
			defer client.Close()
			for turn := 0; turn < 3; turn++ {
				var balance int
				must(client.Call("Bank.Move", from, &balance))
			}
		}(from)
	}
	clients.Wait()
}

// uncased: a select has no case for the channel that ends all other goroutines.
type feed struct {
	quit, lines chan string
	done        sync.WaitGroup
}

func (f *feed) make() {
	defer f.done.Done()
	tick := time.NewTicker(short)
	defer tick.Stop()
	for {
		select {
		case <-f.quit:
			return
		case <-tick.C:
		}
		select {
		case f.lines <- "line":
		case <-f.quit:
			return
		}
	}
}

func (f *feed) write(end net.Conn, more, quit chan string) {
	defer f.done.Done()
	for {
		select { // BUG uncased
		case line := <-f.lines:
			fmt.Fprintln(end, line)
		case line := <-more:
			fmt.Fprintln(end, line)
		case <-quit:
			return
		}
	}
}

func uncased(isBad bool) {
	listener := listen()
	go serve(listener, func(end net.Conn) {
		for in := bufio.NewScanner(end); in.Scan(); {
		}
	})
	made := &feed{quit: make(chan string), lines: make(chan string)}
	quit := made.quit
	if isBad {
		quit = nil
	}
	made.done.Add(2)
	go made.make()
	go made.write(dial(listener), make(chan string), quit)
	time.Sleep(long)
	close(made.quit)
	made.done.Wait()
}

// pooled: a call that returns early doesn't return its connection to the pool.
type pool struct {
	ends  chan net.Conn
	isBad bool
}

func (p *pool) ask(line string) {
	end := <-p.ends // BUG pooled
	fmt.Fprintln(end, line)
	answer, err := bufio.NewReader(end).ReadString('\n')
	must(err)
	if p.isBad && answer == "no\n" {
		return
	}
	p.ends <- end
}

func pooled(isBad bool) {
	listener := listen()
	go serve(listener, func(end net.Conn) {
		count := 0
		for in := bufio.NewScanner(end); in.Scan(); count++ {
			if count == 4 {
				fmt.Fprintln(end, "no")
			} else {
				fmt.Fprintln(end, "yes")
			}
		}
	})
	shared := &pool{make(chan net.Conn, 2), isBad}
	shared.ends <- dial(listener)
	shared.ends <- dial(listener)
	var clients sync.WaitGroup
	for turn := 0; turn < 3; turn++ {
		clients.Add(1)
		go func() {
			defer clients.Done()
			for turn := 0; turn < 6; turn++ {
				shared.ask("question")
			}
		}()
	}
	clients.Wait()
}

// stuck: after a failed Write, a goroutine that holds a mutex waits for a receiver.
type sink struct {
	mutex sync.Mutex
	end   net.Conn
	errs  chan error
}

func (s *sink) put(line string) {
	s.mutex.Lock()
	defer s.mutex.Unlock()
	if _, err := fmt.Fprintln(s.end, line); err != nil {
		select {
		case s.errs <- err:
		default:
		}
	}
}

func (s *sink) putAndTell(line string) {
	s.mutex.Lock()
	defer s.mutex.Unlock()
	if _, err := fmt.Fprintln(s.end, line); err != nil {
		s.errs <- err // BUG stuck
	}
}

func stuck(isBad bool) {
	listener := listen()
	go serve(listener, func(end net.Conn) {
		in := bufio.NewScanner(end)
		for turn := 0; turn < 3; turn++ {
			in.Scan()
		}
		end.Close()
	})
	made := &sink{end: dial(listener), errs: make(chan error)}
	put := made.put
	if isBad {
		put = made.putAndTell
	}
	var writers sync.WaitGroup
	for turn := 0; turn < 3; turn++ {
		writers.Add(1)
		go func() {
			defer writers.Done()
			for turn := 0; turn < 5; turn++ {
				put("line")
				time.Sleep(short)
			}
		}()
	}
	writers.Wait()
}

// polled: a handler runs until its request's context ends, but Shutdown doesn't end that context.
func polled(isBad bool) {
	listener, quit := listen(), make(chan struct{})
	ends := quit
	if isBad {
		ends = nil
	}
	server := &http.Server{Handler: http.HandlerFunc(func(w http.ResponseWriter, r *http.Request) {
		w.(http.Flusher).Flush()
		select { // BUG polled
		case <-ends:
		case <-r.Context().Done():
		}
	})}
	go server.Serve(listener)
	go func() {
		if response, err := http.Get("http://" + listener.Addr().String()); err == nil {
			io.Copy(io.Discard, response.Body)
			response.Body.Close()
		}
	}()
	time.Sleep(long)
	close(quit)
	server.Shutdown(context.Background())
}

func main() {
	programs := map[string]func(bool){
		"gaveup": gaveup, "guarded": guarded, "rounds": rounds, "uncased": uncased, "pooled": pooled, "stuck": stuck, "polled": polled,
	}
	time.AfterFunc(8*long, func() { os.Exit(2) })
	programs[os.Args[1]](os.Args[2] == "bad")
	fmt.Println("well")
}
