// Programs in which a goroutine waits for an action of another goroutine. The source shows where that action is; no stack does. The
// line marked BUG causes the hang, and the first cause names it. With the argument `good`, each program runs without its bug.
//
//	sources NAME bad|good
package main

import (
	"bufio"
	"bytes"
	"context"
	"errors"
	"fmt"
	"io"
	"net"
	"net/http"
	"net/rpc"
	"os"
	"strings"
	"sync"
	"time"
)

const short, long = 10 * time.Millisecond, 150 * time.Millisecond

func must(err error) {
	if err != nil {
		panic(err)
	}
}

func listen() net.Listener {
	listener, err := net.Listen("tcp", "127.0.0.1:0")
	must(err)
	return listener
}

func dial(listener net.Listener) net.Conn {
	end, err := net.Dial("tcp", listener.Addr().String())
	must(err)
	return end
}

// serve accepts connections, and starts a goroutine for each.
func serve(listener net.Listener, session func(net.Conn)) {
	for {
		end, err := listener.Accept()
		if err != nil {
			return
		}
		go session(end)
	}
}

func serveWeb(handler http.HandlerFunc) (*http.Server, string) {
	listener, server := listen(), &http.Server{Handler: handler}
	go server.Serve(listener)
	return server, "http://" + listener.Addr().String()
}

// echo sends each line back.
func echo(end net.Conn) {
	defer end.Close()
	for in := bufio.NewScanner(end); in.Scan(); {
		fmt.Fprintln(end, in.Text())
	}
}

type board struct {
	server *http.Server
	stop   chan struct{}
}

func (b *board) watch(w http.ResponseWriter, r *http.Request) {
	select {
	case <-b.stop:
	case <-r.Context().Done():
	}
}

func (b *board) closeLate() {
	b.server.Shutdown(context.Background()) // BUG ordered
	close(b.stop)
}

func (b *board) closeFirst() {
	close(b.stop)
	b.server.Shutdown(context.Background())
}

// ordered: Shutdown waits for handlers. They wait for a channel that is closed only after Shutdown.
func ordered(isBad bool) {
	b := &board{stop: make(chan struct{})}
	server, address := serveWeb(b.watch)
	b.server = server
	go http.Get(address)
	time.Sleep(long)
	if isBad {
		b.closeLate()
	} else {
		b.closeFirst()
	}
}

type member struct{ lines, gone chan string }

func (m *member) pump(end net.Conn) {
	for {
		select {
		case line := <-m.lines:
			fmt.Fprintln(end, line)
		case <-m.gone:
			return
		}
	}
}

type club struct {
	members []*member
	quit    chan struct{}
}

func (c *club) tell(line string, isBad bool) {
	for _, m := range c.members {
		if isBad {
			select { // BUG departed
			case m.lines <- line:
			case <-c.quit:
			}
			continue
		}
		select {
		case m.lines <- line:
		case <-m.gone:
		case <-c.quit:
		}
	}
}

// departed: a member has left, and the goroutine that sends it a line waits forever.
func departed(isBad bool) {
	listener, c := listen(), &club{quit: make(chan struct{})}
	joined := make(chan bool)
	go serve(listener, func(end net.Conn) {
		m := &member{lines: make(chan string), gone: make(chan string)}
		c.members = append(c.members, m)
		go m.pump(end)
		joined <- true
		io.Copy(io.Discard, end)
		close(m.gone)
	})
	stays, leaves := dial(listener), net.Conn(nil)
	<-joined
	leaves = dial(listener)
	<-joined
	for _, line := range []string{"hello", "again"} {
		c.tell(line, isBad)
		bufio.NewReader(stays).ReadString('\n')
		leaves.Close()
		time.Sleep(short)
	}
}

type table struct {
	lock    sync.Mutex
	changed *sync.Cond
	seats   int
	isFull  bool
}

func (t *table) joinOne() {
	t.lock.Lock()
	defer t.lock.Unlock()
	if t.seats--; t.seats == 0 {
		t.isFull = true
	}
	t.changed.Signal() // BUG oneOnly
	for !t.isFull {
		t.changed.Wait()
	}
}

func (t *table) joinAll() {
	t.lock.Lock()
	defer t.lock.Unlock()
	if t.seats--; t.seats == 0 {
		t.isFull = true
	}
	t.changed.Broadcast()
	for !t.isFull {
		t.changed.Wait()
	}
}

// oneOnly: all goroutines wait for a condition, but only one of them is woken.
func oneOnly(isBad bool) {
	listener, t := listen(), &table{seats: 4}
	t.changed = sync.NewCond(&t.lock)
	go serve(listener, func(end net.Conn) {
		if isBad {
			t.joinOne()
		} else {
			t.joinAll()
		}
		fmt.Fprintln(end, "begin")
	})
	var players sync.WaitGroup
	for count := 0; count < 4; count++ {
		players.Add(1)
		go func() {
			defer players.Done()
			bufio.NewReader(dial(listener)).ReadString('\n')
		}()
	}
	players.Wait()
}

type shop struct {
	lock  sync.Mutex
	stock int
	peer  net.Conn
}

type clerk struct{ of *shop }

func (c *clerk) count(end net.Conn) {
	for in := bufio.NewScanner(end); in.Scan(); {
		c.of.lock.Lock()
		fmt.Fprintln(end, c.of.stock)
		c.of.lock.Unlock()
	}
}

func (s *shop) ask() {
	fmt.Fprintln(s.peer, "count")
	bufio.NewReader(s.peer).ReadString('\n')
}

func (s *shop) auditLocked() {
	s.lock.Lock() // BUG reentered
	defer s.lock.Unlock()
	s.ask()
}

func (s *shop) audit() {
	s.lock.Lock()
	s.stock++
	s.lock.Unlock()
	s.ask()
}

// reentered: a shop asks its clerk, who needs the lock that the shop holds.
func reentered(isBad bool) {
	listener, s := listen(), &shop{stock: 3}
	go serve(listener, (&clerk{s}).count)
	s.peer = dial(listener)
	if isBad {
		s.auditLocked()
	} else {
		s.audit()
	}
}

type bank struct{ idle chan net.Conn }

func (b *bank) get() net.Conn    { return <-b.idle }
func (b *bank) put(end net.Conn) { b.idle <- end }

func (b *bank) ask(question string, isBad bool) error {
	end := b.get()
	if _, err := fmt.Fprintln(end, question); err != nil {
		b.put(end)
		return err
	}
	answer, err := bufio.NewReader(end).ReadString('\n')
	if err != nil {
		b.put(end)
		return err
	}
	if strings.TrimSpace(answer) == "none" && isBad {
		return errors.New("none") // BUG unreturned
	}
	b.put(end)
	return nil
}

// unreturned: on one path a connection isn't returned to its pool.
func unreturned(isBad bool) {
	listener, b := listen(), &bank{make(chan net.Conn, 3)}
	go serve(listener, echo)
	for count := 0; count < 3; count++ {
		b.put(dial(listener))
	}
	var askers sync.WaitGroup
	for count := 0; count < 4; count++ {
		askers.Add(1)
		go func() {
			defer askers.Done()
			b.ask("some", isBad)
			b.ask("none", isBad)
		}()
	}
	askers.Wait()
}

type intake struct{ store string }

func (i *intake) takeBehind(w http.ResponseWriter, r *http.Request) {
	ctx := r.Context() // BUG outlasted
	go i.keep(ctx)
}

func (i *intake) take(w http.ResponseWriter, r *http.Request) {
	go i.keep(context.WithoutCancel(r.Context()))
}

func (i *intake) keep(ctx context.Context) {
	time.Sleep(short)
	request, err := http.NewRequestWithContext(ctx, "PUT", i.store, bytes.NewReader([]byte("data")))
	must(err)
	if response, err := http.DefaultClient.Do(request); err == nil {
		response.Body.Close()
	}
}

// outlasted: a goroutine uses the context of a handler that has returned.
func outlasted(isBad bool) {
	_, store := serveWeb(func(w http.ResponseWriter, r *http.Request) { io.Copy(io.Discard, r.Body) })
	i := &intake{store}
	handler := i.take
	if isBad {
		handler = i.takeBehind
	}
	_, address := serveWeb(handler)
	response, err := http.Get(address)
	must(err)
	response.Body.Close()
	time.Sleep(long)
}

type link struct {
	in  *bufio.Reader
	out *bufio.Writer
}

func (l *link) write(line string) { l.out.WriteString(line + "\n") }
func (l *link) flush()            { l.out.Flush() }

func (l *link) answer() { l.in.ReadString('\n') }

func (l *link) put() {
	l.write("put")
	l.flush()
	l.answer()
}

func (l *link) commit() {
	l.write("commit") // BUG unpushed
	l.answer()
}

// unpushed: one of two kinds of requests isn't flushed.
func unpushed(isBad bool) {
	listener := listen()
	go serve(listener, echo)
	end := dial(listener)
	l := &link{bufio.NewReader(end), bufio.NewWriter(end)}
	l.put()
	if isBad {
		l.commit()
	} else {
		l.put()
	}
}

type Worker struct{}

func (Worker) Run(count int, result *int) error {
	time.Sleep(short)
	*result = count
	return nil
}

// crowded: calls that complete while their channel is full are dropped.
func crowded(isBad bool) {
	listener, server := listen(), rpc.NewServer()
	must(server.Register(Worker{}))
	go server.Accept(listener)
	client := rpc.NewClient(dial(listener))
	room := 8
	if isBad {
		room = 2
	}
	done := make(chan *rpc.Call, room) // BUG crowded
	for count := 0; count < 8; count++ {
		client.Go("Worker.Run", count, new(int), done)
	}
	time.Sleep(long)
	for count := 0; count < 8; count++ {
		<-done
	}
}

type asker struct {
	lock    sync.Mutex
	waiting map[byte]chan string
	next    byte
	ends    []net.Conn
}

func (a *asker) receive(end net.Conn) {
	for in := bufio.NewScanner(end); in.Scan(); {
		var id byte
		fmt.Sscan(in.Text(), &id)
		a.lock.Lock()
		answer, ok := a.waiting[id]
		delete(a.waiting, id)
		a.lock.Unlock()
		if ok {
			answer <- in.Text()
		}
	}
}

func (a *asker) ask(end net.Conn, id byte) {
	answer := make(chan string, 1)
	a.lock.Lock()
	a.waiting[id] = answer // BUG mistaken
	a.lock.Unlock()
	fmt.Fprintln(end, id)
	<-answer
}

// mistaken: two requests have the same number, and one takes the other's place.
func mistaken(isBad bool) {
	listener, a := listen(), &asker{waiting: map[byte]chan string{}}
	go serve(listener, func(end net.Conn) {
		for in := bufio.NewScanner(end); in.Scan(); {
			time.Sleep(short)
			fmt.Fprintln(end, in.Text())
		}
	})
	var askers sync.WaitGroup
	for count := byte(0); count < 2; count++ {
		end, id := dial(listener), count
		if isBad {
			id = 0
		}
		go a.receive(end)
		askers.Add(1)
		go func() {
			defer askers.Done()
			a.ask(end, id)
		}()
	}
	askers.Wait()
}

func greet(end net.Conn) error {
	greeting := make([]byte, 2)
	if _, err := io.ReadFull(end, greeting); err != nil {
		return err
	}
	if string(greeting) != "hi" {
		return errors.New("no greeting")
	}
	return nil
}

func door(listener net.Listener, isBad bool) error {
	for {
		end, err := listener.Accept()
		if err != nil {
			return err
		}
		if err := greet(end); err != nil {
			end.Close()
			if isBad {
				return err // BUG turnedAway
			}
			continue
		}
		go echo(end)
	}
}

// turnedAway: one bad greeting ends the accept loop.
func turnedAway(isBad bool) {
	listener := listen()
	go func() { door(listener, isBad) }()
	for _, greeting := range []string{"hi", "oh", "hi"} {
		end := dial(listener)
		fmt.Fprintln(end, greeting)
		if greeting == "hi" {
			bufio.NewReader(end).ReadString('\n')
		}
		end.Close()
	}
}

// relayRaw reads an address, connects to it, and then copies both ways.
func relayRaw(end net.Conn, isBad bool) {
	in := bufio.NewReader(end) // BUG mixed
	address, err := in.ReadString('\n')
	if err != nil {
		return
	}
	up, err := net.Dial("tcp", strings.TrimSpace(address))
	must(err)
	go func() {
		if isBad {
			io.Copy(up, end)
		} else {
			io.Copy(up, in)
		}
	}()
	io.Copy(end, up)
}

// mixed: the bytes that a reader has read ahead are skipped.
func mixed(isBad bool) {
	behind, front := listen(), listen()
	go serve(behind, echo)
	go serve(front, func(end net.Conn) { relayRaw(end, isBad) })
	end := dial(front)
	fmt.Fprintf(end, "%s\nhello\n", behind.Addr())
	bufio.NewReader(end).ReadString('\n')
}

func beat(end net.Conn, isBad bool) {
	ticks := time.NewTicker(short)
	defer ticks.Stop()
	for {
		select {
		case <-ticks.C:
			if _, err := fmt.Fprintln(end, "beat"); err != nil {
				if !isBad {
					return
				}
				break // BUG spins
			}
		}
	}
}

// spins: a break leaves only a select, and the loop continues to write.
func spins(isBad bool) {
	listener := listen()
	go serve(listener, func(end net.Conn) {
		bufio.NewReader(end).ReadString('\n')
		end.Close()
	})
	beat(dial(listener), isBad)
}

type alarm struct {
	lock sync.Mutex
	news []string
	wake chan bool
}

func (a *alarm) raise(line string) {
	a.lock.Lock()
	a.news = append(a.news, line)
	a.lock.Unlock()
	select {
	case a.wake <- true: // BUG unheard
	default:
	}
}

func (a *alarm) deliver(end net.Conn, count int) {
	for in := bufio.NewReader(end); count > 0; {
		<-a.wake
		a.lock.Lock()
		news := a.news
		a.news = nil
		a.lock.Unlock()
		for _, line := range news {
			fmt.Fprintln(end, line)
			in.ReadString('\n')
			count--
		}
	}
}

// unheard: a busy goroutine misses a wake-up, and then sleeps although a line arrived while it was busy.
func unheard(isBad bool) {
	listener, a := listen(), &alarm{wake: make(chan bool)}
	if !isBad {
		a.wake = make(chan bool, 1)
	}
	go serve(listener, func(end net.Conn) {
		for in := bufio.NewScanner(end); in.Scan(); {
			time.Sleep(2 * short)
			fmt.Fprintln(end, in.Text())
		}
	})
	go func() {
		for _, line := range []string{"one", "two"} {
			time.Sleep(short)
			a.raise(line)
		}
	}()
	a.deliver(dial(listener), 2)
}

type office struct {
	lock  sync.Mutex
	heard *sync.Cond
	acks  map[string]bool
}

func (d *office) collectForOne(end net.Conn) {
	for in := bufio.NewScanner(end); in.Scan(); {
		d.lock.Lock()
		d.acks[in.Text()] = true
		d.lock.Unlock()
		d.heard.Signal() // BUG signalled
	}
}

func (d *office) collect(end net.Conn) {
	for in := bufio.NewScanner(end); in.Scan(); {
		d.lock.Lock()
		d.acks[in.Text()] = true
		d.lock.Unlock()
		d.heard.Broadcast()
	}
}

func (d *office) page(end net.Conn, name string) {
	d.lock.Lock()
	defer d.lock.Unlock()
	fmt.Fprintln(end, name)
	for !d.acks[name] {
		d.heard.Wait()
	}
}

// signalled: a Signal wakes a goroutine other than the one that it is meant for.
func signalled(isBad bool) {
	listener, d := listen(), &office{acks: map[string]bool{}}
	d.heard = sync.NewCond(&d.lock)
	go serve(listener, func(end net.Conn) {
		for in := bufio.NewScanner(end); in.Scan(); {
			if in.Text() == "second" {
				fmt.Fprintln(end, "second")
				time.Sleep(short)
				fmt.Fprintln(end, "first")
			}
		}
	})
	end := dial(listener)
	if isBad {
		go d.collectForOne(end)
	} else {
		go d.collect(end)
	}
	var pages sync.WaitGroup
	for _, name := range []string{"first", "second"} {
		pages.Add(1)
		go func() {
			defer pages.Done()
			d.page(end, name)
		}()
		time.Sleep(short)
	}
	pages.Wait()
}

type hall struct{ seats chan struct{} }

func (h *hall) enter(name string, isBad bool) error {
	h.seats <- struct{}{}
	if name == "" {
		<-h.seats
		return errors.New("no name")
	}
	if name == "guest" && isBad {
		return errors.New("no guests") // BUG seated
	}
	if name == "guest" {
		<-h.seats
		return errors.New("no guests")
	}
	return nil
}

func (h *hall) leave() { <-h.seats }

// seated: a seat is kept for a guest who isn't let in.
func seated(isBad bool) {
	listener, h := listen(), &hall{make(chan struct{}, 2)}
	go serve(listener, func(end net.Conn) {
		defer end.Close()
		for in := bufio.NewScanner(end); in.Scan(); {
			if err := h.enter(in.Text(), isBad); err != nil {
				fmt.Fprintln(end, err)
				continue
			}
			fmt.Fprintln(end, "welcome")
			h.leave()
		}
	})
	end := dial(listener)
	in := bufio.NewReader(end)
	for _, name := range []string{"Ada", "guest", "guest", "Ada"} {
		fmt.Fprintln(end, name)
		in.ReadString('\n')
	}
}

func load(end net.Conn, isBad bool) {
	defer end.Close()
	block := make([]byte, 1<<20)
	if isBad {
		end.Read(block) // BUG partly
	} else {
		io.ReadFull(end, block)
	}
	if block[len(block)-1] == 1 {
		fmt.Fprintln(end, "done")
	}
}

// partly: a part of a block is taken for the whole block.
func partly(isBad bool) {
	listener := listen()
	go serve(listener, func(end net.Conn) { load(end, isBad) })
	end := dial(listener)
	end.Write(bytes.Repeat([]byte{1}, 1<<20))
	bufio.NewReader(end).ReadString('\n')
}

func main() {
	programs := map[string]func(bool){
		"ordered": ordered, "departed": departed, "oneOnly": oneOnly, "reentered": reentered, "unreturned": unreturned, "outlasted": outlasted,
		"unpushed": unpushed, "crowded": crowded, "mistaken": mistaken, "turnedAway": turnedAway, "mixed": mixed,
		"spins": spins, "unheard": unheard, "signalled": signalled, "seated": seated, "partly": partly,
	}
	time.AfterFunc(8*long, func() { os.Exit(2) })
	programs[os.Args[1]](os.Args[2] == "bad")
	fmt.Println("well")
}
