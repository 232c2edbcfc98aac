// Programs in which a goroutine waits for something that was lost: an answer that was read and dropped, a goroutine that
// ended, a missing call of Done, a ticker that was stopped. The line marked BUG causes that, and netrev-go names it first.
// With the argument `good`, each program runs without its bug.
//
//	gone NAME bad|good
package main

import (
	"bufio"
	"errors"
	"fmt"
	"io"
	"net"
	"net/http"
	"os"
	"strconv"
	"strings"
	"sync"
	"time"
)

const short, long = 10 * time.Millisecond, 80 * time.Millisecond

func must(err error) {
	if err != nil {
		panic(err)
	}
}

func listen() net.Listener {
	listener, err := net.Listen("tcp", "127.0.0.1:0")
	must(err)
	return listener
}

func dial(listener net.Listener) net.Conn {
	end, err := net.Dial("tcp", listener.Addr().String())
	must(err)
	return end
}

// serve accepts connections, and starts a goroutine for each.
func serve(listener net.Listener, session func(net.Conn)) {
	for {
		end, err := listener.Accept()
		if err != nil {
			return
		}
		go session(end)
	}
}

// echo sends each line back.
func echo(end net.Conn) {
	defer end.Close()
	for in := bufio.NewScanner(end); in.Scan(); {
		fmt.Fprintln(end, in.Text())
	}
}

func ask(end net.Conn, line string) (string, error) {
	if _, err := fmt.Fprintln(end, line); err != nil {
		return "", err
	}
	return bufio.NewReader(end).ReadString('\n')
}

// A client uses one connection for many calls at once.
type client struct {
	end     net.Conn
	lock    sync.Mutex
	pending map[string]chan string
}

func (c *client) await(key string, answer chan string) {
	c.lock.Lock()
	defer c.lock.Unlock()
	c.pending[key] = answer
}

func (c *client) call(key, line string) string {
	answer := make(chan string, 1)
	c.await(key, answer)
	fmt.Fprintln(c.end, line)
	return <-answer
}

func (c *client) route() {
	for in := bufio.NewScanner(c.end); in.Scan(); {
		c.lock.Lock()
		answer := c.pending[in.Text()]
		c.lock.Unlock()
		if answer == nil {
			continue // BUG unmatched
		}
		answer <- in.Text()
	}
}

// unmatched: an answer arrives for which the client finds no call.
func unmatched(bad bool) error {
	listener := listen()
	go serve(listener, echo)
	c := &client{end: dial(listener), pending: map[string]chan string{}}
	go c.route()
	c.call("one", "one")
	c.call("two", "two")
	if bad {
		c.call("three", "Three")
	}
	return nil
}

// deliver passes on each line, if a receiver is waiting.
func deliver(end net.Conn, answer chan<- string) {
	for in := bufio.NewScanner(end); in.Scan(); {
		select {
		case answer <- in.Text():
		default: // BUG missed
		}
	}
}

// missed: an answer arrives before the client waits for it.
func missed(bad bool) error {
	listener, answer := listen(), make(chan string)
	go serve(listener, echo)
	end := dial(listener)
	go deliver(end, answer)
	for _, line := range []string{"one", "two"} {
		for tries := 0; tries < 3; tries++ {
			go func() { time.Sleep(short); fmt.Fprintln(end, line) }()
			<-answer
		}
	}
	if bad {
		fmt.Fprintln(end, "three")
		time.Sleep(2 * short)
		<-answer
	}
	return nil
}

func sum(lines <-chan string, sums chan<- int) {
	total := 0
	for line := range lines {
		number, err := strconv.Atoi(line)
		if err != nil {
			return // BUG quits
		}
		total += number
		sums <- total
	}
}

// quits: one of three goroutines returns, and the others wait for it.
func quits(bad bool) error {
	listener, lines, sums := listen(), make(chan string), make(chan int)
	go serve(listener, echo)
	end := dial(listener)
	go func() {
		for in := bufio.NewScanner(end); in.Scan(); {
			lines <- in.Text()
		}
	}()
	go sum(lines, sums)
	last := map[bool]string{true: "three", false: "3"}
	for _, line := range []string{"1", "2", last[bad]} {
		fmt.Fprintln(end, line)
		<-sums
	}
	return nil
}

func visit(listener net.Listener, line string, group *sync.WaitGroup) {
	end := dial(listener)
	defer end.Close()
	answer, err := ask(end, line)
	if err != nil || strings.HasPrefix(answer, "no") {
		end.Write([]byte("again\n")) // BUG skipped
		return
	}
	group.Done()
}

// skipped: one of several goroutines returns without calling Done.
func skipped(bad bool) error {
	listener, group := listen(), &sync.WaitGroup{}
	go serve(listener, echo)
	last := map[bool]string{true: "no", false: "three"}
	for _, line := range []string{"one", "two", last[bad]} {
		group.Add(1)
		go visit(listener, line, group)
	}
	group.Wait()
	return nil
}

// surplus: more is added to a WaitGroup than the number of goroutines.
func surplus(bad bool) error {
	listener, group, lines := listen(), &sync.WaitGroup{}, []string{"one", "two", "three"}
	go serve(listener, echo)
	if bad {
		group.Add(1)
	}
	group.Add(len(lines)) // BUG surplus
	for _, line := range lines {
		go func() {
			defer group.Done()
			ask(dial(listener), line)
		}()
	}
	group.Wait()
	return nil
}

type limiter struct {
	ticker *time.Ticker
	tokens chan bool
}

func (l *limiter) refill() {
	for range l.ticker.C {
		l.tokens <- true
	}
}

func (l *limiter) pause() {
	l.ticker.Stop() // BUG stilled
}

// stilled: a ticker is stopped although other goroutines get their tokens from it.
func stilled(bad bool) error {
	listener, limits := listen(), &limiter{time.NewTicker(short), make(chan bool)}
	go serve(listener, echo)
	go limits.refill()
	end := dial(listener)
	for _, line := range []string{"one", "pause", "two", "three"} {
		<-limits.tokens
		if _, err := ask(end, line); err != nil {
			return err
		}
		if line == "pause" && bad {
			limits.pause()
		}
	}
	return nil
}

func packets() *net.UDPConn {
	end, err := net.ListenUDP("udp", &net.UDPAddr{IP: net.IPv4(127, 0, 0, 1)})
	must(err)
	return end
}

func reply(in, out *net.UDPConn) {
	buffer := make([]byte, 512)
	for {
		n, from, err := in.ReadFromUDP(buffer)
		if err != nil {
			return
		}
		out.WriteToUDP(buffer[:n], from) // BUG elsewhere
	}
}

// elsewhere: an answer comes from an address other than the one that was asked.
func elsewhere(bad bool) error {
	in, other := packets(), packets()
	out := map[bool]*net.UDPConn{true: other, false: in}
	go reply(in, out[bad])
	end, err := net.Dial("udp", in.LocalAddr().String())
	must(err)
	fmt.Fprint(end, "hello")
	_, err = end.Read(make([]byte, 512))
	return err
}

func post(url string, bodies func() io.Reader) error {
	request, err := http.NewRequest("POST", url, bodies())
	must(err)
	request.ContentLength = 5
	for tries := 0; tries < 2; tries++ {
		answer, err := http.DefaultClient.Do(request) // BUG reread
		if err != nil {
			return err
		}
		answer.Body.Close()
		if again, isOpen := request.Body.(io.Seeker); isOpen {
			again.Seek(0, io.SeekStart)
		}
	}
	return nil
}

type text struct{ *strings.Reader }

func (t text) Close() error { return nil }

// reread: a request whose body was already read is sent again.
func reread(bad bool) error {
	listener := listen()
	go http.Serve(listener, http.HandlerFunc(func(w http.ResponseWriter, r *http.Request) { io.Copy(io.Discard, r.Body) }))
	return post("http://"+listener.Addr().String(), func() io.Reader {
		body := text{strings.NewReader("hello")}
		if bad {
			return io.NopCloser(body.Reader)
		}
		return body
	})
}

type slots chan bool

func (s slots) within(work func()) {
	s <- true
	defer func() { <-s }()
	work()
}

// nested: a goroutine that holds a slot waits for goroutines that need a slot.
func nested(bad bool) error {
	listener, free := listen(), make(slots, map[bool]int{true: 2, false: 9}[bad])
	go serve(listener, echo)
	free.within(func() {
		var group sync.WaitGroup
		for _, line := range []string{"one", "two"} {
			group.Add(1)
			go func() {
				defer group.Done()
				free.within(func() { // BUG nested
					ask(dial(listener), line)
					free.within(func() {})
				})
			}()
		}
		group.Wait()
	})
	return nil
}

func greet(end net.Conn) string {
	in := bufio.NewReader(end) // BUG readahead
	name, err := in.ReadString('\n')
	must(err)
	fmt.Fprint(end, "welcome ", name)
	return name
}

// readahead: a buffered reader is dropped together with what it has read ahead.
func readahead(bad bool) error {
	listener, bodies := listen(), make(chan string)
	go serve(listener, func(end net.Conn) {
		greet(end)
		body := make([]byte, 4)
		io.ReadFull(end, body)
		bodies <- string(body)
	})
	end, body := dial(listener), map[bool]string{true: "body"}
	fmt.Fprint(end, "carol\n"+body[bad])
	bufio.NewReader(end).ReadString('\n')
	if !bad {
		fmt.Fprint(end, "body")
	}
	<-bodies
	return nil
}

type question struct {
	line   string
	answer chan string
}

func reckon(questions <-chan question) {
	for asked := range questions {
		number, err := strconv.Atoi(asked.line)
		if err != nil {
			continue // BUG unanswered
		}
		asked.answer <- strconv.Itoa(2 * number)
	}
}

// unanswered: a request sent through a channel gets no answer.
func unanswered(bad bool) error {
	listener, questions := listen(), make(chan question)
	go reckon(questions)
	go serve(listener, func(end net.Conn) {
		for in := bufio.NewScanner(end); in.Scan(); {
			asked := question{in.Text(), make(chan string, 1)}
			questions <- asked
			fmt.Fprintln(end, <-asked.answer)
		}
	})
	end := dial(listener)
	last := map[bool]string{true: "three", false: "3"}
	for _, line := range []string{"1", "2", last[bad]} {
		if _, err := ask(end, line); err != nil {
			return err
		}
	}
	return nil
}

type shelf struct {
	lock  sync.Mutex
	books map[string]int
}

func (s *shelf) put(book string) bool {
	s.lock.Lock()
	if book == "" {
		return false // BUG outlived
	}
	s.books[book]++
	s.lock.Unlock()
	return true
}

func (s *shelf) count(book string) int {
	s.lock.Lock()
	defer s.lock.Unlock()
	return s.books[book]
}

// outlived: a Read times out on a connection that is then closed, long before a mutex is left locked.
func outlived(bad bool) error {
	listener, books := listen(), &shelf{books: map[string]int{}}
	go serve(listener, func(end net.Conn) {
		defer end.Close()
		end.SetReadDeadline(time.Now().Add(short))
		line, err := bufio.NewReader(end).ReadString('\n')
		if err == nil {
			books.put(strings.TrimSpace(line))
			fmt.Fprintln(end, books.count("one"))
		}
	})
	idle := dial(listener)
	idle.Read(make([]byte, 1))
	idle.Close()
	lines := map[bool][]string{true: {"one", ""}, false: {"one", "two"}}
	for _, line := range lines[bad] {
		end := dial(listener)
		if _, err := ask(end, line); err != nil {
			return errors.New("no answer")
		}
		end.Close()
	}
	return nil
}

func main() {
	programs := map[string]func(bool) error{
		"unmatched": unmatched, "missed": missed, "quits": quits, "skipped": skipped, "surplus": surplus, "stilled": stilled,
		"elsewhere": elsewhere, "reread": reread, "nested": nested, "readahead": readahead, "unanswered": unanswered, "outlived": outlived,
	}
	time.AfterFunc(10*long, func() { os.Exit(2) })
	if err := programs[os.Args[1]](os.Args[2] == "bad"); err != nil {
		fmt.Println(err)
		os.Exit(1)
	}
	fmt.Println("well")
}
