// Programs in which the goroutines that should hand something on have ended, or never do so. The line marked BUG causes that, and
// the first cause names it. With the argument `good`, each program runs without its bug.
//
//	hands NAME bad|good
package main

import (
	"bufio"
	"errors"
	"fmt"
	"io"
	"net"
	"net/http"
	"os"
	"strings"
	"sync"
	"time"
)

const short, long = 10 * time.Millisecond, 150 * time.Millisecond

func must(err error) {
	if err != nil {
		panic(err)
	}
}

func listen() net.Listener {
	listener, err := net.Listen("tcp", "127.0.0.1:0")
	must(err)
	return listener
}

func dial(listener net.Listener) net.Conn {
	end, err := net.Dial("tcp", listener.Addr().String())
	must(err)
	return end
}

// serve accepts connections, and starts a goroutine for each.
func serve(listener net.Listener, session func(net.Conn)) {
	for {
		end, err := listener.Accept()
		if err != nil {
			return
		}
		go session(end)
	}
}

type caller struct {
	lock    sync.Mutex
	waiting map[string]chan string
	end     net.Conn
}

func (c *caller) receive(failAll bool) {
	in := bufio.NewReader(c.end)
	for {
		line, err := in.ReadString('\n')
		if err != nil {
			if failAll {
				c.lock.Lock()
				defer c.lock.Unlock()
				for _, answer := range c.waiting {
					close(answer)
				}
			}
			return // BUG severed
		}
		c.lock.Lock()
		answer := c.waiting[strings.TrimSpace(line)]
		c.lock.Unlock()
		answer <- line
	}
}

func (c *caller) call(name string) string {
	answer := make(chan string, 1)
	c.lock.Lock()
	c.waiting[name] = answer
	c.lock.Unlock()
	fmt.Fprintln(c.end, name)
	return <-answer
}

// severed: the goroutine that hands out the answers ends with its connection, and tells no caller.
func severed(isBad bool) {
	listener := listen()
	go serve(listener, func(end net.Conn) {
		in := bufio.NewScanner(end)
		for count := 0; count < 2 && in.Scan(); count++ {
			fmt.Fprintln(end, in.Text())
		}
		in.Scan()
		end.Close()
	})
	c := &caller{waiting: map[string]chan string{}, end: dial(listener)}
	go c.receive(!isBad)
	for _, name := range []string{"one", "two", "three"} {
		c.call(name)
	}
}

type letter struct {
	text string
	sent chan bool
}

type office struct {
	letters chan letter
	quit    chan bool
	clerks  sync.WaitGroup
}

func (o *office) clerk(end net.Conn) {
	defer o.clerks.Done()
	for {
		select {
		case one := <-o.letters:
			fmt.Fprintln(end, one.text)
			bufio.NewReader(end).ReadString('\n')
			one.sent <- true
		case <-o.quit:
			return // BUG dismissed
		}
	}
}

func (o *office) send(text string) {
	one := letter{text, make(chan bool, 1)}
	o.letters <- one
	<-one.sent
}

// dismissed: the clerks end before all letters are sent.
func dismissed(isBad bool) {
	listener, o := listen(), &office{letters: make(chan letter, 8), quit: make(chan bool)}
	go serve(listener, func(end net.Conn) {
		for in := bufio.NewScanner(end); in.Scan(); {
			time.Sleep(short)
			fmt.Fprintln(end, in.Text())
		}
	})
	for count := 0; count < 2; count++ {
		o.clerks.Add(1)
		go o.clerk(dial(listener))
	}
	o.send("first")
	o.send("second")
	var senders sync.WaitGroup
	if isBad {
		close(o.quit)
		o.clerks.Wait()
	}
	for count := 0; count < 3; count++ {
		senders.Add(1)
		go func() {
			defer senders.Done()
			o.send("late")
		}()
	}
	senders.Wait()
	if !isBad {
		close(o.quit)
	}
}

type batch struct {
	jobs    chan string
	pending sync.WaitGroup
	known   map[string]bool
}

func (b *batch) submit(names []string, isBad bool) {
	b.pending.Add(len(names))
	for _, name := range names {
		if b.known[name] {
			if !isBad {
				b.pending.Done()
			}
			continue // BUG repeated
		}
		b.known[name] = true
		b.jobs <- name
	}
}

func (b *batch) feed(end net.Conn) {
	in := bufio.NewReader(end)
	for name := range b.jobs {
		fmt.Fprintln(end, name)
		in.ReadString('\n')
		b.pending.Done()
	}
}

// repeated: a job that occurs twice is counted twice, but done once.
func repeated(isBad bool) {
	listener, b := listen(), &batch{jobs: make(chan string, 8), known: map[string]bool{}}
	go serve(listener, func(end net.Conn) {
		for in := bufio.NewScanner(end); in.Scan(); {
			fmt.Fprintln(end, in.Text())
		}
	})
	for count := 0; count < 2; count++ {
		go b.feed(dial(listener))
	}
	b.submit([]string{"a", "b", "a", "c"}, isBad)
	b.pending.Wait()
	close(b.jobs)
}

func serveWeb(handler http.HandlerFunc) string {
	listener := listen()
	go http.Serve(listener, handler)
	return "http://" + listener.Addr().String()
}

func crawl(client *http.Client, address string) {
	for page := 0; page < 5; page++ {
		response, err := client.Get(address)
		must(err)
		defer response.Body.Close() // BUG deferred
		io.CopyN(io.Discard, response.Body, 10)
	}
}

func crawlInTurn(client *http.Client, address string) {
	for page := 0; page < 5; page++ {
		response, err := client.Get(address)
		must(err)
		io.CopyN(io.Discard, response.Body, 10)
		response.Body.Close()
	}
}

// deferred: the bodies read in a loop are closed only when its function returns.
func deferred(isBad bool) {
	address := serveWeb(func(w http.ResponseWriter, r *http.Request) {
		w.Write(make([]byte, 1<<16))
	})
	client := &http.Client{Transport: &http.Transport{MaxConnsPerHost: 3}}
	if isBad {
		crawl(client, address)
	} else {
		crawlInTurn(client, address)
	}
}

type counted struct {
	http.ResponseWriter
	bytes int
}

func (c *counted) Write(bytes []byte) (int, error) {
	c.bytes += len(bytes)
	return c.ResponseWriter.Write(bytes)
}

func events(quit chan bool) http.HandlerFunc {
	return func(w http.ResponseWriter, r *http.Request) {
		fmt.Fprintln(w, "ready")
		if flusher, ok := w.(http.Flusher); ok {
			flusher.Flush() // BUG hidden
		}
		<-quit
	}
}

// hidden: a writer that wraps another writer has no Flush.
func hidden(isBad bool) {
	quit := make(chan bool)
	handler := events(quit)
	address := serveWeb(func(w http.ResponseWriter, r *http.Request) {
		if isBad {
			w = &counted{ResponseWriter: w}
		}
		handler(w, r)
	})
	response, err := http.Get(address)
	must(err)
	bufio.NewReader(response.Body).ReadString('\n')
	close(quit)
}

func ask(end net.Conn, name string) error {
	fmt.Fprint(end, name)
	end.SetReadDeadline(time.Now().Add(long))
	answer := make([]byte, 16)
	for {
		count, err := end.Read(answer) // BUG mingled
		if err != nil {
			return err
		}
		if string(answer[:count]) == name {
			return nil
		}
	}
}

// mingled: two goroutines wait for answers on one socket, and each drops the other's answers.
func mingled(isBad bool) {
	server, err := net.ListenPacket("udp", "127.0.0.1:0")
	must(err)
	go func() {
		for buffer := make([]byte, 16); ; {
			count, from, err := server.ReadFrom(buffer)
			if err != nil {
				return
			}
			question := string(buffer[:count])
			time.AfterFunc(map[string]time.Duration{"slow": 2 * short}[question], func() { server.WriteTo([]byte(question), from) })
		}
	}()
	shared, err := net.Dial("udp", server.LocalAddr().String())
	must(err)
	var askers sync.WaitGroup
	for _, name := range []string{"slow", "fast"} {
		end := shared
		if !isBad {
			end, err = net.Dial("udp", server.LocalAddr().String())
			must(err)
		}
		askers.Add(1)
		go func() {
			defer askers.Done()
			ask(end, name)
		}()
		time.Sleep(short / 2)
	}
	askers.Wait()
}

type flight struct {
	landed chan bool
	text   string
}

type tower struct {
	lock    sync.Mutex
	flights map[string]*flight
}

func (d *tower) fetch(end net.Conn, name string, isBad bool) (string, error) {
	d.lock.Lock()
	if other, ok := d.flights[name]; ok {
		d.lock.Unlock()
		<-other.landed
		return other.text, nil
	}
	own := &flight{landed: make(chan bool)}
	d.flights[name] = own
	d.lock.Unlock()
	fmt.Fprintln(end, name)
	text, err := bufio.NewReader(end).ReadString('\n')
	if err == nil && text == "none\n" {
		err = errors.New("none")
	}
	if err != nil && isBad {
		return "", err // BUG stranded
	}
	own.text = text
	close(own.landed)
	return text, err
}

// stranded: a goroutine waits for another goroutine's answer, and isn't told that the other has failed.
func stranded(isBad bool) {
	listener, d := listen(), &tower{flights: map[string]*flight{}}
	go serve(listener, func(end net.Conn) {
		for in := bufio.NewScanner(end); in.Scan(); {
			fmt.Fprintln(end, "none")
		}
	})
	end := dial(listener)
	d.fetch(end, "one", isBad)
	d.fetch(end, "one", isBad)
}

func main() {
	programs := map[string]func(bool){
		"severed": severed, "dismissed": dismissed, "repeated": repeated, "deferred": deferred, "hidden": hidden, "mingled": mingled, "stranded": stranded,
	}
	time.AfterFunc(8*long, func() { os.Exit(2) })
	programs[os.Args[1]](os.Args[2] == "bad")
	fmt.Println("well")
}
