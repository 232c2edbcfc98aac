// Programs in which many goroutines wait for one thing. The line marked BUG causes that; netrev-go names it before the lines of
// the waiting goroutines. With the argument `good`, each program runs without its bug.
//
//	roots NAME bad|good
package main

import (
	"bufio"
	"errors"
	"fmt"
	"io"
	"net"
	"net/http"
	"net/http/httptest"
	"os"
	"strings"
	"sync"
	"time"
)

const short, long = 10 * time.Millisecond, 80 * time.Millisecond

func must(err error) {
	if err != nil {
		panic(err)
	}
}

func listen() net.Listener {
	listener, err := net.Listen("tcp", "127.0.0.1:0")
	must(err)
	return listener
}

// within returns work's error, or another error if work takes too long.
func within(work func() error) error {
	done := make(chan error, 1)
	go func() { done <- work() }()
	select {
	case err := <-done:
		return err
	case <-time.After(10 * long):
		return errors.New("it doesn't end")
	}
}

// room sends each of its clients everything that any client says.
type room struct {
	lock    sync.Mutex
	clients []net.Conn
}

func (r *room) join(client net.Conn) {
	r.lock.Lock()
	defer r.lock.Unlock()
	r.clients = append(r.clients, client)
}

func (r *room) say(text string) {
	r.lock.Lock()
	defer r.lock.Unlock()
	for _, client := range r.clients {
		fmt.Fprintln(client, text) // BUG hub
	}
}

func (r *room) serve(client net.Conn) {
	r.join(client)
	lines := bufio.NewScanner(client)
	for lines.Scan() {
		r.say(lines.Text())
	}
}

// hub: a lock is held during a Write, and one client doesn't read.
func hub(bad bool) error {
	listener, chat := listen(), &room{}
	go func() {
		for {
			client, err := listener.Accept()
			if err != nil {
				return
			}
			must(client.(*net.TCPConn).SetWriteBuffer(4096))
			go chat.serve(client)
		}
	}()
	var said sync.WaitGroup
	for number := 0; number < 3; number++ {
		said.Add(1)
		go talk(listener.Addr().String(), bad && number == 0, &said)
		time.Sleep(short)
	}
	return within(func() error {
		said.Wait()
		return nil
	})
}

func talk(address string, sleeps bool, said *sync.WaitGroup) {
	defer said.Done()
	end, err := net.Dial("tcp", address)
	must(err)
	must(end.(*net.TCPConn).SetReadBuffer(4096))
	if sleeps {
		fmt.Fprintln(end, "hello")
		time.Sleep(time.Hour)
	}
	go io.Copy(io.Discard, end)
	for number := 0; number < 12; number++ {
		fmt.Fprintln(end, strings.Repeat("x", 8000))
	}
}

func name(client *http.Client, address string, bad bool) error {
	response, err := client.Get(address) // BUG bodies
	if err != nil {
		return err
	}
	if !bad || response.StatusCode == http.StatusOK {
		defer response.Body.Close()
	}
	return nil
}

// bodies: a client doesn't close the response bodies that it doesn't need, and so runs out of connections.
func bodies(bad bool) error {
	server := httptest.NewServer(http.HandlerFunc(func(w http.ResponseWriter, r *http.Request) {
		w.WriteHeader(http.StatusBadGateway)
		fmt.Fprintln(w, strings.Repeat("x", 20000))
	}))
	client := &http.Client{Transport: &http.Transport{MaxConnsPerHost: 2}}
	return within(func() error {
		var asked sync.WaitGroup
		for number := 0; number < 4; number++ {
			asked.Add(1)
			go func() {
				defer asked.Done()
				must(name(client, server.URL, bad))
			}()
		}
		asked.Wait()
		return nil
	})
}

func pass(to, from net.Conn, bad bool) {
	io.Copy(to, from) // BUG relay
	if !bad {
		to.(*net.TCPConn).CloseWrite()
	}
}

// relay: a relay copies both ways, but doesn't pass on the end of one side.
func relay(bad bool) error {
	back, front := listen(), listen()
	go func() {
		end, err := back.Accept()
		must(err)
		all, _ := io.ReadAll(end)
		fmt.Fprintln(end, len(all))
		end.Close()
	}()
	go func() {
		client, err := front.Accept()
		must(err)
		server, err := net.Dial("tcp", back.Addr().String())
		must(err)
		go pass(server, client, bad)
		go pass(client, server, bad)
	}()
	end, err := net.Dial("tcp", front.Addr().String())
	must(err)
	fmt.Fprintln(end, "hello")
	must(end.(*net.TCPConn).CloseWrite())
	must(end.SetReadDeadline(time.Now().Add(5 * long)))
	_, err = bufio.NewReader(end).ReadString('\n')
	return err
}

func serve(end net.Conn, slots chan bool, bad bool) error {
	slots <- true
	defer end.Close()
	fmt.Fprintln(end, "hello")
	line, err := bufio.NewReader(end).ReadString('\n')
	if err == nil && line == "odd\n" {
		if bad {
			return errors.New("an odd line") // BUG slots
		}
		err = errors.New("an odd line")
	}
	fmt.Fprintln(end, "thanks")
	<-slots
	return err
}

func visit(address, line string) {
	end, err := net.Dial("tcp", address)
	must(err)
	answers := bufio.NewScanner(end)
	answers.Scan()
	fmt.Fprintln(end, line)
	answers.Scan()
	end.Close()
}

// slots: a server with two slots for its clients doesn't release a slot after an odd line.
func slots(bad bool) error {
	listener, free := listen(), make(chan bool, 2)
	go func() {
		for {
			end, err := listener.Accept()
			if err != nil {
				return
			}
			go serve(end, free, bad)
		}
	}()
	return within(func() error {
		var visitors sync.WaitGroup
		for _, line := range []string{"even", "odd", "even", "odd", "even", "odd"} {
			visitors.Add(1)
			go func(line string) {
				defer visitors.Done()
				visit(listener.Addr().String(), line)
			}(line)
			time.Sleep(short)
		}
		visitors.Wait()
		return nil
	})
}

// site requests a part from itself to answer a request for a page.
type site struct {
	lock sync.Mutex
	self string
}

func (s *site) ServeHTTP(w http.ResponseWriter, r *http.Request) {
	s.lock.Lock()
	defer s.lock.Unlock()
	if r.URL.Path == "/page" {
		part, err := http.Get(s.self + "/part") // BUG itself
		must(err)
		part.Body.Close()
	}
	fmt.Fprintln(w, r.URL.Path)
}

// itself: a server sends itself a request while it holds the lock that the answer needs.
func itself(bad bool) error {
	pages := &site{}
	server := httptest.NewServer(pages)
	pages.self = server.URL
	path := "/part"
	if bad {
		path = "/page"
	}
	return within(func() error {
		page, err := http.Get(server.URL + path)
		if err == nil {
			page.Body.Close()
		}
		return err
	})
}

func main() {
	programs := map[string]func(bool) error{"hub": hub, "bodies": bodies, "relay": relay, "slots": slots, "itself": itself}
	if err := programs[os.Args[1]](os.Args[2] == "bad"); err != nil {
		fmt.Println(err)
		os.Exit(1)
	}
	fmt.Println("well")
}
