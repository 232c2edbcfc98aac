// Programs in which one path through a function skips a necessary action: a slot isn't released, a body isn't closed, Done isn't called, a buffer
// isn't flushed, a timer isn't reset, the end of a reply isn't written, a reader is dropped with what it has read ahead, a request isn't answered.
// The line marked BUG is on that path, and netrev-go names it first. With the argument `good`, each program runs without its bug.
//
//	skips NAME bad|good
package main

import (
	"bufio"
	"encoding/json"
	"errors"
	"fmt"
	"io"
	"net"
	"net/http"
	"os"
	"strings"
	"sync"
	"time"
)

const short, long = 10 * time.Millisecond, 80 * time.Millisecond

func must(err error) {
	if err != nil {
		panic(err)
	}
}

func listen() net.Listener {
	listener, err := net.Listen("tcp", "127.0.0.1:0")
	must(err)
	return listener
}

func dial(listener net.Listener) net.Conn {
	end, err := net.Dial("tcp", listener.Addr().String())
	must(err)
	return end
}

// serve accepts connections, and starts a goroutine for each.
func serve(listener net.Listener, session func(net.Conn)) {
	for {
		end, err := listener.Accept()
		if err != nil {
			return
		}
		go session(end)
	}
}

// echo sends each line back.
func echo(end net.Conn) {
	defer end.Close()
	for in := bufio.NewScanner(end); in.Scan(); {
		fmt.Fprintln(end, in.Text())
	}
}

type press struct{ trays chan bool }

func (p *press) take() { p.trays <- true }
func (p *press) free() { <-p.trays }

func (p *press) print(end net.Conn, page string) error {
	p.take()
	if _, err := fmt.Fprintln(end, page); err != nil {
		p.free()
		return err
	}
	answer, err := bufio.NewReader(end).ReadString('\n')
	if err != nil || answer == "jam\n" {
		return errors.New("a jam") // BUG kept
	}
	p.free()
	return nil
}

// kept: after a jam, print doesn't free its tray, and the press has only two.
func kept(bad bool) error {
	listener, p := listen(), &press{make(chan bool, 2)}
	go serve(listener, func(end net.Conn) {
		for in := bufio.NewScanner(end); in.Scan(); {
			answer := map[bool]string{true: "jam", false: "printed"}
			fmt.Fprintln(end, answer[in.Text() == "photo"])
		}
	})
	pages := map[bool]string{true: "photo", false: "text"}
	var group sync.WaitGroup
	for turn := 0; turn < 3; turn++ {
		group.Go(func() {
			end := dial(listener)
			for _, page := range []string{"text", "text", pages[bad], "text"} {
				p.print(end, page)
			}
		})
	}
	group.Wait()
	return nil
}

func stations(client *http.Client, address string, names []string) (found int) {
	for _, name := range names {
		answer, err := client.Get(address + name)
		if err != nil {
			return found
		}
		if answer.StatusCode == http.StatusNotFound {
			continue // BUG opened
		}
		io.Copy(io.Discard, answer.Body)
		answer.Body.Close()
		found++
	}
	return found
}

// opened: the body of each negative answer stays open, and with it the connection.
func opened(bad bool) error {
	listener := listen()
	go http.Serve(listener, http.HandlerFunc(func(w http.ResponseWriter, r *http.Request) {
		if strings.HasPrefix(r.URL.Path, "/old") {
			http.NotFound(w, r)
			return
		}
		fmt.Fprintln(w, "12 degrees")
	}))
	client := &http.Client{Transport: &http.Transport{MaxConnsPerHost: 2}}
	names := map[bool][]string{true: {"sea", "old1", "hill", "old2", "town"}, false: {"sea", "hill", "town"}}
	stations(client, "http://"+listener.Addr().String()+"/", names[bad])
	return nil
}

type mail struct{ to, text string }

func deliver(end net.Conn, letters <-chan mail, quit <-chan bool, group *sync.WaitGroup) {
	for {
		select {
		case letter, ok := <-letters:
			if !ok {
				return
			}
			if letter.to == "" {
				continue // BUG counted
			}
			fmt.Fprintln(end, letter.to, letter.text)
			group.Done()
		case <-quit:
			return
		}
	}
}

// counted: Done isn't called for a letter without an address.
func counted(bad bool) error {
	listener, letters, quit := listen(), make(chan mail, 2), make(chan bool)
	go serve(listener, echo)
	var group sync.WaitGroup
	for turn := 0; turn < 2; turn++ {
		go deliver(dial(listener), letters, quit, &group)
	}
	to := map[bool]string{true: "", false: "carl"}
	for _, name := range []string{"anna", to[bad], "bob", "dora"} {
		group.Add(1)
		letters <- mail{name, "hello"}
	}
	group.Wait()
	close(quit)
	return nil
}

func scores(end net.Conn) {
	in, out := bufio.NewReader(end), bufio.NewWriter(end)
	points := map[string]int{"anna": 3}
	for {
		line, err := in.ReadString('\n')
		if err != nil {
			return
		}
		name := strings.TrimSpace(line)
		if _, ok := points[name]; !ok {
			fmt.Fprintln(out, "unknown")
			continue // BUG buffered
		}
		fmt.Fprintln(out, points[name])
		out.Flush()
	}
}

// buffered: an answer stays in a buffer, and the client's deadline passes.
func buffered(bad bool) error {
	listener := listen()
	go serve(listener, scores)
	end := dial(listener)
	in := bufio.NewReader(end)
	last := map[bool]string{true: "bob", false: "anna"}
	for _, name := range []string{"anna", "anna", last[bad]} {
		end.SetDeadline(time.Now().Add(2 * long))
		fmt.Fprintln(end, name)
		if _, err := in.ReadString('\n'); err != nil {
			return err
		}
	}
	return nil
}

type change struct {
	key   string
	saved chan bool
}

func save(changes <-chan *change) {
	var waiting []*change
	pause := time.NewTimer(short)
	for {
		select {
		case <-pause.C:
			if len(waiting) == 0 {
				continue // BUG timed
			}
		case one := <-changes:
			waiting = append(waiting, one)
			if len(waiting) < 3 {
				continue
			}
		}
		for _, one := range waiting {
			one.saved <- true
		}
		waiting = nil
		pause.Reset(short)
	}
}

// timed: changes are saved by a timer, which isn't reset if it goes off before any change.
func timed(bad bool) error {
	listener, changes := listen(), make(chan *change)
	go save(changes)
	go serve(listener, func(end net.Conn) {
		for in := bufio.NewScanner(end); in.Scan(); {
			one := &change{in.Text(), make(chan bool, 1)}
			changes <- one
			<-one.saved
			fmt.Fprintln(end, "saved")
		}
	})
	if bad {
		time.Sleep(long)
	}
	end := dial(listener)
	fmt.Fprintln(end, "a")
	_, err := bufio.NewReader(end).ReadString('\n')
	return err
}

type dish struct {
	name   string
	isSold bool
}

func menu(out io.Writer, dishes []dish) {
	fmt.Fprintln(out, "+today")
	for at, one := range dishes {
		if one.isSold {
			continue // BUG ending
		}
		mark := "+"
		if at == len(dishes)-1 {
			mark = "."
		}
		fmt.Fprintln(out, mark+one.name)
	}
}

// ending: only the last dish's line marks the end of a reply, and a sold-out dish has no line.
func ending(bad bool) error {
	listener := listen()
	dishes := []dish{{"soup", false}, {"fish", false}, {"cake", bad}}
	go serve(listener, func(end net.Conn) {
		for in := bufio.NewScanner(end); in.Scan(); {
			menu(end, dishes)
		}
	})
	end := dial(listener)
	in := bufio.NewReader(end)
	for turn := 0; turn < 2; turn++ {
		fmt.Fprintln(end, "menu")
		for line := "+"; line[0] == '+'; {
			var err error
			if line, err = in.ReadString('\n'); err != nil {
				return err
			}
		}
	}
	return nil
}

type head struct{ Size int }

func picture(end net.Conn, in io.Reader) {
	var of head
	if in == nil {
		must(json.NewDecoder(end).Decode(&of)) // BUG swallowed
		in = end
	} else {
		must(json.NewDecoder(io.LimitReader(in, 13)).Decode(&of))
	}
	io.ReadFull(in, make([]byte, of.Size))
	fmt.Fprintln(end, "got it")
}

// swallowed: the buffered reader of a picture's header also reads a part of the picture, which is lost.
func swallowed(bad bool) error {
	listener := listen()
	go serve(listener, func(end net.Conn) {
		if bad {
			picture(end, nil)
		} else {
			picture(end, bufio.NewReader(end))
		}
	})
	end := dial(listener)
	end.Write(append([]byte(`{"Size":7777}`), make([]byte, 7777)...))
	_, err := bufio.NewReader(end).ReadString('\n')
	return err
}

func lamps(end net.Conn) {
	on := map[string]bool{}
	for in := bufio.NewScanner(end); in.Scan(); {
		verb, lamp, _ := strings.Cut(in.Text(), " ")
		if verb == "toggle" {
			on[lamp] = !on[lamp]
			continue // BUG mute
		}
		fmt.Fprintln(end, on[lamp])
	}
}

// mute: one of two requests is carried out, but not answered.
func mute(bad bool) error {
	listener := listen()
	go serve(listener, lamps)
	end := dial(listener)
	in := bufio.NewReader(end)
	for _, verb := range []string{"show", "show", map[bool]string{true: "toggle", false: "show"}[bad]} {
		fmt.Fprintln(end, verb, "hall")
		if _, err := in.ReadString('\n'); err != nil {
			return err
		}
	}
	return nil
}

func main() {
	programs := map[string]func(bool) error{
		"kept": kept, "opened": opened, "counted": counted, "buffered": buffered, "timed": timed, "ending": ending, "swallowed": swallowed, "mute": mute,
	}
	time.AfterFunc(10*long, func() { os.Exit(2) })
	if err := programs[os.Args[1]](os.Args[2] == "bad"); err != nil {
		fmt.Println(err)
		os.Exit(1)
	}
	fmt.Println("well")
}
