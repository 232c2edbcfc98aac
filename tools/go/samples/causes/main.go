// Each program has an ordinary bug at the line marked BUG, which netrev-go's first output must name. With the argument
// `good`, it runs without reaching its bug.
//
//	causes NAME bad|good
package main

import (
	"bufio"
	"errors"
	"fmt"
	"io"
	"net"
	"net/http"
	"os"
	"strings"
	"time"
)

const short, long = 10 * time.Millisecond, 80 * time.Millisecond

func must(err error) {
	if err != nil {
		panic(err)
	}
}

// pair returns the two ends of a connection.
func pair() (near, far net.Conn) {
	listener, err := net.Listen("tcp", "127.0.0.1:0")
	must(err)
	defer listener.Close()
	accepted := make(chan net.Conn)
	go func() {
		end, err := listener.Accept()
		must(err)
		accepted <- end
	}()
	near, err = net.Dial("tcp", listener.Addr().String())
	must(err)
	return near, <-accepted
}

// echo answers each line after a pause.
func echo(end net.Conn, pause time.Duration) {
	lines := bufio.NewScanner(end)
	for lines.Scan() {
		time.Sleep(pause)
		fmt.Fprintln(end, lines.Text())
	}
	end.Close()
}

func ask(end net.Conn, text string) error {
	fmt.Fprintln(end, text)
	_, err := bufio.NewReader(end).ReadString('\n')
	return err
}

// idleClose: a goroutine closes a connection that seems idle, but another goroutine has begun to use it.
func idleClose(bad bool) error {
	near, far := pair()
	pause := time.Duration(0)
	if bad {
		pause = long
	}
	go echo(far, pause)
	go func() {
		time.Sleep(2 * short)
		near.Close() // BUG idleClose
	}()
	return ask(near, "one")
}

// half: when one direction ends, a proxy closes both directions.
func half(bad bool) error {
	client, front := pair()
	back, server := pair()
	go func() {
		got := make([]byte, 5)
		io.ReadFull(server, got)
		if bad {
			time.Sleep(long)
		}
		fmt.Fprint(server, "answer")
		server.Close()
	}()
	pass := func(to, from net.Conn) {
		io.Copy(to, from)
		to.Close() // BUG half
		from.Close()
	}
	go pass(back, front)
	go pass(front, back)
	client.Write([]byte("hello"))
	if !bad {
		time.Sleep(long)
	}
	client.(*net.TCPConn).CloseWrite()
	if got, _ := io.ReadAll(client); len(got) == 0 {
		return errors.New("no answer")
	}
	return nil
}

// stale: the cancellation of one question comes so late that it hits the next question.
func stale(bad bool) error {
	near, far := pair()
	go echo(far, 3*short)
	cancel := func(behind time.Duration) {
		time.Sleep(behind)
		near.SetDeadline(time.Unix(1, 0)) // BUG stale
	}
	if err := ask(near, "first"); err != nil {
		return err
	}
	if bad {
		go cancel(short)
	}
	return ask(near, "second")
}

// left: one path through a handler leaves its connection open.
func left(bad bool) error {
	near, far := pair()
	text := "GET /"
	if bad {
		text = "PUT /"
	}
	go func() {
		line, err := bufio.NewReader(far).ReadString('\n')
		if err != nil || !strings.HasPrefix(line, "GET") {
			return // BUG left
		}
		fmt.Fprintln(far, "200")
		far.Close()
	}()
	near.SetReadDeadline(time.Now().Add(long))
	return ask(near, text)
}

// once: a deadline is set for the whole connection, and not for each question.
func once(bad bool) error {
	near, far := pair()
	pause := time.Duration(0)
	if bad {
		pause = 3 * short
	}
	go func() {
		far.SetDeadline(time.Now().Add(long)) // BUG once
		echo(far, 0)
	}()
	for i := 0; i < 5; i++ {
		if err := ask(near, "more"); err != nil {
			return err
		}
		time.Sleep(pause)
	}
	near.Close()
	return nil
}

// pool: a connection is used again with the deadline of its previous user.
func pool(bad bool) error {
	near, far := pair()
	pause := time.Duration(0)
	if bad {
		pause = 2 * long
	}
	ping := func() error {
		near.SetReadDeadline(time.Now().Add(long)) // BUG pool
		return ask(near, "ping")
	}
	go func() {
		lines := bufio.NewScanner(far)
		for lines.Scan() {
			if lines.Text() != "ping" {
				time.Sleep(pause)
			}
			fmt.Fprintln(far, "pong")
		}
	}()
	if err := ping(); err != nil {
		return err
	}
	return ask(near, "long question")
}

// piece: a single Read is taken to return the whole message.
func piece(bad bool) error {
	near, far := pair()
	go func() {
		buffer := make([]byte, 64)
		n, _ := far.Read(buffer) // BUG piece
		fmt.Fprintln(far, n)
		far.Close()
	}()
	near.Write([]byte("head"))
	if !bad {
		near.Write([]byte("body"))
	} else {
		time.Sleep(short)
		near.Write([]byte("body"))
	}
	if answer, _ := bufio.NewReader(near).ReadString('\n'); bad && answer != "8\n" {
		return fmt.Errorf("answered %q", answer)
	}
	return nil
}

// both: each end writes everything before it reads.
func both(bad bool) error {
	near, far := pair()
	size := 1000
	if bad {
		size = 4 << 20
	}
	for _, end := range []net.Conn{near, far} {
		must(end.(*net.TCPConn).SetReadBuffer(4096))
		must(end.(*net.TCPConn).SetWriteBuffer(4096))
	}
	done := make(chan bool, 2)
	exchange := func(end net.Conn) {
		end.Write(make([]byte, size)) // BUG both
		io.ReadFull(end, make([]byte, size))
		done <- true
	}
	go exchange(near)
	go exchange(far)
	for i := 0; i < 2; i++ {
		select {
		case <-done:
		case <-time.After(20 * long):
			return errors.New("nobody goes on")
		}
	}
	return nil
}

// body: the only connection to a host is never released, because a body isn't closed.
func body(bad bool) error {
	listener, err := net.Listen("tcp", "127.0.0.1:0")
	must(err)
	go http.Serve(listener, http.HandlerFunc(func(w http.ResponseWriter, _ *http.Request) {
		w.Write(make([]byte, 8_000))
	}))
	client := &http.Client{Transport: &http.Transport{MaxConnsPerHost: 1}, Timeout: 5 * long}
	for i := 0; i < 2; i++ {
		answer, err := client.Get("http://" + listener.Addr().String())
		if err != nil {
			return err
		}
		if !bad {
			answer.Body.Close()
		}
		io.CopyN(io.Discard, answer.Body, 10) // BUG body: nobody closes it
	}
	return nil
}

func main() {
	programs := map[string]func(bool) error{
		"idleClose": idleClose, "half": half, "stale": stale, "left": left, "once": once, "pool": pool, "piece": piece, "both": both,
		"body": body,
	}
	if err := programs[os.Args[1]](os.Args[2] == "bad"); err != nil {
		fmt.Println(err)
		os.Exit(1)
	}
	fmt.Println("well")
}
