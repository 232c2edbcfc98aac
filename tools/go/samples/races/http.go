package main

import (
	"bufio"
	"fmt"
	"io"
	"net"
	"net/http"
	"time"
)

// served starts a net/http server on the loopback, and returns it with its address.
func served(handler http.Handler, connections chan<- net.Conn) (*http.Server, string) {
	listener, err := net.Listen("tcp", "127.0.0.1:0")
	must(err)
	server := &http.Server{Handler: handler, ConnState: func(connection net.Conn, state http.ConnState) {
		if state == http.StateNew && connections != nil {
			connections <- connection
		}
	}}
	go server.Serve(listener)
	return server, listener.Addr().String()
}

// httpHijack takes a connection over, sets both deadlines, and then moves only the read deadline.
func httpHijack() bool {
	done := make(chan bool, 1)
	server, address := served(http.HandlerFunc(func(w http.ResponseWriter, r *http.Request) {
		connection, buffered, err := w.(http.Hijacker).Hijack()
		must(err)
		defer connection.Close()
		connection.SetDeadline(time.Now().Add(4 * moment))
		connection.Write([]byte("HTTP/1.1 101 Switching Protocols\r\n\r\n"))
		connection.SetReadDeadline(time.Now().Add(hour))
		line, _ := buffered.ReadString('\n')
		_, err = connection.Write([]byte(line))
		done <- err == nil
	}), nil)
	defer server.Close()
	connection, err := net.Dial("tcp", address)
	must(err)
	defer connection.Close()
	fmt.Fprint(connection, "GET / HTTP/1.1\r\nHost: here\r\n\r\n")
	answers := bufio.NewReader(connection)
	answers.ReadString('\n')
	time.Sleep(moment)
	fmt.Fprintln(connection, "question")
	return ended(done)
}

// httpWatchdog uses a deadline in the past to end an upload that takes too long, and removes it for the answer.
func httpWatchdog() bool {
	connections := make(chan net.Conn, 1)
	done := make(chan bool, 1)
	server, address := served(http.HandlerFunc(func(_ http.ResponseWriter, r *http.Request) {
		_, err := io.ReadAll(r.Body)
		time.Sleep(3 * moment)
		done <- err != nil
	}), connections)
	defer server.Close()
	connection, err := net.Dial("tcp", address)
	must(err)
	defer connection.Close()
	fmt.Fprint(connection, "POST / HTTP/1.1\r\nHost: here\r\nContent-Length: 100\r\n\r\nbegun")
	served := <-connections
	time.Sleep(2 * moment)
	served.SetReadDeadline(past)
	time.Sleep(moment)
	served.SetReadDeadline(time.Time{})
	return ended(done)
}

// httpIdle uses a deadline to end a server's connection that should be idle. The server removes the deadline before it reads a request.
func httpIdle() bool {
	connections := make(chan net.Conn, 1)
	server, address := served(http.HandlerFunc(func(http.ResponseWriter, *http.Request) {}), connections)
	defer server.Close()
	connection, err := net.Dial("tcp", address)
	must(err)
	defer connection.Close()
	fmt.Fprint(connection, "GET / HTTP/1.1\r\nHost: here\r\n\r\n")
	served := <-connections
	done := make(chan bool, 1)
	go func() {
		buffer := make([]byte, 1024)
		for err := error(nil); err == nil; {
			_, err = connection.Read(buffer)
		}
		done <- true
	}()
	time.Sleep(2 * moment)
	served.SetReadDeadline(past)
	return ended(done)
}
