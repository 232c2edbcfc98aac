// A net/http server that hands a connection over. Its handler sets both deadlines for the first answer, and later moves
// only the read deadline, so a write fails at the write deadline that was left behind.
package main

import (
	"bufio"
	"fmt"
	"net"
	"net/http"
	"os"
	"time"
)

const moment = 10 * time.Millisecond

func main() {
	listener, err := net.Listen("tcp", "127.0.0.1:0")
	if err != nil {
		panic(err)
	}
	go http.Serve(listener, http.HandlerFunc(echo))
	talk(listener.Addr().String())
}

func echo(w http.ResponseWriter, r *http.Request) {
	connection, buffered, err := w.(http.Hijacker).Hijack()
	if err != nil {
		return
	}
	defer connection.Close()
	connection.SetDeadline(time.Now().Add(3 * moment))
	connection.Write([]byte("HTTP/1.1 101 Switching Protocols\r\n\r\n"))
	for {
		connection.SetReadDeadline(time.Now().Add(100 * moment))
		line, err := buffered.ReadString('\n')
		if err != nil {
			return
		}
		if _, err := connection.Write([]byte(line)); err != nil {
			fmt.Fprintln(os.Stderr, "echo:", err)
			return
		}
	}
}

// talk sends a line at regular intervals, until no answer comes.
func talk(address string) {
	connection, err := net.Dial("tcp", address)
	if err != nil {
		panic(err)
	}
	defer connection.Close()
	fmt.Fprint(connection, "GET / HTTP/1.1\r\nHost: here\r\n\r\n")
	answers := bufio.NewReader(connection)
	for i := 0; i < 10; i++ {
		if _, err := answers.ReadString('\n'); err != nil {
			return
		}
		time.Sleep(moment)
		fmt.Fprintln(connection, "line", i)
	}
}
