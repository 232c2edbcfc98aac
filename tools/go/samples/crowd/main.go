// A server with many connections at once. On each connection, one goroutine reads, and another goroutine waits for texts to write:
//
//	crowd CONNECTIONS SECONDS
//
// Each connection makes one round trip, and then all connections wait. The program prints the number of goroutines.
package main

import (
	"fmt"
	"net"
	"os"
	"runtime"
	"strconv"
	"time"
)

func must(err error) {
	if err != nil {
		panic(err)
	}
}

func number(at int) int {
	value, err := strconv.Atoi(os.Args[at])
	must(err)
	return value
}

// read passes on the texts that arrive.
func read(connection net.Conn, texts chan<- string, done chan<- bool) {
	defer close(done)
	bytes := make([]byte, 64)
	for {
		n, err := connection.Read(bytes)
		if err != nil {
			return
		}
		texts <- string(bytes[:n])
	}
}

// write answers until the reader is done.
func write(connection net.Conn, texts <-chan string, done <-chan bool) {
	for {
		select {
		case text := <-texts:
			if _, err := connection.Write([]byte(text)); err != nil {
				return
			}
		case <-done:
			return
		}
	}
}

func serve(listener net.Listener) {
	for {
		connection, err := listener.Accept()
		if err != nil {
			return
		}
		texts, done := make(chan string), make(chan bool)
		go read(connection, texts, done)
		go write(connection, texts, done)
	}
}

func main() {
	listener, err := net.Listen("tcp", "127.0.0.1:0")
	must(err)
	go serve(listener)
	connections := make([]net.Conn, number(1))
	for i := range connections {
		connections[i], err = net.Dial("tcp", listener.Addr().String())
		must(err)
		_, err = connections[i].Write([]byte("hello"))
		must(err)
		_, err = connections[i].Read(make([]byte, 64))
		must(err)
	}
	fmt.Println(runtime.NumGoroutine(), "goroutines")
	time.Sleep(time.Duration(number(2)) * time.Second)
}
