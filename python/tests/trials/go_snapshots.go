// Runs streams whose writers wait. Each connection has two senders, which set a deadline for each write and want the
// same lock, and a slow reader. Then one side closes the connection, the other side follows, and the stream begins
// again.
package main

import (
	"net"
	"os"
	"strconv"
	"sync"
	"time"
)

func must(err error) {
	if err != nil {
		panic(err)
	}
}

func send(connection net.Conn, pause time.Duration, done *sync.WaitGroup) {
	defer done.Done()
	bytes := make([]byte, 1<<15)
	for i := 0; i < 40; i++ {
		connection.SetWriteDeadline(time.Now().Add(pause))
		connection.Write(bytes)
	}
}

func stream(listener net.Listener, pause time.Duration) {
	connection, err := net.Dial("tcp", listener.Addr().String())
	must(err)
	other, err := listener.Accept()
	must(err)
	var done sync.WaitGroup
	done.Add(2)
	go send(connection, 20*time.Millisecond, &done)
	go send(connection, time.Second, &done)
	go func() {
		done.Wait()
		connection.(*net.TCPConn).CloseWrite()
		connection.Read(make([]byte, 1))
		connection.Close()
	}()
	bytes := make([]byte, 1<<14)
	for {
		other.SetReadDeadline(time.Now().Add(pause))
		if _, err := other.Read(bytes); err != nil {
			if timeout, ok := err.(net.Error); !ok || !timeout.Timeout() {
				break
			}
		}
		time.Sleep(pause / 10)
	}
	other.Close()
}

func main() {
	count, err := strconv.Atoi(os.Args[1])
	must(err)
	for i := 1; i <= count; i++ {
		listener, err := net.Listen("tcp", "127.0.0.1:0")
		must(err)
		go func(pause time.Duration) {
			for {
				stream(listener, pause)
			}
		}(time.Duration(i) * time.Millisecond)
	}
	select {}
}
