// Many connections to an echo server, with two goroutines and short deadlines at each end:  load CONNECTIONS ROUNDS PAUSE
//
// It stops after ROUNDS round trips in total. With a pause, each connection is closed after eight round trips and
// opened again after the pause, like the connections of a server that runs for hours.
package main

import (
	"fmt"
	"net"
	"os"
	"strconv"
	"sync"
	"sync/atomic"
	"time"
)

const short, long = time.Millisecond, 50 * time.Millisecond

func must(err error) {
	if err != nil {
		panic(err)
	}
}

// echo answers until the other end is closed.
func echo(connection net.Conn) {
	defer connection.Close()
	bytes := make([]byte, 256)
	for {
		connection.SetReadDeadline(time.Now().Add(long))
		n, err := connection.Read(bytes)
		if timeout, ok := err.(net.Error); ok && timeout.Timeout() {
			continue
		}
		if err != nil {
			return
		}
		if _, err := connection.Write(bytes[:n]); err != nil {
			return
		}
	}
}

func serve(listener net.Listener) {
	for {
		connection, err := listener.Accept()
		if err != nil {
			return
		}
		go echo(connection)
	}
}

// talk runs two goroutines on one connection. They count their round trips in *made, until it reaches most.
func talk(address string, made *int64, most int64) {
	connection, err := net.Dial("tcp", address)
	must(err)
	var both sync.WaitGroup
	for i := 0; i < 2; i++ {
		both.Add(1)
		go func() {
			defer both.Done()
			bytes := make([]byte, 64)
			for atomic.LoadInt64(made) < most {
				if _, err := connection.Write(bytes); err != nil {
					return
				}
				connection.SetReadDeadline(time.Now().Add(short))
				if _, err := connection.Read(bytes); err == nil {
					atomic.AddInt64(made, 1)
				}
			}
		}()
	}
	both.Wait()
	connection.Close()
}

func number(at int) int64 {
	value, err := strconv.ParseInt(os.Args[at], 10, 64)
	must(err)
	return value
}

func main() {
	connections, rounds, pause := number(1), number(2), time.Duration(number(3))*time.Millisecond
	listener, err := net.Listen("tcp", "127.0.0.1:0")
	must(err)
	go serve(listener)
	var made int64
	var all sync.WaitGroup
	begin := time.Now()
	for i := int64(0); i < connections; i++ {
		all.Add(1)
		go func() {
			defer all.Done()
			for pause == 0 && atomic.LoadInt64(&made) < rounds {
				talk(listener.Addr().String(), &made, rounds)
			}
			for pause > 0 && atomic.LoadInt64(&made) < rounds {
				few := int64(0)
				talk(listener.Addr().String(), &few, 8)
				atomic.AddInt64(&made, few)
				time.Sleep(pause)
			}
		}()
	}
	all.Wait()
	took := time.Since(begin)
	fmt.Println(made, "round trips in", took.Round(time.Millisecond), "that is", int64(float64(made)/took.Seconds()), "a second")
}
