// Measures what a request costs: an HTTP server and its clients over keep-alive connections, in one process:  served CONNECTIONS REQUESTS [trace | flight]
//
// It prints the nanoseconds of processor time that the process used for each request, and the bytes of trace for each request. With `trace`, trace.Start traces the run;
// with `flight`, a FlightRecorder does, which Go has had since 1.25. python/dev/recorder/costs.py runs it.
package main

import (
	"fmt"
	"io"
	"net"
	"net/http"
	"os"
	"runtime/trace"
	"strconv"
	"sync"
	"sync/atomic"
	"syscall"
)

const warming = 10 // for this many requests, one is made first as a warm-up

func must(err error) {
	if err != nil {
		panic(err)
	}
}

func number(at int) int64 {
	value, err := strconv.ParseInt(os.Args[at], 10, 64)
	must(err)
	return value
}

// spent returns the processor time of the process, in nanoseconds.
func spent() int64 {
	var usage syscall.Rusage
	must(syscall.Getrusage(syscall.RUSAGE_SELF, &usage))
	return usage.Utime.Nano() + usage.Stime.Nano()
}

// A counter counts the bytes that are written to it.
type counter struct{ bytes int64 }

func (c *counter) Write(bytes []byte) (int, error) {
	c.bytes += int64(len(bytes))
	return len(bytes), nil
}

// ask makes requests over one connection, as long as any are left.
func ask(client *http.Client, address string, left *int64, done *sync.WaitGroup) {
	defer done.Done()
	for atomic.AddInt64(left, -1) >= 0 {
		response, err := client.Get(address)
		must(err)
		io.Copy(io.Discard, response.Body)
		response.Body.Close()
	}
}

// askAll makes this many requests, over the connections of these clients.
func askAll(clients []*http.Client, address string, requests int64) {
	var done sync.WaitGroup
	done.Add(len(clients))
	for _, client := range clients {
		go ask(client, address, &requests, &done)
	}
	done.Wait()
}

func main() {
	listener, err := net.Listen("tcp", "127.0.0.1:0")
	must(err)
	go http.Serve(listener, http.HandlerFunc(func(w http.ResponseWriter, r *http.Request) { fmt.Fprintln(w, "done") }))
	clients := make([]*http.Client, number(1))
	for i := range clients {
		clients[i] = &http.Client{Transport: &http.Transport{}}
	}
	address, requests := "http://"+listener.Addr().String()+"/", number(2)
	traced, stop := &counter{}, func() {}
	if len(os.Args) > 3 && os.Args[3] == "trace" {
		must(trace.Start(traced))
		stop = trace.Stop
	} else if len(os.Args) > 3 {
		stop = flight(traced)
	}
	askAll(clients, address, requests/warming)
	begin := spent()
	askAll(clients, address, requests)
	took := spent() - begin
	stop()
	fmt.Println(took/requests, traced.bytes/(requests+requests/warming))
}
