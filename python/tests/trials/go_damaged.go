// A server under load, for go_damaged.py:  go_damaged CONNECTIONS
//
// Its clients make requests over keep-alive connections, and new connections now and then, until standard input ends. The program then prints
// the number of requests; if one fails, it panics.
package main

import (
	"fmt"
	"io"
	"net"
	"net/http"
	"os"
	"strconv"
	"sync"
	"sync/atomic"
	"time"
)

var (
	requests int64
	stopped  int32
	counts   = map[string]int{}
	guard    sync.RWMutex
	last     sync.Mutex
)

func must(err error) {
	if err != nil {
		panic(err)
	}
}

// serve answers with how often the path was asked for, and passes values through locks and channels.
func serve(w http.ResponseWriter, r *http.Request) {
	answer := make(chan int)
	go func() {
		guard.Lock()
		counts[r.URL.Path]++
		guard.Unlock()
		guard.RLock()
		defer guard.RUnlock()
		answer <- counts[r.URL.Path]
	}()
	fmt.Fprintln(w, <-answer)
	last.Lock()
	time.Sleep(time.Microsecond)
	last.Unlock()
}

func get(client *http.Client, address string) {
	response, err := client.Get(address)
	must(err)
	text, err := io.ReadAll(response.Body)
	must(err)
	must(response.Body.Close())
	_, err = strconv.Atoi(string(text[:len(text)-1]))
	must(err)
	atomic.AddInt64(&requests, 1)
}

// ask makes requests until the program stops, every hundredth over a connection of its own.
func ask(address string, done *sync.WaitGroup) {
	defer done.Done()
	client := &http.Client{Transport: &http.Transport{}, Timeout: time.Minute}
	for n := 1; atomic.LoadInt32(&stopped) == 0; n++ {
		get(client, address)
		if n%100 == 0 {
			client.CloseIdleConnections()
		}
	}
}

func main() {
	connections, err := strconv.Atoi(os.Args[1])
	must(err)
	listener, err := net.Listen("tcp", "127.0.0.1:0")
	must(err)
	go http.Serve(listener, http.HandlerFunc(serve))
	var done sync.WaitGroup
	for i := 0; i < connections; i++ {
		done.Add(1)
		go ask(fmt.Sprintf("http://%s/%d", listener.Addr(), i), &done)
	}
	_, err = io.Copy(io.Discard, os.Stdin)
	must(err)
	atomic.StoreInt32(&stopped, 1)
	done.Wait()
	fmt.Println(atomic.LoadInt64(&requests))
}
