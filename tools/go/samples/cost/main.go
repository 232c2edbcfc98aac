// Measures what calls cost, in nanoseconds, as the best of many runs of a hundred calls: a write and a read of 16 bytes over the loopback,
// a SetReadDeadline, and what programs do without the poller. python/dev/recorder/costs.py runs it, and has a name for each figure.
package main

import (
	"fmt"
	"net"
	"sync"
	"time"
)

const (
	times = 600
	calls = 100 // they take less time than the system lets a process run at once
)

func best(call func()) int64 {
	least := int64(1) << 62
	for i := 0; i < times; i++ {
		begin := time.Now()
		for j := 0; j < calls; j++ {
			call()
		}
		if took := time.Since(begin).Nanoseconds() / calls; took < least {
			least = took
		}
	}
	return least
}

// connected returns both ends of a connection over the loopback.
func connected() (net.Conn, net.Conn) {
	listener, err := net.Listen("tcp", "127.0.0.1:0")
	if err != nil {
		panic(err)
	}
	end, err := net.Dial("tcp", listener.Addr().String())
	if err != nil {
		panic(err)
	}
	other, err := listener.Accept()
	if err != nil {
		panic(err)
	}
	return end, other
}

// through passes a value to another goroutine and gets it back, through channels with this capacity.
func through(room int) func() {
	there, back := make(chan int, room), make(chan int, room)
	go func() {
		for value := range there {
			back <- value
		}
	}()
	return func() {
		there <- 1
		<-back
	}
}

// throughSelect does the same as through, but the other goroutine waits in a select of three or five cases.
func throughSelect(isOfFive bool) func() {
	there, back := make(chan int), make(chan int)
	var never [4]chan int
	for i := range never {
		never[i] = make(chan int)
	}
	go func() {
		for {
			if isOfFive {
				select {
				case value := <-there:
					back <- value
				case <-never[0]:
				case <-never[1]:
				case <-never[2]:
				case <-never[3]:
				}
				continue
			}
			select {
			case value := <-there:
				back <- value
			case <-never[0]:
			case <-never[1]:
			}
		}
	}()
	return func() {
		there <- 1
		<-back
	}
}

// byTurns lets two goroutines take turns by means of a sync.Cond.
func byTurns() func() {
	var lock sync.Mutex
	condition, mine := sync.NewCond(&lock), true
	turn := func(whose bool) {
		lock.Lock()
		for mine != whose {
			condition.Wait()
		}
		mine = !whose
		condition.Signal()
		lock.Unlock()
	}
	go func() {
		for {
			turn(false)
		}
	}()
	return func() { turn(true) }
}

// made is the channel that was made last.
var made chan int

func main() {
	end, other := connected()
	bytes := make([]byte, 16)
	buffer := make(chan int, 1)
	var group sync.WaitGroup
	var free sync.Mutex
	var readers sync.RWMutex
	for _, call := range []func(){
		func() {
			end.Write(bytes)
			other.Read(bytes)
		},
		func() { end.SetReadDeadline(time.Time{}) },
		func() {
			buffer <- 1
			<-buffer
		},
		through(0),
		through(1),
		throughSelect(false),
		throughSelect(true),
		byTurns(),
		func() {
			group.Add(1)
			go group.Done()
			group.Wait()
		},
		func() { time.NewTimer(time.Hour).Stop() },
		func() {
			free.Lock()
			free.Unlock()
		},
		func() {
			readers.RLock()
			readers.RUnlock()
		},
		func() { made = make(chan int) },
	} {
		fmt.Print(best(call), " ")
	}
	fmt.Println()
}
