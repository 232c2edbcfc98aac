// Scenes on one processor, which log the same in each run (go_recorded.py): connections of each kind, deadlines, queues
// for a lock, channels, timers, WaitGroups, locks and dials, and at the end notes of open descriptors.
package main

import (
	"context"
	"errors"
	"io"
	"net"
	"os"
	"runtime"
	"sync"
	"syscall"
	"time"
)

const hour = time.Hour

func must(err error) {
	if err != nil {
		panic(err)
	}
}

// settle lets all other goroutines reach their waits.
func settle() {
	time.Sleep(5 * time.Millisecond)
}

func pair(network, address string) (net.Conn, net.Conn) {
	listener, err := net.Listen(network, address)
	must(err)
	end, err := net.Dial(network, listener.Addr().String())
	must(err)
	other, err := listener.Accept()
	must(err)
	must(listener.Close())
	return end, other
}

func talk(end, other net.Conn) {
	buffer := make([]byte, 8)
	end.Write(buffer[:5])
	other.Read(buffer)
	go func() {
		settle()
		end.Write(buffer[:3])
	}()
	other.Read(buffer)
	end.(interface{ CloseWrite() error }).CloseWrite()
	end.(interface{ CloseRead() error }).CloseRead()
	end.Write(buffer)
	other.Read(buffer)
	end.Close()
	end.Read(buffer)
	end.Write(buffer)
	end.SetDeadline(time.Now().Add(hour))
	end.Close()
	other.Close()
}

func streams() {
	talk(pair("tcp4", "127.0.0.1:0"))
	talk(pair("unix", "socket"))
	talk(pair("unix", "@recorded"))
	a, b := pair("tcp4", "127.0.0.1:0")
	parts := net.Buffers{make([]byte, 3), make([]byte, 4)}
	parts.WriteTo(a)
	file, err := os.Open(os.Args[0])
	must(err)
	io.CopyN(a, file, 100)
	file.Close()
	a.Close()
	io.ReadAll(b)
	b.Close()
}

func datagrams(network, address string) {
	here, err := net.ListenPacket(network, address)
	must(err)
	there, err := net.Dial(network, here.LocalAddr().String())
	must(err)
	there.Write([]byte("seven!!"))
	buffer := make([]byte, 16)
	_, from, err := here.ReadFrom(buffer)
	must(err)
	here.WriteTo(buffer[:3], from)
	there.Read(buffer)
	there.Write(nil)
	here.(*net.UDPConn).ReadMsgUDP(buffer, nil)
	here.(*net.UDPConn).WriteMsgUDP(buffer[:2], nil, from.(*net.UDPAddr))
	there.Close()
	here.Close()
}

func deadlines() {
	a, b := pair("tcp4", "127.0.0.1:0")
	buffer := make([]byte, 1)
	a.SetDeadline(time.Unix(1, 0))
	a.Read(buffer)
	a.Write(buffer)
	a.SetDeadline(time.Time{})
	a.SetReadDeadline(time.Now().Add(hour))
	a.SetWriteDeadline(time.Now().Add(2 * hour))
	a.SetReadDeadline(time.Now().Add(10 * time.Millisecond))
	a.Read(buffer)
	a.Close()
	b.Read(buffer)
	b.Close()
}

func queues() {
	a, b := pair("tcp4", "127.0.0.1:0")
	var all sync.WaitGroup
	for i := 0; i < 3; i++ {
		all.Add(1)
		go func() {
			a.Read(make([]byte, 1))
			all.Done()
		}()
	}
	settle()
	b.Write([]byte("x"))
	settle()
	a.Close()
	all.Wait()
	b.Close()
}

func channels() {
	none, two, five := make(chan int), make(chan int, 2), [5]chan int{}
	for i := range five {
		five[i] = make(chan int)
	}
	go func() { none <- 1 }()
	settle()
	<-none
	go func() { <-none }()
	settle()
	none <- 1
	two <- 1
	two <- 2
	go func() { two <- 3 }()
	settle()
	<-two
	<-two
	<-two
	go func() { <-two }()
	settle()
	two <- 4
	select {
	case two <- 5:
	case <-none:
	}
	select {
	case <-two:
	case none <- 1:
	}
	go func() {
		select {
		case <-five[0]:
		case five[1] <- 1:
		case <-five[2]:
		case <-five[3]:
		case five[4] <- 1:
		}
	}()
	settle()
	five[2] <- 1
	close(two)
	<-two
	select {
	case <-two:
	case <-none:
	}
	settle()
}

func others() {
	var mutex sync.Mutex
	var shared sync.RWMutex
	condition := sync.NewCond(&mutex)
	mutex.Lock()
	go func() { mutex.Lock(); mutex.Unlock() }()
	settle()
	mutex.Unlock()
	settle()
	go func() { mutex.Lock(); condition.Wait(); mutex.Unlock() }()
	settle()
	condition.Signal()
	shared.RLock()
	go func() { shared.Lock(); shared.Unlock() }()
	settle()
	go func() { shared.RLock(); shared.RUnlock() }()
	settle()
	shared.RUnlock()
	settle()
	timer := time.NewTimer(hour)
	timer.Reset(2 * hour)
	timer.Stop()
	time.AfterFunc(hour, settle).Stop()
	<-time.After(time.Millisecond)
}

func dials() {
	_, err := net.Dial("tcp4", "127.0.0.1:1")
	if !errors.Is(err, syscall.ECONNREFUSED) {
		panic(err)
	}
	ctx, cancel := context.WithCancel(context.Background())
	ctx.Done()
	cancel()
	new(net.Dialer).DialContext(ctx, "tcp4", "127.0.0.1:1")
	ctx, cancel = context.WithTimeout(context.Background(), time.Nanosecond)
	settle()
	new(net.Dialer).DialContext(ctx, "tcp4", "127.0.0.1:1")
	cancel()
}

// held locks mutexes that stay locked to the end.
func held(mutex, unlocked *sync.Mutex, shared, written *sync.RWMutex) {
	mutex.Lock()
	unlocked.Lock()
	shared.RLock()
	shared.RLock()
	shared.RUnlock()
	written.Lock()
	go func() { unlocked.Unlock() }()
	settle()
	runtime.Gosched()
}

// open leaves sockets open in each state that notes can show. It then sets the last socket's deadlines so often that notes are written.
func open() {
	a, b := pair("tcp4", "127.0.0.1:0")
	for i := 0; i < 2; i++ {
		go a.Read(make([]byte, 1))
	}
	settle()
	c, d := pair("unix", "noted")
	c.(*net.UnixConn).CloseWrite()
	c.SetReadDeadline(time.Now().Add(hour))
	d.SetDeadline(time.Now().Add(2 * hour))
	e, f := pair("tcp4", "127.0.0.1:0")
	e.SetReadDeadline(time.Unix(1, 0))
	e.SetWriteDeadline(time.Now().Add(time.Millisecond))
	settle()
	g, err := net.ListenPacket("udp4", "127.0.0.1:0")
	must(err)
	for i := 0; i < 5000; i++ {
		g.SetDeadline(time.Now().Add(hour))
	}
	runtime.KeepAlive([]any{a, b, c, d, e, f})
}

func main() {
	streams()
	datagrams("udp4", "127.0.0.1:0")
	datagrams("udp6", "[::1]:0")
	deadlines()
	queues()
	channels()
	others()
	dials()
	held(new(sync.Mutex), new(sync.Mutex), new(sync.RWMutex), new(sync.RWMutex))
	open()
	os.Exit(0)
}
