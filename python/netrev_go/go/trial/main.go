// The program that netrev-go records to see whether an installed Go can be recorded: it has each kind of step, each way
// out of a wait, and the ways in which bytes move. It prints how many bytes were read and written; an accepted connection counts as one
// read byte.
//
//	trial MILLISECONDS
package main

import (
	"fmt"
	"io"
	"net"
	"os"
	"strconv"
	"sync"
	"sync/atomic"
	"syscall"
	"time"
)

var (
	moment        time.Duration // for a goroutine to reach its wait
	reads, writes int64
)

func must(err error) {
	if err != nil {
		panic(err)
	}
}

func read(n int64, err error) {
	must(err)
	atomic.AddInt64(&reads, n)
}

func wrote(n int64, err error) {
	must(err)
	atomic.AddInt64(&writes, n)
}

// backlog reads the system file that net.Listen reads, and returns the number of bytes. The poller accepts that file.
func backlog() int64 {
	file, err := syscall.Open("/proc/sys/net/core/somaxconn", syscall.O_RDONLY, 0)
	if err != nil {
		return 0
	}
	defer syscall.Close(file)
	n, err := syscall.Read(file, make([]byte, 64))
	must(err)
	return int64(n)
}

func put(end io.Writer, size int) {
	n, err := end.Write(make([]byte, size))
	wrote(int64(n), err)
}

func pair(listener net.Listener) (*net.TCPConn, *net.TCPConn) {
	accepted := make(chan net.Conn, 1)
	go func() {
		end, err := listener.Accept()
		read(1, err)
		accepted <- end
	}()
	end, err := net.Dial("tcp", listener.Addr().String())
	must(err)
	return end.(*net.TCPConn), (<-accepted).(*net.TCPConn)
}

// talk is a round trip, in which the other end splices, and then both ends close.
func talk(end, other *net.TCPConn) {
	go func() {
		n, err := io.Copy(other, other)
		read(n, err)
		wrote(n, err)
		other.CloseWrite()
	}()
	put(end, 5)
	time.Sleep(moment)
	put(end, 5)
	end.CloseWrite()
	read(io.Copy(io.Discard, end))
}

// gathered writes several buffers in one call, and sends a file.
func gathered(end, other *net.TCPConn) {
	parts := net.Buffers{make([]byte, 3), make([]byte, 4)}
	wrote(parts.WriteTo(end))
	file, err := os.Open(os.Args[0]) // the poller doesn't accept it
	must(err)
	wrote(io.CopyN(end, file, 1000))
	file.Close()
	end.CloseWrite()
	read(io.Copy(io.Discard, other))
}

// messages sends datagrams, one of them empty, for which a reader waits.
func messages(_, _ *net.TCPConn) {
	here, err := net.ListenPacket("udp4", "127.0.0.1:0")
	must(err)
	defer here.Close()
	there, err := net.Dial("udp4", here.LocalAddr().String())
	must(err)
	defer there.Close()
	go func() {
		time.Sleep(moment)
		put(there, 7)
		n, err := there.Write(nil)
		wrote(int64(n)+1, err)
	}()
	for i := 0; i < 2; i++ {
		n, from, err := here.ReadFrom(make([]byte, 64))
		if n == 0 {
			n = 1
		}
		read(int64(n), err)
		back, err := here.WriteTo(make([]byte, n), from)
		wrote(int64(back), err)
	}
}

// late waits until a deadline wakes it, then meets a passed deadline and a cancelled deadline.
func late(end, _ *net.TCPConn) {
	buffer := make([]byte, 8)
	end.SetReadDeadline(time.Now().Add(moment))
	end.Read(buffer)
	end.Read(buffer)
	end.SetDeadline(time.Now().Add(time.Hour))
	end.SetWriteDeadline(time.Now().Add(2 * time.Hour))
	go end.Read(buffer)
	time.Sleep(moment)
	end.SetDeadline(time.Unix(1, 0))
	end.SetDeadline(time.Time{})
}

// queue starts three readers of one connection, which need the same lock. One gets bytes; the close wakes the others.
func queue(end, other *net.TCPConn) {
	var all sync.WaitGroup
	for i := 0; i < 3; i++ {
		all.Add(1)
		go func() {
			defer all.Done()
			n, _ := end.Read(make([]byte, 1))
			read(int64(n), nil)
		}()
	}
	time.Sleep(moment)
	put(other, 1)
	time.Sleep(moment)
	end.Close()
	all.Wait()
}

// full fills the buffers, so that a writer waits until the other end reads. The buffers are small, because netrev checks each byte; if
// they were even smaller, the kernel would wait for a second.
func full(end, other *net.TCPConn) {
	const buffer, piece = 1 << 15, 1 << 14
	end.SetWriteBuffer(buffer)
	other.SetReadBuffer(buffer)
	done := make(chan bool)
	go func() {
		time.Sleep(moment)
		read(io.Copy(io.Discard, other))
		close(done)
	}()
	for i := 0; i < 16; i++ {
		put(end, piece)
	}
	end.CloseWrite()
	<-done
}

func main() {
	number, err := strconv.Atoi(os.Args[1])
	must(err)
	moment = time.Duration(number) * time.Millisecond
	listener, err := net.Listen("tcp", "127.0.0.1:0")
	must(err)
	read(backlog(), nil)
	for _, scene := range []func(end, other *net.TCPConn){talk, gathered, messages, late, queue, full, talk} {
		end, other := pair(listener)
		scene(end, other)
		end.Close()
		other.Close()
	}
	listener.Close()
	time.Sleep(moment)
	fmt.Println(reads, writes)
}
