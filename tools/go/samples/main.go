// Programs that hang or time out, each for a different reason:  netrev-go run main.go NAME
package main

import (
	"net"
	"os"
	"runtime"
	"time"
)

func must(err error) {
	if err != nil {
		panic(err)
	}
}

// pair connects two ends over the loopback.
func pair() (*net.TCPConn, *net.TCPConn) {
	listener, err := net.Listen("tcp", "127.0.0.1:0")
	must(err)
	accepted := make(chan net.Conn)
	go func() {
		end, err := listener.Accept()
		must(err)
		accepted <- end
	}()
	end, err := net.Dial("tcp", listener.Addr().String())
	must(err)
	other := <-accepted
	listener.Close()
	return end.(*net.TCPConn), other.(*net.TCPConn)
}

const moment = 5 * time.Millisecond

// past ends a read with a deadline in the past, and removes the deadline before the reader has run.
func past(end, _ *net.TCPConn) {
	go end.Read(make([]byte, 8))
	time.Sleep(moment)
	end.SetReadDeadline(time.Unix(1, 0))
	end.SetReadDeadline(time.Time{})
}

// lost waits for bytes that have already arrived, without trying to read them.
func lost(end, other *net.TCPConn) {
	other.Write([]byte("hi"))
	time.Sleep(moment)
	raw, err := end.SyscallConn()
	must(err)
	go func() {
		calls := 0
		raw.Read(func(uintptr) bool { calls++; return calls > 1 })
	}()
}

// leak keeps a reference forever, in a Control that doesn't return.
func leak(end, _ *net.TCPConn) {
	raw, err := end.SyscallConn()
	must(err)
	go raw.Control(func(uintptr) { select {} })
	time.Sleep(moment)
	go end.Read(make([]byte, 8))
	time.Sleep(moment)
	go end.Close()
}

// late moves a deadline just as it passes.
func late(end, _ *net.TCPConn) {
	end.SetDeadline(time.Now().Add(3 * time.Millisecond))
	go end.Read(make([]byte, 8))
	for begin := time.Now(); time.Since(begin) < 4*time.Millisecond; {
	}
	end.SetReadDeadline(time.Now().Add(2 * moment))
}

// writers want the same lock while the buffer is full, and are woken by the close.
func writers(end, other *net.TCPConn) {
	end.SetWriteBuffer(4096)
	other.SetReadBuffer(4096)
	for i := 0; i < 3; i++ {
		go func() {
			for {
				if _, err := end.Write(make([]byte, 4096)); err != nil {
					return
				}
			}
		}()
	}
	time.Sleep(4 * moment)
	end.SetWriteDeadline(time.Now().Add(moment))
	time.Sleep(4 * moment)
	end.Close()
}

// busy has many connections, with several goroutines and short deadlines on each.
func busy(*net.TCPConn, *net.TCPConn) {
	for i := 0; i < 8; i++ {
		end, other := pair()
		go func() {
			bytes := make([]byte, 64)
			for {
				n, err := other.Read(bytes)
				if err != nil {
					return
				}
				other.Write(bytes[:n])
			}
		}()
		for j := 0; j < 3; j++ {
			go func() {
				for {
					end.SetReadDeadline(time.Now().Add(200 * time.Microsecond))
					end.Read(make([]byte, 8))
					if _, err := end.Write([]byte("hello")); err != nil {
						return
					}
				}
			}()
		}
		time.AfterFunc(2*moment, func() { end.Close() })
	}
}

// half closes its write side, then writes nevertheless, and reads what the other end still sends.
func half(end, other *net.TCPConn) {
	end.Write([]byte("all"))
	end.CloseWrite()
	end.Write([]byte("late"))
	other.Read(make([]byte, 8))
	other.Write([]byte("rest"))
	end.Read(make([]byte, 8))
	other.Close()
	end.Read(make([]byte, 8))
}

func main() {
	programs := map[string]func(end, other *net.TCPConn){
		"past": past, "lost": lost, "leak": leak, "late": late, "writers": writers, "busy": busy,
		"half": half,
	}
	if len(os.Args) != 2 || programs[os.Args[1]] == nil {
		println("one of: past lost leak late writers busy half")
		os.Exit(2)
	}
	end, other := pair()
	programs[os.Args[1]](end, other)
	time.Sleep(4 * moment)
	runtime.KeepAlive(end)
	runtime.KeepAlive(other)
	os.Exit(0)
}
