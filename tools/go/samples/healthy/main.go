// Healthy programs: they move bytes in every way that Go offers, and goroutines that still wait at the end are meant to. nrdb should report no suspects.
//
//	healthy NAME
package main

import (
	"bytes"
	"fmt"
	"io"
	"net"
	"os"
	"path/filepath"
	"sort"
	"strings"
	"sync"
	"syscall"
	"time"
)

const moment = 5 * time.Millisecond

func must(err error) {
	if err != nil {
		panic(err)
	}
}

func listen(network string) net.Listener {
	address := "127.0.0.1:0"
	if network == "unix" {
		folder, err := os.MkdirTemp("", "healthy")
		must(err)
		leftover = append(leftover, folder)
		address = filepath.Join(folder, "socket")
	}
	listener, err := net.Listen(network, address)
	must(err)
	return listener
}

// leftover has the folders to be removed at the end.
var leftover []string

func dial(listener net.Listener) net.Conn {
	end, err := net.Dial(listener.Addr().Network(), listener.Addr().String())
	must(err)
	return end
}

// serve accepts connections until the listener is closed.
func serve(listener net.Listener, each func(end net.Conn)) {
	for {
		end, err := listener.Accept()
		if err != nil {
			return
		}
		go each(end)
	}
}

func echo(end net.Conn) {
	buffer := make([]byte, 4096)
	for {
		n, err := end.Read(buffer)
		if err != nil {
			return
		}
		end.Write(buffer[:n])
	}
}

func ask(end net.Conn, text string) {
	_, err := end.Write([]byte(text))
	must(err)
	answer := make([]byte, len(text))
	_, err = io.ReadFull(end, answer)
	must(err)
	if string(answer) != text {
		panic("not what was sent")
	}
}

// A proxy copies both ways, and its client keeps the connection.
func proxy(network string, limit int64) {
	server, front := listen(network), listen(network)
	go serve(server, echo)
	go serve(front, func(client net.Conn) {
		to := dial(server)
		go io.Copy(to, client)
		if limit > 0 {
			io.Copy(client, io.LimitReader(to, limit))
		}
		io.Copy(client, to)
	})
	client := dial(front)
	for i := 0; i < 20; i++ {
		ask(client, strings.Repeat("question ", 1+i*100))
	}
}

// Much data goes through a proxy whose client reads slowly, so that its writer waits.
func slow() {
	server, front := listen("tcp"), listen("tcp")
	const size = 1 << 20
	go serve(server, func(end net.Conn) { end.Write(make([]byte, size)); end.Close() })
	go serve(front, func(client net.Conn) {
		client.(*net.TCPConn).SetWriteBuffer(1 << 16)
		to := dial(server)
		io.Copy(client, to)
		client.(*net.TCPConn).CloseWrite()
		io.Copy(to, client)
	})
	client := dial(front)
	client.(*net.TCPConn).SetReadBuffer(1 << 16)
	time.Sleep(4 * moment)
	n, err := io.Copy(io.Discard, client)
	must(err)
	if n != size {
		panic("not all came")
	}
}

// A file is sent, and the client's connection stays open.
func sendfile() {
	file, err := os.CreateTemp("", "healthy")
	must(err)
	defer os.Remove(file.Name())
	_, err = file.Write(make([]byte, 1<<20))
	must(err)
	server := listen("tcp")
	go serve(server, func(end net.Conn) {
		for one := make([]byte, 1); ; {
			if _, err := end.Read(one); err != nil {
				return
			}
			again, err := os.Open(file.Name())
			must(err)
			io.Copy(end, again)
			again.Close()
		}
	})
	client := dial(server)
	for i := 0; i < 3; i++ {
		client.Write([]byte("x"))
		time.Sleep(moment)
		_, err := io.CopyN(io.Discard, client, 1<<20)
		must(err)
	}
	time.Sleep(moment)
}

// Several buffers are written with one call, even if they have more bytes than the other end accepts at once.
func buffers(network string) {
	server := listen(network)
	got := make(chan int64)
	go serve(server, func(end net.Conn) {
		time.Sleep(moment)
		n, _ := io.CopyN(io.Discard, end, 40*64*1024)
		got <- n
		echo(end)
	})
	client := dial(server)
	for i := 0; i < 40; i++ {
		parts := net.Buffers{make([]byte, 60*1024), make([]byte, 1), make([]byte, 4*1024-1)}
		_, err := parts.WriteTo(client)
		must(err)
	}
	<-got
	ask(client, "still there")
}

// Listeners to which no client or only one client connects.
func idle() {
	for i := 0; i < 3; i++ {
		go serve(listen("tcp"), echo)
	}
	last := listen("tcp")
	go serve(last, echo)
	dial(last).Close()
	time.Sleep(moment)
}

// A pool of connections between two requests, and goroutines that would notice the end of a connection.
func pool() {
	server := listen("tcp")
	go serve(server, echo)
	var all sync.WaitGroup
	for i := 0; i < 8; i++ {
		all.Add(1)
		go func() {
			client := dial(server)
			ask(client, "question")
			all.Done()
			client.Read(make([]byte, 1))
		}()
	}
	all.Wait()
	time.Sleep(moment)
}

// Deadlines that are moved with each request, and never pass.
func deadlines() {
	server := listen("tcp")
	go serve(server, func(end net.Conn) {
		buffer := make([]byte, 64)
		for {
			end.SetReadDeadline(time.Now().Add(time.Minute))
			n, err := end.Read(buffer)
			if err != nil {
				return
			}
			end.SetWriteDeadline(time.Now().Add(time.Minute))
			end.Write(buffer[:n])
		}
	})
	client := dial(server)
	for i := 0; i < 20; i++ {
		ask(client, "question")
	}
}

// Datagrams, some of them empty, and a reader that waits for more.
func datagrams(address string) {
	server, err := net.ListenPacket("udp", address)
	if err != nil { // there is no such address here
		server, err = net.ListenPacket("udp", "127.0.0.1:0")
	}
	must(err)
	go func() {
		buffer := make([]byte, 2048)
		for {
			n, from, err := server.ReadFrom(buffer)
			if err != nil {
				return
			}
			server.WriteTo(buffer[:n], from)
		}
	}()
	client, err := net.Dial("udp", server.LocalAddr().String())
	must(err)
	buffer := make([]byte, 2048)
	for i := 0; i < 20; i++ {
		_, err = client.Write(make([]byte, i%3*100))
		must(err)
		n, err := client.Read(buffer)
		must(err)
		if n != i%3*100 {
			panic("not what was sent")
		}
	}
	time.Sleep(moment)
}

// Messages with control data.
func messages() {
	here, err := net.ListenUDP("udp4", &net.UDPAddr{IP: net.IPv4(127, 0, 0, 1)})
	must(err)
	there, err := net.ListenUDP("udp4", &net.UDPAddr{IP: net.IPv4(127, 0, 0, 1)})
	must(err)
	go func() {
		buffer, beside := make([]byte, 2048), make([]byte, 256)
		for {
			n, _, _, from, err := there.ReadMsgUDP(buffer, beside)
			if err != nil {
				return
			}
			there.WriteMsgUDP(buffer[:n], nil, from)
		}
	}()
	buffer := make([]byte, 2048)
	for i := 0; i < 20; i++ {
		_, _, err = here.WriteMsgUDP([]byte("question"), nil, there.LocalAddr().(*net.UDPAddr))
		must(err)
		_, _, _, _, err = here.ReadMsgUDP(buffer, nil)
		must(err)
	}
	time.Sleep(moment)
}

// A socket is handed over in a message's control data.
func handed() {
	server := listen("unix")
	go serve(server, func(end net.Conn) {
		buffer, beside := make([]byte, 64), make([]byte, 256)
		for {
			n, _, _, _, err := end.(*net.UnixConn).ReadMsgUnix(buffer, beside)
			if err != nil {
				return
			}
			end.(*net.UnixConn).WriteMsgUnix(buffer[:n], nil, nil)
		}
	})
	client := dial(server)
	for i := 0; i < 20; i++ {
		rights := syscall.UnixRights(1)
		_, _, err := client.(*net.UnixConn).WriteMsgUnix([]byte("question"), rights, nil)
		must(err)
		_, err = io.ReadFull(client, make([]byte, 8))
		must(err)
	}
	time.Sleep(moment)
}

// A pipe whose reader waits.
func pipe() {
	reads, writes, err := os.Pipe()
	must(err)
	got := make(chan byte)
	go func() {
		for one := make([]byte, 1); ; got <- one[0] {
			if _, err := reads.Read(one); err != nil {
				return
			}
		}
	}()
	for i := byte(0); i < 20; i++ {
		writes.Write([]byte{i})
		if <-got != i {
			panic("not what was written")
		}
	}
	time.Sleep(moment)
}

// The results of a raw connection's function: it is done, or would wait.
func raw() {
	server := listen("tcp")
	go serve(server, echo)
	client := dial(server)
	under, err := client.(*net.TCPConn).SyscallConn()
	must(err)
	var answer bytes.Buffer
	for answer.Len() < 160 {
		client.Write([]byte("question"))
		err = under.Read(func(number uintptr) bool {
			part := make([]byte, 8)
			n, err := syscall.Read(int(number), part)
			if err == syscall.EAGAIN {
				return false
			}
			must(err)
			answer.Write(part[:n])
			return true
		})
		must(err)
	}
}

var programs = map[string]func(){
	"proxy":      func() { proxy("tcp", 0) },
	"limited":    func() { proxy("tcp", 5000) },
	"local":      func() { proxy("unix", 0) },
	"slow":       slow,
	"sendfile":   sendfile,
	"buffers":    func() { buffers("tcp") },
	"gathered":   func() { buffers("unix") },
	"idle":       idle,
	"pool":       pool,
	"deadlines":  deadlines,
	"datagrams":  func() { datagrams("127.0.0.1:0") },
	"datagrams6": func() { datagrams("[::1]:0") },
	"messages":   messages,
	"handed":     handed,
	"pipe":       pipe,
	"raw":        raw,
}

func main() {
	if len(os.Args) == 2 && programs[os.Args[1]] != nil {
		programs[os.Args[1]]()
		for _, folder := range leftover {
			os.RemoveAll(folder)
		}
		return
	}
	var names []string
	for name := range programs {
		names = append(names, name)
	}
	sort.Strings(names)
	fmt.Println("healthy " + strings.Join(names, " | "))
	os.Exit(2)
}
