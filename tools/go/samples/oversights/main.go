// More programs like those of samples/causes, each with an ordinary bug at the line marked BUG, which netrev-go's first output should name.
// They were written before netrev-go's output about them was known. With the argument `good`, each program runs without its bug.
//
//	oversights NAME bad|good
package main

import (
	"bufio"
	"errors"
	"fmt"
	"io"
	"net"
	"os"
	"sync"
	"time"
)

const short, long = 10 * time.Millisecond, 80 * time.Millisecond

func must(err error) {
	if err != nil {
		panic(err)
	}
}

// pair returns the two ends of a connection.
func pair() (near, far net.Conn) {
	listener, err := net.Listen("tcp", "127.0.0.1:0")
	must(err)
	defer listener.Close()
	accepted := make(chan net.Conn)
	go func() {
		end, err := listener.Accept()
		must(err)
		accepted <- end
	}()
	near, err = net.Dial("tcp", listener.Addr().String())
	must(err)
	return near, <-accepted
}

// echo answers each line after a pause.
func echo(end net.Conn, pause time.Duration) {
	lines := bufio.NewScanner(end)
	for lines.Scan() {
		time.Sleep(pause)
		fmt.Fprintln(end, lines.Text())
	}
	end.Close()
}

func ask(end net.Conn, text string) error {
	fmt.Fprintln(end, text)
	_, err := bufio.NewReader(end).ReadString('\n')
	return err
}

// within returns work's error, or another error if work takes too long.
func within(work func() error) error {
	done := make(chan error, 1)
	go func() { done <- work() }()
	select {
	case err := <-done:
		return err
	case <-time.After(10 * long):
		return errors.New("it doesn't end")
	}
}

// forgotten: the deadline of a handshake isn't removed after it.
func forgotten(bad bool) error {
	near, far := pair()
	go echo(far, 0)
	greet := func() error {
		near.SetDeadline(time.Now().Add(long)) // BUG forgotten
		if err := ask(near, "hello"); err != nil {
			return err
		}
		if !bad {
			near.SetDeadline(time.Time{})
		}
		return nil
	}
	if err := greet(); err != nil {
		return err
	}
	time.Sleep(2 * long)
	return ask(near, "work")
}

// earlier: a read deadline is set for each answer, but the write deadline of an earlier call stays.
func earlier(bad bool) error {
	near, far := pair()
	go echo(far, 0)
	login := func() error {
		if bad {
			near.SetDeadline(time.Now().Add(long)) // BUG earlier
		} else {
			near.SetReadDeadline(time.Now().Add(long))
		}
		return ask(near, "user")
	}
	if err := login(); err != nil {
		return err
	}
	for i := 0; i < 5; i++ {
		time.Sleep(3 * short)
		near.SetReadDeadline(time.Now().Add(long))
		if _, err := fmt.Fprintln(near, "more"); err != nil {
			return err
		}
		if _, err := bufio.NewReader(near).ReadString('\n'); err != nil {
			return err
		}
	}
	return nil
}

// unread: one end never reads a report sent to it, and waits until the writer is done.
func unread(bad bool) error {
	const size = 2 << 20 // more than both ends buffer
	near, far := pair()
	must(near.(*net.TCPConn).SetReadBuffer(64 << 10))
	must(far.(*net.TCPConn).SetWriteBuffer(64 << 10))
	through := make(chan bool)
	go func() {
		io.Copy(io.Discard, far)
		far.Write(make([]byte, size))
		close(through)
	}()
	near.Write([]byte("upload"))
	near.(*net.TCPConn).CloseWrite()
	return within(func() error {
		if !bad {
			io.Copy(io.Discard, io.LimitReader(near, size))
		}
		<-through // BUG unread
		return near.Close()
	})
}

// dead: a connection whose question failed is closed, and nevertheless returned to the pool.
func dead(bad bool) error {
	near, far := pair()
	go echo(far, 0)
	pool := make(chan net.Conn, 1)
	pool <- near
	question := func(text string) error {
		end := <-pool
		defer func() { pool <- end }()
		err := ask(end, text)
		if bad {
			end.Close() // BUG dead
		}
		return err
	}
	if err := question("one"); err != nil {
		return err
	}
	return question("two")
}

// client has a connection, and a lock for it.
type client struct {
	lock sync.Mutex
	end  net.Conn
}

func (one *client) receive() (string, error) {
	one.lock.Lock()
	defer one.lock.Unlock()
	return bufio.NewReader(one.end).ReadString('\n') // BUG mutex
}

func (one *client) send(text string) error {
	one.lock.Lock()
	defer one.lock.Unlock()
	_, err := fmt.Fprintln(one.end, text)
	return err
}

// mutex: a lock is held during a Read, and the goroutine that would cause the answer waits for the lock.
func mutex(bad bool) error {
	near, far := pair()
	go echo(far, 0)
	one := &client{end: near}
	return within(func() error {
		received := make(chan error, 1)
		if !bad {
			must(one.send("question"))
		}
		go func() {
			_, err := one.receive()
			received <- err
		}()
		time.Sleep(short)
		if bad {
			must(one.send("question"))
		}
		return <-received
	})
}

// waiting: a client's Close waits for its reader before it closes the connection that the reader reads.
func waiting(bad bool) error {
	near, far := pair()
	go echo(far, 0)
	var readers sync.WaitGroup
	readers.Add(1)
	go func() {
		defer readers.Done()
		io.Copy(io.Discard, near)
	}()
	fmt.Fprintln(near, "hello")
	time.Sleep(short)
	return within(func() error {
		if !bad {
			near.Close()
		}
		readers.Wait() // BUG waiting
		near.Close()
		return nil
	})
}

// writers: two goroutines write messages in two pieces to one connection, and nothing keeps the pieces together.
func writers(bad bool) error {
	near, far := pair()
	var lock sync.Mutex
	message := func(text string) {
		if !bad {
			lock.Lock()
			defer lock.Unlock()
		}
		near.Write([]byte{byte(len(text))}) // BUG writers
		time.Sleep(short)
		near.Write([]byte(text))
	}
	go message("first")
	go message("the second")
	return within(func() error {
		reader := bufio.NewReader(far)
		for i := 0; i < 2; i++ {
			size, err := reader.ReadByte()
			if err != nil {
				return err
			}
			text := make([]byte, size)
			if _, err := io.ReadFull(reader, text); err != nil {
				return err
			}
			if string(text) != "first" && string(text) != "the second" {
				return fmt.Errorf("got %q", text)
			}
		}
		return nil
	})
}

// dialBack: a server that stops closes its listener while a handler still dials it.
func dialBack(bad bool) error {
	listener, err := net.Listen("tcp", "127.0.0.1:0")
	must(err)
	failed := make(chan error, 1)
	handle := func(end net.Conn) {
		defer end.Close()
		if line, _ := bufio.NewReader(end).ReadString('\n'); line != "work\n" {
			return
		}
		if bad {
			time.Sleep(3 * short)
		}
		back, err := net.Dial("tcp", listener.Addr().String())
		if err == nil {
			back.Close()
		}
		failed <- err
	}
	go func() {
		for {
			end, err := listener.Accept()
			if err != nil {
				return
			}
			go handle(end)
		}
	}()
	near, err := net.Dial("tcp", listener.Addr().String())
	must(err)
	fmt.Fprintln(near, "work")
	time.Sleep(short)
	listener.Close() // BUG dialBack
	return <-failed
}

// shutdown: a server waits for its handlers, one of which waits for the next question on a keep-alive connection.
func shutdown(bad bool) error {
	listener, err := net.Listen("tcp", "127.0.0.1:0")
	must(err)
	var handlers sync.WaitGroup
	var lock sync.Mutex
	open := map[net.Conn]bool{}
	handlers.Add(1)
	go func() {
		defer handlers.Done()
		for {
			end, err := listener.Accept()
			if err != nil {
				return
			}
			lock.Lock()
			open[end] = true
			lock.Unlock()
			handlers.Add(1)
			go func() {
				defer handlers.Done()
				echo(end, 0)
			}()
		}
	}()
	near, err := net.Dial("tcp", listener.Addr().String())
	must(err)
	must(ask(near, "question"))
	return within(func() error {
		listener.Close()
		if !bad {
			lock.Lock()
			for end := range open {
				end.Close()
			}
			lock.Unlock()
		}
		handlers.Wait() // BUG shutdown
		return nil
	})
}

func main() {
	programs := map[string]func(bool) error{
		"forgotten": forgotten, "earlier": earlier, "unread": unread, "dead": dead, "mutex": mutex, "waiting": waiting,
		"writers": writers, "dialBack": dialBack, "shutdown": shutdown,
	}
	if err := programs[os.Args[1]](os.Args[2] == "bad"); err != nil {
		fmt.Println(err)
		os.Exit(1)
	}
	fmt.Println("well")
}
