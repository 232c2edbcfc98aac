// Package toy has a test that fails: greet leaves its deadline on the connection.
package toy

import (
	"bufio"
	"net"
	"testing"
	"time"
)

// greet says hello to the server, which must take it within two seconds.
func greet(c net.Conn) error {
	c.SetDeadline(time.Now().Add(2 * time.Second))
	_, err := c.Write([]byte("hello\n"))
	return err
}

// answer serves one client, and replies after five seconds.
func answer(l net.Listener) {
	c, err := l.Accept()
	if err != nil {
		return
	}
	defer c.Close()
	bufio.NewReader(c).ReadString('\n')
	time.Sleep(5 * time.Second)
	c.Write([]byte("welcome\n"))
}

func TestAnswer(t *testing.T) {
	l, err := net.Listen("tcp", "127.0.0.1:0")
	if err != nil {
		t.Fatal(err)
	}
	defer l.Close()
	go answer(l)
	c, err := net.Dial("tcp", l.Addr().String())
	if err != nil {
		t.Fatal(err)
	}
	defer c.Close()
	if err := greet(c); err != nil {
		t.Fatal("greet:", err)
	}
	if _, err := bufio.NewReader(c).ReadString('\n'); err != nil {
		t.Fatal("no answer:", err)
	}
}
