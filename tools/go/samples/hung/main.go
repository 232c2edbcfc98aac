// A net/http server that hangs: its handler reads the whole body of a request, and a client announces more than it sends.
package main

import (
	"bufio"
	"fmt"
	"io"
	"net"
	"net/http"
)

func count(w http.ResponseWriter, r *http.Request) {
	body, err := io.ReadAll(r.Body)
	if err != nil {
		return
	}
	fmt.Fprintf(w, "%d bytes\n", len(body))
}

func main() {
	listener, err := net.Listen("tcp", "127.0.0.1:0")
	if err != nil {
		panic(err)
	}
	go http.Serve(listener, http.HandlerFunc(count))
	for announced := 3; announced <= 5; announced++ {
		fmt.Print(ask(listener.Addr().String(), announced))
	}
}

// ask sends a body of four bytes, whatever length it announces.
func ask(address string, announced int) string {
	connection, err := net.Dial("tcp", address)
	if err != nil {
		panic(err)
	}
	defer connection.Close()
	fmt.Fprintf(connection, "POST / HTTP/1.1\r\nHost: here\r\nConnection: close\r\nContent-Length: %d\r\n\r\nbody", announced)
	answer := bufio.NewReader(connection)
	line := "\n"
	for line != "\r\n" {
		if line, err = answer.ReadString('\n'); err != nil {
			return err.Error() + "\n"
		}
	}
	line, _ = answer.ReadString('\n')
	return line
}
