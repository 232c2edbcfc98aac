// Programs in which the bytes that are read aren't the bytes that were sent: a datagram is longer than its buffer, a length
// belongs to something else, an answer stays in its handler's buffer, or a request outlives the one that caused it.
// The line marked BUG causes that, and netrev-go names it first. With the argument `good`, each program runs without its bug.
//
//	sizes NAME bad|good
package main

import (
	"bytes"
	"compress/flate"
	"context"
	"encoding/binary"
	"fmt"
	"io"
	"net"
	"net/http"
	"os"
	"strings"
	"time"
)

const short, long = 10 * time.Millisecond, 150 * time.Millisecond

func must(err error) {
	if err != nil {
		panic(err)
	}
}

func listen() net.Listener {
	listener, err := net.Listen("tcp", "127.0.0.1:0")
	must(err)
	return listener
}

// resolve answers each question that it could read completely.
func resolve(end net.PacketConn, room int) {
	for buffer := make([]byte, room); ; {
		count, from, err := end.ReadFrom(buffer) // BUG datagram
		if err != nil {
			return
		}
		if question := string(buffer[:count]); strings.HasSuffix(question, "?") {
			end.WriteTo([]byte("yes"), from)
		}
	}
}

// datagram: a question is longer than the buffer into which it is read, so its end is lost.
func datagram(isBad bool) {
	end, err := net.ListenPacket("udp", "127.0.0.1:0")
	must(err)
	room := 512
	if isBad {
		room = 16
	}
	go resolve(end, room)
	asker, err := net.Dial("udp", end.LocalAddr().String())
	must(err)
	for _, question := range []string{"is it?", "is it here?", "is it here or there?"} {
		fmt.Fprint(asker, question)
		asker.Read(make([]byte, 16))
	}
}

func packed(text []byte) []byte {
	var into bytes.Buffer
	out, _ := flate.NewWriter(&into, flate.BestCompression)
	out.Write(text)
	out.Close()
	return into.Bytes()
}

func send(end net.Conn, text []byte, isBad bool) {
	var head [4]byte
	small := packed(text)
	binary.BigEndian.PutUint32(head[:], uint32(len(small)))
	if isBad {
		binary.BigEndian.PutUint32(head[:], uint32(len(text))) // BUG frame
	}
	end.Write(head[:])
	end.Write(small)
}

func receive(end net.Conn) ([]byte, error) {
	var head [4]byte
	if _, err := io.ReadFull(end, head[:]); err != nil {
		return nil, err
	}
	small := make([]byte, binary.BigEndian.Uint32(head[:]))
	if _, err := io.ReadFull(end, small); err != nil {
		return nil, err
	}
	return io.ReadAll(flate.NewReader(bytes.NewReader(small)))
}

// frame: compressed data is sent with the length that it had before.
func frame(isBad bool) {
	listener := listen()
	go func() {
		end, err := listener.Accept()
		must(err)
		for {
			if _, err := receive(end); err != nil {
				return
			}
			end.Write([]byte{1})
		}
	}()
	end, err := net.Dial("tcp", listener.Addr().String())
	must(err)
	for count := 1; count < 4; count++ {
		send(end, bytes.Repeat([]byte("line\n"), 100*count), isBad)
		io.ReadFull(end, make([]byte, 1))
	}
}

func serve(handler http.HandlerFunc) string {
	listener := listen()
	go http.Serve(listener, handler)
	return "http://" + listener.Addr().String()
}

func relayAll(w http.ResponseWriter, body io.Reader) {
	io.Copy(w, body) // BUG held
}

func relayLines(w http.ResponseWriter, body io.Reader) {
	for line := make([]byte, 5); ; {
		if _, err := io.ReadFull(body, line); err != nil {
			return
		}
		w.Write(line)
		http.NewResponseController(w).Flush()
	}
}

// held: a relay passes on what it reads, but net/http buffers it.
func held(isBad bool) {
	quit := make(chan struct{})
	source := serve(func(w http.ResponseWriter, r *http.Request) {
		for {
			fmt.Fprintln(w, "tick")
			w.(http.Flusher).Flush()
			select {
			case <-quit:
				return
			case <-time.After(long):
			}
		}
	})
	relay := serve(func(w http.ResponseWriter, r *http.Request) {
		response, err := http.Get(source)
		must(err)
		defer response.Body.Close()
		if isBad {
			relayAll(w, response.Body)
		} else {
			relayLines(w, response.Body)
		}
	})
	response, err := http.Get(relay)
	must(err)
	io.ReadFull(response.Body, make([]byte, 5))
	close(quit)
	response.Body.Close()
}

func ask(ctx context.Context, address string, isBad bool) {
	if isBad {
		http.Get(address) // BUG alone
		return
	}
	request, err := http.NewRequestWithContext(ctx, "GET", address, nil)
	must(err)
	http.DefaultClient.Do(request)
}

// alone: a request that was made on behalf of another request continues after that request has ended.
func alone(isBad bool) {
	quit := make(chan struct{})
	slow := serve(func(w http.ResponseWriter, r *http.Request) {
		select {
		case <-quit:
		case <-r.Context().Done():
		}
	})
	ctx, cancel := context.WithTimeout(context.Background(), short)
	defer cancel()
	ask(ctx, slow, isBad)
}

func main() {
	programs := map[string]func(bool){"datagram": datagram, "frame": frame, "held": held, "alone": alone}
	time.AfterFunc(8*long, func() { os.Exit(2) })
	programs[os.Args[1]](os.Args[2] == "bad")
	fmt.Println("well")
}
