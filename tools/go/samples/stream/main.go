// A server with gRPC streams, with Debian's golang-google-grpc-dev, and its clients:  stream CONNECTIONS SECONDS BUG PAUSE
//
// Each client has a connection, and one stream on it for as long as the program runs: it sends a text, receives it again, and pauses
// PAUSE milliseconds. One more client is a subscriber, which gets each text. After SECONDS seconds the bug named BUG occurs:
//
//	none   the program ends
//	mutex  a Send to the subscriber, which has stopped receiving, holds the mutex that each text needs
package main

import (
	"context"
	"fmt"
	"net"
	"os"
	"strconv"
	"strings"
	"sync"
	"sync/atomic"
	"time"

	"google.golang.org/grpc"
	"google.golang.org/protobuf/types/known/wrapperspb"
)

var both = grpc.StreamDesc{StreamName: "Talk", ServerStreams: true, ClientStreams: true}
var texts, isStuck int64

func must(err error) {
	if err != nil {
		panic(err)
	}
}

func number(at int) int {
	value, err := strconv.Atoi(os.Args[at])
	must(err)
	return value
}

// A hub sends each text to the subscriber.
type hub struct {
	sync.Mutex
	subscriber chan grpc.ServerStream
	there      grpc.ServerStream
}

func (h *hub) publish(text *wrapperspb.StringValue) error {
	h.Lock()
	defer h.Unlock()
	return h.there.SendMsg(text) // BUG mutex
}

// talk answers the texts of a stream.
func (h *hub) talk(stream grpc.ServerStream) error {
	for {
		text := &wrapperspb.StringValue{}
		if err := stream.RecvMsg(text); err != nil {
			return err
		}
		if err := h.publish(text); err != nil {
			return err
		}
		if err := stream.SendMsg(text); err != nil {
			return err
		}
	}
}

// subscribe keeps the subscriber's stream open.
func (h *hub) subscribe(stream grpc.ServerStream) error {
	h.subscriber <- stream
	<-stream.Context().Done()
	return nil
}

func service(h *hub) *grpc.ServiceDesc {
	talk, subscribe := both, both
	talk.Handler = func(_ interface{}, stream grpc.ServerStream) error { return h.talk(stream) }
	subscribe.StreamName = "Subscribe"
	subscribe.Handler = func(_ interface{}, stream grpc.ServerStream) error { return h.subscribe(stream) }
	return &grpc.ServiceDesc{ServiceName: "Texts", HandlerType: (*interface{})(nil), Streams: []grpc.StreamDesc{talk, subscribe}}
}

// connected returns a stream on a connection of its own.
func connected(address, method string) grpc.ClientStream {
	connection, err := grpc.Dial(address, grpc.WithInsecure(), grpc.WithBlock())
	must(err)
	stream, err := connection.NewStream(context.Background(), &both, "/Texts/"+method)
	must(err)
	return stream
}

// ask is a client that sends texts.
func ask(address string) {
	stream := connected(address, "Talk")
	for {
		length := 1000
		if atomic.LoadInt64(&isStuck) != 0 {
			length = 1 << 16
		}
		must(stream.SendMsg(wrapperspb.String(strings.Repeat("x", length))))
		must(stream.RecvMsg(&wrapperspb.StringValue{}))
		atomic.AddInt64(&texts, 1)
		time.Sleep(time.Duration(number(4)) * time.Millisecond)
	}
}

// receive is the subscriber.
func receive(stream grpc.ClientStream) {
	for atomic.LoadInt64(&isStuck) == 0 {
		must(stream.RecvMsg(&wrapperspb.StringValue{}))
	}
	select {}
}

func main() {
	listener, err := net.Listen("tcp", "127.0.0.1:0")
	must(err)
	address, bug := listener.Addr().String(), os.Args[3]
	h := &hub{subscriber: make(chan grpc.ServerStream)}
	server := grpc.NewServer()
	server.RegisterService(service(h), h)
	go server.Serve(listener)
	stream := connected(address, "Subscribe")
	h.there = <-h.subscriber
	go receive(stream)
	for i := 0; i < number(1); i++ {
		go ask(address)
	}
	time.Sleep(time.Duration(number(2)) * time.Second)
	if bug != "none" {
		atomic.StoreInt64(&isStuck, 1)
		time.Sleep(time.Hour)
	}
	fmt.Println(atomic.LoadInt64(&texts), "texts")
}
