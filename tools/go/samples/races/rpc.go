package main

import (
	"net/rpc"
	"net/rpc/jsonrpc"
	"time"
)

// Echo is the receiver of the calls.
type Echo struct{}

// Say echoes its argument.
func (Echo) Say(asked string, answer *string) error {
	*answer = asked
	return nil
}

// rpcKeepalive uses a deadline to end the wait for a call, while another goroutine removes deadlines now and then.
func rpcKeepalive() bool {
	end, other := pair()
	defer end.Close()
	defer other.Close()
	server := rpc.NewServer()
	must(server.Register(Echo{}))
	done, kept := make(chan bool, 1), make(chan bool, 1)
	go func() {
		codec := jsonrpc.NewServerCodec(end)
		for server.ServeRequest(codec) == nil {
		}
		done <- true
	}()
	go func() {
		time.Sleep(3 * moment)
		end.SetReadDeadline(time.Time{})
		kept <- true
	}()
	client := jsonrpc.NewClient(other)
	var answer string
	must(client.Call("Echo.Say", "hello", &answer))
	time.Sleep(moment)
	end.SetReadDeadline(past)
	<-kept
	return ended(done)
}

// rpcCall sets both deadlines for a call, and then moves only the read deadline, because the answer may take a while.
func rpcCall() bool {
	end, other := pair()
	defer end.Close()
	defer other.Close()
	server := rpc.NewServer()
	must(server.Register(Echo{}))
	go server.ServeConn(end)
	client := rpc.NewClient(other)
	defer client.Close()
	other.SetDeadline(time.Now().Add(4 * moment))
	other.SetReadDeadline(time.Now().Add(hour))
	done := make(chan bool, 1)
	go func() {
		var answer string
		done <- client.Call("Echo.Say", "hello", &answer) == nil
	}()
	return ended(done)
}
