// Requests of net/http's client that end because their context ends: one by the client's Timeout, one by a deadline of
// the program, and one that the program cancels. Two earlier requests succeed, on one connection.
package main

import (
	"context"
	"fmt"
	"io"
	"net/http"
	"net/http/httptest"
	"os"
	"time"
)

const short, long = 40 * time.Millisecond, 2 * time.Second

func answer(w http.ResponseWriter, r *http.Request) {
	if r.URL.Path == "/soon" {
		fmt.Fprintln(w, "hello")
		return
	}
	select {
	case <-r.Context().Done():
	case <-time.After(long):
	}
}

func fetch(client *http.Client, address string) error {
	response, err := client.Get(address) // BUG client
	if err != nil {
		return err
	}
	defer response.Body.Close()
	_, err = io.Copy(io.Discard, response.Body)
	return err
}

func ask(ctx context.Context, client *http.Client, address string) error {
	request, err := http.NewRequestWithContext(ctx, "POST", address, nil)
	if err != nil {
		return err
	}
	response, err := client.Do(request)
	if err != nil {
		return err
	}
	return response.Body.Close()
}

func main() {
	server := httptest.NewServer(http.HandlerFunc(answer))
	client := &http.Client{}
	fmt.Println(fetch(client, server.URL+"/soon"))
	fmt.Println(fetch(client, server.URL+"/soon"))
	fmt.Println(fetch(&http.Client{Timeout: short}, server.URL+"/client"))
	ctx, cancel := context.WithTimeout(context.Background(), short) // BUG context
	defer cancel()
	fmt.Println(ask(ctx, client, server.URL+"/context"))
	ctx, cancel = context.WithCancel(context.Background())
	go func() {
		time.Sleep(short)
		cancel() // BUG cancelled
	}()
	fmt.Println(ask(ctx, client, server.URL+"/cancelled"))
	os.Exit(1)
}
