package main

import (
	"crypto/ecdsa"
	"crypto/elliptic"
	"crypto/rand"
	"crypto/tls"
	"crypto/x509"
	"math/big"
	"time"
)

var server, client = configurations()

// configurations returns the configuration of a server with its own certificate, and that of a client that trusts it.
func configurations() (*tls.Config, *tls.Config) {
	key, err := ecdsa.GenerateKey(elliptic.P256(), rand.Reader)
	must(err)
	template := &x509.Certificate{SerialNumber: big.NewInt(1), NotAfter: time.Now().Add(24 * hour), DNSNames: []string{"here"}}
	certificate, err := x509.CreateCertificate(rand.Reader, template, template, &key.PublicKey, key)
	must(err)
	own := tls.Certificate{Certificate: [][]byte{certificate}, PrivateKey: key}
	return &tls.Config{Certificates: []tls.Certificate{own}}, &tls.Config{InsecureSkipVerify: true}
}

// tlsShut shuts the write side below TLS when the answer should have been sent.
func tlsShut() bool {
	end, other := pair()
	defer end.Close()
	defer other.Close()
	done := make(chan bool, 1)
	go func() {
		answering := tls.Server(end, server)
		answering.Read(make([]byte, 8))
		_, err := answering.Write([]byte("answer"))
		done <- err == nil
	}()
	asking := tls.Client(other, client)
	asking.Write([]byte("question"))
	time.Sleep(2 * moment)
	end.CloseWrite()
	return ended(done)
}

// tlsHandshake uses a deadline to end a handshake with a silent client, and removes it to send a last message.
func tlsHandshake() bool {
	end, other := pair()
	defer end.Close()
	defer other.Close()
	done := make(chan bool, 1)
	go func() { done <- tls.Server(end, server).Handshake() != nil }()
	time.Sleep(moment)
	end.SetDeadline(past)
	time.Sleep(moment)
	end.SetDeadline(time.Time{})
	return ended(done)
}
