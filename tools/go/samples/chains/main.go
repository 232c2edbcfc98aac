// Programs in which a call fails, or waits forever, because another goroutine left a connection open, a mutex locked, or a buffer unflushed. The line
// marked BUG causes that, and the first cause names it. With the argument `good`, each program runs without its bug.
//
//	chains NAME bad|good
package main

import (
	"bufio"
	"context"
	"crypto/ed25519"
	"crypto/rand"
	"crypto/tls"
	"crypto/x509"
	"errors"
	"fmt"
	"io"
	"math/big"
	"net"
	"net/http"
	"os"
	"strconv"
	"strings"
	"sync"
	"time"
)

const short, long = 10 * time.Millisecond, 200 * time.Millisecond

func must(err error) {
	if err != nil {
		panic(err)
	}
}

func listen() net.Listener {
	listener, err := net.Listen("tcp", "127.0.0.1:0")
	must(err)
	return listener
}

func dial(listener net.Listener) net.Conn {
	end, err := net.Dial("tcp", listener.Addr().String())
	must(err)
	return end
}

// serve accepts connections and starts a goroutine for each.
func serve(listener net.Listener, session func(net.Conn)) {
	for {
		end, err := listener.Accept()
		if err != nil {
			return
		}
		go session(end)
	}
}

// echo sends each line back.
func echo(end net.Conn) {
	defer end.Close()
	for in := bufio.NewScanner(end); in.Scan(); {
		fmt.Fprintln(end, in.Text())
	}
}

func ask(end net.Conn, line string) (string, error) {
	fmt.Fprintln(end, line)
	text, err := bufio.NewReader(end).ReadString('\n')
	return strings.TrimSpace(text), err
}

// serveSlots accepts a connection when one of its slots is free.
func serveSlots(listener net.Listener, count int) {
	slots := make(chan bool, count)
	for {
		slots <- true
		end, err := listener.Accept()
		if err != nil {
			return
		}
		go func() {
			defer func() { <-slots }()
			echo(end)
		}()
	}
}

func probe(address string, isBad bool) error {
	end, err := net.Dial("tcp", address)
	if err != nil {
		return err
	}
	text, err := ask(end, "ready")
	if err != nil {
		end.Close()
		return err
	}
	if isBad && text == "ready" {
		return nil // BUG probed
	}
	end.Close()
	return nil
}

// probed: a probe doesn't close its connection, which keeps the server's last slot.
func probed(isBad bool) {
	listener := listen()
	go serveSlots(listener, 1)
	must(probe(listener.Addr().String(), isBad))
	client := dial(listener)
	client.SetReadDeadline(time.Now().Add(long))
	ask(client, "hello")
}

func pollAll(address string, names []string) {
	for _, name := range names {
		end, err := net.Dial("tcp", address)
		must(err)
		defer end.Close() // BUG looped
		ask(end, name)
	}
}

func pollInTurn(address string, names []string) {
	for _, name := range names {
		end, err := net.Dial("tcp", address)
		must(err)
		ask(end, name)
		end.Close()
	}
}

// looped: the connections opened in a loop are closed only when its function returns.
func looped(isBad bool) {
	listener, names := listen(), []string{"a", "b", "c", "d"}
	go serveSlots(listener, 2)
	if isBad {
		pollAll(listener.Addr().String(), names)
	} else {
		pollInTurn(listener.Addr().String(), names)
	}
}

// peer is one end of a connection at which both ends send requests.
type peer struct {
	end     net.Conn
	answers chan string
	handle  func(p *peer, request string) string
}

func (p *peer) run(isBad bool) {
	for in := bufio.NewScanner(p.end); in.Scan(); {
		kind, text, _ := strings.Cut(in.Text(), " ")
		switch {
		case kind == "answer":
			p.answers <- text
		case isBad:
			p.answer(text) // BUG callback
		default:
			go p.answer(text)
		}
	}
}

func (p *peer) answer(request string) {
	fmt.Fprintln(p.end, "answer", p.handle(p, request))
}

func (p *peer) call(request string) string {
	fmt.Fprintln(p.end, "request", request)
	return <-p.answers
}

// callback: the goroutine that reads the answers serves a request, and waits for an answer itself.
func callback(isBad bool) {
	listener := listen()
	go serve(listener, func(end net.Conn) {
		server := &peer{end, make(chan string, 1), func(p *peer, request string) string { return request + " of " + p.call("name") }}
		server.run(isBad)
	})
	client := &peer{dial(listener), make(chan string, 1), func(*peer, string) string { return "client" }}
	go client.run(false)
	client.call("greeting")
}

type store struct {
	lock   sync.Mutex
	values map[string]string
}

func (s *store) handle(line string, isBad bool) string {
	s.lock.Lock()
	value, ok := s.values[line]
	if !ok && isBad {
		return "none" // BUG locked
	}
	s.lock.Unlock()
	if !ok {
		return "none"
	}
	return value
}

func (s *store) session(isBad bool) func(net.Conn) {
	return func(end net.Conn) {
		for in := bufio.NewScanner(end); in.Scan(); {
			fmt.Fprintln(end, s.handle(in.Text(), isBad))
		}
	}
}

// locked: a function returns with a mutex locked, and its goroutine continues to serve.
func locked(isBad bool) {
	listener, s := listen(), &store{values: map[string]string{"a": "1"}}
	go serve(listener, s.session(isBad))
	first, second := dial(listener), dial(listener)
	ask(first, "a")
	ask(first, "b")
	ask(second, "a")
}

type meter struct {
	lock  sync.Mutex
	lines int
}

func (m *meter) count(end net.Conn, isBad bool) error {
	m.lock.Lock()
	line, err := bufio.NewReader(end).ReadString('\n')
	if err != nil && isBad {
		return err // BUG abandoned
	}
	m.lines += len(line)
	m.lock.Unlock()
	return err
}

// abandoned: a goroutine ends with a mutex locked.
func abandoned(isBad bool) {
	listener, m := listen(), &meter{}
	go serve(listener, func(end net.Conn) {
		defer end.Close()
		if m.count(end, isBad) == nil {
			fmt.Fprintln(end, "well")
		}
	})
	dial(listener).Close()
	time.Sleep(short)
	ask(dial(listener), "hello")
}

type table struct {
	lock sync.RWMutex
	rows map[string]string
}

func (t *table) row(name string) string {
	t.lock.RLock()
	defer t.lock.RUnlock()
	return t.rows[name]
}

func (t *table) describe(name string, end net.Conn, isBad bool) string {
	t.lock.RLock()
	defer t.lock.RUnlock()
	ask(end, name)
	if !isBad {
		return t.rows[name]
	}
	return t.row(name) // BUG readers
}

func (t *table) set(name, value string) {
	t.lock.Lock()
	defer t.lock.Unlock()
	t.rows[name] = value
}

// readers: a goroutine locks an RWMutex for reading twice, and a writer comes in between.
func readers(isBad bool) {
	listener, t := listen(), &table{rows: map[string]string{"a": "1"}}
	go serve(listener, func(end net.Conn) {
		for in := bufio.NewScanner(end); in.Scan(); {
			time.Sleep(4 * short)
			fmt.Fprintln(end, in.Text())
		}
	})
	end := dial(listener)
	time.AfterFunc(short, func() { t.set("b", "2") })
	t.describe("a", end, isBad)
}

type account struct {
	lock    sync.Mutex
	balance int
}

func (a *account) report(end net.Conn) {
	a.lock.Lock()
	defer a.lock.Unlock()
	ask(end, strconv.Itoa(a.balance))
}

func (a *account) audit(end net.Conn, isBad bool) {
	a.lock.Lock()
	backup := &account{balance: a.balance}
	if isBad {
		*backup = *a // BUG copied
	}
	a.lock.Unlock()
	backup.report(end)
}

func beat(end net.Conn) {
	for {
		time.Sleep(long)
		ask(end, "beat")
	}
}

// copied: a struct is copied while its mutex is locked.
func copied(isBad bool) {
	listener := listen()
	go serve(listener, echo)
	go beat(dial(listener))
	end, a := dial(listener), &account{}
	a.report(end)
	a.audit(end, isBad)
}

func fetch(ctx context.Context, address string) (string, error) {
	var dialer net.Dialer
	end, err := dialer.DialContext(ctx, "tcp", address)
	if err != nil {
		return "", err
	}
	defer end.Close()
	return ask(end, "value")
}

// withdrawn: a context is cancelled before the second dial.
func withdrawn(isBad bool) {
	listener := listen()
	go serve(listener, echo)
	ctx, cancel := context.WithCancel(context.Background())
	defer cancel()
	_, err := fetch(ctx, listener.Addr().String())
	must(err)
	if isBad {
		cancel() // BUG withdrawn
	}
	if _, err := fetch(ctx, listener.Addr().String()); err != nil {
		os.Exit(1)
	}
}

// lazy is a connection that is dialed when it is first needed.
type lazy struct {
	once    sync.Once
	address string
	end     net.Conn
	err     error
}

func (l *lazy) conn(isBad bool) (net.Conn, error) {
	if !isBad {
		return net.Dial("tcp", l.address)
	}
	l.once.Do(func() {
		l.end, l.err = net.Dial("tcp", l.address) // BUG remembered
	})
	return l.end, l.err
}

// remembered: a sync.Once keeps the error of the first dial, which came before the server listened.
func remembered(isBad bool) {
	listener := listen()
	l := &lazy{address: listener.Addr().String()}
	listener.Close()
	if _, err := l.conn(isBad); err == nil {
		panic("nobody listens")
	}
	listener, err := net.Listen("tcp", l.address)
	must(err)
	go serve(listener, echo)
	end, err := l.conn(isBad)
	if err != nil {
		os.Exit(1)
	}
	ask(end, "hello")
}

// refused: a client dials an address at which no server listens.
func refused(isBad bool) {
	listener, other := listen(), listen()
	go serve(listener, echo)
	address := other.Addr().String()
	other.Close()
	if !isBad {
		address = listener.Addr().String()
	}
	end, err := net.Dial("tcp", address) // BUG refused
	if err != nil {
		os.Exit(1)
	}
	ask(end, "hello")
}

// shortened: a handler promises more bytes than it writes.
func shortened(isBad bool) {
	const text = "well, hello"
	listener := listen()
	go http.Serve(listener, http.HandlerFunc(func(w http.ResponseWriter, r *http.Request) {
		size := len(text)
		if isBad {
			size += 9
		}
		w.Header().Set("Content-Length", strconv.Itoa(size)) // BUG shortened
		io.WriteString(w, text)
	}))
	response, err := http.Get("http://" + listener.Addr().String())
	must(err)
	defer response.Body.Close()
	if _, err := io.ReadAll(response.Body); err != nil {
		os.Exit(1)
	}
}

func firstOf(addresses []string, room int) string {
	answers := make(chan string, room) // BUG fanned
	for _, address := range addresses {
		go func() {
			end, err := net.Dial("tcp", address)
			must(err)
			defer end.Close()
			text, _ := ask(end, address)
			answers <- text
		}()
	}
	return <-answers
}

// fanned: a function returns after it has taken one of three answers, and the channel has no room for the other two.
func fanned(isBad bool) {
	addresses, room := []string{}, 3
	for count := range 3 {
		listener := listen()
		go serve(listener, func(end net.Conn) {
			time.Sleep(time.Duration(count) * short)
			echo(end)
		})
		addresses = append(addresses, listener.Addr().String())
	}
	if isBad {
		room = 0
	}
	firstOf(addresses, room)
	time.Sleep(long)
}

func fastest(address string, isBad bool) net.Conn {
	results := make(chan net.Conn, 2)
	for count := range 2 {
		go func() {
			time.Sleep(time.Duration(count) * 2 * short)
			end, err := net.Dial("tcp", address)
			must(err)
			results <- end
		}()
	}
	first := <-results
	if !isBad {
		go func() { (<-results).Close() }()
	}
	return first // BUG latecomer
}

// latecomer: the first of two dialed connections is used, and the other connection stays in the channel.
func latecomer(isBad bool) {
	listener := listen()
	go serve(listener, echo)
	end := fastest(listener.Addr().String(), isBad)
	ask(end, "hello")
	end.Close()
	time.Sleep(long)
}

func certificate() tls.Certificate {
	public, private, err := ed25519.GenerateKey(rand.Reader)
	must(err)
	template := &x509.Certificate{SerialNumber: big.NewInt(1)}
	text, err := x509.CreateCertificate(rand.Reader, template, template, public, private)
	must(err)
	return tls.Certificate{Certificate: [][]byte{text}, PrivateKey: private}
}

func accept(listener net.Listener, config *tls.Config, isBad bool) {
	for {
		end, err := listener.Accept()
		if err != nil {
			return
		}
		secure := tls.Server(end, config)
		if isBad {
			secure.Handshake() // BUG handshake
		}
		go echo(secure)
	}
}

func connect(ctx context.Context, end net.Conn) error {
	secure := tls.Client(end, &tls.Config{InsecureSkipVerify: true})
	defer secure.Close()
	return secure.HandshakeContext(ctx)
}

// handshake: a server performs the TLS handshake in its accept loop, so a silent client holds up all other clients.
func handshake(isBad bool) {
	listener := listen()
	go accept(listener, &tls.Config{Certificates: []tls.Certificate{certificate()}}, isBad)
	silent := dial(listener)
	defer silent.Close()
	time.Sleep(short)
	ctx, cancel := context.WithTimeout(context.Background(), long)
	defer cancel()
	if err := connect(ctx, dial(listener)); err != nil {
		os.Exit(1)
	}
}

// talker answers requests through a buffer.
type talker struct {
	out    *bufio.Writer
	values map[string]string
	isBad  bool
}

func (t *talker) reply(text string) {
	t.out.WriteString(text + "\n")
	t.out.Flush()
}

func (t *talker) session(end net.Conn) {
	in := bufio.NewReader(end)
	for {
		line, err := in.ReadString('\n')
		if err != nil {
			return
		}
		verb, name, _ := strings.Cut(strings.TrimSpace(line), " ")
		switch verb {
		case "get":
			t.reply(t.values[name])
		case "delete":
			delete(t.values, name)
			if t.isBad {
				t.out.WriteString("gone\n") // BUG verb
			} else {
				t.reply("gone")
			}
		default:
			t.reply("what?")
		}
	}
}

// verb: the answer to one verb stays in the writer's buffer.
func verb(isBad bool) {
	listener := listen()
	go serve(listener, func(end net.Conn) {
		t := &talker{bufio.NewWriter(end), map[string]string{"a": "1"}, isBad}
		t.session(end)
	})
	end := dial(listener)
	ask(end, "get a")
	ask(end, "delete a")
}

const headerBytes = 16

func readFrame(end net.Conn, isBad bool) ([]byte, error) {
	header := make([]byte, headerBytes)
	if _, err := io.ReadFull(end, header); err != nil {
		return nil, err
	}
	size, err := strconv.Atoi(string(header))
	if err != nil {
		return nil, err
	}
	body := make([]byte, size)
	if !isBad {
		_, err = io.ReadFull(end, body)
		return body, err
	}
	count, err := end.Read(body) // BUG header
	return body[:count], err
}

// send sends a frame in two parts, and waits until all its bytes are acknowledged.
func send(end net.Conn, body string) {
	half := len(body) / 2
	fmt.Fprintf(end, "%0*d%s", headerBytes, len(body), body[:half])
	time.Sleep(2 * short)
	fmt.Fprint(end, body[half:])
	in := bufio.NewReader(end)
	for acknowledged := 0; acknowledged < len(body); {
		line, err := in.ReadString('\n')
		must(err)
		count, err := strconv.Atoi(strings.TrimSpace(line))
		must(err)
		acknowledged += count
	}
}

// header: a frame's header is read completely, but its body with a single Read.
func header(isBad bool) {
	listener := listen()
	go serve(listener, func(end net.Conn) {
		for {
			body, err := readFrame(end, isBad)
			if err != nil {
				return
			}
			fmt.Fprintln(end, len(body))
		}
	})
	send(dial(listener), "a frame")
}

type pages struct {
	requests sync.WaitGroup
	texts    map[string][]string
}

func (p *pages) show(w http.ResponseWriter, r *http.Request) {
	p.requests.Add(1)
	fmt.Fprintln(w, p.texts[r.URL.Path][0])
	p.requests.Done() // BUG panicked
}

func (p *pages) showAndDefer(w http.ResponseWriter, r *http.Request) {
	p.requests.Add(1)
	defer p.requests.Done()
	fmt.Fprintln(w, p.texts[r.URL.Path][0])
}

// panicked: a handler panics between Add and Done, and net/http recovers it.
func panicked(isBad bool) {
	listener, p := listen(), &pages{texts: map[string][]string{"/a": {"a page"}}}
	handler := p.showAndDefer
	if isBad {
		handler = p.show
	}
	go http.Serve(listener, http.HandlerFunc(handler))
	for _, path := range []string{"/a", "/b"} {
		response, err := http.Get("http://" + listener.Addr().String() + path)
		if err == nil {
			io.Copy(io.Discard, response.Body)
			response.Body.Close()
		}
	}
	p.requests.Wait()
}

func lines(end net.Conn, isBad bool) {
	in := bufio.NewScanner(end)
	if !isBad {
		in.Buffer(nil, 1<<20)
	}
	for in.Scan() { // BUG lengthy
		fmt.Fprintln(end, len(in.Text()))
	}
}

// lengthy: a Scanner gives up at a long line, and its connection stays open.
func lengthy(isBad bool) {
	listener := listen()
	go serve(listener, func(end net.Conn) { lines(end, isBad) })
	end := dial(listener)
	ask(end, "a line")
	ask(end, strings.Repeat("long ", 14000))
}

func inherit(end net.Conn, isBad bool) {
	file, err := end.(*net.TCPConn).File() // BUG duplicated
	must(err)
	if !isBad {
		defer file.Close()
	}
	fmt.Fprintln(end, "descriptor", file.Fd())
	end.Close()
}

// duplicated: a connection is closed, but a second descriptor for it isn't.
func duplicated(isBad bool) {
	listener := listen()
	go serve(listener, func(end net.Conn) { inherit(end, isBad) })
	end := dial(listener)
	end.SetReadDeadline(time.Now().Add(long))
	if _, err := io.ReadAll(end); errors.Is(err, os.ErrDeadlineExceeded) {
		os.Exit(1)
	}
}

func serveAll(count int, isBad bool) []string {
	var listener net.Listener
	addresses, begin := []string{}, make(chan bool)
	for range count {
		listener = listen()
		addresses = append(addresses, listener.Addr().String())
		own := listener
		go func() { // BUG shared
			<-begin
			if isBad {
				serve(listener, echo)
			}
			serve(own, echo)
		}()
	}
	close(begin)
	return addresses
}

// shared: the goroutines started in a loop share a variable, so all of them accept on the last listener.
func shared(isBad bool) {
	for _, address := range serveAll(2, isBad) {
		end, err := net.Dial("tcp", address)
		must(err)
		ask(end, "hello")
	}
}

func main() {
	programs := map[string]func(bool){
		"probed": probed, "looped": looped, "callback": callback, "locked": locked, "abandoned": abandoned, "readers": readers, "copied": copied,
		"withdrawn": withdrawn, "remembered": remembered, "refused": refused, "shortened": shortened, "fanned": fanned, "latecomer": latecomer,
		"handshake": handshake, "verb": verb, "header": header, "panicked": panicked, "lengthy": lengthy, "duplicated": duplicated, "shared": shared,
	}
	time.AfterFunc(8*long, func() { os.Exit(2) })
	programs[os.Args[1]](os.Args[2] == "bad")
	fmt.Println("well")
}
