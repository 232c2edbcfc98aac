// Command go_untouched contains small programs that observe what a recorder could affect: descriptors, files, output,
// limits and children. go_untouched.py runs each program with and without recording, which must make no difference to
// its output and to what it leaves:
//
//go_untouched NAME runs a program in the current folder
package main

import (
	"fmt"
	"io"
	"net"
	"os"
	"os/exec"
	"os/signal"
	"path/filepath"
	"runtime"
	"sort"
	"strconv"
	"strings"
	"syscall"
	"testing"
	"time"
	"unsafe"
)

const (
	self       = "/proc/self/exe"
	nobody     = 65534
	closeRange = 436 // of the system calls
	fileSize   = syscall.RLIMIT_FSIZE
)

var programs = map[string]func(){
	// Descriptors.
	"first number":            func() { open("data"); work() },
	"open descriptors":        func() { listed(); work(); listed() },
	"close all":               func() { closeAll(); hold("data"); work() },
	"close a range":           func() { syscall.Syscall(closeRange, 3, ^uintptr(0), 0); hold("data"); work() },
	"a test that closes all":  func() { testing.Main(isWanted, tests, nil, nil) },
	"close while it works":    closeWhileItWorks,
	"copy onto a number":      copyOntoANumber,
	"few descriptors":         fewDescriptors,
	"a duplicate of a socket": duplicate,
	"a descriptor is passed":  passed,
	"no standard input":       func() { syscall.Close(0); become("open descriptors") },
	"no standard output":      func() { syscall.Close(1); become("keeps a file") },
	"no standard streams":     func() { closeStreams(); become("keeps a file") },
	// Children.
	"a child's descriptors": func() { work(); child("open descriptors") },
	"files for a child":     filesForAChild,
	"another user":          func() { work(); childOf(nobody, "first number") },
	"another user works":    func() { work(); childOf(nobody, "works") },
	"another root folder":   anotherRoot,
	"no environment":        noEnvironment,
	"many children":         manyChildren,
	"a pipe of children":    pipeOfChildren,
	"a daemon":              func() { work(); daemon("stays") },
	"a daemon of a daemon":  func() { work(); daemon("a daemon") },
	"another program":       func() { work(); become("first number") },
	"many programs":         manyPrograms,
	// Limits.
	"no file may grow":     func() { limited(fileSize, 0, "first number") },
	"small files":          func() { limited(fileSize, 1<<16, "works") },
	"files of some size":   func() { limited(fileSize, 8<<20, "works") },
	"no more files":        func() { limited(syscall.RLIMIT_NOFILE, 12, "works") },
	"little address space": func() { limited(syscall.RLIMIT_AS, 2<<30, "works") },
	// Ways to end, signals, and other behaviour.
	"status 77":         func() { work(); os.Exit(77) },
	"panic":             func() { work(); panic("now") },
	"killed":            func() { work(); end(syscall.SIGKILL) },
	"terminated":        func() { work(); end(syscall.SIGTERM) },
	"a broken pipe":     brokenPipe,
	"caught signals":    caughtSignals,
	"half of the input": halfOfTheInput,
	"modes of files":    modesOfFiles,
	"locks and names":   locksAndNames,
	// What others become.
	"works":        func() { work(); keep("data", "works") },
	"keeps a file": func() { work(); keep("data", fmt.Sprint(numbers())) },
	"stays":        func() { time.Sleep(100 * time.Millisecond); work(); keep("daemon", fmt.Sprint(numbers())) },
}

func main() {
	programs[os.Args[1]]()
}

func check(err error) {
	if err != nil {
		fmt.Println(err)
		os.Exit(1)
	}
}

func pair() (net.Conn, net.Conn) {
	listener, err := net.Listen("tcp", "127.0.0.1:0")
	check(err)
	defer listener.Close()
	a, err := net.Dial("tcp", listener.Addr().String())
	check(err)
	b, err := listener.Accept()
	check(err)
	return a, b
}

// work makes so many points that the recorder's log grows, and leaves no socket open.
func work() {
	a, b := pair()
	passes(a)
	_, err := a.Write([]byte("x"))
	check(err)
	_, err = b.Read(make([]byte, 1))
	check(err)
	check(a.Close())
	check(b.Close())
}

func passes(a net.Conn) {
	for i := 0; i < 12000; i++ {
		check(a.SetDeadline(time.Now().Add(time.Hour)))
	}
}

// numbers returns the open descriptors, except for the descriptor that it uses to find them.
func numbers() []int {
	folder, err := os.Open("/proc/self/fd")
	check(err)
	defer folder.Close()
	names, err := folder.Readdirnames(-1)
	check(err)
	var found []int
	for _, name := range names {
		if number, _ := strconv.Atoi(name); number != int(folder.Fd()) {
			found = append(found, number)
		}
	}
	sort.Ints(found)
	return found
}

// listed prints the descriptors, each with its kind.
func listed() {
	for _, number := range numbers() {
		name, _ := os.Readlink(fmt.Sprint("/proc/self/fd/", number))
		fmt.Println(number, filepath.Base(strings.SplitN(name, ":", 2)[0]))
	}
}

// hold writes a file, which stays open.
func hold(name string) {
	file, err := os.Create(name)
	check(err)
	fmt.Fprint(file, "nine byte")
	held = append(held, file)
}

var held []*os.File

func isWanted(pattern, name string) (bool, error) { return true, nil }

var tests = []testing.InternalTest{
	{Name: "TestCloses", F: func(*testing.T) { closeAll(); hold("data") }},
	{Name: "TestWorks", F: func(*testing.T) { work() }},
}

func open(name string) {
	file, err := os.Create(name)
	check(err)
	fmt.Println("descriptor", file.Fd())
}

func keep(name, text string) {
	check(os.WriteFile(name, []byte(text), 0o644))
}

func closeAll() {
	for number := 3; number < 256; number++ {
		syscall.Close(number)
	}
}

func closeStreams() {
	for number := 0; number < 3; number++ {
		syscall.Close(number)
	}
}

// closeWhileItWorks closes all descriptors except sockets and those of Go's poller, and opens files that get the same
// numbers.
func closeWhileItWorks() {
	a, _ := pair()
	known := map[int]bool{}
	for _, number := range numbers() {
		name, _ := os.Readlink(fmt.Sprint("/proc/self/fd/", number))
		known[number] = strings.HasPrefix(name, "socket:") || strings.HasPrefix(name, "anon_inode:") || strings.HasPrefix(name, "pipe:")
	}
	for number := 3; number < 64; number++ {
		if !known[number] {
			syscall.Close(number)
		}
	}
	for i := 0; i < 20; i++ {
		file, err := os.Create(fmt.Sprint("data", i))
		check(err)
		fmt.Fprint(file, "mine")
	}
	passes(a)
	fmt.Println(numbers())
}

func copyOntoANumber() {
	file, err := os.Create("data")
	check(err)
	for number := 20; number < 40; number++ {
		check(syscall.Dup3(int(file.Fd()), number, 0))
	}
	work()
	fmt.Fprint(file, "copied")
	fmt.Println(numbers())
}

func fewDescriptors() {
	check(syscall.Setrlimit(syscall.RLIMIT_NOFILE, &syscall.Rlimit{Cur: 24, Max: 24}))
	opened := 0
	for ; ; opened++ {
		if _, err := syscall.Open("/dev/null", 0, 0); err != nil {
			fmt.Println("opened", opened, err)
			return
		}
	}
}

func duplicate() {
	a, _ := pair()
	file, err := a.(*net.TCPConn).File()
	check(err)
	passes(a)
	fmt.Println(file.Fd(), numbers())
}

func passed() {
	ends, err := syscall.Socketpair(syscall.AF_UNIX, syscall.SOCK_STREAM, 0)
	check(err)
	work()
	check(syscall.Sendmsg(ends[0], []byte("x"), syscall.UnixRights(1), nil, 0))
	text, rights := make([]byte, 1), make([]byte, 64)
	_, n, _, _, err := syscall.Recvmsg(ends[1], text, rights, 0)
	check(err)
	messages, err := syscall.ParseSocketControlMessage(rights[:n])
	check(err)
	numbers, err := syscall.ParseUnixRights(&messages[0])
	check(err)
	fmt.Println(ends, numbers)
}

func command(name string) *exec.Cmd {
	c := exec.Command(self, name)
	c.Stdin, c.Stdout, c.Stderr = os.Stdin, os.Stdout, os.Stderr
	return c
}

func ended(c *exec.Cmd) {
	err := c.Run()
	fmt.Println("child:", err)
}

func child(name string) { ended(command(name)) }

// childOf runs a child as another user, and reads its output.
func childOf(user uint32, name string) {
	check(os.Mkdir("theirs", 0o777))
	check(os.Chmod("theirs", 0o777))
	c := exec.Command(self, name)
	c.Dir = "theirs"
	c.SysProcAttr = &syscall.SysProcAttr{Credential: &syscall.Credential{Uid: user, Gid: user}}
	said, err := c.CombinedOutput()
	fmt.Printf("%q %v\n", said, err)
}

func anotherRoot() {
	work()
	text, err := os.ReadFile(self)
	check(err)
	check(os.MkdirAll("root/proc", 0o755))
	check(os.WriteFile("root/untouched", text, 0o755))
	c := exec.Command("/untouched", "works")
	c.SysProcAttr = &syscall.SysProcAttr{Chroot: "root"}
	c.Dir = "/"
	said, err := c.CombinedOutput()
	fmt.Printf("%q %v\n", said, err)
	check(os.Remove("root/untouched"))
}

func noEnvironment() {
	work()
	c := command("first number")
	c.Env = []string{"ONLY=this"}
	ended(c)
}

func filesForAChild() {
	file, err := os.Create("for a child")
	check(err)
	c := command("open descriptors")
	c.ExtraFiles = []*os.File{file, file}
	ended(c)
}

func manyChildren() {
	var all []*exec.Cmd
	for i := 0; i < 8; i++ {
		c := exec.Command(self, "works")
		c.Dir = fmt.Sprint("child", i)
		check(os.Mkdir(c.Dir, 0o755))
		check(c.Start())
		all = append(all, c)
	}
	work()
	for _, c := range all {
		fmt.Println(c.Wait())
	}
}

func pipeOfChildren() {
	one, other := exec.Command(self, "first number"), exec.Command("cat")
	read, write, err := os.Pipe()
	check(err)
	one.Stdout, other.Stdin, other.Stdout = write, read, os.Stdout
	check(one.Start())
	check(other.Start())
	write.Close()
	read.Close()
	fmt.Println(one.Wait(), other.Wait())
}

// daemon starts a program in a new session; that program outlives this one.
func daemon(name string) {
	c := exec.Command(self, name)
	c.SysProcAttr = &syscall.SysProcAttr{Setsid: true}
	check(c.Start())
}

func become(name string) {
	check(syscall.Exec(self, []string{self, name}, os.Environ()))
}

// manyPrograms execs itself so often that the recorder has no name left for a log.
func manyPrograms() {
	turn, _ := strconv.Atoi(os.Getenv("TURN"))
	work()
	listed()
	if turn < 12 {
		os.Setenv("TURN", strconv.Itoa(turn+1))
		become("many programs")
	}
}

func limited(of int, most uint64, name string) {
	check(syscall.Setrlimit(of, &syscall.Rlimit{Cur: most, Max: most}))
	become(name)
}

func end(number syscall.Signal) {
	check(syscall.Kill(os.Getpid(), number))
	time.Sleep(time.Minute)
}

func brokenPipe() {
	work()
	read, write, err := os.Pipe()
	check(err)
	read.Close()
	_, err = write.Write([]byte("x"))
	fmt.Println(err)
	check(syscall.Dup3(int(write.Fd()), 1, 0))
	fmt.Println("nobody reads this")
	time.Sleep(time.Minute)
}

func caughtSignals() {
	caught := make(chan os.Signal, 8)
	signal.Notify(caught)
	for _, number := range []syscall.Signal{syscall.SIGHUP, syscall.SIGUSR1, syscall.SIGXFSZ, syscall.SIGBUS, syscall.SIGTERM} {
		check(syscall.Kill(os.Getpid(), number))
		for {
			if got := <-caught; got != syscall.SIGURG {
				fmt.Println(got)
				break
			}
		}
	}
	work()
}

// halfOfTheInput reads a part of the input, and execs a program that reads the rest.
func halfOfTheInput() {
	text := make([]byte, 5)
	_, err := io.ReadFull(os.Stdin, text)
	check(err)
	work()
	fmt.Printf("%q\n", text)
	check(syscall.Exec("/bin/cat", []string{"cat"}, os.Environ()))
}

func modesOfFiles() {
	before := syscall.Umask(0o027)
	fmt.Printf("%o\n", before)
	work()
	keep("open", "")
	check(os.Mkdir("folder", 0o777))
	check(os.Chdir("folder"))
	keep("below", "")
	where, err := os.Getwd()
	fmt.Println(filepath.Base(where), err, runtime.NumGoroutine())
}

func locksAndNames() {
	file, err := os.Create("lock")
	check(err)
	check(syscall.Flock(int(file.Fd()), syscall.LOCK_EX|syscall.LOCK_NB))
	work()
	check(os.Rename("lock", "renamed"))
	check(os.Symlink("renamed", "link"))
	var status syscall.Statfs_t
	check(syscall.Fstatfs(int(file.Fd()), &status))
	check(file.Truncate(100))
	at, err := file.Seek(0, io.SeekEnd)
	fmt.Println(at, err, unsafe.Sizeof(status))
}
