package main

import (
	"fmt"
	"go/ast"
	"strings"
)

// A guard names the only functions of a package that may contain a call. If another function contains it too, no rule
// covers that place, and the recording would be incomplete.
type guard struct {
	call      string // its beginning
	argument  string // what its arguments contain, if not ""
	functions string
}

// The places at which internal/poll changes a lock word or a descriptor.
var guardsOfPoll = []guard{
	{"atomic.CompareAndSwap", ".state", "incref increfAndClose decref rwlock rwunlock"},
	{"atomic.Store", ".state", ""},
	{"atomic.Swap", ".state", ""},
	{"atomic.Add", ".state", ""},
	{"atomic.And", ".state", ""},
	{"atomic.Or", ".state", ""},
	{"runtime_Semacquire(", "", "rwlock Close"},
	{"runtime_Semrelease(", "", "increfAndClose rwunlock destroy"},
	{"syscall.Shutdown(", "", "Shutdown"},
	{"runtime_pollOpen(", "", "init"},
	{"runtime_pollClose(", "", "close"},
	{"runtime_pollReset(", "", "prepare"},
	{"runtime_pollWait(", "", "wait"},
	{"runtime_pollWaitCanceled(", "", "waitCanceled"}, // never called on linux
	{"fd.pd.waitCanceled(", "", ""},
	{"runtime_pollSetDeadline(", "", "setDeadlineImpl"},
	{"runtime_pollUnblock(", "", "evict"},
}

// The places at which internal/poll moves bytes. Bytes that are moved elsewhere aren't recorded; everything else is recorded.
var guardsOfMoves = []guard{
	{"ignoringEINTRIO(syscall.Read,", "", "Read"},
	{"ignoringEINTRIO(syscall.Write,", "", "Write WriteOnce"}, // WriteOnce is only for Go's own tests
	{"syscall.Read(", "", ""},
	{"syscall.Write(", "", ""},
	{"accept(", "", "Accept"},
	{"syscall.Recv", "", "ReadFrom ReadMsg"},
	{"unix.Recv", "", "ReadFromInet4 ReadFromInet6 ReadMsgInet4 ReadMsgInet6"},
	{"syscall.Send", "", "WriteTo WriteMsg SendFile sendFileChunk"},
	{"unix.Send", "", "WriteToInet4 WriteToInet6 WriteMsgInet4 WriteMsgInet6"},
	{"writev(", "", "Writev"},
	{"splice(", "", "spliceDrain splicePump"},
	{"sendFileChunk(", "", "sendFile"},
}

// The places at which the runtime changes a descriptor.
var guardsOfRuntime = []guard{
	{"netpollcheckerr(", "", "poll_runtime_pollReset poll_runtime_pollWait netpollblock"},
	{"netpollblock(", "", "poll_runtime_pollWait poll_runtime_pollWaitCanceled"},
	{"netpollunblock(", "", "poll_runtime_pollSetDeadline poll_runtime_pollUnblock netpollready netpolldeadlineimpl"},
	{"netpollready(", "", "netpoll"},
	{"netpollopen(", "", "poll_runtime_pollOpen"},
	{"netpollclose(", "", "poll_runtime_pollClose"},
	{"pollcache.free(", "", "poll_runtime_pollOpen poll_runtime_pollClose"},
	{"netpolldeadlineimpl(", "", "netpollDeadline netpollReadDeadline netpollWriteDeadline"},
	{"gopark(netpollblockcommit,", "", "netpollblock"},
}

// guarded prints a line for each place that no rule covers, and returns how many of them make a recording impossible.
func guarded(poll, runtime *folder) int {
	for _, place := range poll.strange(guardsOfMoves) {
		fmt.Printf("without the bytes that go there: %s\n", place)
	}
	places := append(poll.strange(guardsOfPoll), runtime.strange(guardsOfRuntime)...)
	for _, place := range places {
		fmt.Printf("unfit %s\n", place)
	}
	return len(places)
}

// strange returns a package's calls that a guard allows only in other functions. Each call is returned once.
func (p *folder) strange(guards []guard) []string {
	var told []string
	said := map[string]bool{}
	for _, f := range p.functions {
		ast.Inspect(f.syntax.Body, func(n ast.Node) bool {
			if call, ok := n.(*ast.CallExpr); ok {
				for _, place := range f.strange(p.name, f.source.textOf(call), guards) {
					if !said[place] {
						told = append(told, place)
					}
					said[place] = true
				}
			}
			return true
		})
	}
	return told
}

// strange returns the message about each such call in a function.
func (f function) strange(name, text string, guards []guard) []string {
	var told []string
	for _, g := range guards {
		fits := strings.HasPrefix(text, g.call) && strings.Contains(text, g.argument)
		if fits && !strings.Contains(" "+g.functions+" ", " "+f.syntax.Name.Name+" ") {
			told = append(told, fmt.Sprintf(
				"%s/%s %s: %s..) occurs there too, and no rule covers it", name, f.file, f.syntax.Name.Name, g.call))
		}
	}
	return told
}
