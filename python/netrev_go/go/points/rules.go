package main

// An edit changes one of Go's functions at a call, a comparison or the function's name. It finds the place by syntax,
// so layout and comments don't matter.
type edit struct {
	how   how
	find  string   // as gofmt prints it; "...)" at the end means any further arguments
	times int      // how often it has to occur in the function
	put   []string // one for each occurrence, or one for all; "" changes nothing. $0 is what was found, $1 its first argument
}

type how string

const (
	replace how = "replace"
	before  how = "before" // before the statement that contains it
	behind  how = "behind"
	rename  how = "rename" // the function
	beside  how = "beside" // after the function
)

// A variant has the edits of a function in some releases.
type variant struct {
	releases string
	has      string // a name that only these releases have in the file; with !, one that only these lack
	edits    []edit
}

// A rule changes one function of Go.
type rule struct {
	file, function string
	variants       []variant
}

const (
	lockWords = "internal/poll/fd_mutex.go"
	sockets   = "internal/poll/fd_unix.go"
	shutting  = "internal/poll/fd_posix.go"
	deadlines = "internal/poll/fd_poll_runtime.go"
	polling   = "runtime/netpoll.go"
	epolling  = "runtime/netpoll_epoll.go"
	queueing  = "runtime/sema.go"
	making    = "runtime/proc.go"
	channels  = "runtime/chan.go"
	selecting = "runtime/select.go"
	grouping  = "sync/waitgroup.go"
)

// For each file of Go, our files that are appended to it.
var appended = map[string][]string{
	lockWords: {"poll.go"}, polling: {"runtime.go", "files.go", "earlier.go"}, epolling: {"notes.go"}, channels: {"orders.go"}, queueing: {"holders.go"},
	grouping: {"groups.go"}, testing: {"tests.go"}, mutexes: {"mutexes.go"}, mutexesSince124: {"mutexes.go"}, readWriting: {"readers.go"},
	connecting: {"dials.go"}, signalling: {"signals.go", "faults.go"},
}

const swap = "atomic.CompareAndSwapUint64(&mu.state, old, new)"
const isClosed = "old&mutexClosed != 0"

// all returns a single variant for all releases.
func all(edits ...edit) []variant { return []variant{{"1.18 to 1.27", "", edits}} }

// since121 returns two variants; the second is for releases whose events have tags.
func since121(before, since []edit) []variant {
	return []variant{{"1.18 to 1.20", "!fdseq", before}, {"1.21 to 1.27", "fdseq", since}}
}

// orLogged returns an expression: the found expression if no log exists, and another one if a log exists.
func orLogged(put string) string { return "(netrevOn == 0 && $0 || netrevOn != 0 && " + put + ")" }

func one(how how, find string, put string) edit { return edit{how, find, 1, []string{put}} }

const ofDeadlines = "that a call that sets a deadline is one point and not three"

// A call that sets a deadline first takes a reference to its socket, and drops it at the end.
var calls = []rule{
	{deadlines, "setDeadlineImpl", all(
		one(before, "fd.incref()", "if netrevOn != 0 && netrevSetsDeadline(fd, d, mode) { return nil }"))},
}

// Without this rule, a log that can't be written any more would end the program, so it is required too.
var faults = []rule{
	{signalling, "sigtrampgo", all(
		one(before, "sigfwdgo(sig, info, ctx)", "if netrevFaults(sig, info) { return }"))},
}

// The points of steps. All of them are required.
var steps = []rule{
	{lockWords, "incref", all(
		one(replace, isClosed, "$0 && (netrevOn == 0 || netrevClosed(netrevIncrefKind, mu, false))"),
		one(replace, swap, orLogged("netrevSwap(netrevIncrefKind, mu, old, new, true, false)")))},
	{lockWords, "increfAndClose", all(
		one(replace, isClosed, "$0 && (netrevOn == 0 || netrevClosed(netrevIncrefCloseKind, mu, false))"),
		one(replace, swap, orLogged("netrevSwap(netrevIncrefCloseKind, mu, old, new, true, false)")),
		one(replace, "runtime_Semrelease(&mu.rsema)", "netrevRelease($1, true)"),
		one(replace, "runtime_Semrelease(&mu.wsema)", "netrevRelease($1, false)"))},
	{lockWords, "decref", all(
		one(replace, swap, orLogged("netrevSwap(netrevDecrefKind, mu, old, new, $return, false)")))},
	{lockWords, "rwlock", all(
		one(replace, isClosed, "$0 && (netrevOn == 0 || netrevClosed(netrevRWLockKind, mu, read))"),
		one(replace, swap, orLogged("netrevSwap(netrevRWLockKind, mu, old, new, old&mutexBit == 0, read)")),
		one(replace, "runtime_Semacquire(...)", "netrevAcquire($1, read)"))},
	{lockWords, "rwunlock", all(
		one(replace, swap, orLogged("netrevSwap(netrevRWUnlockKind, mu, old, new, $return, read)")),
		one(replace, "runtime_Semrelease(...)", "netrevRelease($1, read)"))},
	{sockets, "Init", all(
		one(replace, "fd.pd.init(fd)", "netrevOpened(fd, fd.pd.init(netrevInit(fd)))"))},
	{sockets, "Read", all(moved("ignoringEINTRIO(syscall.Read, fd.Sysfd, ...)", "netrevReadKind, fd, len($3), n, err")...)},
	{sockets, "Write", all(moved("ignoringEINTRIO(syscall.Write, fd.Sysfd, ...)", "netrevWriteKind, fd, len($3), n, err")...)},
	{shutting, "Shutdown", all(
		one(replace, "syscall.Shutdown(...)", "fd.netrevShutdown($1, $2)"))},
	{polling, "poll_runtime_pollOpen", since121(
		[]edit{
			one(behind, "pd.publishInfo()", "netrevOpened(pd, fd, 0)"),
			one(before, "pollcache.free(pd)", "netrevPollAlone(netrevOpenFailed, pd, int64(errno))")},
		[]edit{
			one(behind, "pd.publishInfo()", "netrevOpened(pd, fd, pd.fdseq.Load())"),
			one(before, "pollcache.free(pd)", "netrevPollAlone(netrevOpenFailed, pd, int64(errno))")})},
	{polling, "poll_runtime_pollClose", since121(
		[]edit{one(before, "netpollclose(pd.fd)", "netrevPollAlone(netrevClose, pd, 0)")},
		nil)},
	{polling, "free", since121( // (also if a descriptor couldn't be opened: then it didn't belong to a socket)
		nil,
		[]edit{one(behind, "pd.publishInfo()", "netrevPoll(netrevClose, pd, 0, 0, 0)")})},
	{polling, "poll_runtime_pollReset", all(
		edit{how: rename, times: 1, put: []string{"netrevGoPollReset"}})},
	{polling, "poll_runtime_pollWait", all(
		edit{replace, "netpollcheckerr(pd, int32(mode))", 2, []string{
			"netrevCheck(netrevWaitBegin, $1, $2)", "netrevCheck(netrevWaitCheck, $1, $2)"}})},
	{polling, "netpollblock", all(
		edit{replace, "gpp.CompareAndSwap(...)", 2, []string{"netrevArmed(pd, gpp, mode, $1, $2)"}},
		one(replace, "netpollcheckerr(pd, mode)", "netrevCheck(netrevCheckAgain, $1, $2)"),
		one(replace, "gopark(netpollblockcommit, unsafe.Pointer(gpp), ...)", "gopark(netrevCommit(mode), unsafe.Pointer(pd), $3..)"),
		one(replace, "gpp.Swap(...)", "netrevTaken(pd, gpp, mode)"))},
	{polling, "poll_runtime_pollSetDeadline", all(
		one(behind, "lock(&pd.lock)", "netrevNow := int64(0); if netrevOn != 0 { netrevNow = netrevDeadline(pd, mode, d) }"),
		one(replace, "nanotime()", "netrevClock(netrevNow)"))},
	{polling, "poll_runtime_pollUnblock", all(
		one(behind, "pd.publishInfo()", "netrevPoll(netrevEvict, pd, 0, 0, 0)"))},
	{polling, "netpolldeadlineimpl", all(
		one(replace, "seq != currentSeq", "netrevFired(pd, seq, currentSeq, read, write)"))},
	{epolling, "netpoll", []variant{
		{"1.18 and 1.19", "!fdseq", []edit{
			one(before, "pd.setEventErr(ev.events == _EPOLLERR)", "netrevEvent(pd, mode, $1)"),
			one(behind, "netpollready(&toRun, pd, mode)", "netrevEventDone(pd)")}},
		{"1.20", "!fdseq", []edit{
			one(before, "pd.setEventErr(ev.Events == syscall.EPOLLERR)", "netrevEvent(pd, mode, $1)"),
			one(behind, "netpollready(&toRun, pd, mode)", "netrevEventDone(pd)")}},
		{"1.21 to 1.27", "fdseq", []edit{
			one(before, "pd.fdseq.Load() == tag", "netrevEventBegins(pd)"),
			one(replace, "pd.fdseq.Load() == tag", "(netrevOn == 0 && $0 || netrevOn != 0 && netrevTagged(pd, mode, ev.Events, tag, pd.fdseq.Load()))"),
			one(behind, "pd.fdseq.Load() == tag", "netrevEventDone(pd)")}}}},
	{queueing, "poll_runtime_Semacquire", all(
		one(beside, "semacquire1(...)", "func netrevSemacquire(addr *uint32, mark semaProfileFlags) { semacquire1($1, $2, $3|mark, $4..) }"))},
	{queueing, "semacquire1", all(
		edit{replace, "cansemacquire(addr)", 3, []string{
			"netrevEasy(addr, profile)", "netrevTake(addr, profile)", "netrevEasy(addr, profile)"}})},
	{queueing, "semrelease1", []variant{
		{"1.18 and 1.19", "", []edit{
			one(replace, "atomic.Xadd(addr, 1)", "netrev, skipframes := netrevMarked(skipframes); if netrev == 0 { $0 }"),
			edit{replace, "atomic.Load(&root.nwait) == 0", 2, []string{"netrev == 0 && $0", ""}},
			one(behind, "lockWithRank(&root.lock, lockRankRoot)", "netrevRaise(addr, netrev)")}},
		{"1.20 to 1.27", "", []edit{
			one(replace, "atomic.Xadd(addr, 1)", "netrev, skipframes := netrevMarked(skipframes); if netrev == 0 { $0 }"),
			edit{replace, "root.nwait.Load() == 0", 2, []string{"netrev == 0 && $0", ""}},
			one(behind, "lockWithRank(&root.lock, lockRankRoot)", "netrevRaise(addr, netrev)")}}}},
}
