// netrev's log of a process. In an overlaid Go, these functions are appended to runtime/netpoll.go.
//
// With NETREV_LOG=PATH in its environment, a program writes the file PATH.PID (files.go), which is mapped. However the process ends, the
// kernel keeps what was written, and the file can be read while the process runs. Words have 64 bits. A
// header comes first, then the stacks, the table of locked mutexes (holders.go), the tables of descriptors and of
// goroutines that are queued for their locks (notes.go), and a ring of points. Without NETREV_LOG, the functions only
// read netrevOn.
//
// The program runs as it would without the log. Nothing is printed. No descriptor stays open, because a program may close
// every descriptor that it didn't open, and then the system reuses the numbers for the program's own files.

package runtime

import (
	"internal/runtime/atomic"
	"internal/runtime/sys"
	"unsafe"
)

const (
	netrevMagic       = 0x31676f6c7665726e // "nrevlog1"
	netrevHeaderBytes = 4096
	netrevStacks      = 1 << 14
	netrevStackWords  = 32
	netrevFrames      = netrevStackWords - 4
	netrevStacksBytes = netrevStacks * netrevStackWords * 8
	netrevRowsBegin   = netrevHeaderBytes + netrevStacksBytes + netrevHolders*netrevHolderWords*8
	netrevPointWords  = 8
	netrevChunk       = 1 << 14 // points for which room is made at once
)

// Words of the header.
const (
	netrevHeadMagic  = iota
	netrevHeadPassed // how many points were logged when the header was last written: at the least, at each netrevChunk
	netrevHeadPoints
	netrevHeadStacks
	netrevHeadBegin
	netrevHeadProcess
	netrevHeadText
	netrevHeadProgram // the program's inode and time, which name its copy beside the log
	netrevHeadProgramTime
	netrevHeadEnded // the number of the first point without room, plus 1; else 0
	netrevHeadStacksLost
	netrevHeadOrders       // 1 if the log has points of the program's orders
	netrevHeadHolders      // the number of rows in the table of locked mutexes
	netrevHeadHoldersLost  // how many times a mutex found no free row
	netrevHeadHoldersKnown // 1 if the table is written
	netrevHeadRows         // the number of rows in the table of descriptors
	netrevHeadQueue        // and in the table of goroutines that are queued for their locks
	netrevHeadCopied       // 1 in a copy that was taken while the program ran
	netrevHeadSparse       // 1: a point without a time has the previous point's, and one without a stack its call's
	netrevHeadAsked        // how many points were asked for, if not netrevHeadPoints; else 0; netrevUnreadable if not a number
	netrevHeadNamespace    // the inode of the process's PID namespace
	netrevHeadWords
)

// Kinds of points, with the numbers of a recording's steps; those above 100 aren't steps. orders.go has the others.
const (
	netrevOpen        = 16
	netrevClose       = 17
	netrevReset       = 18
	netrevWaitBegin   = 19
	netrevArm         = 20
	netrevCheckAgain  = 21
	netrevPark        = 22
	netrevSwap        = 23
	netrevWaitCheck   = 24
	netrevSetDeadline = 25
	netrevEvict       = 26
	netrevEventCame   = 27
	netrevFire        = 30
	netrevAcquire     = 14
	netrevRelease     = 15
	netrevOpenFailed  = 116
)

// The kinds of points that have a stack, and those that read the clock, as sets of bits. Bit n of a ..Steps set is kind
// n, a step; bit n of an ..Others set is kind netrevOpenFailed+n. Stacks and times are the costliest parts of a point.
// A later step of a call has the stack of the call's first step on the socket, and a point without a time has the
// previous point's time.
const (
	netrevStackedSteps  = 1<<3 | 1<<9 | 1<<10 | 1<<12 | 1<<netrevAcquire | 1<<netrevWaitBegin // sockopen, incref, increfclose, rwlock
	netrevStackedOthers = 0x1f<<2 | 1<<8 | 1<<11 | 0x1f<<13 | 1<<(netrevDeadlineCallKind-netrevOpenFailed)
	netrevTimedSteps    = netrevStackedSteps | 1<<netrevSwap | 1<<netrevEventCame | 1<<31 // closewrite
	netrevTimedOthers   = 0x3f<<1 | 1<<8 | 0x1f<<11 | 1<<17
)

// Marks in arguments of the runtime's own functions: the semaphore belongs to a lock word, and it is the one for readers.
const (
	netrevSema     = 1 << 20
	netrevSemaRead = 1 << 21
)

// netrevOn is set before the first socket is opened, and never reset. internal/poll reads it.
//
//go:linkname netrevOn
var netrevOn uint32

var (
	netrevLines  bool
	netrevOrders bool
	netrevSeed   uint64 // of the delays; 0 if there are none
	netrevDraws  uint64
	netrevBase   uintptr
	netrevRing   uintptr
	netrevPoints uint64
	netrevRoomed uint64 // points with smaller numbers have room
	netrevBegin  int64
	netrevLocks  [64]netrevSpinLock

	netrevLogEnd      uint64 // the number of the first point without room, plus 1; else 0
	netrevStacksLost uint64
	netrevKnown      [netrevStacks]uint64 // the hash of each stack in the table
)

// netrevPassed counts the points, in a cache line of its own, because each processor writes it at each point.
var netrevPassed struct {
	_      [64]byte
	points uint64
	_      [56]byte
}

func netrevWord(i uintptr) *uint64 { return (*uint64)(unsafe.Pointer(netrevBase + i*8)) }

// netrevLog writes a point: its kind, its goroutine, its address, the values seen there, and the time; `now` is the
// time that Go read for the same action, or 0 if it read none. The point takes its number here, under the lock of its object. netrevLog
// returns the stack's number.
func netrevLog(kind uint64, goid uint64, at uintptr, a, b, c, now int64) (stack uint64) {
	number := netrevNext()
	if atomic.Load64(&netrevLogEnd) == netrevIsLost {
		return 0
	}
	hasTime, hasStack := netrevTimedSteps>>kind&1 != 0, netrevStackedSteps>>kind&1 != 0
	gp := getg()
	if kind >= netrevOpenFailed { // on a channel, a goroutine may log the point of another, which has a different stack
		hasTime, hasStack = netrevTimedOthers>>(kind-netrevOpenFailed)&1 != 0, netrevStackedOthers>>(kind-netrevOpenFailed)&1 != 0 && goid == uint64(gp.goid)
	}
	if now == 0 && hasTime {
		now = nanotime()
	}
	if hasStack && netrevLines && gp.m != nil && gp == gp.m.curg {
		stack = netrevStack(gp, sys.GetCallerSP()-16)
	}
	netrevWrite(number, kind, goid, at, a, b, c, now, stack)
	return stack
}

// netrevNext returns the number of the next point.
func netrevNext() uint64 {
	number := uint64(atomic.Xadd64(&netrevPassed.points, 1)) - 1
	if number >= atomic.Load64(&netrevDue) && atomic.Load(&netrevIsDue) == 0 {
		atomic.Store(&netrevIsDue, 1)
	}
	return number
}

// netrevWrite writes the point with this number and this stack. The checksum shows whether a point is complete, so no
// store has to wait for the store before it. The point's cache line is seldom loaded, so such a wait would be long.
func netrevWrite(number, kind, goid uint64, at uintptr, a, b, c, now int64, stack uint64) {
	if number%netrevChunk == 0 {
		netrevWriteHeader()
		netrevRoom(number)
	}
	if ended := atomic.Load64(&netrevLogEnd); ended != 0 && number >= ended-1 {
		return
	}
	place := netrevRing + uintptr(number%netrevPoints)*netrevPointWords*8
	if number >= atomic.Load64(&netrevRoomed) && !netrevHasRoom(place, netrevPointWords*8) {
		if atomic.Cas64(&netrevLogEnd, 0, number+1) {
			*netrevWord(netrevHeadEnded) = number + 1
		}
		return
	}
	p := (*[netrevPointWords]uint64)(unsafe.Pointer(place))
	sum := goid ^ uint64(at) ^ uint64(a) ^ uint64(b) ^ uint64(c) ^ uint64(now) ^ number
	p[0], p[1], p[2], p[3] = (number+1)<<8|kind, goid, uint64(at), uint64(a)
	p[4], p[5], p[6], p[7] = uint64(b), uint64(c), uint64(now), stack|(sum^sum>>32)<<32
}

// netrevRoom reserves room for the next points, during the first round of the ring. If a point is logged before its room is reserved, it
// reserves room for itself; if no room is left, the log ends.
func netrevRoom(number uint64) {
	first, end := atomic.Load64(&netrevRoomed), number+2*netrevChunk
	if end > netrevPoints {
		end = netrevPoints
	}
	if first >= end || !netrevHasRoom(netrevRing+uintptr(first)*netrevPointWords*8, uintptr(end-first)*netrevPointWords*8) {
		return
	}
	if end == netrevPoints {
		end = ^uint64(0)
	}
	for old := first; old < end && !atomic.Cas64(&netrevRoomed, old, end); old = atomic.Load64(&netrevRoomed) {
	}
}

// netrevStack looks up a stack, by its frame pointers, in the table of known stacks, or adds it. If a part of the table
// is full, the point has no stack.
//
//go:nosplit
func netrevStack(gp *g, frame uintptr) uint64 {
	hash := (uint64(gp.gopc) ^ uint64(gp.startpc)<<20) * 0x9e3779b97f4a7c15
	n := 0
	for fp := frame; n < netrevFrames && fp >= gp.stack.lo && fp+16 <= gp.stack.hi; n++ {
		hash = (hash ^ uint64(*(*uintptr)(unsafe.Pointer(fp + 8)))) * 0x9e3779b97f4a7c15
		hash ^= hash >> 29
		next := *(*uintptr)(unsafe.Pointer(fp))
		if next <= fp {
			n++
			break
		}
		fp = next
	}
	hash |= 1
	for i := uint64(0); i < 32; i++ {
		slot := (hash>>33 + i) % netrevStacks
		if atomic.Load64(&netrevKnown[slot]) == 0 && atomic.Cas64(&netrevKnown[slot], 0, hash) {
			s := (*[netrevStackWords]uint64)(unsafe.Pointer(netrevBase + netrevHeaderBytes + uintptr(slot)*netrevStackWords*8))
			s[0], s[2], s[3] = hash, uint64(gp.gopc), uint64(gp.startpc)
			for j, fp := 0, frame; j < n; j++ {
				s[4+j] = uint64(*(*uintptr)(unsafe.Pointer(fp + 8)))
				fp = *(*uintptr)(unsafe.Pointer(fp))
			}
			atomic.Store64(&s[1], uint64(n))
			return slot + 1
		}
		if atomic.Load64(&netrevKnown[slot]) == hash {
			return slot + 1
		}
	}
	*netrevWord(netrevHeadStacksLost) = uint64(atomic.Xadd64(&netrevStacksLost, 1))
	return 0
}

// netrevGoroutine returns the running goroutine, even while it uses the scheduler's stack, or 0 if no goroutine runs.
func netrevGoroutine() uint64 {
	if gp := getg(); gp.m != nil && gp.m.curg != nil {
		return uint64(gp.m.curg.goid)
	}
	return 0
}

func netrevBit(b bool) int64 {
	if b {
		return 1
	}
	return 0
}

// netrevPoll logs a point of a descriptor whose lock is held.
func netrevPoll(kind uint64, pd *pollDesc, a, b, c int64) {
	if netrevOn != 0 {
		netrevLog(kind, netrevGoroutine(), uintptr(unsafe.Pointer(pd)), a, b, c, 0)
	}
}

// netrevStep logs a point inside a wait. `place` is the stage of the wait that the goroutine is in after the point.
func netrevStep(kind uint64, pd *pollDesc, mode int32, seen int64, place uint64) {
	goid, since := netrevGoroutine(), int64(0)
	if kind == netrevWaitBegin {
		since = nanotime()
	}
	stack := netrevLog(kind, goid, uintptr(unsafe.Pointer(pd)), int64(mode), seen, 0, since)
	netrevInside(pd, mode, place, goid, stack, since)
}

// netrevPollAlone logs a point of a descriptor whose lock isn't held.
func netrevPollAlone(kind uint64, pd *pollDesc, a int64) {
	if netrevOn != 0 {
		lock(&pd.lock)
		netrevPoll(kind, pd, a, 0, 0)
		unlock(&pd.lock)
	}
}

// netrevOpened logs that a descriptor is opened, with its first sequences (rseq and wseq, for its timers), and with the
// tag of its events (0 in releases without tags).
func netrevOpened(pd *pollDesc, fd, tag uintptr) {
	netrevPoll(netrevOpen, pd, int64(fd)|int64(tag)<<32, int64(pd.rseq), int64(pd.wseq))
}

// poll_runtime_pollReset calls Go's own function, which is renamed, under the descriptor's lock.
func poll_runtime_pollReset(pd *pollDesc, mode int) int {
	if netrevOn == 0 {
		return netrevGoPollReset(pd, mode)
	}
	lock(&pd.lock)
	code := netrevGoPollReset(pd, mode)
	netrevPoll(netrevReset, pd, int64(mode), int64(code), 0)
	unlock(&pd.lock)
	return code
}

// netrevCheck makes one of the three checks of a wait, under the descriptor's lock.
func netrevCheck(kind uint64, pd *pollDesc, mode int32) int {
	if netrevOn == 0 {
		return netpollcheckerr(pd, mode)
	}
	lock(&pd.lock)
	code := netpollcheckerr(pd, mode)
	netrevStep(kind, pd, mode, int64(code), netrevBehind(kind, code == pollNoError))
	unlock(&pd.lock)
	return code
}

// netrevArmed makes the swap that begins a wait, or that takes readiness before the wait has begun.
func netrevArmed(pd *pollDesc, word *atomic.Uintptr, mode int32, old, new uintptr) bool {
	if netrevOn == 0 {
		return word.CompareAndSwap(old, new)
	}
	lock(&pd.lock)
	done := word.CompareAndSwap(old, new)
	if done {
		netrevStep(netrevArm, pd, mode, netrevBit(old == pdReady), netrevBehind(netrevArm, old != pdReady))
	}
	unlock(&pd.lock)
	return done
}

// netrevTaken makes the swap that ends a wait.
func netrevTaken(pd *pollDesc, word *atomic.Uintptr, mode int32) uintptr {
	if netrevOn == 0 {
		return word.Swap(0)
	}
	lock(&pd.lock)
	old := word.Swap(0)
	netrevStep(netrevSwap, pd, mode, netrevBit(old == pdReady), netrevBehind(netrevSwap, old != pdReady))
	unlock(&pd.lock)
	return old
}

// netrevCommit returns the function that gopark calls instead of netpollblockcommit, with the descriptor instead of the word.
func netrevCommit(mode int32) func(*g, unsafe.Pointer) bool {
	if mode == 'w' {
		return netrevCommitWrite
	}
	return netrevCommitRead
}

func netrevCommitRead(gp *g, p unsafe.Pointer) bool {
	pd := (*pollDesc)(p)
	return netrevCommitted(gp, pd, &pd.rg, 'r')
}

func netrevCommitWrite(gp *g, p unsafe.Pointer) bool {
	pd := (*pollDesc)(p)
	return netrevCommitted(gp, pd, &pd.wg, 'w')
}

func netrevCommitted(gp *g, pd *pollDesc, word *atomic.Uintptr, mode int64) bool {
	if netrevOn == 0 {
		return netpollblockcommit(gp, unsafe.Pointer(word))
	}
	lock(&pd.lock)
	parks := netpollblockcommit(gp, unsafe.Pointer(word))
	netrevLog(netrevPark, uint64(gp.goid), uintptr(unsafe.Pointer(pd)), mode, netrevBit(parks), 0, 0)
	netrevInside(pd, int32(mode), netrevBehind(netrevPark, parks), uint64(gp.goid), 0, 0)
	unlock(&pd.lock)
	return parks
}

// netrevSetting has a row for each of the 64 processors with the lowest numbers. While a processor sets a deadline and
// holds the lock that guards the lock word, its row has the descriptor and the lock word's value.
var netrevSetting [netrevNearEnd / netrevNearRows]struct {
	descriptor uintptr
	state      uint64
	_          [48]byte
}

// netrevDeadline logs that a deadline is set, and returns the clock's time from which the deadline is computed.
func netrevDeadline(pd *pollDesc, mode int, d int64) int64 {
	now := nanotime()
	kind, state := uint64(netrevSetDeadline), uint64(0)
	if near := netrevNearby(getg()); near < netrevNearEnd && netrevSetting[near].descriptor == uintptr(unsafe.Pointer(pd)) {
		kind, state = netrevDeadlineCallKind, netrevSetting[near].state
	}
	netrevLog(kind, netrevGoroutine(), uintptr(unsafe.Pointer(pd)), int64(mode), d, int64(state), now)
	return now
}

// Sets a deadline. The reference that the call takes and drops has no points of its own, because the lock that guards the
// lock word is held all the time and the word doesn't change. Returns whether it set the deadline. With delays it
// doesn't, because a delay may come between these points.
//
//go:linkname poll_runtime_netrevSetsDeadline internal/poll.runtime_netrevSetsDeadline
func poll_runtime_netrevSetsDeadline(descriptor uintptr, word *uint64, d int64, mode int) bool {
	const closed, references = 1, (1<<20 - 1) << 3
	if netrevSeed != 0 {
		return false
	}
	netrevNotes()
	l := netrevLockOf(word)
	mp := netrevSpin(l)
	near, state := netrevNearby(getg()), atomic.Load64(word)
	isDone := near < netrevNearEnd && state&closed == 0 && state&references != references
	if isDone {
		netrevSetting[near].descriptor, netrevSetting[near].state = descriptor, state
		poll_runtime_pollSetDeadline((*pollDesc)(unsafe.Pointer(descriptor)), d, mode)
		netrevSetting[near].descriptor = 0
	}
	netrevUnspin(l, mp)
	return isDone
}

func netrevClock(now int64) int64 {
	if now == 0 {
		now = nanotime()
	}
	return now
}

// netrevFired logs a timer that fires, and returns whether its sequence is old, as Go compares it.
func netrevFired(pd *pollDesc, seq, current uintptr, read, write bool) bool {
	if netrevOn != 0 {
		bits := netrevBit(read) + 2*netrevBit(write) + 4*netrevBit(seq != current)
		netrevLog(netrevFire, 0, uintptr(unsafe.Pointer(pd)), int64(seq), bits, 0, nanotime())
	}
	return seq != current
}

// netrevEvent logs an event of the poller; the descriptor stays locked until netrevEventDone.
func netrevEvent(pd *pollDesc, mode int32, isError bool) {
	if netrevOn != 0 {
		lock(&pd.lock)
		netrevLog(netrevEventCame, 0, uintptr(unsafe.Pointer(pd)), int64(mode), netrevBit(isError), 0, 0)
	}
}

// netrevTagged logs an event with a tag, and returns whether the tag equals the descriptor's, which is Go's own test.
func netrevTagged(pd *pollDesc, mode int32, events uint32, tag, current uintptr) bool {
	const onlyError = 8
	netrevLog(netrevEventCame, 0, uintptr(unsafe.Pointer(pd)), int64(mode), netrevBit(events == onlyError)+2*netrevBit(tag != current), int64(tag), 0)
	return tag == current
}

func netrevEventBegins(pd *pollDesc) {
	if netrevOn != 0 {
		lock(&pd.lock)
	}
}

func netrevEventDone(pd *pollDesc) {
	if netrevOn != 0 {
		unlock(&pd.lock)
	}
}

// netrevEasy takes a semaphore without its root's lock, unless the semaphore belongs to a lock word.
func netrevEasy(addr *uint32, profile semaProfileFlags) bool {
	return profile&netrevSema == 0 && cansemacquire(addr)
}

// netrevTake takes a semaphore under its root's lock, and returns false if the goroutine has to wait for it.
func netrevTake(addr *uint32, profile semaProfileFlags) bool {
	took := cansemacquire(addr)
	if profile&netrevSema != 0 {
		stack := netrevSemaphore(netrevAcquire, addr, profile&netrevSemaRead != 0, took)
		if !took {
			netrevQueues(addr, netrevGoroutine(), stack)
		}
	}
	return took
}

// netrevSemaphore logs a point at a lock word, which is 8 bytes before its readers' semaphore and 12 before its
// writers'.
func netrevSemaphore(kind uint64, addr *uint32, read, took bool) (stack uint64) {
	at := uintptr(unsafe.Pointer(addr)) - 12 + 4*uintptr(netrevBit(read))
	return netrevLog(kind, netrevGoroutine(), at, netrevBit(took), netrevBit(read), 0, 0)
}

// netrevMarked separates the mark of a lock word's semaphore from the number of frames to skip.
func netrevMarked(skipframes int) (int, int) {
	return skipframes & (netrevSema | netrevSemaRead), skipframes &^ (netrevSema | netrevSemaRead)
}

// netrevRaise raises a lock word's semaphore under its root's lock, in the same section in which the waiter leaves the
// queue.
func netrevRaise(addr *uint32, mark int) {
	if mark != 0 {
		atomic.Xadd(addr, 1)
		netrevSemaphore(netrevRelease, addr, mark&netrevSemaRead != 0, false)
		netrevLeaves(addr)
	}
}

//go:linkname poll_runtime_netrevAcquire internal/poll.runtime_netrevAcquire
func poll_runtime_netrevAcquire(addr *uint32, read bool) {
	netrevSemacquire(addr, semaProfileFlags(netrevSema+netrevSemaRead*netrevBit(read)))
}

//go:linkname poll_runtime_netrevRelease internal/poll.runtime_netrevRelease
func poll_runtime_netrevRelease(addr *uint32, read bool) {
	semrelease1(addr, false, int(netrevSema+netrevSemaRead*netrevBit(read)))
}

// Logs a point that is at a lock word and doesn't change the word.
//
//go:linkname poll_runtime_netrevPoint internal/poll.runtime_netrevPoint
func poll_runtime_netrevPoint(kind uint64, word *uint64, a, b, c int64) {
	netrevLog(kind, netrevGoroutine(), uintptr(unsafe.Pointer(word)), a, b, c, 0)
}

// A netrevSpinLock is held for a few instructions and rarely contended, which makes it cheaper than the runtime's lock.
type netrevSpinLock struct {
	taken uint32
	_     [60]byte
}

// netrevSpin takes a lock; the goroutine stays on its thread until netrevUnspin.
func netrevSpin(l *netrevSpinLock) *m {
	const tries, pause = 16, 20
	mp := acquirem()
	for try := 1; !atomic.Cas(&l.taken, 0, 1); try++ {
		if try%tries != 0 {
			procyield(pause)
		} else {
			osyield()
		}
	}
	return mp
}

func netrevUnspin(l *netrevSpinLock, mp *m) {
	atomic.StoreRel(&l.taken, 0)
	releasem(mp)
}

func netrevLockOf(word *uint64) *netrevSpinLock {
	return &netrevLocks[uintptr(unsafe.Pointer(word))>>5%64]
}

// Swaps a lock word and takes the point's number in one step.
//
//go:linkname poll_runtime_netrevSwap internal/poll.runtime_netrevSwap
func poll_runtime_netrevSwap(kind uint64, word *uint64, old, new uint64, bits int64) bool {
	l := netrevLockOf(word)
	mp := netrevSpin(l)
	done := atomic.Cas64(word, old, new)
	if done {
		netrevLog(kind, netrevGoroutine(), uintptr(unsafe.Pointer(word)), int64(old), int64(new), bits, 0)
	}
	netrevUnspin(l, mp)
	return done
}

// Logs a lock word that was found closed. The word can be read again here, because a closed word stays closed.
//
//go:linkname poll_runtime_netrevClosed internal/poll.runtime_netrevClosed
func poll_runtime_netrevClosed(kind uint64, word *uint64, bits int64) {
	l := netrevLockOf(word)
	mp := netrevSpin(l)
	old := int64(atomic.Load64(word))
	netrevLog(kind, netrevGoroutine(), uintptr(unsafe.Pointer(word)), old, old, bits, 0)
	netrevUnspin(l, mp)
}

func netrevMixed(x uint64) uint64 {
	x = (x ^ x>>31) * 0x9e3779b97f4a7c15
	x = (x ^ x>>29) * 0xbf58476d1ce4e5b9
	return x ^ x>>32
}

// netrevDelay lets other goroutines run first, at a quarter of all places. It sleeps for 0.5 to 8 milliseconds; the seed chooses the
// places and the times. It sleeps each of the first 64 times, and later one time in 16. Two delays have the same place if their kind of
// point is the same and the same code started their goroutines. The caller holds no lock of the runtime.
//
//go:linkname poll_runtime_netrevDelay internal/poll.runtime_netrevDelay
func poll_runtime_netrevDelay(kind uint64) {
	netrevNotes()
	const places, shortest, lengths, often, seldom = 4, 500000, 5, 64, 16
	if netrevSeed == 0 {
		return
	}
	gp := getg()
	place := netrevMixed(netrevMixed(uint64(gp.gopc)^kind<<56) ^ uint64(gp.startpc) ^ netrevSeed<<32)
	if place%places != 0 {
		return
	}
	if draws := uint64(atomic.Xadd64(&netrevDraws, 1)); draws <= often || netrevMixed(draws)%seldom == 0 {
		timeSleep(shortest << (place >> 8 % lengths))
	}
}
