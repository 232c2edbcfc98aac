// netrev's notes of all open descriptors, from which a recording can begin in the middle of a run: the ring keeps only
// the newest points, and a descriptor may have been opened earlier. In an overlaid Go, these functions are appended to
// runtime/netpoll_epoll.go.
//
// Four times in each round of the ring, a goroutine that holds no lock of the runtime notes every descriptor: points
// with the state of its lock word and of the descriptor, and each goroutine that waits there, with its stage of the
// wait. The points are written under all locks of the descriptor, so that the descriptor doesn't change between them.

package runtime

import (
	"internal/runtime/atomic"
	"unsafe"
)

const (
	netrevRowsLeast   = 1 << 10 // the least number of descriptors in the table
	netrevRowShare    = 64      // one more for this many points
	netrevRowBytes    = unsafe.Sizeof(netrevRow{})
	netrevRowTries    = 64      // rows in which a descriptor may be
	netrevQueueMost   = 1 << 10 // goroutines that are queued on lock words
	netrevWaiterBytes = unsafe.Sizeof(netrevWaiter{})
	netrevParts       = 4  // notes in each round of the ring
	netrevShare       = 64 // each time, one descriptor at most is noted for this many points of the ring
)

// Kinds of points. The first is at the lock word's address, the next two at the descriptor's, with no other point between.
const (
	netrevNotedKind          = 134 // a is the lock word, b the descriptor, c the two semaphores
	netrevNotedPollKind      = 135 // a is the tag, b the sequence of reading, c that of writing
	netrevNotedDeadlinesKind = 136 // a is the deadline of reading, b that of writing, c what netrevNoteFlags says
	netrevNotedInsideKind    = 137 // the goroutine is inside the wait of side a, at place b
	netrevNotedQueuedKind    = 138 // the goroutine is queued for the lock of side a
	netrevNotesBeginKind     = 139 // a is the number of the notes that begin here, b how many descriptors are known
	netrevNotesEndKind       = 140 // a is the number of the notes that end here, b how many descriptors were noted, c how many there was no room for
	netrevNotedNamedKind     = 141 // a, b and c are as in the socket's point netrevNamedKind
	netrevDeadlineCallKind   = 142 // not a note: a is the mode, b the deadline, and c the lock word, to which the call had a reference
)

// The stages of a goroutine's wait.
const (
	netrevIsOutside = iota
	netrevIsEntering
	netrevIsArmed
	netrevIsParking
	netrevIsParked
	netrevIsSwapping
	netrevIsChecking
)

// A netrevSide is the goroutine inside the wait of a side, its place, its stack, and when the wait began. The
// descriptor's lock protects it.
type netrevSide struct{ place, goid, stack, since uint64 }

// A netrevRow is the row of a descriptor. A descriptor's memory is never freed, and another socket that reuses the
// descriptor has the same row. The lock word is 0 while no socket has the descriptor. The rows are in the program's own memory;
// the log has copies of what netrev-go reads (netrevShown).
type netrevRow struct {
	pd, word uintptr
	sides    [2]netrevSide
	name     [3]int64 // as in its point netrevNamedKind
	marks    uint64
	_        [2]uint64
}

// Marks of a row.
const (
	netrevIsNamed = 1
	netrevIsShut  = 2
)

// A netrevWaiter is a goroutine that is queued on the semaphore of a lock word. The lock of the semaphore's root protects it.
type netrevWaiter struct {
	addr                      uintptr // of the semaphore; 0 in a free row
	order, goid, stack, since uint64
	_                         [3]uint64
}

// Functions that return which timers of a descriptor run, and the descriptor's tag. Where the runtime stores these
// depends on the release of Go. The functions are nil unless the rules for notes fit.
var (
	netrevRunning func(pd *pollDesc) int64
	netrevTagOf   func(pd *pollDesc) int64
)

var (
	netrevRows     uintptr // 0 without notes
	netrevRowsMost uint64
	netrevQueue    [netrevQueueMost]netrevWaiter
	netrevRowOrder uintptr // the numbers of the rows in use, in the order in which they were taken
	netrevRowCount uint32
	netrevQueued   uint64
	netrevUnqueued uint32 // 1 if a goroutine was queued and found no row
	netrevDue      uint64 // the number of points after which the next notes are due
	netrevIsDue    uint32 // 1 once that many were logged: this is read much more often, and all processors write the count of points
	netrevNoting   uint32
	netrevTimes    uint64
	netrevRowLock  mutex
)

// netrevRowsFor returns the number of rows in a log of this many points.
func netrevRowsFor(points uintptr) uintptr {
	if rows := points / netrevRowShare; rows > netrevRowsLeast {
		return rows
	}
	return netrevRowsLeast
}

// netrevKeepRows begins the tables of descriptors, after the log has begun.
func netrevKeepRows() {
	if netrevRunning == nil || netrevTagOf == nil {
		return
	}
	rows := netrevRowsFor(uintptr(netrevPoints))
	table, errno := netrevSystem(netrevMmap, 0, rows*(netrevRowBytes+4), netrevReadAndWrite, netrevOwnAndEmpty, ^uintptr(0), 0)
	if errno != 0 {
		return
	}
	netrevRowsMost, netrevDue = uint64(rows), netrevPoints/netrevParts
	netrevRows, netrevRowOrder = table, table+rows*netrevRowBytes
}

// netrevShown returns the log's copy of a row.
func netrevShown(row *netrevRow) *netrevRow {
	return (*netrevRow)(unsafe.Pointer(netrevBase + netrevRowsBegin + (uintptr(unsafe.Pointer(row)) - netrevRows)))
}

func netrevRowAt(row uint64) *netrevRow {
	return (*netrevRow)(unsafe.Pointer(netrevRows + uintptr(row)*unsafe.Sizeof(netrevRow{})))
}

// netrevRowOf returns the row of a descriptor, or nil if it has no row. A new descriptor takes a row.
func netrevRowOf(pd uintptr, isNew bool) *netrevRow {
	first := netrevMixed(uint64(pd))
	for try := uint64(0); try < netrevRowTries; try++ {
		number := (first + try) % netrevRowsMost
		row := netrevRowAt(number)
		if atomic.Loaduintptr(&row.pd) == 0 && isNew && atomic.Casuintptr(&row.pd, 0, pd) {
			place := atomic.Xadd(&netrevRowCount, 1) - 1
			*(*uint32)(unsafe.Pointer(netrevRowOrder + uintptr(place)*4)) = uint32(number)
			return row
		}
		if at := atomic.Loaduintptr(&row.pd); at == pd {
			return row
		} else if at == 0 {
			return nil
		}
	}
	return nil
}

// netrevInside records that a goroutine has reached a stage of a wait. If `since` isn't 0, it is the time at which the wait begins.
func netrevInside(pd *pollDesc, mode int32, place, goid, stack uint64, since int64) {
	if netrevRows == 0 {
		return
	}
	row := netrevRowOf(uintptr(unsafe.Pointer(pd)), false)
	if row == nil {
		return
	}
	which := netrevBit(mode == 'w')
	side, shown := &row.sides[which], &netrevShown(row).sides[which]
	side.place, shown.place = place, place
	if since != 0 {
		side.goid, side.stack, side.since = goid, stack, uint64(since)
		shown.goid, shown.stack, shown.since = goid, stack, uint64(since)
	}
}

// netrevBehind returns the place of a goroutine after a point of a wait, depending on whether it still waits after that point.
func netrevBehind(kind uint64, goesOn bool) uint64 {
	switch {
	case goesOn && (kind == netrevWaitBegin || kind == netrevWaitCheck):
		return netrevIsEntering
	case goesOn && kind == netrevArm:
		return netrevIsArmed
	case goesOn && kind == netrevCheckAgain:
		return netrevIsParking
	case goesOn && kind == netrevPark:
		return netrevIsParked
	case kind == netrevCheckAgain || kind == netrevPark:
		return netrevIsSwapping
	case goesOn && kind == netrevSwap:
		return netrevIsChecking
	}
	return netrevIsOutside
}

// netrevShownWaiter returns the log's copy of a waiter.
func netrevShownWaiter(waiter *netrevWaiter) *netrevWaiter {
	queue := netrevBase + netrevRowsBegin + uintptr(netrevRowsMost)*netrevRowBytes
	return (*netrevWaiter)(unsafe.Pointer(queue + (uintptr(unsafe.Pointer(waiter)) - uintptr(unsafe.Pointer(&netrevQueue)))))
}

// netrevQueues records that a goroutine joins the queue of a semaphore. The caller holds the lock of the semaphore's root.
func netrevQueues(addr *uint32, goid, stack uint64) {
	if netrevRows == 0 {
		return
	}
	at := uintptr(unsafe.Pointer(addr))
	for try := uint64(0); try < netrevRowTries; try++ {
		row := &netrevQueue[(netrevMixed(uint64(at))+try)%netrevQueueMost]
		if atomic.Casuintptr(&row.addr, 0, at) {
			row.order, row.goid, row.stack, row.since = uint64(atomic.Xadd64(&netrevQueued, 1)), goid, stack, uint64(nanotime())
			*netrevShownWaiter(row) = *row
			return
		}
	}
	atomic.Store(&netrevUnqueued, 1)
}

// netrevFirst returns the goroutine that has been queued longest on a semaphore, among those whose order is greater than `behind`, or nil
// if there is none.
func netrevFirst(at uintptr, behind uint64) *netrevWaiter {
	var first *netrevWaiter
	for try := uint64(0); try < netrevRowTries; try++ {
		row := &netrevQueue[(netrevMixed(uint64(at))+try)%netrevQueueMost]
		if atomic.Loaduintptr(&row.addr) == at && row.order > behind && (first == nil || row.order < first.order) {
			first = row
		}
	}
	return first
}

// netrevLeaves removes the first goroutine from the queue of a semaphore. The caller holds the lock of the semaphore's root.
func netrevLeaves(addr *uint32) {
	if netrevRows == 0 {
		return
	}
	if first := netrevFirst(uintptr(unsafe.Pointer(addr)), 0); first != nil {
		netrevShownWaiter(first).addr = 0
		atomic.Storeuintptr(&first.addr, 0)
	}
}

// Records that a descriptor was opened for the socket of a lock word. If notes are being written, the writer may have
// passed the descriptor's row already, so this function writes the note.
//
//go:linkname poll_runtime_netrevKnows internal/poll.runtime_netrevKnows
func poll_runtime_netrevKnows(descriptor uintptr, word *uint64) {
	if netrevRows == 0 {
		return
	}
	row := netrevRowOf(descriptor, true)
	if row == nil {
		return
	}
	lock(&netrevRowLock)
	row.word, row.marks = uintptr(unsafe.Pointer(word)), 0
	row.sides = [2]netrevSide{}
	*netrevShown(row) = netrevRow{pd: row.pd, word: row.word}
	unlock(&netrevRowLock)
	if atomic.Load(&netrevNoting) != 0 {
		netrevNote(row)
	}
}

// Records that a socket is about to be destroyed, and its lock word with it.
//
//go:linkname poll_runtime_netrevForgets internal/poll.runtime_netrevForgets
func poll_runtime_netrevForgets(descriptor uintptr) {
	if row := netrevRowKnown(descriptor); row != nil {
		lock(&netrevRowLock)
		row.word, netrevShown(row).word = 0, 0
		unlock(&netrevRowLock)
	}
}

// Records the names of a socket's ends.
//
//go:linkname poll_runtime_netrevIsCalled internal/poll.runtime_netrevIsCalled
func poll_runtime_netrevIsCalled(descriptor uintptr, a, b, c int64) {
	if row := netrevRowKnown(descriptor); row != nil {
		lock(&netrevRowLock)
		row.name, row.marks = [3]int64{a, b, c}, row.marks|netrevIsNamed
		unlock(&netrevRowLock)
	}
}

// Records that a socket's write side was shut.
//
//go:linkname poll_runtime_netrevIsShut internal/poll.runtime_netrevIsShut
func poll_runtime_netrevIsShut(descriptor uintptr) {
	if row := netrevRowKnown(descriptor); row != nil {
		lock(&netrevRowLock)
		row.marks |= netrevIsShut
		unlock(&netrevRowLock)
	}
}

func netrevRowKnown(descriptor uintptr) *netrevRow {
	if netrevRows == 0 || descriptor == 0 {
		return nil
	}
	return netrevRowOf(descriptor, false)
}

// netrevNotes notes all descriptors, if notes are due. The caller holds no lock of the runtime.
func netrevNotes() {
	if netrevRows == 0 || atomic.Load(&netrevIsDue) == 0 || !atomic.Cas(&netrevNoting, 0, 1) {
		return
	}
	netrevTimes++
	count, noted, left := atomic.Load(&netrevRowCount), int64(0), int64(0)
	begin := netrevNotesPoint(netrevNotesBeginKind, int64(count), 0)
	for place := uint32(0); place < count; place++ {
		row := netrevRowAt(uint64(*(*uint32)(unsafe.Pointer(netrevRowOrder + uintptr(place)*4))))
		if row.word == 0 {
			continue
		}
		if noted >= int64(netrevPoints/netrevShare) {
			left++
		} else if netrevNote(row) {
			noted++
		}
	}
	netrevNotesPoint(netrevNotesEndKind, noted, left)
	atomic.Store64(&netrevDue, begin+netrevPoints/netrevParts)
	atomic.Store(&netrevIsDue, 0)
	atomic.Store(&netrevNoting, 0)
}

func netrevNotesPoint(kind uint64, b, c int64) (number uint64) {
	number = netrevNext()
	netrevWrite(number, kind, 0, 0, int64(netrevTimes), b, c, nanotime(), 0)
	return number
}

// netrevNote notes a descriptor under its locks if the descriptor is a socket's, and returns whether it is.
func netrevNote(row *netrevRow) bool {
	lock(&netrevRowLock)
	word := (*uint64)(unsafe.Pointer(row.word))
	if word == nil {
		unlock(&netrevRowLock)
		return false
	}
	readers := (*uint32)(unsafe.Pointer(row.word + 8))
	own, root, pd := netrevLockOf(word), semtable.rootFor(readers), (*pollDesc)(unsafe.Pointer(row.pd))
	mp := netrevSpin(own)
	lockWithRank(&root.lock, lockRankRoot)
	lock(&pd.lock)
	netrevNoteLocked(row, atomic.Load64(word), pd)
	unlock(&pd.lock)
	unlock(&root.lock)
	netrevUnspin(own, mp)
	unlock(&netrevRowLock)
	return true
}

func netrevNoteLocked(row *netrevRow, state uint64, pd *pollDesc) {
	now := nanotime()
	readers, writers := row.word+8, row.word+12
	counts := int64(*(*uint32)(unsafe.Pointer(readers))) | int64(*(*uint32)(unsafe.Pointer(writers)))<<32
	netrevWrite(netrevNext(), netrevNotedKind, 0, row.word, int64(state), int64(row.pd), counts, now, 0)
	netrevWrite(netrevNext(), netrevNotedPollKind, 0, row.pd, netrevTagOf(pd), int64(pd.rseq), int64(pd.wseq), now, 0)
	netrevWrite(netrevNext(), netrevNotedDeadlinesKind, 0, row.pd, pd.rd, pd.wd, netrevNoteFlags(row, pd), now, 0)
	for i, mode := range [2]int64{'r', 'w'} {
		if side := &row.sides[i]; side.place != netrevIsOutside {
			netrevWrite(netrevNext(), netrevNotedInsideKind, side.goid, row.pd, mode, int64(side.place), 0, now, side.stack)
		}
	}
	for i, at := range [2]uintptr{readers, writers} {
		for first := netrevFirst(at, 0); first != nil; first = netrevFirst(at, first.order) {
			netrevWrite(netrevNext(), netrevNotedQueuedKind, first.goid, row.word, [2]int64{'r', 'w'}[i], 0, 0, now, first.stack)
		}
	}
	if row.marks&netrevIsNamed != 0 {
		netrevWrite(netrevNext(), netrevNotedNamedKind, 0, row.word, row.name[0], row.name[1], row.name[2], now, 0)
	}
}

// netrevNoteFlags returns bits. Bits 0 to 4: the descriptor is closing, it had an event error, its read timer runs, its
// write timer runs, its write side is shut. Bits 8 and 9: its wait word for reading (0 nil, 1 ready, 2 wait, 3 a
// goroutine). Bits 10 and 11: its wait word for writing. Bit 12: the notes may lack a queued goroutine.
func netrevNoteFlags(row *netrevRow, pd *pollDesc) int64 {
	flags := netrevBit(pd.closing) | netrevBit(pd.info().eventErr())<<1 | netrevRunning(pd)<<2 | netrevBit(row.marks&netrevIsShut != 0)<<4
	return flags | netrevWordCode(pd.rg.Load())<<8 | netrevWordCode(pd.wg.Load())<<10 | int64(atomic.Load(&netrevUnqueued))<<12
}

func netrevWordCode(word uintptr) int64 {
	if word == 0 || word == pdReady || word == pdWait {
		return int64(word)
	}
	return 3
}
