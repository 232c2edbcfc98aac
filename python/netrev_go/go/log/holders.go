// netrev's table of locked mutexes: which goroutine holds each, and the calls that locked it. In an overlaid Go, these
// functions are appended to runtime/sema.go.
//
// Programs lock and unlock mutexes too often to log a point in the ring each time. Instead, a row is written after a
// mutex is locked, and freed before the mutex is unlocked, so the table always has the locked mutexes, even after the
// process has ended. Most mutexes are unlocked soon, on the same processor, so each processor has a few rows of its
// own, which stay in its cache; the other rows are used only if these are taken. Which rows are free, and whose the others
// are, is decided in netrevHeld; the log's table is only written.

package runtime

import (
	"internal/runtime/atomic"
	"internal/runtime/sys"
	"unsafe"
)

const (
	netrevHolders     = netrevNearEnd + netrevFarRows
	netrevNearRows    = 16 // for each of the 64 processors with the lowest numbers
	netrevNearTries   = 2  // rows of these in which a mutex may be
	netrevNearEnd     = netrevNearRows * 64
	netrevFarRows     = 1 << 13
	netrevFarTries    = 16
	netrevHolderWords = 16
	netrevHolderCalls = netrevHolderWords - netrevHolderCall
)

// Words of a row.
const (
	netrevHolderAt     = iota // the mutex; 0 in a free row, netrevHolderBegun in one that is being written
	netrevHolderWhose         // the goroutine's number times 2, plus 1 if it holds an RWMutex for reading
	netrevHolderPassed        // how many points had been logged before
	netrevHolderLength        // how many calls are known
	netrevHolderCall          // the first of the calls' return addresses, from the innermost
)

const netrevHolderBegun = 1

// The purpose for which a goroutine holds a mutex.
const (
	netrevForAll     = 0
	netrevForReading = 1
)

type netrevHolderRow = [netrevHolderWords]uint64

// A row of netrevHeld has the words netrevHolderAt and netrevHolderWhose of the row with this number in the log.
var netrevHeld [netrevHolders]struct{ at, whose uint64 }

const netrevNoRow = ^uint64(0)

var netrevHoldersLost uint64

// Both variables are 1 if mutexes are in the table. They are set before the program begins, if the rules for mutexes
// fit, and never reset. Mutex reads the first and sync's RWMutex the second, because a package can link to a name of
// the runtime only once.
//
//go:linkname netrevMutexesOn
var netrevMutexesOn uint32

//go:linkname netrevReadersOn
var netrevReadersOn uint32

// netrevHasHolders begins the table, after the log has begun.
func netrevHasHolders() {
	if netrevOn != 0 && netrevOrders {
		*netrevWord(netrevHeadHoldersKnown) = 1
		netrevMutexesOn, netrevReadersOn = 1, 1
	}
}

// netrevNearUsed is the number of processors that have rows of their own and used them.
var netrevNearUsed uint32

func netrevHolderRowAt(row uint64) *netrevHolderRow {
	return (*netrevHolderRow)(unsafe.Pointer(netrevBase + netrevHeaderBytes + netrevStacksBytes + uintptr(row)*netrevHolderWords*8))
}

// netrevNear returns a processor's row that may have a mutex; netrevFar returns a row that all processors share.
func netrevNear(processor, place uint64) uint64 {
	return processor*netrevNearRows + place%netrevNearRows
}

func netrevFar(place uint64) uint64 { return netrevNearEnd + place%netrevFarRows }

// netrevNearby returns a goroutine's processor if the processor has rows of its own, or else netrevNearEnd.
func netrevNearby(gp *g) uint64 {
	if pp := gp.m.p.ptr(); pp != nil && uint64(pp.id) < netrevNearEnd/netrevNearRows {
		return uint64(pp.id)
	}
	return netrevNearEnd
}

// netrevHolds adds a mutex that the goroutine has locked to the table, with the stack from the given frame.
func netrevHolds(at unsafe.Pointer, how uint64, frame uintptr) {
	gp := getg()
	if gp.m == nil || gp != gp.m.curg || atomic.Load64(&netrevLogEnd) == netrevIsLost {
		return
	}
	passed := atomic.Load64(&netrevPassed.points)
	number := netrevTakesRow(netrevNearby(gp), netrevMixed(uint64(uintptr(at))))
	if number == netrevNoRow {
		*netrevWord(netrevHeadHoldersLost) = uint64(atomic.Xadd64(&netrevHoldersLost, 1))
		return
	}
	held, row := &netrevHeld[number], netrevHolderRowAt(number)
	held.whose = uint64(gp.goid)<<1 | how
	row[netrevHolderWhose] = held.whose
	row[netrevHolderPassed] = passed
	row[netrevHolderLength] = 0
	if netrevLines {
		row[netrevHolderLength] = netrevCallsFrom(gp, frame, row[netrevHolderCall:])
	}
	atomic.Store64(&row[netrevHolderAt], uint64(uintptr(at)))
	atomic.Store64(&held.at, uint64(uintptr(at)))
}

// netrevTakesRow takes a free row, or returns netrevNoRow if no row is free.
func netrevTakesRow(processor, place uint64) uint64 {
	if processor < netrevNearEnd {
		for used := atomic.Load(&netrevNearUsed); uint64(used) <= processor; used = atomic.Load(&netrevNearUsed) {
			atomic.Cas(&netrevNearUsed, used, uint32(processor)+1)
		}
		for try := uint64(0); try < netrevNearTries; try++ {
			if row := netrevNear(processor, place+try); netrevIsTaken(row) {
				return row
			}
		}
	}
	for try := uint64(0); try < netrevFarTries; try++ {
		if row := netrevFar(place + try); netrevIsTaken(row) {
			return row
		}
	}
	return netrevNoRow
}

// netrevIsTaken takes a row if it is free, and returns whether it was.
func netrevIsTaken(row uint64) bool {
	return atomic.Load64(&netrevHeld[row].at) == 0 && atomic.Cas64(&netrevHeld[row].at, 0, netrevHolderBegun)
}

// netrevCallsFrom fills words with the return addresses of a frame and its callers, and returns how many it wrote.
//
//go:nosplit
func netrevCallsFrom(gp *g, frame uintptr, words []uint64) uint64 {
	n := 0
	for fp := frame; n < len(words) && fp >= gp.stack.lo && fp+16 <= gp.stack.hi; n++ {
		words[n] = uint64(*(*uintptr)(unsafe.Pointer(fp + 8)))
		next := *(*uintptr)(unsafe.Pointer(fp))
		if next <= fp {
			n++
			break
		}
		fp = next
	}
	return uint64(n)
}

// netrevLetsGo frees the row of a mutex that the goroutine is about to unlock, and that another goroutine may have
// locked.
func netrevLetsGo(at unsafe.Pointer, how uint64) {
	gp := getg()
	if gp.m == nil || gp.m.curg == nil || atomic.Load64(&netrevLogEnd) == netrevIsLost {
		return
	}
	processor, mine := netrevNearby(gp), uint64(gp.m.curg.goid)<<1|how
	if !netrevFrees(uint64(uintptr(at)), mine, true, processor) {
		netrevFrees(uint64(uintptr(at)), mine, false, processor)
	}
}

// netrevFrees frees one row for a mutex held in this way: by this goroutine if isMine, else by any. It returns whether it found a row.
func netrevFrees(at, mine uint64, isMine bool, processor uint64) bool {
	place := netrevMixed(at)
	if processor < netrevNearEnd && netrevFreesNear(at, mine, isMine, processor, place) {
		return true
	}
	for other := uint64(0); other < uint64(atomic.Load(&netrevNearUsed)); other++ {
		if other != processor && netrevFreesNear(at, mine, isMine, other, place) {
			return true
		}
	}
	for try := uint64(0); try < netrevFarTries; try++ {
		if netrevIsFreed(netrevFar(place+try), at, mine, isMine) {
			return true
		}
	}
	return false
}

func netrevFreesNear(at, mine uint64, isMine bool, processor, place uint64) bool {
	for try := uint64(0); try < netrevNearTries; try++ {
		if netrevIsFreed(netrevNear(processor, place+try), at, mine, isMine) {
			return true
		}
	}
	return false
}

// netrevIsFreed frees a row if it belongs to this mutex, and returns whether it did.
func netrevIsFreed(row, at, mine uint64, isMine bool) bool {
	held := &netrevHeld[row]
	if atomic.Load64(&held.at) != at {
		return false
	}
	whose := held.whose
	if whose&1 != mine&1 || isMine && whose != mine || !atomic.Cas64(&held.at, at, netrevHolderBegun) {
		return false
	}
	netrevHolderRowAt(row)[netrevHolderAt] = 0
	atomic.Store64(&held.at, 0)
	return true
}

// Up to Go 1.23 package sync had its own mutex; since 1.24 that is in internal/sync.
//
//go:linkname sync_runtime_netrevLocked sync.runtime_netrevLocked
func sync_runtime_netrevLocked(mutex unsafe.Pointer) {
	netrevHolds(mutex, netrevForAll, sys.GetCallerSP()-16)
}

//go:linkname sync_runtime_netrevUnlocks sync.runtime_netrevUnlocks
func sync_runtime_netrevUnlocks(mutex unsafe.Pointer) { netrevLetsGo(mutex, netrevForAll) }

//go:linkname isync_runtime_netrevLocked internal/sync.runtime_netrevLocked
func isync_runtime_netrevLocked(mutex unsafe.Pointer) {
	netrevHolds(mutex, netrevForAll, sys.GetCallerSP()-16)
}

//go:linkname isync_runtime_netrevUnlocks internal/sync.runtime_netrevUnlocks
func isync_runtime_netrevUnlocks(mutex unsafe.Pointer) { netrevLetsGo(mutex, netrevForAll) }

//go:linkname sync_runtime_netrevReads sync.runtime_netrevReads
func sync_runtime_netrevReads(mutex unsafe.Pointer) {
	netrevHolds(mutex, netrevForReading, sys.GetCallerSP()-16)
}

//go:linkname sync_runtime_netrevHasRead sync.runtime_netrevHasRead
func sync_runtime_netrevHasRead(mutex unsafe.Pointer) { netrevLetsGo(mutex, netrevForReading) }
