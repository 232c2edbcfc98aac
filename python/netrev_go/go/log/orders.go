// netrev's points at which the program itself puts goroutines in order: the start and the wake-up of a goroutine,
// values that pass through a channel, waits outside the poller, and the end of a goroutine. In an overlaid Go, these
// functions are appended to runtime/chan.go. They aren't steps of a recording.

package runtime

import "unsafe"

// Kinds of points. At a channel, a is the number of values that the channel held just before the point, and b is its capacity.
const (
	netrevReadyKind      = 117 // a is the goroutine that was made ready, or that was started if b is 1
	netrevSentKind       = 118
	netrevReceivedKind   = 119
	netrevMetKind        = 120 // a value went from one goroutine to another, and neither goes on before: a is the other, which is made ready, b the direction
	netrevClosedKind     = 121
	netrevEndedKind      = 122 // the channel was found closed and empty
	netrevParksKind      = 124 // the goroutine begins to wait: a says for what; netrevAt and netrevSelects say at what
	netrevGoesOnKind     = 125 // a goroutine that waited goes on
	netrevCasesKind      = 126 // further cases of the select in which the goroutine is about to wait
	netrevHandedKind     = 127 // a value for a buffered channel goes to goroutine a, which waits for it and is made ready
	netrevEndsKind       = 128 // the goroutine ends
	netrevTimerKind      = 129 // the goroutine makes or resets a timer that goes off at a, with the timer's channel, if it has one
	netrevGroupKind      = 130 // the goroutine adds a to a WaitGroup, whose counter is b then; Done adds -1
	netrevStoppedKind    = 131 // the goroutine stops a timer that has a channel
	netrevMakesKind      = 132 // the goroutine makes a channel
	netrevDialFailedKind = 133 // a dial of the goroutine failed, whose context has this channel: a is the error, b the address, as internal/poll has them
)

// The direction of a value at a netrevMetKind.
const (
	netrevGives = 1 // from the goroutine to the other
	netrevTakes = 2
)

// netrevHasOrders is 1 once the log has such a point.
var netrevHasOrders uint32

// netrevOrder logs a point of a goroutine; it logs nothing if the scheduler itself acts.
func netrevOrder(kind uint64, goid uint64, at unsafe.Pointer, a, b, c int64) {
	if netrevOrders && netrevOn != 0 && goid != 0 {
		if netrevHasOrders == 0 {
			netrevHasOrders = 1
			*netrevWord(netrevHeadOrders) = 1
		}
		netrevLog(kind, goid, uintptr(at), a, b, c, 0)
	}
}

// netrevReadied logs that a goroutine becomes ready, unless traceskip has a mark, which means that a step of a recording makes it ready.
// It returns traceskip without the mark.
func netrevReadied(gp *g, traceskip int) int {
	if traceskip < netrevSema {
		netrevOrder(netrevReadyKind, netrevGoroutine(), nil, int64(gp.goid), 0, 0)
	}
	return traceskip &^ (netrevSema | netrevSemaRead)
}

// netrevMetSkip marks the number of frames to skip if the channel has no buffer. The point logged when the value is
// taken from a waiting sender then also says that the sender becomes ready.
func netrevMetSkip(c *hchan, skip int) int {
	if c.dataqsiz == 0 {
		return skip + netrevSema
	}
	return skip
}

// What a goroutine waits for outside the poller. Go 1.19 has one reason for mutexes and WaitGroups; since 1.23 mutexes
// have a reason of their own.
const (
	netrevForOther = iota
	netrevForValue
	netrevForRoom
	netrevForSelect
	netrevForCondition
	netrevForSleep
	netrevForMutex
	netrevForReadLock
	netrevForWriteLock
	netrevForWaitGroup
	netrevForSemaphore
	netrevForNilChannel
	netrevForNoCases
)

// netrevWaits returns what a goroutine waits for. It compares the reason's text, as stack dumps show it, because the
// reasons' numbers differ between releases.
func netrevWaits(reason string) int64 {
	switch reason {
	case "chan receive", "chan receive (durable)":
		return netrevForValue
	case "chan send", "chan send (durable)":
		return netrevForRoom
	case "select", "select (durable)":
		return netrevForSelect
	case "sync.Cond.Wait":
		return netrevForCondition
	case "sleep":
		return netrevForSleep
	case "sync.Mutex.Lock":
		return netrevForMutex
	case "sync.RWMutex.RLock":
		return netrevForReadLock
	case "sync.RWMutex.Lock":
		return netrevForWriteLock
	case "sync.WaitGroup.Wait", "sync.WaitGroup.Wait (durable)":
		return netrevForWaitGroup
	case "semacquire":
		return netrevForSemaphore
	case "chan receive (nil chan)", "chan send (nil chan)":
		return netrevForNilChannel
	case "select (no cases)":
		return netrevForNoCases
	}
	return netrevForOther
}

// netrevChannelOf returns the channel on which a goroutine is queued. It is nil unless the rules for objects fit; without it, points don't
// name the object on which a goroutine waits.
var netrevChannelOf func(waiting *sudog) *hchan

// netrevSleepsUntil returns the time until which a goroutine is about to sleep. It is nil unless the rules for timers fit.
var netrevSleepsUntil func(gp *g) int64

// netrevParks logs that a goroutine of the program is about to wait outside the poller, with the lock that gopark was
// given, and returns whether it logged a point.
func netrevParks(reason waitReason, lock unsafe.Pointer) bool {
	if !netrevOrders || netrevOn == 0 || reason == waitReasonIOWait {
		return false
	}
	gp := getg()
	if gp.m == nil || gp != gp.m.curg || isSystemGoroutine(gp, false) {
		return false
	}
	what := netrevWaits(reason.String())
	var at unsafe.Pointer
	var b, c int64
	if netrevChannelOf != nil && what == netrevForSelect {
		at, what, b, c = netrevSelects(gp, what)
	} else if netrevChannelOf != nil && lock != nil && what != netrevForSleep {
		at, b = netrevAt(what, lock)
	} else if netrevSleepsUntil != nil && what == netrevForSleep {
		b = netrevSleepsUntil(gp)
	}
	netrevOrder(netrevParksKind, uint64(gp.goid), at, what, b, c)
	return true
}

// netrevAt returns the object of a wait: the channel, with its capacity; the list of a condition; or the semaphore of a
// mutex or a WaitGroup.
func netrevAt(what int64, lock unsafe.Pointer) (unsafe.Pointer, int64) {
	switch what {
	case netrevForValue, netrevForRoom:
		c := (*hchan)(unsafe.Pointer(uintptr(lock) - unsafe.Offsetof(hchan{}.lock)))
		return unsafe.Pointer(c), int64(c.dataqsiz)
	case netrevForCondition:
		return unsafe.Pointer(uintptr(lock) - unsafe.Offsetof(notifyList{}.lock)), 0
	case netrevForMutex, netrevForReadLock, netrevForWriteLock, netrevForWaitGroup, netrevForSemaphore:
		return lock, 0
	}
	return nil, 0
}

// netrevSelects returns up to three channels of a select that is about to wait; all its channels are locked. The lowest
// eight bits of `bits` are `what`; above them, two bits per channel say whether the goroutine waits for a value (1) or
// for room (2). If the select has more than three channels, netrevSelects first logs a point for every three others.
func netrevSelects(gp *g, what int64) (at unsafe.Pointer, bits, b, c int64) {
	const most, often = 3, 8
	var channels [most]uintptr
	n := 0
	bits = what
	for waiting, points := gp.waiting, 0; waiting != nil; waiting = waiting.waitlink {
		if n == most {
			if points++; points > often {
				break
			}
			netrevOrder(netrevCasesKind, uint64(gp.goid), unsafe.Pointer(channels[0]), bits, int64(channels[1]), int64(channels[2]))
			n, bits, channels = 0, what, [most]uintptr{}
		}
		channel := netrevChannelOf(waiting)
		if channel.recvq.last == waiting {
			bits |= netrevForValue << (8 + 2*n)
		} else if channel.sendq.last == waiting {
			bits |= netrevForRoom << (8 + 2*n)
		}
		channels[n] = uintptr(unsafe.Pointer(channel))
		n++
	}
	return unsafe.Pointer(channels[0]), bits, int64(channels[1]), int64(channels[2])
}

// netrevGoesOn logs that a waiting goroutine continues.
func netrevGoesOn() {
	netrevOrder(netrevGoesOnKind, uint64(getg().goid), nil, 0, 0, 0)
	netrevNotes()
}

// netrevEnds logs the end of a goroutine. If the whole program ends, there is no such point.
func netrevEnds() {
	if gp := getg(); netrevOn != 0 && !isSystemGoroutine(gp, false) {
		netrevOrder(netrevEndsKind, uint64(gp.goid), nil, 0, 0, 0)
	}
}

// netrevTimer logs that a goroutine makes a timer.
func netrevTimer(c *hchan, when int64) {
	netrevOrder(netrevTimerKind, netrevGoroutine(), unsafe.Pointer(c), when, 0, 0)
}

// netrevTimerReset logs that a goroutine resets a timer with a channel, and netrevTimerStopped that a goroutine stops such a timer.
func netrevTimerReset(c *hchan, when int64) {
	if c != nil {
		netrevTimer(c, when)
	}
}

func netrevTimerStopped(c *hchan) {
	if c != nil {
		netrevOrder(netrevStoppedKind, netrevGoroutine(), unsafe.Pointer(c), 0, 0, 0)
	}
}

// Logs a goroutine's call of Add or Done on a WaitGroup.
//
//go:linkname sync_runtime_netrevGroup sync.runtime_netrevGroup
func sync_runtime_netrevGroup(group unsafe.Pointer, delta, count int64) {
	netrevOrder(netrevGroupKind, netrevGoroutine(), group, delta, count, 0)
}

// Logs that a dial of a goroutine failed; done is the channel of its context.
//
//go:linkname net_runtime_netrevUnconnected net.runtime_netrevUnconnected
func net_runtime_netrevUnconnected(done unsafe.Pointer, why, address int64) {
	netrevOrder(netrevDialFailedKind, netrevGoroutine(), done, why, address, 0)
}

// netrevMade logs that a `go` statement has started a goroutine, before it runs.
func netrevMade(gp *g) *g {
	netrevOrder(netrevReadyKind, netrevGoroutine(), nil, int64(gp.goid), 1, 0)
	return gp
}

// netrevChannel logs a point of a channel whose lock is held, or which stays closed.
func netrevChannel(kind uint64, c *hchan) {
	netrevOrder(kind, netrevGoroutine(), unsafe.Pointer(c), int64(c.qcount), int64(c.dataqsiz), 0)
}

func netrevEnded(c *hchan) bool {
	netrevChannel(netrevEndedKind, c)
	return true
}

// netrevFromSender logs a value that is received while a sender waits: from the sender, or from the buffer, which the
// sender then refills.
func netrevFromSender(c *hchan, sender *g, isUnbuffered bool) bool {
	if isUnbuffered {
		netrevOrder(netrevMetKind, netrevGoroutine(), unsafe.Pointer(c), int64(sender.goid), netrevTakes, 0)
	} else {
		netrevChannel(netrevReceivedKind, c)
		netrevOrder(netrevSentKind, uint64(sender.goid), unsafe.Pointer(c), int64(c.qcount)-1, int64(c.dataqsiz), 0)
	}
	return isUnbuffered
}

// netrevToReceiver logs a value that goes to a waiting receiver. A goroutine that sends into a buffer would have continued without the
// receiver.
func netrevToReceiver(c *hchan, receiver *g) bool {
	if c.dataqsiz == 0 {
		netrevOrder(netrevMetKind, netrevGoroutine(), unsafe.Pointer(c), int64(receiver.goid), netrevGives, 0)
	} else {
		netrevOrder(netrevHandedKind, netrevGoroutine(), unsafe.Pointer(c), int64(receiver.goid), int64(c.dataqsiz), 0)
	}
	return true
}
