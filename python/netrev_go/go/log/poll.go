// netrev's points at lock words and sockets. In an overlaid Go, these functions are appended to
// internal/poll/fd_mutex.go.

package poll

import (
	"internal/race"
	"sync/atomic"
	"syscall"
	"unsafe"
)

// Kinds of points, with the numbers of a recording's steps.
const (
	netrevInitKind        = 3
	netrevReadKind        = 6
	netrevWriteKind       = 7
	netrevIncrefKind      = 9
	netrevIncrefCloseKind = 10
	netrevDecrefKind      = 11
	netrevRWLockKind      = 12
	netrevRWUnlockKind    = 13
	netrevCloseWriteKind  = 31
	netrevNamedKind       = 123 // not a step: a is the name of a connection's own end, and b the other end's
)

// The meanings of c in a netrevNamedKind, if it isn't 0.
const (
	netrevOfDatagrams = 1 // a is the address of a datagram socket, and b the one that it is connected to, or 0
	netrevGoesTo      = 2 // a is the address to which the goroutine is about to send a datagram
	netrevOfUnix      = 3 // a is the path of a connection's own end, and b the other end's, as numbers; 0 if an end has none
)

// A system call's error, as the log has it.
const (
	netrevNoError = iota
	netrevAgain
	netrevBrokenPipe
	netrevOtherError
)

// The runtime assumes that the lock word of a semaphore is 8 bytes before the readers' semaphore, and 12 before the
// writers'.
var (
	_ = [1]byte{}[unsafe.Offsetof(fdMutex{}.rsema)-8]
	_ = [1]byte{}[unsafe.Offsetof(fdMutex{}.wsema)-12]
)

//go:linkname netrevOn runtime.netrevOn
var netrevOn uint32

//go:noescape
func runtime_netrevSwap(kind uint64, word *uint64, old, new uint64, bits int64) bool

//go:noescape
func runtime_netrevClosed(kind uint64, word *uint64, bits int64)

//go:noescape
func runtime_netrevPoint(kind uint64, word *uint64, a, b, c int64)

func runtime_netrevDelay(kind uint64)

//go:noescape
func runtime_netrevKnows(descriptor uintptr, word *uint64)

func runtime_netrevForgets(descriptor uintptr)

func runtime_netrevIsCalled(descriptor uintptr, a, b, c int64)

func runtime_netrevIsShut(descriptor uintptr)

//go:noescape
func runtime_netrevSetsDeadline(descriptor uintptr, word *uint64, d int64, mode int) bool

//go:noescape
func runtime_netrevAcquire(sema *uint32, read bool)

//go:noescape
func runtime_netrevRelease(sema *uint32, read bool)

func netrevBit(b bool) int64 {
	if b {
		return 1
	}
	return 0
}

// netrevSwap swaps a lock word if a log exists; answer is what Go's function will return in that case.
func netrevSwap(kind uint64, mu *fdMutex, old, new uint64, answer, read bool) bool {
	runtime_netrevDelay(kind)
	netrevSeenByRace(mu)
	done := runtime_netrevSwap(kind, &mu.state, old, new, netrevBit(read)+2*netrevBit(answer))
	netrevSeenByRace(mu)
	return done
}

// netrevSeenByRace reports a swap to the race detector, which doesn't see the swap because the runtime makes it.
func netrevSeenByRace(mu *fdMutex) {
	if race.Enabled {
		atomic.AddUint64(&mu.state, 0)
	}
}

// netrevClosed logs a lock word that was found closed.
func netrevClosed(kind uint64, mu *fdMutex, read bool) bool {
	runtime_netrevClosed(kind, &mu.state, netrevBit(read))
	return true
}

func netrevAcquire(sema *uint32, read bool) {
	if netrevOn == 0 {
		runtime_Semacquire(sema)
		return
	}
	runtime_netrevAcquire(sema, read)
}

func netrevRelease(sema *uint32, read bool) {
	if netrevOn == 0 {
		runtime_Semrelease(sema)
		return
	}
	runtime_netrevRelease(sema, read)
}

// netrevSetsDeadline sets a deadline and logs a single point, although the call takes a reference to the socket and drops it again.
// It returns whether it set the deadline.
func netrevSetsDeadline(fd *FD, d int64, mode int) bool {
	if fd.pd.runtimeCtx == 0 {
		return false
	}
	netrevSeenByRace(&fd.fdmu)
	done := runtime_netrevSetsDeadline(fd.pd.runtimeCtx, &fd.fdmu.state, d, mode)
	netrevSeenByRace(&fd.fdmu)
	return done
}

// netrevInit logs that a descriptor is about to be opened in the poller.
func netrevInit(fd *FD) *FD {
	if netrevOn != 0 {
		netrevIsNamed(fd.Sysfd, false)
		runtime_netrevPoint(netrevInitKind, &fd.fdmu.state, int64(fd.Sysfd), 0, 0)
	}
	return fd
}

// netrevOpened records that a descriptor was opened in the poller, unless the opening failed with err.
func netrevOpened(fd *FD, err error) error {
	if netrevOn != 0 && err == nil {
		runtime_netrevKnows(fd.pd.runtimeCtx, &fd.fdmu.state)
		if !netrevEnds(fd) { // it isn't connected yet
			netrevIsNamed(fd.Sysfd, false)
		}
		if !fd.IsStream {
			netrevDatagrams(fd)
		}
	}
	return err
}

// netrevIsCalled logs a socket's names, which are known at this point.
func netrevIsCalled(fd *FD, a, b, c int64) {
	runtime_netrevPoint(netrevNamedKind, &fd.fdmu.state, a, b, c)
	runtime_netrevIsCalled(fd.pd.runtimeCtx, a, b, c)
}

// netrevDatagrams logs the addresses of a datagram socket, whose own address is set by now.
func netrevDatagrams(fd *FD) {
	own, err := syscall.Getsockname(fd.Sysfd)
	if err != nil || netrevAddress(own) == 0 {
		return
	}
	connected := int64(0)
	if other, err := syscall.Getpeername(fd.Sysfd); err == nil {
		connected = netrevAddress(other)
	}
	netrevIsCalled(fd, netrevAddress(own), connected, netrevOfDatagrams)
}

// netrevSends logs that a datagram is about to be sent to an address.
func netrevSends(fd *FD, to syscall.Sockaddr) {
	if address := netrevAddress(to); address != 0 {
		runtime_netrevPoint(netrevNamedKind, &fd.fdmu.state, address, 0, netrevGoesTo)
	}
}

// netrevAddress packs an address and its port: for IPv4 the number 1, the address and the port; for IPv6 the number 2,
// a 40-bit hash of the address, and the port; the number is 3 for the address ::1, and 4 for ::. It returns 0 for other
// addresses.
//
//go:linkname netrevAddress
func netrevAddress(name syscall.Sockaddr) int64 {
	switch end := name.(type) {
	case *syscall.SockaddrInet4:
		if end != nil {
			return netrevPacked(1, end.Addr[:], end.Port)
		}
	case *syscall.SockaddrInet6:
		if end == nil {
			return 0
		}
		switch string(end.Addr[:12]) {
		case "\x00\x00\x00\x00\x00\x00\x00\x00\x00\x00\xff\xff":
			return netrevPacked(1, end.Addr[12:], end.Port)
		case "\x00\x00\x00\x00\x00\x00\x00\x00\x00\x00\x00\x00":
			if last := string(end.Addr[12:]); last == "\x00\x00\x00\x01" {
				return netrevPacked(3, nil, end.Port)
			} else if last == "\x00\x00\x00\x00" {
				return netrevPacked(4, nil, end.Port)
			}
		}
		hash := uint64(netrevEnd(name))
		return netrevPacked(2, []byte{byte(hash >> 8), byte(hash >> 16), byte(hash >> 24), byte(hash >> 32), byte(hash >> 40)}, end.Port)
	}
	return 0
}

func netrevPacked(sort uint64, address []byte, port int) int64 {
	packed := uint64(0)
	for _, digits := range address {
		packed = packed<<8 | uint64(digits)
	}
	return int64(sort<<56 | packed<<16 | uint64(port))
}

// netrevNamed has a bit for each system descriptor: whether its ends were looked up since it was opened.
var netrevNamed [2048]uint32

// netrevIsNamed sets a descriptor's bit to this value, and returns whether the bit had that value before; it returns true for a
// descriptor without a bit.
func netrevIsNamed(sysfd int, named bool) bool {
	if uint(sysfd) >= uint(len(netrevNamed)*32) {
		return true
	}
	word, bit := &netrevNamed[sysfd/32], uint32(1)<<(uint(sysfd)%32)
	for {
		old := atomic.LoadUint32(word)
		if old&bit != 0 == named {
			return true
		}
		if atomic.CompareAndSwapUint32(word, old, old^bit) {
			return false
		}
	}
}

// netrevEnds logs the names of a connection's two ends, once. The names show which two sockets of a process are the ends of one
// connection. It returns false if the socket isn't connected yet.
func netrevEnds(fd *FD) bool {
	if !fd.IsStream || netrevIsNamed(fd.Sysfd, true) {
		return true
	}
	other, err := syscall.Getpeername(fd.Sysfd)
	if err != nil {
		return false
	}
	own, err := syscall.Getsockname(fd.Sysfd)
	if err == nil && netrevEnd(own) != 0 && netrevEnd(other) != 0 {
		netrevIsCalled(fd, netrevEnd(own), netrevEnd(other), 0)
	} else if err == nil && netrevPath(own) != netrevPath(other) {
		netrevIsCalled(fd, netrevPath(own), netrevPath(other), netrevOfUnix)
	}
	return true
}

// netrevPath returns a number for the path of a Unix socket, or 0 for a socket without a path.
func netrevPath(name syscall.Sockaddr) int64 {
	end, isUnix := name.(*syscall.SockaddrUnix)
	if !isUnix || end == nil || end.Name == "" || end.Name == "@" {
		return 0
	}
	return netrevHash(0, []byte(end.Name))
}

// netrevEnd returns a number for an address and its port, or 0 for other addresses. Both forms of an IPv4 address have the same number.
func netrevEnd(name syscall.Sockaddr) int64 {
	var address []byte
	var port int
	switch end := name.(type) {
	case *syscall.SockaddrInet4:
		address, port = end.Addr[:], end.Port
	case *syscall.SockaddrInet6:
		address, port = end.Addr[:], end.Port
		if string(address[:12]) == "\x00\x00\x00\x00\x00\x00\x00\x00\x00\x00\xff\xff" {
			address = address[12:]
		}
	default:
		return 0
	}
	return netrevHash(port, address)
}

// netrevHash returns a number other than 0 for a number and bytes.
func netrevHash(first int, bytes []byte) int64 {
	hash := (uint64(14695981039346656037) ^ uint64(first)) * 1099511628211
	for _, digits := range bytes {
		hash = (hash ^ uint64(digits)) * 1099511628211
	}
	return int64(hash | 1)
}

// netrevBytes logs the result of a system call that moves bytes. An accepted connection counts as one byte that was
// read. So does an empty message, which would otherwise mean the end. An error without a step is logged as its negative
// number in place of the bytes.
func netrevBytes(kind uint64, fd *FD, asked, got int, err error) {
	netrevEnds(fd)
	seen := int64(netrevOtherError)
	switch err {
	case nil:
		seen = netrevNoError
		if got == 0 && !fd.ZeroReadIsEOF {
			got = 1
		}
	case syscall.EAGAIN:
		seen, got = netrevAgain, 0
	case syscall.EPIPE:
		seen, got = netrevBrokenPipe, 0
	default:
		got = 0
		if number, isNumber := err.(syscall.Errno); isNumber {
			got = -int(number)
		}
	}
	runtime_netrevPoint(kind, &fd.fdmu.state, int64(asked), int64(got), seen)
	runtime_netrevDelay(kind)
}

// netrevShutdown shuts a side of a socket; shutting the write side is a step.
func (fd *FD) netrevShutdown(sysfd, how int) error {
	err := syscall.Shutdown(sysfd, how)
	if netrevOn != 0 && err == nil && how != syscall.SHUT_RD {
		runtime_netrevIsShut(fd.pd.runtimeCtx)
		runtime_netrevPoint(netrevCloseWriteKind, &fd.fdmu.state, 0, 0, 0)
	}
	return err
}
