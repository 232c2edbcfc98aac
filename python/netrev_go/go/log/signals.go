// netrev's copies of the log, one for each SIGUSR2, if the program's environment has NETREV_SIGNAL=usr2. In an overlaid
// Go, these functions are appended to runtime/signal_unix.go.
//
// The program may run on a machine without netrev-go. A copy is LOG.snapshot, which replaces the previous one and gets
// that name when it is complete. If no copy can be made, as on a full disk, the empty file LOG.snapshot.failed.ERROR is
// left: `netrev-go convert` reports it. A handler of the program gets the signal too; without a handler, the signal
// doesn't end the program. A copy takes a few milliseconds, in which the program has one more descriptor.

package runtime

import (
	"internal/goarch"
	"internal/runtime/atomic"
	"unsafe"
)

const (
	netrevWritingAt = 18*goarch.IsAmd64 + 68*goarch.IsArm64
	netrevRenaming  = 264*goarch.IsAmd64 + 38*goarch.IsArm64
	netrevCopied    = 1 // in the header of a copy, at netrevHeadCopied
)

var (
	netrevSignal   uint32 // the signal's number; 0 if copies weren't requested
	netrevSnapshot []byte // the name of a copy
	netrevUnready  []byte // the name of an incomplete copy
	netrevUncopied []byte // the name of the file that says why there is no copy; its last digits are the system's error
	netrevCopies   uint32 // 1 while a copy is made
)

// netrevHeedsSignal is called before the program begins, after the log has begun.
func netrevHeedsSignal() {
	const userDefined2 = 12
	if netrevOn == 0 || gogetenv("NETREV_SIGNAL") != "usr2" {
		return
	}
	own := netrevOwn[:len(netrevOwn)-1]
	netrevSnapshot = append(append([]byte{}, own...), ".snapshot\x00"...)
	netrevUnready = append(append([]byte{}, own...), ".snapshot.part\x00"...)
	netrevUncopied = append(append([]byte{}, own...), ".snapshot.failed.000\x00"...)
	netrevSignal = userDefined2
}

// netrevSignalled copies the log if this is the chosen signal. It returns whether the copy or the program handles the signal; the program
// got the signal if isSent is true.
func netrevSignalled(sig uint32, isSent bool) bool {
	if sig != netrevSignal {
		return isSent
	}
	if atomic.Cas(&netrevCopies, 0, 1) {
		netrevCopyLog()
		atomic.Store(&netrevCopies, 0)
	}
	return true
}

// netrevCopyLog copies the log. It runs on a signal's stack, so the names are prepared earlier, and nothing is allocated.
func netrevCopyLog() {
	name, part, failed := uintptr(unsafe.Pointer(&netrevSnapshot[0])), uintptr(unsafe.Pointer(&netrevUnready[0])), uintptr(unsafe.Pointer(&netrevUncopied[0]))
	netrevSystem(netrevUnlink, netrevHere, part, 0)
	netrevSystem(netrevUnlink, netrevHere, failed, 0)
	file, errno := netrevOpenFile(netrevUnready, netrevCreateAnew, 0600)
	if errno == 0 {
		if errno = netrevWriteLog(file); errno == 0 {
			_, errno = netrevSystem(netrevRenaming, netrevHere, part, netrevHere, name)
		}
		netrevSystem(netrevClosing, file)
	}
	if errno == 0 {
		return
	}
	netrevSystem(netrevUnlink, netrevHere, part, 0)
	for at, rest := len(netrevUncopied)-2, errno; at >= len(netrevUncopied)-4; at-- {
		netrevUncopied[at] = byte('0' + rest%10)
		rest /= 10
	}
	if file, errno = netrevOpenFile(netrevUncopied, netrevCreateAnew, 0600); errno == 0 {
		netrevSystem(netrevClosing, file)
	}
}

// netrevWriteLog writes the log to a file, and returns the error. The ring is written right after the header, because new
// points overwrite the oldest. The mark netrevCopied in the header says that some of the oldest points may be missing.
func netrevWriteLog(file uintptr) uintptr {
	const lost = 5 // an input or output error
	ring, points := netrevRing-netrevBase, netrevPoints
	if used := atomic.Load64(&netrevRoomed); used < points {
		points = used
	}
	mark := uint64(netrevCopied)
	if atomic.Load64(&netrevLogEnd) == netrevIsLost {
		return lost
	}
	netrevWriteHeader()
	if errno := netrevWriteAt(file, netrevBase, 0, netrevHeaderBytes); errno != 0 {
		return errno
	}
	if errno := netrevWriteAt(file, uintptr(unsafe.Pointer(&mark)), netrevHeadCopied*8, 8); errno != 0 {
		return errno
	}
	if errno := netrevWriteAt(file, netrevRing, ring, uintptr(points)*netrevPointWords*8); errno != 0 {
		return errno
	}
	return netrevWriteAt(file, netrevBase+netrevHeaderBytes, netrevHeaderBytes, ring-netrevHeaderBytes)
}

// netrevWriteAt writes a part of the memory at an offset of a file, and returns the error.
func netrevWriteAt(file, from, at, size uintptr) uintptr {
	const interrupted, noSpace = 4, 28
	for size > 0 {
		written, errno := netrevSystem(netrevWritingAt, file, from, size, at)
		if errno == interrupted {
			continue
		}
		if errno != 0 {
			return errno
		}
		if written == 0 {
			return noSpace
		}
		from, at, size = from+written, at+written, size-written
	}
	return 0
}
