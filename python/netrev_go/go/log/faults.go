// netrev's answer to a log that can't be written any more: a truncated file, a device that fails, or pages for which no room is left.
// In an overlaid Go, these functions are appended to runtime/signal_unix.go.
//
// The kernel then sends the program SIGBUS at its next access to the mapping. That access is the recorder's own, so the
// mapping is replaced by private memory, recording ends, and the access is repeated. `netrev-go snapshot` sees what happened: only
// the last page of the mapping, which isn't used, is still the file's.

package runtime

import (
	"internal/runtime/atomic"
	"unsafe"
)

// netrevIsLost is what netrevLogEnd has if the log was lost: no point has room.
const netrevIsLost = 1

// netrevFaults repairs an access to the log or to LOG.tests, and returns whether the signal came from such an access. It runs before
// Go looks at the signal, on the signal's stack.
//
//go:nosplit
//go:nowritebarrierrec
func netrevFaults(sig uint32, info *siginfo) bool {
	const bus, segment = 7, 11
	if sig != bus && sig != segment || info.si_code <= 0 { // (another process may send such signals too)
		return false
	}
	at := uintptr(info.si_addr)
	if at-netrevBase < netrevBytes {
		atomic.Store64(&netrevLogEnd, netrevIsLost)
		return netrevReplace(netrevBase, netrevBytes, at)
	}
	return at-netrevTests < netrevTestsRoom && netrevReplace(netrevTests, netrevTestsRoom, at)
}

// netrevReplace replaces a mapping by private memory, or, if the system has no memory for all of it, the page at an address.
//
//go:nosplit
//go:nowritebarrierrec
func netrevReplace(begin, size, at uintptr) bool {
	const fixed, unreserved = 0x10, 0x4000
	flags := uintptr(netrevOwnAndEmpty | fixed | unreserved)
	_, errno := netrevSystem(netrevMmap, begin, size, netrevReadAndWrite, flags, ^uintptr(0), 0)
	if errno != 0 {
		_, errno = netrevSystem(netrevMmap, at&^(netrevPageBytes-1), netrevPageBytes, netrevReadAndWrite, flags, ^uintptr(0), 0)
	}
	return errno == 0
}

var _ unsafe.Pointer
