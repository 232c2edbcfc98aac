// This file logs netrev's points for read locks of an RWMutex. (Write locks use the Mutex in the RWMutex's first field.) In an
// overlaid Go, these functions are appended to sync/rwmutex.go.

package sync

import "unsafe"

//go:linkname netrevReadersOn runtime.netrevReadersOn
var netrevReadersOn uint32

//go:linkname runtime_netrevReads
func runtime_netrevReads(mutex unsafe.Pointer)

//go:linkname runtime_netrevHasRead
func runtime_netrevHasRead(mutex unsafe.Pointer)

var _ = [1]byte{}[unsafe.Offsetof(RWMutex{}.w)] // a writer's mutex has the address of the whole RWMutex

// netrevReads adds to the table an RWMutex that the goroutine has locked for reading.
func (rw *RWMutex) netrevReads() bool {
	if netrevReadersOn != 0 {
		runtime_netrevReads(unsafe.Pointer(rw))
	}
	return true
}

// netrevHasRead removes from the table an RWMutex that the goroutine is about to unlock.
func (rw *RWMutex) netrevHasRead() {
	if netrevReadersOn != 0 {
		runtime_netrevHasRead(unsafe.Pointer(rw))
	}
}
