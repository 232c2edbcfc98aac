// This file logs netrev's points for a Mutex. In an overlaid Go, these functions are appended to Go's mutex.go. If there is a log, all
// calls take Go's slow paths, which have the points, so that the fast paths are inlined as before. None of these
// functions is on the stack of a goroutine that waits.

package sync

import (
	"sync/atomic"
	"unsafe"
)

//go:linkname netrevMutexesOn runtime.netrevMutexesOn
var netrevMutexesOn uint32

//go:linkname runtime_netrevLocked
func runtime_netrevLocked(mutex unsafe.Pointer)

//go:linkname runtime_netrevUnlocks
func runtime_netrevUnlocks(mutex unsafe.Pointer)

// netrevHas adds a mutex that the goroutine has locked to the table.
func (m *Mutex) netrevHas() bool {
	if netrevMutexesOn != 0 {
		runtime_netrevLocked(unsafe.Pointer(m))
	}
	return true
}

// netrevDrops clears the lock bit, as Unlock does, and returns the new state. If there is a log, it returns -1, which
// is never a mutex's state, and netrevUnlocks clears the bit.
func (m *Mutex) netrevDrops() int32 {
	if netrevMutexesOn != 0 {
		return -1
	}
	return atomic.AddInt32(&m.state, -mutexLocked)
}

// netrevUnlocks removes a mutex from the table, clears its lock bit, and returns the new state.
func (m *Mutex) netrevUnlocks() int32 {
	runtime_netrevUnlocks(unsafe.Pointer(m))
	return atomic.AddInt32(&m.state, -mutexLocked)
}
