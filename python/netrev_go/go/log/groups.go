// This file has netrev's point at a WaitGroup's counter. In an overlaid Go, these functions are appended to sync/waitgroup.go.

package sync

import "unsafe"

//go:linkname netrevOn runtime.netrevOn
var netrevOn uint32

//go:noescape
func runtime_netrevGroup(group unsafe.Pointer, delta, count int64)
