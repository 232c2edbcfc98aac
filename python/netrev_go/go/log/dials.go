// This file logs netrev's points for failed dials. In an overlaid Go, these functions are appended to net/sock_posix.go.

package net

import (
	"context"
	"os"
	"syscall"
	"unsafe"
)

// Why a dial failed, if not because of a system error.
const (
	netrevOtherFailure = 0
	netrevTimedOut     = -1
	netrevCancelled    = -2
)

//go:linkname netrevDialsOn runtime.netrevOn
var netrevDialsOn uint32

//go:linkname poll_netrevAddress internal/poll.netrevAddress
func poll_netrevAddress(name syscall.Sockaddr) int64

//go:linkname runtime_netrevUnconnected
func runtime_netrevUnconnected(done unsafe.Pointer, why, address int64)

// netrevDialed returns a function that logs a failed connect to an address, and returns its argument.
func netrevDialed(ctx context.Context, to syscall.Sockaddr) func(name syscall.Sockaddr, err error) (syscall.Sockaddr, error) {
	return func(name syscall.Sockaddr, err error) (syscall.Sockaddr, error) {
		if err != nil && netrevDialsOn != 0 {
			runtime_netrevUnconnected(netrevDone(ctx), netrevWhy(err), poll_netrevAddress(to))
		}
		return name, err
	}
}

// netrevNotDialed logs a dial whose context had ended before the dial began, and returns its error.
func netrevNotDialed(ctx context.Context, err error) error {
	if netrevDialsOn != 0 {
		runtime_netrevUnconnected(netrevDone(ctx), netrevWhy(err), 0)
	}
	return err
}

// netrevDone returns the channel that is closed when a context ends, or nil if the context has no such channel.
func netrevDone(ctx context.Context) unsafe.Pointer {
	done := ctx.Done()
	return *(*unsafe.Pointer)(unsafe.Pointer(&done))
}

// netrevWhy returns the number of the system's error, or else the reason why the dial was given up.
func netrevWhy(err error) int64 {
	if call, ok := err.(*os.SyscallError); ok {
		if number, ok := call.Err.(syscall.Errno); ok {
			return int64(number)
		}
	}
	if err == errCanceled {
		return netrevCancelled
	}
	if timed, ok := err.(interface{ Timeout() bool }); ok && timed.Timeout() {
		return netrevTimedOut
	}
	return netrevOtherFailure
}
