//go:build !go1.25

package main

import (
	"io"
	"os"
)

// flight does nothing, because this Go has no FlightRecorder.
func flight(io.Writer) func() {
	os.Exit(3)
	return nil
}
