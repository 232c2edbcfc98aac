//go:build go1.25

package main

import (
	"io"
	"runtime/trace"
)

// flight starts a FlightRecorder, and returns the function that ends it.
func flight(io.Writer) func() {
	recorder := trace.NewFlightRecorder(trace.FlightRecorderConfig{})
	must(recorder.Start())
	return recorder.Stop
}
