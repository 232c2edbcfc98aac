// This file logs netrev's points for tests: which test runs, ends, fails or is skipped. In an overlaid Go, these functions are appended
// to testing/testing.go. Each is a line of LOG.tests; the log itself has no points for them.

package testing

import (
	"os"
	"runtime"
	"strconv"
	"strings"
	"unsafe"
)

var _ unsafe.Pointer // go:linkname needs the import

//go:linkname netrevOn runtime.netrevOn
var netrevOn uint32

//go:linkname runtime_netrevTest runtime.netrevTest
func runtime_netrevTest(what, name string)

// netrevPackage writes the package's line, with the program's name if Go gives no path.
func netrevPackage(path string) {
	if path == "" {
		path = strings.TrimSuffix(os.Args[0][strings.LastIndex(os.Args[0], "/")+1:], ".test")
	}
	runtime_netrevTest("package", path)
}

// netrevTested writes a line about a test. The test that runs all other tests has no name.
func netrevTested(what, name string) {
	if name != "" {
		runtime_netrevTest(what, name)
	}
}

// netrevFailed writes that a test failed, and at which line: the innermost line of a test file, or else the first line outside package
// testing.
func netrevFailed(name string) {
	if name == "" || netrevOn == 0 {
		return
	}
	var callers [32]uintptr
	frames := runtime.CallersFrames(callers[:runtime.Callers(2, callers[:])])
	place := ""
	for more, isTest := true, false; more && !isTest; {
		var frame runtime.Frame
		frame, more = frames.Next()
		isTest = strings.HasSuffix(frame.File, "_test.go")
		if isTest || place == "" && !strings.HasPrefix(frame.Function, "testing.") {
			place = frame.File + ":" + strconv.Itoa(frame.Line)
		}
	}
	runtime_netrevTest("fails", name+"\t"+place)
}
