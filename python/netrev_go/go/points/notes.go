package main

const ofNotes = "what was open before the oldest point"

// The notes of open descriptors need more than the points of steps: whether a descriptor's two timers run, its tag, and where a socket
// ends. These are the rules for that.
var notes = []rule{
	{polling, "poll_runtime_pollServerInit", []variant{
		{"1.18 to 1.22", "!rrun", []edit{one(beside, "netpollGenericInit()", timersRun("pd.rt.f != nil", "pd.wt.f != nil"))}},
		{"1.23 to 1.27", "rrun", []edit{one(beside, "netpollGenericInit()", timersRun("pd.rrun", "pd.wrun"))}}}},
	{polling, "poll_runtime_isPollServerDescriptor", since121(
		[]edit{one(beside, "netpollIsPollDescriptor(fd)", tagIs("0"))},
		[]edit{one(beside, "netpollIsPollDescriptor(fd)", tagIs("int64(pd.fdseq.Load())"))})},
	{sockets, "destroy", all(
		one(before, "fd.pd.close()", "if netrevOn != 0 { runtime_netrevForgets(fd.pd.runtimeCtx) }"))},
}

func timersRun(read, write string) string {
	return "func init() { netrevRunning = func(pd *pollDesc) int64 { return netrevBit(" + read + ") + 2*netrevBit(" + write + ") } }"
}

func tagIs(found string) string {
	return "func init() { netrevTagOf = func(pd *pollDesc) int64 { return " + found + " } }"
}
