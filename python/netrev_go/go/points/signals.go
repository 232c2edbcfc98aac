package main

const ofSignals = "copies of the log by SIGUSR2"

const signalling = "runtime/signal_unix.go"

// The rules for arriving signals. If NETREV_SIGNAL is usr2, SIGUSR2 makes a copy of the log.
var signals = []rule{
	ordered(signalling, "sighandler",
		one(replace, "sigsend(sig)", "netrevSignalled(sig, $0)"),
		one(beside, "sigsend(sig)", "func init() { netrevHeedsSignal() }")),
}
