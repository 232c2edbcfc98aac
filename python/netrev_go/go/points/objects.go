package main

const (
	ofObjects = "the objects at which goroutines wait"
	ofEnds    = "the ends of goroutines"
	ofSleeps  = "until when goroutines sleep"
	ofTimers  = "timers"
	ofStops   = "that timers are stopped or set anew"
	ofGroups  = "what is added to WaitGroups"
	ofMaking  = "where channels are made"
	ofDials   = "dials that fail"
)

// The rules that find the channel, mutex, WaitGroup or condition on which a goroutine waits: gopark gets the object's
// address, or the address of its lock. If one of these rules doesn't fit, all are left out.
var objects = []rule{
	ordered(channels, "chansend",
		one(replace, "gopark(chanparkcommit, unsafe.Pointer(&c.lock), ...)", "")),
	ordered(channels, "chanrecv",
		one(replace, "gopark(chanparkcommit, unsafe.Pointer(&c.lock), ...)", "")),
	ordered(queueing, "notifyListWait",
		one(replace, "goparkunlock(&l.lock, ...)", "")),
	ordered(queueing, "semacquire1",
		one(replace, "semtable.rootFor(addr)", ""),
		one(replace, "goparkunlock(&root.lock, ...)", "gopark(netrevUnlockSema, unsafe.Pointer(addr), $2, $3, $4-1)"),
		one(beside, "semtable.rootFor(addr)", "func netrevUnlockSema(_ *g, addr unsafe.Pointer) bool { unlock(&semtable.rootFor((*uint32)(addr)).lock); return true }")),
	rule{channels, "send", []variant{
		{"1.18 to 1.25", "", []edit{one(beside, "sg.elem != nil", channelIs("waiting.c"))}},
		{"1.26 and 1.27", "", []edit{one(beside, "sg.elem.get() != nil", channelIs("waiting.c.get()"))}}}},
}

// channelIs returns the code that finds the channel on which a goroutine is queued.
func channelIs(found string) string {
	return "func init() { netrevChannelOf = func(waiting *sudog) *hchan { return " + found + " } }"
}

var ends = []rule{
	ordered(making, "goexit1",
		one(before, "mcall(goexit0)", "netrevEnds()")),
}

const timing = "runtime/time.go"

var sleeps = []rule{
	{timing, "timeSleep", []variant{
		{"1.18 to 1.22", "!sleepWhen", []edit{one(beside, "nanotime()", sleepsUntil("gp.timer.nextwhen"))}},
		{"1.23 to 1.27", "sleepWhen", []edit{one(beside, "nanotime()", sleepsUntil("gp.sleepWhen"))}}}},
}

// The timers that programs make, with their channels: a release has one of these functions. A timer that sends has its
// channel as an argument; from 1.23 on the runtime itself knows that channel, unless asynctimerchan=1 is set, as in
// modules of Go 1.22 and older.
var timers = []rule{
	{timing, "startTimer", []variant{{"1.18 to 1.22", "!sleepWhen", []edit{
		one(before, "addtimer(t)", "if netrevOn != 0 { netrevTimer(netrevTimed(t), t.when) }"),
		one(beside, "addtimer(t)", "func netrevTimed(t *timer) *hchan { "+sends("t.f", "t.arg")+"; return nil }")}}}},
	{timing, "newTimer", []variant{{"1.23 to 1.27", "sleepWhen", []edit{
		one(before, "t.modify(when, period, f, arg, 0)", "if netrevOn != 0 { netrevTimer(netrevTimed(c, f, arg), when) }"),
		one(beside, "t.modify(when, period, f, arg, 0)", "func netrevTimed(c *hchan, f func(any, uintptr, int64), arg any) *hchan { "+
			"if c != nil { return c }; "+sends("f", "arg")+"; return nil }")}}}},
}

// The places where a program stops or resets a timer that has a channel.
var stops = []rule{
	{timing, "stopTimer", []variant{
		{"1.18 to 1.22", "!sleepWhen", []edit{one(before, "deltimer(t)", stopped("netrevTimed(t)"))}},
		{"1.23 to 1.27", "sleepWhen", []edit{one(before, "t.stop()", stopped("netrevTimed(nil, t.f, t.arg)"))}}}},
	{timing, "resetTimer", []variant{
		{"1.18 to 1.22", "!sleepWhen", []edit{one(before, "resettimer(t, when)", reset("netrevTimed(t)"))}},
		{"1.23 to 1.27", "sleepWhen", []edit{one(before, "t.reset(when, period)", reset("netrevTimed(nil, t.f, t.arg)"))}}}},
	{timing, "modTimer", []variant{
		{"1.18 to 1.22", "!sleepWhen", []edit{one(before, "modtimer(t, when, period, f, arg, seq)", reset("netrevTimed(t)"))}}}},
}

func stopped(channel string) string {
	return "if netrevOn != 0 { netrevTimerStopped(" + channel + ") }"
}

func reset(channel string) string {
	return "if netrevOn != 0 { netrevTimerReset(" + channel + ", when) }"
}

// What goroutines add to a WaitGroup, and its counter afterwards. Done adds -1.
var groups = []rule{
	ordered(grouping, "Add",
		one(before, "int32(state >> 32)", "if netrevOn != 0 { runtime_netrevGroup(unsafe.Pointer(wg), int64(delta), int64(int32(state>>32))) }")),
}

// The places where a channel is made: earlier points at its address are about an older channel.
var makings = []rule{
	ordered(channels, "makechan",
		one(behind, "lockInit(&c.lock, lockRankHchan)", "netrevChannel(netrevMakesKind, c)")),
}

const connecting, dialing = "net/sock_posix.go", "net/dial.go"

// Dials that fail. If the system reports a failure at once, the socket is never opened in the poller; if the context
// has ended, no socket is made.
var dials = []rule{
	ordered(connecting, "dial",
		one(replace, "fd.connect(...)", "netrevDialed(ctx, $3)($0)")),
	ordered(dialing, "dialSerial",
		one(replace, "mapErr(ctx.Err())", "netrevNotDialed(ctx, $0)")),
}

// sends returns the code for a timer's channel, if the timer calls a function that sends to it.
func sends(function, argument string) string {
	return "if funcname(findfunc(**(**uintptr)(unsafe.Pointer(&" + function + ")))) == \"time.sendTime\" " +
		"{ return (*hchan)(efaceOf(&" + argument + ").data) }"
}

// sleepsUntil returns the code for the time until which a goroutine sleeps.
func sleepsUntil(found string) string {
	return "func init() { netrevSleepsUntil = func(gp *g) int64 { return " + found + " } }"
}
