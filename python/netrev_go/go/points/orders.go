package main

const ofOrders = "the program's orders"

// The points at which the program itself puts goroutines in order. If one of these rules doesn't fit, all are left out.
var orders = []rule{
	ordered(making, "goready",
		one(replace, "ready(gp, traceskip, true)", "ready(gp, netrevReadied(gp, traceskip), true)")),
	ordered(making, "gopark",
		one(before, "acquirem()", "netrevParked := netrevParks(reason, lock)"),
		one(behind, "mcall(park_m)", "if netrevParked { netrevGoesOn() }")),
	ordered(making, "newproc",
		one(replace, "newproc1(...)", "netrevMade($0)")),
	ordered(polling, "netpollgoready",
		one(replace, "goready(...)", "goready($1, $2+netrevSema)")),
	ordered(queueing, "semrelease1",
		one(replace, "readyWithTime(...)", "readyWithTime($1, $2+netrev)")),
	ordered(channels, "chansend",
		one(before, "chanbuf(c, c.sendx)", "netrevChannel(netrevSentKind, c)")),
	ordered(channels, "chanrecv",
		one(before, "chanbuf(c, c.recvx)", "netrevChannel(netrevReceivedKind, c)"),
		one(replace, "c.qcount == 0", "$0 && netrevEnded(c)"),
		edit{replace, "empty(c)", 2, []string{"", "$0 && netrevEnded(c)"}}),
	rule{channels, "send", []variant{
		{"1.18 to 1.25", "", []edit{one(replace, "sg.elem != nil", "netrevToReceiver(c, sg.g) && $0"), readied}},
		{"1.26 and 1.27", "", []edit{one(replace, "sg.elem.get() != nil", "netrevToReceiver(c, sg.g) && $0"), readied}}}},
	ordered(channels, "recv",
		one(replace, "c.dataqsiz == 0", "netrevFromSender(c, sg.g, $0)"),
		one(replace, "goready(gp, skip+1)", "goready(gp, netrevMetSkip(c, skip+1))")),
	ordered(channels, "closechan",
		one(behind, "lock(&c.lock)", "netrevChannel(netrevClosedKind, c)")),
	ordered(selecting, "selectgo",
		edit{replace, "c.closed != 0", 2, []string{"$0 && netrevEnded(c)", ""}},
		one(before, "chanbuf(c, c.recvx)", "netrevChannel(netrevReceivedKind, c)"),
		one(before, "chanbuf(c, c.sendx)", "netrevChannel(netrevSentKind, c)")),
}

// The point for a value handed to a waiting goroutine also says that the goroutine becomes ready, so goready logs none.
var readied = one(replace, "goready(gp, skip+1)", "goready(gp, skip+1+netrevSema)")

func ordered(file, function string, edits ...edit) rule {
	return rule{file, function, all(edits...)}
}
