package main

const ofHolders = "which goroutines hold mutexes"

const (
	mutexes         = "sync/mutex.go"
	mutexesSince124 = "internal/sync/mutex.go"
	readWriting     = "sync/rwmutex.go"
)

var mutexFiles = []string{mutexes, mutexesSince124}

const addingReader, dropsReader = "rw.readerCount.Add(1) < 0", "rw.readerCount.Add(-1)"
const addingReaderBefore20, dropsReaderBefore20 = "atomic.AddInt32(&rw.readerCount, 1) < 0", "atomic.AddInt32(&rw.readerCount, -1)"

// The rules for locking and unlocking a mutex. A release has one of these files, with all of these functions in it.
func mutexRules(file string) []rule {
	return []rule{
		ordered(file, "Lock",
			one(replace, "atomic.CompareAndSwapInt32(&m.state, 0, mutexLocked)", "netrevMutexesOn == 0 && $0")),
		ordered(file, "lockSlow",
			one(replace, "old&(mutexLocked|mutexStarving) == 0", "$0 && m.netrevHas()"),
			one(behind, "atomic.AddInt32(&m.state, delta)", "m.netrevHas()")),
		ordered(file, "TryLock",
			one(replace, "atomic.CompareAndSwapInt32(&m.state, old, old|mutexLocked)", "($0 && m.netrevHas())")),
		ordered(file, "Unlock",
			one(replace, "atomic.AddInt32(&m.state, -mutexLocked)", "m.netrevDrops()")),
		ordered(file, "unlockSlow",
			one(before, "(new+mutexLocked)&mutexLocked == 0",
				"if netrevMutexesOn != 0 { if new = m.netrevUnlocks(); new == 0 { return } }")),
	}
}

// The rules for locking and unlocking an RWMutex for reading, and for the log's table of locked mutexes.
var readers = []rule{
	ordered(queueing, "semacquire1",
		one(beside, "semtable.rootFor(addr)", "func init() { netrevHasHolders() }")),
	{readWriting, "RLock", []variant{
		{"1.18 and 1.19", "", []edit{one(behind, addingReaderBefore20, "rw.netrevReads()")}},
		{"1.20 to 1.27", "", []edit{one(behind, addingReader, "rw.netrevReads()")}}}},
	{readWriting, "TryRLock", []variant{
		{"1.18 and 1.19", "", []edit{one(replace, "atomic.CompareAndSwapInt32(&rw.readerCount, c, c+1)", "$0 && rw.netrevReads()")}},
		{"1.20 to 1.27", "", []edit{one(replace, "rw.readerCount.CompareAndSwap(c, c+1)", "$0 && rw.netrevReads()")}}}},
	{readWriting, "RUnlock", []variant{
		{"1.18 and 1.19", "", []edit{one(before, dropsReaderBefore20, "rw.netrevHasRead()")}},
		{"1.20 to 1.27", "", []edit{one(before, dropsReader, "rw.netrevHasRead()")}}}},
}
