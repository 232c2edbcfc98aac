// netrev's files: the log, which is mapped, and the files beside it. In an overlaid Go, these functions are appended to
// runtime/netpoll.go.
//
// The log only receives. Whatever decides what the program does is in memory of its own, so that nobody who writes into
// the log can change the program. faults.go handles a log that can't be written any more.

package runtime

import (
	"internal/goarch"
	"internal/runtime/atomic"
	syscall "internal/runtime/syscall/linux"
	"unsafe"
)

// System calls by their numbers, because the runtime's own functions for them have moved from release to release. The calls for arm64
// were compiled, but have never run.
const (
	netrevOpening   = 257*goarch.IsAmd64 + 56*goarch.IsArm64
	netrevClosing   = 3*goarch.IsAmd64 + 57*goarch.IsArm64
	netrevFstat     = 5*goarch.IsAmd64 + 80*goarch.IsArm64
	netrevFstatfs   = 138*goarch.IsAmd64 + 44*goarch.IsArm64
	netrevMmap      = 9*goarch.IsAmd64 + 222*goarch.IsArm64
	netrevMunmap    = 11*goarch.IsAmd64 + 215*goarch.IsArm64
	netrevMadvise   = 28*goarch.IsAmd64 + 233*goarch.IsArm64
	netrevGetpid    = 39*goarch.IsAmd64 + 172*goarch.IsArm64
	netrevGetuid    = 102*goarch.IsAmd64 + 174*goarch.IsArm64
	netrevGeteuid   = 107*goarch.IsAmd64 + 175*goarch.IsArm64
	netrevGetgid    = 104*goarch.IsAmd64 + 176*goarch.IsArm64
	netrevGetegid   = 108*goarch.IsAmd64 + 177*goarch.IsArm64
	netrevSendfile  = 40*goarch.IsAmd64 + 71*goarch.IsArm64
	netrevTruncate  = 77*goarch.IsAmd64 + 46*goarch.IsArm64
	netrevFutex     = 202*goarch.IsAmd64 + 98*goarch.IsArm64
	netrevUnlink    = 263*goarch.IsAmd64 + 35*goarch.IsArm64
	netrevFallocate = 285*goarch.IsAmd64 + 47*goarch.IsArm64
	netrevPrlimit   = 302*goarch.IsAmd64 + 261*goarch.IsArm64
	netrevMemory    = 319*goarch.IsAmd64 + 279*goarch.IsArm64 // memfd_create
)

const (
	netrevHere         = ^uintptr(99) // the process's current folder
	netrevCreateAnew   = 0x2 | 0x40 | 0x80 | netrevCloseOnExec
	netrevCloseOnExec  = 0x80000
	netrevNoLink       = 0x20000*goarch.IsAmd64 + 0x8000*goarch.IsArm64
	netrevFolder       = 0x10000*goarch.IsAmd64 + 0x4000*goarch.IsArm64
	netrevAlreadyThere = 17
	netrevTooLarge     = 27
	netrevPageBytes    = 4096
	netrevReadAndWrite = 3
	netrevOwnAndEmpty  = 0x22 // a private mapping of no file
	netrevMostNames    = 1000 // logs of one process
	netrevMostPoints   = 1 << 24
	netrevUsualPoints  = 1 << 20
	netrevUnreadable   = ^uint64(0) // instead of a number that isn't one
)

var (
	netrevOwn       []byte  // the log's name
	netrevBytes     uintptr // the length of the log's mapping without its last page, which is never used
	netrevBegun     uint64  // netrevMagic once the header is complete
	netrevProcess   uint64
	netrevAsked     uint64       // how many points were asked for, if the ring has another number of points
	netrevNamespace uint64       // the inode of the process's PID namespace
	netrevExecuted  netrevStatus // of the program's file
)

// A netrevStatus is what fstat returns.
type netrevStatus [24]uint64

func (s *netrevStatus) inode() uint64   { return s[1] }
func (s *netrevStatus) size() uintptr   { return uintptr(s[6]) }
func (s *netrevStatus) seconds() uint64 { return s[11] } // when the file was changed
func (s *netrevStatus) changed() uint64 { return s[11]*1000000000 + s[12] }

// isOwnFile returns whether this is a regular file of the process's own user.
func (s *netrevStatus) isOwnFile() bool {
	const kind, regular = 0xf000, 0x8000
	words := (*[48]uint32)(unsafe.Pointer(s))
	mode, owner := words[6*goarch.IsAmd64+4*goarch.IsArm64], words[7*goarch.IsAmd64+6*goarch.IsArm64]
	user, _ := netrevSystem(netrevGeteuid)
	return mode&kind == regular && uintptr(owner) == user
}

// netrevDigits appends a number to a text.
func netrevDigits(text []byte, number uint64) []byte {
	var digits [20]byte
	at := len(digits)
	for first := true; first || number > 0; first = false {
		at--
		digits[at] = byte('0' + number%10)
		number /= 10
	}
	return append(text, digits[at:]...)
}

// netrevName returns a name with numbers appended, terminated by a zero byte as the kernel expects.
func netrevName(path string, numbers ...uint64) []byte {
	name := []byte(path)
	for _, number := range numbers {
		name = netrevDigits(append(name, '.'), number)
	}
	return append(name, 0)
}

// netrevNumber parses a number of at most 18 digits; it returns netrevUnreadable if the text isn't one.
func netrevNumber(text string) uint64 {
	number := uint64(0)
	for i := 0; i < len(text); i++ {
		if text[i] < '0' || text[i] > '9' || i == 18 {
			return netrevUnreadable
		}
		number = number*10 + uint64(text[i]-'0')
	}
	if text == "" {
		return netrevUnreadable
	}
	return number
}

// netrevNumberIn returns the number in an environment variable, or another number if the variable has none.
func netrevNumberIn(variable string, otherwise uint64) uint64 {
	if number := netrevNumber(gogetenv(variable)); number != netrevUnreadable {
		return number
	}
	return otherwise
}

// netrevSystem makes a system call, and returns its result and error. The stack doesn't grow meanwhile, so nothing on
// it moves.
//
//go:nosplit
func netrevSystem(number uintptr, arguments ...uintptr) (uintptr, uintptr) {
	var a [6]uintptr
	copy(a[:], arguments)
	result, _, errno := syscall.Syscall6(number, a[0], a[1], a[2], a[3], a[4], a[5])
	return result, errno
}

//go:nosplit
func netrevOpenFile(name []byte, flags, mode uintptr) (file, errno uintptr) {
	return netrevOpenIn(netrevHere, name, flags, mode)
}

//go:nosplit
func netrevOpenIn(folder uintptr, name []byte, flags, mode uintptr) (file, errno uintptr) {
	return netrevSystem(netrevOpening, folder, uintptr(unsafe.Pointer(&name[0])), flags, mode)
}

// netrevStatusOf returns what fstat says of a file; the inode is 0 if that isn't known.
func netrevStatusOf(file uintptr) (status netrevStatus) {
	netrevSystem(netrevFstat, file, uintptr(unsafe.Pointer(&status)))
	return status
}

// netrevShared sets a file's size and maps it, with this many further bytes; the mapping writes through to the file,
// which may be closed.
func netrevShared(file, size, further uintptr) (base, errno uintptr) {
	const shared = 1
	if _, errno = netrevSystem(netrevTruncate, file, size); errno != 0 {
		return 0, errno
	}
	return netrevSystem(netrevMmap, 0, size+further, netrevReadAndWrite, shared, file, 0)
}

// netrevReserve reserves room for the first bytes of an open file, and returns the error of a full disk or quota. If a
// file system can't reserve room, netrevReserve assumes that it has room.
func netrevReserve(file, size uintptr) uintptr {
	const noSpace, quota = 28, 122
	if _, errno := netrevSystem(netrevFallocate, file, 0, 0, size); errno == noSpace || errno == quota {
		return errno
	}
	return 0
}

// netrevHasRoom reserves room for a part of a mapping, and returns whether it succeeded. The kernel writes there
// first: if there is no room, it returns an error, and the program gets no SIGBUS, as it would from its own
// write. This needs no descriptor. Before Linux 5.14 no single call reserves all pages, so there the kernel adds 0 to a word of each
// page.
func netrevHasRoom(begin, size uintptr) bool {
	const populateWrite, wakeOp, private, add, fault = 23, 5, 128, 1 << 28, 14
	page := begin &^ (netrevPageBytes - 1)
	if _, errno := netrevSystem(netrevMadvise, page, begin+size-page, populateWrite); errno == 0 {
		return true
	}
	for ; page < begin+size; page += netrevPageBytes {
		if _, errno := netrevSystem(netrevFutex, page, wakeOp|private, 0, 0, page, add); errno == fault {
			return false
		}
	}
	return true
}

// netrevLargest returns how many bytes a file of this process may have (ulimit -f). Writing a longer one would raise
// SIGXFSZ.
func netrevLargest() uintptr {
	const fileSize = 1
	limits := [2]uint64{^uint64(0), 0}
	netrevSystem(netrevPrlimit, 0, fileSize, 0, uintptr(unsafe.Pointer(&limits)))
	return uintptr(limits[0])
}

// netrevHalfOfRoom returns half of the bytes that a file's file system has free: the other half is the program's.
func netrevHalfOfRoom(file uintptr) uintptr {
	const blockBytes, blocks, available = 1, 2, 4
	var status [16]uint64
	if _, errno := netrevSystem(netrevFstatfs, file, uintptr(unsafe.Pointer(&status))); errno != 0 || status[blocks] == 0 {
		return ^uintptr(0) // a file system without a limit, or one that doesn't say
	}
	return uintptr(status[available] * status[blockBytes] / 2)
}

// The log begins before any code of the program runs.
func init() {
	path := gogetenv("NETREV_LOG")
	if path == "" {
		return
	}
	if netrevIsSecure() {
		netrevMark([]byte("netrev-secure\x00"))
		return
	}
	executed, _ := netrevOpenFile([]byte("/proc/self/exe\x00"), netrevCloseOnExec, 0)
	netrevExecuted, netrevNamespace = netrevStatusOf(executed), netrevNamespaceOf()
	process, _ := netrevSystem(netrevGetpid)
	netrevRemoveEarlier(path, uint64(process))
	errno := netrevCreate(path, uint64(process))
	if errno == 0 {
		netrevKeepProgram(path, executed)
	} else {
		netrevUnrecorded(path, uint64(process), uint64(errno))
		netrevMark(netrevName("netrev-unwritten", uint64(errno)))
	}
	netrevSystem(netrevClosing, executed)
	if errno != 0 {
		return
	}
	netrevKeepRows()
	netrevLines = gogetenv("NETREV_LINES") != "0"
	netrevOrders = gogetenv("NETREV_ORDERS") != "0"
	netrevSeed = netrevNumberIn("NETREV_DELAYS", 0)
	atomic.Store(&netrevOn, 1)
}

// netrevCreate makes the log and maps it. A process that executes further programs has several logs, and so has a
// process number that is used again, as in a container.
func netrevCreate(path string, process uint64) uintptr {
	netrevOwn = netrevName(path, process)
	file, errno := netrevOpenFile(netrevOwn, netrevCreateAnew, 0600)
	for again := uint64(2); errno == netrevAlreadyThere && again < netrevMostNames; again++ {
		netrevOwn = netrevName(path, process, again)
		file, errno = netrevOpenFile(netrevOwn, netrevCreateAnew, 0600)
	}
	if errno != 0 {
		return errno
	}
	if errno = netrevMap(file, process); errno != 0 {
		netrevSystem(netrevUnlink, netrevHere, uintptr(unsafe.Pointer(&netrevOwn[0])), 0)
	}
	netrevSystem(netrevClosing, file)
	return errno
}

// netrevIsSecure returns whether the program has rights that its caller lacks, as a set-user-ID program does: then its
// caller's environment mustn't make it write files. Go's runtime knows it since 1.20 only. The auxiliary vector follows the
// environment, which follows the arguments; a library doesn't know these.
func netrevIsSecure() bool {
	const isSecure = 23
	user, _ := netrevSystem(netrevGetuid)
	effective, _ := netrevSystem(netrevGeteuid)
	group, _ := netrevSystem(netrevGetgid)
	effectiveGroup, _ := netrevSystem(netrevGetegid)
	if user != effective || group != effectiveGroup {
		return true
	}
	if islibrary || isarchive || argv == nil {
		return false
	}
	at := argc + 1
	for argv_index(argv, at) != nil {
		at++
	}
	words := (*[1 << 20]uintptr)(add(unsafe.Pointer(argv), uintptr(at+1)*goarch.PtrSize))
	for pair := 0; words[pair] != 0; pair += 2 {
		if words[pair] == isSecure {
			return words[pair+1] != 0
		}
	}
	return false
}

// netrevNamespaceOf returns the inode of the process's PID namespace, or 0 if it isn't known.
func netrevNamespaceOf() uint64 {
	file, errno := netrevOpenFile([]byte("/proc/self/ns/pid\x00"), netrevCloseOnExec, 0)
	if errno != 0 {
		return 0
	}
	status := netrevStatusOf(file)
	netrevSystem(netrevClosing, file)
	return status.inode()
}

// netrevMark leaves a name in the list of the process's mappings, which `netrev-go snapshot` reads. It needs no folder and no
// room on a disk.
func netrevMark(name []byte) {
	const closeOnExec, onlyRead, shared = 1, 1, 1
	if file, errno := netrevSystem(netrevMemory, uintptr(unsafe.Pointer(&name[0])), closeOnExec); errno == 0 {
		netrevSystem(netrevMmap, 0, netrevPageBytes, onlyRead, shared, file, 0)
		netrevSystem(netrevClosing, file)
	}
}

// netrevUnrecorded leaves the empty file PATH.unrecorded/process.PROCESS.ERROR, which tells netrev-go about a process
// that can't write a log. Without that folder it leaves nothing. It prints nothing, because standard error belongs to the program, and
// another program may read it.
func netrevUnrecorded(path string, process, why uint64) {
	const onlyPath = 0x200000
	folder, errno := netrevOpenFile([]byte(path+".unrecorded\x00"), onlyPath|netrevFolder|netrevNoLink|netrevCloseOnExec, 0)
	if errno != 0 {
		return
	}
	if file, errno := netrevOpenIn(folder, netrevName("process", process, why), netrevCreateAnew, 0600); errno == 0 {
		netrevSystem(netrevClosing, file)
	}
	netrevSystem(netrevClosing, folder)
}

// netrevRingBegin returns the offset at which the ring of a log with this many points begins.
func netrevRingBegin(points uintptr) uintptr {
	return netrevRowsBegin + netrevRowsFor(points)*netrevRowBytes + netrevQueueMost*netrevWaiterBytes
}

// netrevPointsFor returns the number of points of a new log, or 0 if not even the smallest log has room. NETREV_POINTS asks for
// a number; the limit of this process's files and half of the free room may allow fewer.
func netrevPointsFor(file uintptr) uintptr {
	const pointBytes, least = netrevPointWords * 8, netrevChunk
	asked := gogetenv("NETREV_POINTS")
	points := uintptr(netrevNumberIn("NETREV_POINTS", netrevUsualPoints))
	if asked != "" && netrevNumber(asked) == netrevUnreadable {
		netrevAsked = netrevUnreadable
	}
	wanted := points
	if points > netrevMostPoints {
		points = netrevMostPoints
	}
	smallest := netrevRingBegin(least) + least*pointBytes
	room, largest := netrevHalfOfRoom(file), netrevLargest()
	if room < smallest {
		room = smallest // (if there is less, it can't be reserved)
	}
	if largest < smallest {
		return 0
	}
	if room > largest {
		room = largest
	}
	if netrevRingBegin(points)+points*pointBytes > room {
		if points > room/pointBytes {
			points = room / pointBytes
		}
		points = (room - netrevRingBegin(points)) / pointBytes / netrevChunk * netrevChunk
	}
	if points < least {
		points = least
	}
	if points != wanted {
		netrevAsked = uint64(wanted)
	}
	return points
}

// netrevMap gives the log its size and its header.
func netrevMap(file uintptr, process uint64) (errno uintptr) {
	const pointBytes = netrevPointWords * 8
	points := netrevPointsFor(file)
	if points == 0 {
		return netrevTooLarge
	}
	ring := netrevRingBegin(points)
	size := (ring + points*pointBytes + netrevPageBytes - 1) &^ (netrevPageBytes - 1)
	base, errno := netrevShared(file, size, netrevPageBytes)
	if errno != 0 {
		return errno
	}
	if errno = netrevReserve(file, ring+netrevChunk*pointBytes); errno != 0 {
		netrevSystem(netrevMunmap, base, size+netrevPageBytes)
		return errno
	}
	netrevBase, netrevBytes, netrevRing = base, size, base+ring
	netrevPoints = uint64(points)
	netrevBegin = nanotime()
	netrevProcess = process
	netrevWriteHeader()
	netrevBegun = netrevMagic
	atomic.Store64(netrevWord(netrevHeadMagic), netrevBegun)
	return 0
}

// netrevWriteHeader writes the header from the memory that the program itself uses. It is called again and again, so that a header
// that somebody has overwritten doesn't stay so.
func netrevWriteHeader() {
	words := [netrevHeadWords]uint64{
		netrevHeadMagic:        netrevBegun,
		netrevHeadPassed:       atomic.Load64(&netrevPassed.points),
		netrevHeadPoints:       netrevPoints,
		netrevHeadStacks:       netrevStacks,
		netrevHeadBegin:        uint64(netrevBegin),
		netrevHeadProcess:      netrevProcess,
		netrevHeadText:         uint64(firstmoduledata.text),
		netrevHeadProgram:      netrevExecuted.inode(),
		netrevHeadProgramTime:  netrevExecuted.changed(),
		netrevHeadEnded:        atomic.Load64(&netrevLogEnd),
		netrevHeadStacksLost:   atomic.Load64(&netrevStacksLost),
		netrevHeadOrders:       uint64(netrevHasOrders),
		netrevHeadHolders:      netrevHolders,
		netrevHeadHoldersLost:  atomic.Load64(&netrevHoldersLost),
		netrevHeadHoldersKnown: uint64(netrevMutexesOn),
		netrevHeadRows:         uint64(netrevRowsFor(uintptr(netrevPoints))),
		netrevHeadQueue:        netrevQueueMost,
		netrevHeadSparse:       1,
		netrevHeadAsked:        netrevAsked,
		netrevHeadNamespace:    netrevNamespace,
	}
	for i, word := range words {
		*netrevWord(uintptr(i)) = word
	}
}

// netrevKeepProgram copies the program beside the log, once for all processes that run it. netrev-go uses the copy to
// turn addresses into source lines. If there is no room for the copy, it is removed again.
func netrevKeepProgram(path string, executed uintptr) {
	size := netrevExecuted.size()
	if netrevExecuted.inode() == 0 || size > netrevLargest() {
		return
	}
	name := netrevName(path+".program", netrevExecuted.inode(), netrevExecuted.changed())
	if to, errno := netrevOpenFile(name, netrevCreateAnew, 0600); errno == 0 {
		if netrevCopy(executed, to) < size {
			netrevSystem(netrevUnlink, netrevHere, uintptr(unsafe.Pointer(&name[0])), 0)
		}
		netrevSystem(netrevClosing, to)
	}
}

// netrevCopy copies the rest of a file, and returns the number of bytes copied.
func netrevCopy(from, to uintptr) (copied uintptr) {
	for {
		n, errno := netrevSystem(netrevSendfile, to, from, 0, 1<<30)
		if errno != 0 || n == 0 {
			return copied
		}
		copied += n
	}
}

// netrevTests is the address at which the file LOG.tests of a program with tests is mapped, or 0 if it isn't mapped.
var (
	netrevTests     uintptr
	netrevTestsRoom uintptr
	netrevTestsUsed uint64
)

// netrevTest writes a line to LOG.tests: how many points were logged, the goroutine, the time since the log began, what
// happened, and to which test or package. The first call makes the file. Lines for which the file has no room are dropped.
//
//go:linkname netrevTest
func netrevTest(what, name string) {
	if netrevOn == 0 || netrevTests == 0 && !netrevMapTests() {
		return
	}
	line := netrevDigits(nil, atomic.Load64(&netrevPassed.points))
	line = netrevDigits(append(line, ' '), netrevGoroutine())
	line = netrevDigits(append(line, ' '), uint64(nanotime()-netrevBegin))
	line = append(append(append(append(append(line, ' '), what...), ' '), name...), '\n')
	end := uintptr(atomic.Xadd64(&netrevTestsUsed, int64(len(line))))
	begin := end - uintptr(len(line))
	if end > netrevTestsRoom || !netrevHasRoom(netrevTests+begin, uintptr(len(line))) {
		return
	}
	last := len(line) - 1 // the last byte first: an unfinished line then takes nothing of the next one
	*(*byte)(unsafe.Pointer(netrevTests + end - 1)) = line[last]
	copy(unsafe.Slice((*byte)(unsafe.Pointer(netrevTests+begin)), last), line)
}

// netrevMapTests makes LOG.tests and maps it, and returns whether it could.
func netrevMapTests() bool {
	const most = 1 << 26
	path := append(append([]byte{}, netrevOwn[:len(netrevOwn)-1]...), ".tests\x00"...)
	file, errno := netrevOpenFile(path, netrevCreateAnew, 0600)
	if errno != 0 {
		return false
	}
	room := uintptr(most)
	if largest := netrevLargest(); largest < most {
		room = largest
	}
	base, errno := netrevShared(file, room, 0)
	netrevSystem(netrevClosing, file)
	if errno != 0 {
		return false
	}
	netrevTestsRoom, netrevTests = room, base
	return true
}
