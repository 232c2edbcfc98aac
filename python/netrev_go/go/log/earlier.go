// netrev's removal of earlier logs: a service that restarts again and again would otherwise fill its file system. In an
// overlaid Go, these functions are appended to runtime/netpoll.go.
//
// NETREV_KEEP says how many logs of a path are kept, with the new one; the oldest are removed first. A log of a process
// that still runs isn't removed, nor is a file that isn't a log, or another user's.

package runtime

import (
	"internal/goarch"
	"unsafe"
)

const (
	netrevEntries  = 217*goarch.IsAmd64 + 61*goarch.IsArm64
	netrevReadAt   = 17*goarch.IsAmd64 + 67*goarch.IsArm64
	netrevSending  = 62*goarch.IsAmd64 + 129*goarch.IsArm64
	netrevTelling  = 228*goarch.IsAmd64 + 113*goarch.IsArm64 // clock_gettime
	netrevNoWait   = 0x800
	netrevUsually  = 4  // logs that are kept
	netrevNewlyFor = 60 // seconds in which a process may not have written its header yet
)

// A netrevEarlier is a log that lies beside the new one.
type netrevEarlier struct {
	name                []byte
	changed             uint64
	program, programNow uint64
	isRunning           bool
}

// netrevRemoveEarlier removes the oldest logs of a path, and the copies of programs that no log names any more.
func netrevRemoveEarlier(path string, process uint64) {
	kept := netrevNumberIn("NETREV_KEEP", netrevUsually)
	if gogetenv("NETREV_KEEP") == "all" {
		return
	}
	slash := len(path)
	for slash > 0 && path[slash-1] != '/' {
		slash--
	}
	folder, errno := netrevOpenFile([]byte(path[:slash]+".\x00"), netrevFolder|netrevCloseOnExec, 0)
	if errno != 0 {
		return
	}
	names := netrevNamesIn(folder, path[slash:]+".")
	logs, isSure := netrevLogsOf(folder, names, len(path)-slash+1, process)
	for uint64(len(logs)) >= kept && len(logs) > 0 {
		oldest := -1
		for i := range logs {
			if !logs[i].isRunning && (oldest < 0 || logs[i].changed < logs[oldest].changed) {
				oldest = i
			}
		}
		if oldest < 0 {
			break
		}
		netrevRemoveLog(folder, logs[oldest].name, names)
		logs[oldest] = logs[len(logs)-1]
		logs = logs[:len(logs)-1]
	}
	if isSure {
		netrevRemovePrograms(folder, path[slash:]+".program.", names, logs)
	}
	netrevSystem(netrevClosing, folder)
}

// netrevNamesIn returns the names in an open folder that begin like this, each with a zero byte at its end.
func netrevNamesIn(folder uintptr, prefix string) (names [][]byte) {
	const lengthAt, nameAt, most = 16, 19, 1 << 14
	entries := make([]byte, 1<<15)
	for len(names) < most {
		read, errno := netrevSystem(netrevEntries, folder, uintptr(unsafe.Pointer(&entries[0])), uintptr(len(entries)))
		if errno != 0 || read == 0 || read > uintptr(len(entries)) {
			break
		}
		for at := 0; at < int(read); at += int(entries[at+lengthAt]) | int(entries[at+lengthAt+1])<<8 {
			begin := at + nameAt
			end := begin
			for entries[end] != 0 {
				end++
			}
			if end-begin > len(prefix) && string(entries[begin:begin+len(prefix)]) == prefix {
				names = append(names, append([]byte{}, entries[begin:end+1]...))
			}
		}
	}
	return names
}

// netrevLogsOf returns the logs among these files, and whether all of them say which program they are of.
func netrevLogsOf(folder uintptr, names [][]byte, prefix int, process uint64) (logs []netrevEarlier, isSure bool) {
	isSure = true
	for _, name := range names {
		if !netrevIsLogsName(name[prefix : len(name)-1]) {
			continue
		}
		file, errno := netrevOpenIn(folder, name, netrevNoLink|netrevNoWait|netrevCloseOnExec, 0)
		if errno != 0 {
			continue
		}
		var head [netrevHeadWords]uint64
		status := netrevStatusOf(file)
		if status.isOwnFile() {
			netrevSystem(netrevReadAt, file, uintptr(unsafe.Pointer(&head)), unsafe.Sizeof(head), 0)
			if head[netrevHeadMagic] == netrevMagic {
				logs = append(logs, netrevEarlier{name, status.changed(), head[netrevHeadProgram], head[netrevHeadProgramTime], netrevRuns(&head, process)})
			} else if netrevIsNew(&status) {
				isSure = false
			}
		}
		netrevSystem(netrevClosing, file)
	}
	return logs, isSure
}

// netrevIsLogsName returns whether a log's name may end like this: with a process, or with a process and a second number.
func netrevIsLogsName(numbers []byte) bool {
	digits, dots := 0, 0
	for _, c := range numbers {
		switch {
		case c >= '0' && c <= '9':
			digits++
		case c == '.' && digits > 0 && dots == 0:
			digits, dots = 0, 1
		default:
			return false
		}
	}
	return digits > 0
}

// netrevRuns returns whether the process of a log still runs. A process of another PID namespace, as of an earlier container, counts
// as ended, because its number says nothing here.
func netrevRuns(head *[netrevHeadWords]uint64, process uint64) bool {
	const noSuchProcess = 3
	if namespace := head[netrevHeadNamespace]; namespace != 0 && namespace != netrevNamespace || head[netrevHeadProcess] == process {
		return false
	}
	_, errno := netrevSystem(netrevSending, uintptr(head[netrevHeadProcess]), 0)
	return errno != noSuchProcess
}

func netrevIsNew(status *netrevStatus) bool {
	var now [2]uint64
	netrevSystem(netrevTelling, 0, uintptr(unsafe.Pointer(&now)))
	return now[0] < status.seconds()+netrevNewlyFor
}

// netrevRemoveLog removes a log, and the files that belong to it alone.
func netrevRemoveLog(folder uintptr, log []byte, names [][]byte) {
	for _, name := range names {
		own := len(log) - 1
		if len(name) < len(log) || string(name[:own]) != string(log[:own]) {
			continue
		}
		rest := string(name[own : len(name)-1])
		if rest == "" || rest == ".tests" || len(rest) >= 9 && rest[:9] == ".snapshot" {
			netrevSystem(netrevUnlink, folder, uintptr(unsafe.Pointer(&name[0])), 0)
		}
	}
}

// netrevRemovePrograms removes the copies of programs that none of these logs names, and that aren't of this program or new.
func netrevRemovePrograms(folder uintptr, prefix string, names [][]byte, logs []netrevEarlier) {
	for _, name := range names {
		if len(name) <= len(prefix) || string(name[:len(prefix)]) != prefix {
			continue
		}
		isNamed := string(name) == string(netrevName(prefix[:len(prefix)-1], netrevExecuted.inode(), netrevExecuted.changed()))
		for i := range logs {
			isNamed = isNamed || string(name) == string(netrevName(prefix[:len(prefix)-1], logs[i].program, logs[i].programNow))
		}
		if isNamed {
			continue
		}
		file, errno := netrevOpenIn(folder, name, netrevNoLink|netrevNoWait|netrevCloseOnExec, 0)
		if errno != 0 {
			continue
		}
		if status := netrevStatusOf(file); status.isOwnFile() && !netrevIsNew(&status) {
			netrevSystem(netrevUnlink, folder, uintptr(unsafe.Pointer(&name[0])), 0)
		}
		netrevSystem(netrevClosing, file)
	}
}
