package main

// The files, besides fd_unix.go, whose functions move bytes.
const (
	splicing = "internal/poll/splice_linux.go"
	vectors  = "internal/poll/writev.go"
	sending  = "internal/poll/sendfile_linux.go"
	sender   = "internal/poll/sendfile_unix.go"
)

// moved returns the edit for a system call that moves bytes, a message or a connection: its result is logged after it.
// Its parameters are those of netrevBytes.
func moved(call, arguments string) []edit {
	return []edit{one(behind, call, "if netrevOn != 0 { netrevBytes("+arguments+") }")}
}

// A way is the rule for a function that moves bytes, other than FD.Read and FD.Write. If the rule doesn't fit a release, that function
// isn't recorded, but everything else is. If several of these rules have the same text in `moves`, one of them has to fit.
type way struct {
	rule
	moves string
}

var ways = []way{
	{rule{sockets, "Accept", all(moved("accept(fd.Sysfd)", "netrevReadKind, fd, 1, 1, err")...)}, "what Accept takes"},
	{rule{sockets, "ReadFrom", all(moved("syscall.Recvfrom(fd.Sysfd, ...)", "netrevReadKind, fd, len(p), n, err")...)}, "what ReadFrom reads"},
	{rule{sockets, "ReadFromInet4", all(moved("unix.RecvfromInet4(fd.Sysfd, ...)", "netrevReadKind, fd, len(p), n, err")...)}, "what ReadFromInet4 reads"},
	{rule{sockets, "ReadFromInet6", all(moved("unix.RecvfromInet6(fd.Sysfd, ...)", "netrevReadKind, fd, len(p), n, err")...)}, "what ReadFromInet6 reads"},
	{rule{sockets, "ReadMsg", all(moved("syscall.Recvmsg(fd.Sysfd, ...)", "netrevReadKind, fd, len(p), n, err")...)}, "what ReadMsg reads"},
	{rule{sockets, "ReadMsgInet4", all(moved("unix.RecvmsgInet4(fd.Sysfd, ...)", "netrevReadKind, fd, len(p), n, err")...)}, "what ReadMsgInet4 reads"},
	{rule{sockets, "ReadMsgInet6", all(moved("unix.RecvmsgInet6(fd.Sysfd, ...)", "netrevReadKind, fd, len(p), n, err")...)}, "what ReadMsgInet6 reads"},
	{rule{sockets, "WriteTo", all(moved("syscall.Sendto(fd.Sysfd, ...)", "netrevWriteKind, fd, len(p), len(p), err")...)}, "what WriteTo writes"},
	{rule{sockets, "WriteToInet4", all(moved("unix.SendtoInet4(fd.Sysfd, ...)", "netrevWriteKind, fd, len(p), len(p), err")...)}, "what WriteToInet4 writes"},
	{rule{sockets, "WriteToInet6", all(moved("unix.SendtoInet6(fd.Sysfd, ...)", "netrevWriteKind, fd, len(p), len(p), err")...)}, "what WriteToInet6 writes"},
	{rule{sockets, "WriteMsg", all(moved("syscall.SendmsgN(fd.Sysfd, ...)", "netrevWriteKind, fd, len(p), n, err")...)}, "what WriteMsg writes"},
	{rule{sockets, "WriteMsgInet4", all(moved("unix.SendmsgNInet4(fd.Sysfd, ...)", "netrevWriteKind, fd, len(p), n, err")...)}, "what WriteMsgInet4 writes"},
	{rule{sockets, "WriteMsgInet6", all(moved("unix.SendmsgNInet6(fd.Sysfd, ...)", "netrevWriteKind, fd, len(p), n, err")...)}, "what WriteMsgInet6 writes"},
	{rule{vectors, "Writev", all(moved("writev(fd.Sysfd, iovecs)", "netrevWriteKind, fd, 1, int(wrote), err")...)}, "what Writev writes"},
	{rule{splicing, "spliceDrain", all(moved("splice(pipefd, sock.Sysfd, ...)", "netrevReadKind, sock, $3, n, err")...)}, "what Splice reads"},
	{rule{splicing, "splicePump", all(moved("splice(sock.Sysfd, pipefd, ...)", "netrevWriteKind, sock, 1, n, err")...)}, "what Splice writes"},
	{rule{sending, "SendFile", []variant{
		{"1.18 to 1.22", "err1", moved("syscall.Sendfile(dst, src, ...)", "netrevWriteKind, dstFD, 1, n, err1")},
		{"1.23", "!err1", moved("syscall.Sendfile(dst, src, ...)", "netrevWriteKind, dstFD, 1, n, err")}}}, "what SendFile writes"},
	{rule{sender, "sendFile", all(moved("sendFileChunk(dst, src, ...)", "netrevWriteKind, dstFD, 1, n, err")...)}, "what SendFile writes"},
}

const ofAddresses = "where datagrams go"

// The rules for the addresses to which datagrams go. A socket that sends datagrams needn't be connected.
var addressed = []rule{
	{sockets, "WriteTo", goesTo("syscall.Sendto(fd.Sysfd, ...)")},
	{sockets, "WriteToInet4", goesTo("unix.SendtoInet4(fd.Sysfd, ...)")},
	{sockets, "WriteToInet6", goesTo("unix.SendtoInet6(fd.Sysfd, ...)")},
	{sockets, "WriteMsg", goesTo("syscall.SendmsgN(fd.Sysfd, ...)")},
	{sockets, "WriteMsgInet4", goesTo("unix.SendmsgNInet4(fd.Sysfd, ...)")},
	{sockets, "WriteMsgInet6", goesTo("unix.SendmsgNInet6(fd.Sysfd, ...)")},
}

func goesTo(call string) []variant {
	return all(one(before, call, "if netrevOn != 0 { netrevSends(fd, sa) }"))
}
