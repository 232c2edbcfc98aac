package main

import "time"

// takenBack ends a read with a deadline in the past, and removes the deadline when the reader should have seen it.
func takenBack() bool {
	end, other := pair()
	defer end.Close()
	defer other.Close()
	done := make(chan bool, 1)
	go func() {
		end.Read(make([]byte, 8))
		done <- true
	}()
	time.Sleep(moment)
	end.SetReadDeadline(past)
	time.Sleep(moment)
	end.SetReadDeadline(time.Time{})
	return ended(done)
}

// lostWakeUp waits for bytes without trying to read them first. If all goes well, the bytes arrive later.
func lostWakeUp() bool {
	end, other := pair()
	defer end.Close()
	defer other.Close()
	raw, err := end.SyscallConn()
	must(err)
	done := make(chan bool, 1)
	go func() {
		calls := 0
		raw.Read(func(uintptr) bool { calls++; return calls > 1 })
		end.Read(make([]byte, 8))
		done <- true
	}()
	time.Sleep(moment)
	other.Write([]byte("hi"))
	return ended(done)
}

// leftBehind sets both deadlines, and then moves only the read deadline. If all goes well, the answer is written in time.
func leftBehind() bool {
	end, other := pair()
	defer end.Close()
	defer other.Close()
	done := make(chan bool, 1)
	end.SetDeadline(time.Now().Add(4 * moment))
	go func() {
		end.SetReadDeadline(time.Now().Add(hour))
		end.Read(make([]byte, 8))
		_, err := end.Write([]byte("answer"))
		done <- err == nil
	}()
	time.Sleep(moment)
	other.Write([]byte("question"))
	return ended(done)
}

// behindShut shuts the write side when the answer should have been sent.
func behindShut() bool {
	end, other := pair()
	defer end.Close()
	defer other.Close()
	done := make(chan bool, 1)
	go func() {
		end.Read(make([]byte, 8))
		_, err := end.Write([]byte("answer"))
		done <- err == nil
	}()
	other.Write([]byte("question"))
	time.Sleep(moment)
	end.CloseWrite()
	return ended(done)
}

// earlyCancel ends a read with a deadline in the past. The reader first removes any deadline.
func earlyCancel() bool {
	end, other := pair()
	defer end.Close()
	defer other.Close()
	done := make(chan bool, 1)
	go func() {
		end.SetReadDeadline(time.Time{})
		end.Read(make([]byte, 8))
		done <- true
	}()
	time.Sleep(moment)
	end.SetReadDeadline(past)
	return ended(done)
}
