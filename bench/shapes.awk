# Prints a recording of some shape with n steps:  awk -v shape=waits -v n=10000 -f bench/shapes.awk
# Each shape repeats a cycle that ends where it began, so any number of steps is a good recording.

BEGIN {
	if (shape == "locks") locks()
	else if (shape == "queues") queues()
	else if (shape == "bytes") bytes()
	else if (shape == "waits") waits()
	else if (shape == "timers") timers()
	else if (shape == "armed") armed()
	else if (shape == "mix") mix()
	else {
		print "no such shape: " shape > "/dev/stderr"
		exit 2
	}
}

function header(gor, sock, desc, buf) {
	printf "{\"netrev\":1,\"gor\":%d,\"sock\":%d,\"desc\":%d,\"buf\":%d}\n", gor, sock, desc, buf
}

# One step: its kind, and its arguments as they stand in the line.
function step(kind, arguments) {
	if (n <= 0) exit
	n--
	if (arguments == "") printf "[\"%s\"]\n", kind
	else printf "[\"%s\",%s]\n", kind, arguments
}

function text(digits, count,    i, all) {
	for (i = 0; i < count; i++) all = all digits
	return all
}

# Two goroutines take and release a read lock, the second after waiting for it.
function locks() {
	header(2, 1, 1, 16)
	step("spawn")
	step("sockopen", "16,16")
	while (n > 0) {
		step("rwlock", "0,0,\"r\"")
		step("rwlock", "1,0,\"r\"")
		step("rwunlock", "0,0,\"r\"")
		step("acquire", "1")
		step("release", "0")
		step("acquire", "1")
		step("rwlock", "1,0,\"r\"")
		step("rwunlock", "1,0,\"r\"")
		step("incref", "0,0")
		step("decref", "0,0")
	}
}

# 1,024 goroutines want one read lock. Each that had it goes to the back of the queue, where more than
# a thousand wait.
function queues(    g, next_one, all) {
	all = 1024
	header(all, 1, 1, 16)
	for (g = 1; g < all; g++) step("spawn")
	step("sockopen", "16,16")
	step("rwlock", "0,0,\"r\"")
	for (g = 1; g < all; g++) {
		step("rwlock", g ",0,\"r\"")
		step("acquire", g)
	}
	for (g = 0; n > 0; g = next_one) {
		next_one = (g + 1) % all
		step("rwunlock", g ",0,\"r\"")
		step("release", g)
		step("acquire", next_one)
		step("rwlock", next_one ",0,\"r\"")
		step("rwlock", g ",0,\"r\"")
		step("acquire", g)
	}
}

# Bytes in and out of a socket whose buffers are half full.
function bytes(    some) {
	some = text("a5", 64)
	header(1, 1, 1, 4096)
	step("sockopen", "4096,4096")
	step("arrive", "0,\"" text("00", 2048) "\"")
	step("syswrite", "0,0,\"" text("00", 2048) "\"")
	while (n > 0) {
		step("arrive", "0,\"" some "\"")
		step("sysread", "0,0,48")
		step("sysread", "0,0,16")
		step("syswrite", "0,0,\"" some "\"")
		step("drain", "0,64")
	}
}

# 64 goroutines, each of which parks on its own descriptor until an event.
function waits(    g, all) {
	all = 64
	header(all, 1, all, 16)
	step("sockopen", "16,16")
	for (g = 1; g < all; g++) step("spawn")
	for (g = 0; g < all; g++) step("pollopen", "0,0")
	for (g = 0; n > 0; g = (g + 1) % all) {
		step("pollreset", g "," g ",\"r\"")
		step("waitbegin", g "," g ",\"r\"")
		step("blockarm", g)
		step("blockcheck", g)
		step("parkcommit", g)
		step("pollevent", g ",1,\"r\",0")
		step("blockswap", g)
	}
}

# 64 descriptors whose read deadlines pass one after the other; 63 timers are armed.
function timers(    i, all) {
	all = 64
	header(1, 1, all, 16)
	step("sockopen", "16,16")
	for (i = 0; i < all; i++) step("pollopen", "0,0")
	for (i = 0; n > 0; i++) {
		step("setdeadline", "0," (i % all) ",\"r\"," all)
		step("tick", i + 1)
		if (i >= all - 1) {
			step("pop")
			step("fire", "0")
		}
	}
}

# 500 timers of 250 descriptors, each with a deadline for reading and one for writing. In each turn one is armed anew,
# another is put off before it is due, and a third one goes off.
function armed(    i, all) {
	all = 250
	header(1, 1, all, 16)
	step("sockopen", "16,16")
	for (i = 0; i < all; i++) step("pollopen", "0,0")
	for (i = 0; n > 0; i++) {
		step("setdeadline", "0," (i % all) ",\"" (i % (2 * all) < all ? "r" : "w") "\"," 400)
		if (i >= all) step("setdeadline", "0," (i % all) ",\"" (i % (2 * all) < all ? "w" : "r") "\"," all)
		step("tick", i + 1)
		if (i >= 2 * all - 1) {
			step("pop")
			step("fire", "0")
		}
	}
}

# A connection's whole life: a read that waits, a deadline that passes, an answer, the close, and the
# descriptor opened anew.
function mix(    i) {
	header(2, 1, 1, 4096)
	step("spawn")
	step("sockopen", "4096,4096")
	step("pollopen", "0,0")
	for (i = 1; n > 0; i++) {
		step("incref", "0,0")
		step("setdeadline", "0,0,\"rw\",1000")
		step("decref", "0,0")
		step("rwlock", "1,0,\"r\"")
		step("pollreset", "1,0,\"r\"")
		step("sysread", "1,0,512")
		step("waitbegin", "1,0,\"r\"")
		step("blockarm", "1")
		step("blockcheck", "1")
		step("parkcommit", "1")
		step("arrive", "0,\"" text("68690a", 8) "\"")
		step("pollevent", "0," i ",\"rw\",0")
		step("blockswap", "1")
		step("sysread", "1,0,512")
		step("rwunlock", "1,0,\"r\"")
		step("rwlock", "1,0,\"w\"")
		step("syswrite", "1,0,\"" text("6f6b0a", 8) "\"")
		step("rwunlock", "1,0,\"w\"")
		step("drain", "0,24")
		step("setdeadline", "0,0,\"w\",10")
		step("tick", i * 10)
		step("pop")
		step("fire", "0")
		step("evict", "0,0")
		step("pollclose", "0,0")
		step("pollopen", "0,0")
	}
}
