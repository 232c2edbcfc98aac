/* What python/dev/bench/gdb_record.py records: rounds of a lock, a write to one end of a socket pair, a read from the other end, and
   the lock's release. */

#include <pthread.h>
#include <stdlib.h>
#include <sys/socket.h>
#include <unistd.h>

static pthread_mutex_t lock = PTHREAD_MUTEX_INITIALIZER;
volatile long rounds;
volatile long never;

/* Where the record begins. */
void begin(void)
{
	rounds = 0;
}

/* Where it ends. */
void finish(void)
{
	never = 1;
}

int main(int count, char **words)
{
	long wanted = count == 2 ? atol(words[1]) : 0;
	char bytes[24] = "netrev";
	int ends[2];

	if (wanted <= 0 || socketpair(AF_UNIX, SOCK_STREAM, 0, ends))
		return 1;
	begin();
	while (rounds < wanted) {
		pthread_mutex_lock(&lock);
		if (write(ends[0], bytes, sizeof bytes) < 0 || read(ends[1], bytes, sizeof bytes) < 0)
			return 1;
		rounds++;
		pthread_mutex_unlock(&lock);
	}
	finish();
	return 0;
}
