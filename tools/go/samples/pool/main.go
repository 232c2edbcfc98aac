// A pool of connections to PostgreSQL, with Debian's golang-github-lib-pq-dev:  pool CONNECTIONS SECONDS BUG PAUSE
//
// PGHOST, PGPORT, PGUSER and PGDATABASE name the database, as for psql. All connections are opened first. The same number of goroutines each read an account,
// update it, and pause PAUSE milliseconds; one more audits an account that no other goroutine uses. BUG decides what happens after SECONDS seconds:
//
//	none   the program ends
//	mutex  an update that holds the mutex waits for a row's lock, and the transaction that holds that lock waits for the mutex
package main

import (
	"context"
	"database/sql"
	"fmt"
	"os"
	"strconv"
	"sync"
	"sync/atomic"
	"time"

	_ "github.com/lib/pq"
)

var booked, isStuck int64

func must(err error) {
	if err != nil {
		panic(err)
	}
}

func number(at int) int {
	value, err := strconv.Atoi(os.Args[at])
	must(err)
	return value
}

// A ledger books one amount after another.
type ledger struct {
	sync.Mutex
	database *sql.DB
	audits   int
}

func (l *ledger) book(account int) error {
	l.Lock()
	defer l.Unlock()
	_, err := l.database.Exec("UPDATE accounts SET total = total + 1 WHERE id = $1", account) // BUG mutex
	return err
}

// total returns the balance of an account.
func (l *ledger) total(account int) (total int, err error) {
	rows, err := l.database.Query("SELECT total FROM accounts WHERE id = $1", account)
	if err != nil {
		return 0, err
	}
	defer rows.Close()
	for rows.Next() {
		if err := rows.Scan(&total); err != nil {
			return 0, err
		}
	}
	return total, rows.Err()
}

// audit locks an account's row, reads it, and counts the audit.
func (l *ledger) audit(account int) error {
	transaction, err := l.database.Begin()
	if err != nil {
		return err
	}
	defer transaction.Rollback()
	if _, err := transaction.Exec("SELECT total FROM accounts WHERE id = $1 FOR UPDATE", account); err != nil {
		return err
	}
	time.Sleep(100 * time.Millisecond)
	l.Lock()
	l.audits++
	l.Unlock()
	return transaction.Commit()
}

// work reads and updates an account again and again.
func (l *ledger) work(account int, pause time.Duration) {
	for {
		_, err := l.total(account)
		must(err)
		must(l.book(account))
		atomic.AddInt64(&booked, 1)
		time.Sleep(pause)
	}
}

// opened returns a pool with all its connections open.
func opened(connections int) *sql.DB {
	database, err := sql.Open("postgres", "sslmode=disable")
	must(err)
	database.SetMaxOpenConns(connections)
	database.SetMaxIdleConns(connections)
	var all []*sql.Conn
	for i := 0; i < connections; i++ {
		connection, err := database.Conn(context.Background())
		must(err)
		all = append(all, connection)
	}
	for _, connection := range all {
		must(connection.Close())
	}
	return database
}

func main() {
	count, pause := number(1), time.Duration(number(4))*time.Millisecond
	l := &ledger{database: opened(count)}
	_, err := l.database.Exec("CREATE TABLE IF NOT EXISTS accounts (id int PRIMARY KEY, total int)")
	must(err)
	for account := 0; account <= count; account++ {
		_, err := l.database.Exec("INSERT INTO accounts VALUES ($1, 0) ON CONFLICT DO NOTHING", account)
		must(err)
	}
	for account := 1; account <= count; account++ {
		go l.work(account, pause)
	}
	go func() {
		for account := 0; ; {
			if atomic.LoadInt64(&isStuck) != 0 {
				account = 1
			}
			must(l.audit(account))
			time.Sleep(pause)
		}
	}()
	time.Sleep(time.Duration(number(2)) * time.Second)
	if os.Args[3] != "none" {
		atomic.StoreInt64(&isStuck, 1)
		time.Sleep(time.Hour)
	}
	fmt.Println(atomic.LoadInt64(&booked), "bookings,", l.audits, "audits")
}
