// SQLite by Go's database/sql: a row of the table `registers` is a register.
//
//	main FILE
package main

import (
	"bufio"
	"context"
	"database/sql"
	"errors"
	"fmt"
	"os"
	"strings"

	"github.com/mattn/go-sqlite3"
)

// A call's answer, or an error: a lock that another holds is a refusal.
func answer(tx *sql.Tx, words []string) (string, error) {
	switch words[1] {
	case "R":
		value := 0
		err := tx.QueryRow("SELECT v FROM registers WHERE k = ?", words[2]).Scan(&value)
		return fmt.Sprint("V ", value), err
	case "W":
		_, err := tx.Exec("UPDATE registers SET v = ? WHERE k = ?", words[3], words[2])
		return "K", err
	case "T":
		return "C", tx.Commit()
	}
	return "A", tx.Rollback()
}

func main() {
	var tx *sql.Tx
	var failure sqlite3.Error
	db, err := sql.Open("sqlite3", "file:"+os.Args[1]+"?_busy_timeout=0")
	for in := bufio.NewScanner(os.Stdin); err == nil && in.Scan(); {
		words, said := strings.Fields(in.Text()), "A"
		if tx == nil && words[1] != "X" {
			tx, err = db.BeginTx(context.Background(), nil)
		}
		if tx != nil && err == nil {
			said, err = answer(tx, words)
		}
		if errors.As(err, &failure) && (failure.Code == sqlite3.ErrBusy || failure.Code == sqlite3.ErrLocked) {
			tx.Rollback()
			said, err = "A", nil
		}
		if said == "A" || said == "C" {
			tx = nil
		}
		fmt.Println(words[0], said)
	}
	if err != nil {
		fmt.Fprintln(os.Stderr, err)
		os.Exit(1)
	}
}
