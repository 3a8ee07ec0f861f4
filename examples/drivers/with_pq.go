// lib/pq (Debian: golang-github-lib-pq-dev): Exec and Query without values are simple queries.
package main

import (
	"database/sql"
	"fmt"
	"os"

	"github.com/lib/pq"
)

func code(err error) string {
	if refused, ok := err.(*pq.Error); ok {
		return string(refused.Code)
	}
	return fmt.Sprint(err)
}

func main() {
	db, _ := sql.Open("postgres", "host=127.0.0.1 port="+os.Args[1]+" user=a dbname=a sslmode=disable")
	_, err := db.Exec("CREATE TABLE gopq (k bigint PRIMARY KEY, v text)")
	fmt.Println("create:", code(err))
	block, err := db.Begin()
	fmt.Println("begin:", code(err))
	_, err = block.Exec("INSERT INTO gopq VALUES (1, " + pq.QuoteLiteral("it's") + ")")
	fmt.Println("insert:", code(err), "commit:", code(block.Commit()))
	_, err = db.Exec("INSERT INTO gopq VALUES (1, NULL)")
	fmt.Println("a key again:", code(err))
	var k int
	var v string
	err = db.QueryRow("SELECT k, v FROM gopq").Scan(&k, &v)
	fmt.Println("row:", k, v, code(err))
	_, err = db.Query("SELECT v FROM gopq WHERE k = $1", 1)
	fmt.Println("with a value:", code(err))
	_, err = db.Prepare("SELECT v FROM gopq")
	fmt.Println("prepared:", code(err))
}
