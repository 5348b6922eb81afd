// A top ten that is followed while it changes, by Go's driver for RethinkDB.
package main

import (
	"flag"
	"fmt"
	"log"

	r "gopkg.in/rethinkdb/rethinkdb-go.v6"
)

type score struct {
	ID     string `rethinkdb:"id"`
	Points int    `rethinkdb:"points"`
}

// What the feed tells of one change: who left the top ten from which place, and who came to which, from 0.
type change struct {
	Left *score `rethinkdb:"old_val"`
	From *int   `rethinkdb:"old_offset"`
	Came *score `rethinkdb:"new_val"`
	To   *int   `rethinkdb:"new_offset"`
}

var (
	players = []score{{"ada", 97}, {"bob", 81}, {"cyd", 84}, {"dan", 33}, {"eve", 62}, {"fay", 58},
		{"gus", 47}, {"hal", 71}, {"ida", 29}, {"jim", 12}, {"kim", 20}, {"lin", 15}}
	scores = r.Table("scores")
	topTen = scores.OrderBy(r.OrderByOpts{Index: r.Desc("points")}).Limit(10)
)

func connect() *r.Session {
	options := r.ConnectOpts{}
	flag.StringVar(&options.Address, "address", "127.0.0.1:28015", "where the server listens")
	flag.StringVar(&options.Password, "password", "", "of the user admin, as the server's --password has it")
	flag.StringVar(&options.AuthKey, "key", "", "of the older greeting, as the server's --key has it")
	older := flag.Bool("older", false, "greet as drivers of RethinkDB 2.0 to 2.2 do, by a key, in place of a login")
	flag.Parse()
	if *older {
		options.HandshakeVersion = r.HandshakeV0_4
	}
	session, err := r.Connect(options)
	check(err)
	return session
}

func check(err error) {
	if err != nil {
		log.Fatal(err)
	}
}

func run(session *r.Session, term r.Term) {
	_, err := term.RunWrite(session)
	check(err)
}

// Runs what makes a thing, unless its name is in the list.
func makeMissing(session *r.Session, list r.Term, name string, makes r.Term) {
	cursor, err := list.Contains(name).Run(session)
	check(err)
	var found bool
	check(cursor.One(&found))
	if !found {
		run(session, makes)
	}
}

// Hands on what the feed tells, each change as it comes.
func follow(feed *r.Cursor, told chan<- change) {
	defer close(told)
	var c change
	for feed.Next(&c) {
		told <- c
		c = change{}
	}
}

func write(session *r.Session) {
	run(session, scores.Get("lin").Update(map[string]interface{}{"points": 90}))
	run(session, scores.Get("hal").Update(map[string]interface{}{"points": r.Row.Field("points").Add(20)}))
	run(session, scores.Get("ada").Delete())
}

func main() {
	session := connect()
	defer session.Close()
	makeMissing(session, r.DBList(), "arcade", r.DBCreate("arcade"))
	session.Use("arcade")
	makeMissing(session, r.TableList(), "scores", r.TableCreate("scores"))
	makeMissing(session, scores.IndexList(), "points", scores.IndexCreate("points"))
	check(scores.IndexWait("points").Exec(session))
	run(session, scores.Insert(players, r.InsertOpts{Conflict: "replace"}))

	cursor, err := topTen.Run(session)
	check(err)
	var top []score
	check(cursor.All(&top))
	fmt.Print("top ten:")
	for _, s := range top {
		fmt.Print(" ", s.ID, " ", s.Points)
	}
	fmt.Println()

	feed, err := topTen.Changes(r.ChangesOpts{IncludeOffsets: true}).Run(session)
	check(err)
	defer feed.Close()
	told := make(chan change)
	go follow(feed, told)
	go write(session)
	for i := 0; i < 3; i++ {
		c, ok := <-told
		if !ok {
			log.Fatal(feed.Err())
		}
		fmt.Printf("%s %d leaves place %d, %s %d comes to place %d\n",
			c.Left.ID, c.Left.Points, *c.From+1, c.Came.ID, c.Came.Points, *c.To+1)
	}
}
