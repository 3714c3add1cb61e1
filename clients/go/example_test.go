package nozhgiva_test

import (
	"context"
	"errors"
	"fmt"
	"log"
	"time"

	"nozhgiva"
)

func Example() {
	group, err := nozhgiva.Dial(5, []string{"127.0.0.1:4000", "127.0.0.1:4001", "127.0.0.1:4002"})
	if err != nil {
		log.Fatal(err)
	}
	ctx := context.Background()
	session, err := group.Register(ctx)
	if err != nil {
		log.Fatal(err)
	}
	defer session.Close()
	if err := session.Put(ctx, "color", "green"); err != nil {
		log.Fatal(err)
	}
	value, found, err := session.Get(ctx, "color")
	fmt.Println(value, found, err)
}

// A put of which nothing is known is settled: the session asks for its answer until it comes, or the session is lost.
func ExampleSession_Settle() {
	var session *nozhgiva.Session
	ctx, cancel := context.WithTimeout(context.Background(), time.Second)
	defer cancel()
	err := session.Put(ctx, "color", "green")
	for errors.Is(err, nozhgiva.ErrUnknown) {
		fmt.Println(err) // what was seen at each address
		_, err = session.Settle(context.Background())
	}
	if errors.Is(err, nozhgiva.ErrSessionLost) {
		fmt.Println("whether color is green isn't known: look with a get, in a new session")
	}
}
