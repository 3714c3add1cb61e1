// Hello asks a running group from Go, as any program may.
//
//	go run ./hello ADDRESS ..     the addresses of all members, in their order; the group's number is 5
package main

import (
	"context"
	"errors"
	"fmt"
	"os"

	"nozhgiva"
)

func main() {
	group, err := nozhgiva.Dial(5, os.Args[1:])
	if err != nil {
		fmt.Fprintln(os.Stderr, err)
		os.Exit(2)
	}
	if err := hello(context.Background(), group); err != nil {
		fmt.Fprintln(os.Stderr, err)
		if errors.Is(err, nozhgiva.ErrUnknown) {
			fmt.Fprintln(os.Stderr, "hello: the members may not run")
		}
		os.Exit(1)
	}
}

func hello(ctx context.Context, group *nozhgiva.Group) error {
	session, err := group.Register(ctx)
	if err != nil {
		return err
	}
	defer session.Close()
	if err := session.Put(ctx, "color", "green"); err != nil {
		return err
	}
	value, _, err := session.Get(ctx, "color")
	if err != nil {
		return err
	}
	fmt.Println("color is", value)
	was, err := session.Delete(ctx, "color")
	if err != nil {
		return err
	}
	fmt.Println("it was there:", was)
	return nil
}
