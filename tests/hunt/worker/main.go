// Worker is the client of ../worker.py, by the client in Go: it does what the lines of its standard input say, and writes a line for each.
//
//	worker CLUSTER ADDRESS ..
package main

import (
	"bufio"
	"context"
	"errors"
	"fmt"
	"os"
	"strconv"
	"strings"
	"time"

	"nozhgiva"
)

type worker struct {
	cluster   uint64
	addresses []string
	session   *nozhgiva.Session
}

func main() {
	cluster, err := strconv.ParseUint(os.Args[1], 10, 64)
	if err != nil {
		panic(err)
	}
	w := &worker{cluster: cluster, addresses: os.Args[2:]}
	lines := bufio.NewScanner(os.Stdin)
	for lines.Scan() {
		words := strings.Fields(lines.Text())
		seconds, err := strconv.ParseFloat(words[len(words)-1], 64)
		if err != nil {
			panic(err)
		}
		ctx, cancel := context.WithTimeout(context.Background(), time.Duration(seconds*float64(time.Second)))
		fmt.Println(w.answer(ctx, words))
		cancel()
	}
}

func (w *worker) answer(ctx context.Context, words []string) string {
	said, err := w.do(ctx, words)
	var lost *nozhgiva.SessionLostError
	switch {
	case err == nil:
		return said
	case errors.Is(err, nozhgiva.ErrFull):
		return "full"
	case errors.As(err, &lost):
		return "lost " + lost.Reason
	case errors.Is(err, nozhgiva.ErrNotAsked):
		return "unsent"
	case errors.Is(err, nozhgiva.ErrUnknown):
		return "unknown"
	}
	panic(err)
}

func (w *worker) do(ctx context.Context, words []string) (string, error) {
	switch words[0] {
	case "register":
		return "session", w.register(ctx, words[1])
	case "put":
		return "ok", w.session.Put(ctx, words[1], words[2])
	case "get":
		value, found, err := w.session.Get(ctx, words[1])
		return said(map[bool]nozhgiva.OutcomeKind{true: nozhgiva.OutcomeValue, false: nozhgiva.OutcomeAbsent}[found], value), err
	case "delete":
		was, err := w.session.Delete(ctx, words[1])
		return said(map[bool]nozhgiva.OutcomeKind{true: nozhgiva.OutcomeOK, false: nozhgiva.OutcomeAbsent}[was], ""), err
	case "settle":
		outcome, err := w.session.Settle(ctx)
		if outcome == nil {
			return "nothing", err
		}
		return said(outcome.Kind, outcome.Value), err
	}
	panic(words[0])
}

func (w *worker) register(ctx context.Context, word string) (err error) {
	if w.session != nil {
		w.session.Close()
	}
	version, err := strconv.Atoi(word)
	if err != nil {
		panic(err)
	}
	group, err := nozhgiva.Dial(w.cluster, w.addresses, nozhgiva.WithVersion(version), nozhgiva.WithTimeout(time.Hour))
	if err != nil {
		panic(err)
	}
	w.session, err = group.Register(ctx)
	return err
}

func said(kind nozhgiva.OutcomeKind, value string) string {
	switch kind {
	case nozhgiva.OutcomeSession:
		return "session"
	case nozhgiva.OutcomeOK:
		return "ok"
	case nozhgiva.OutcomeFull:
		return "full"
	case nozhgiva.OutcomeAbsent:
		return "absent"
	}
	return "value " + value
}
