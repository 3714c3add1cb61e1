package nozhgiva

import (
	"context"
	crypto "crypto/rand"
	"encoding/binary"
	"fmt"
	"math/rand"
	"sync"
	"sync/atomic"
	"time"
)

const (
	defaultTimeout = 10 * time.Second
	lastNumber     = 1<<32 - 1 // of a request in one session
	mostMembers    = 6
)

// Reasons of a SessionLostError.
const (
	reasonOld     = "old"
	reasonGap     = "gap"
	reasonEvicted = "evicted"
	reasonSpent   = "spent"
)

// Group is a group of members. It may be used by several goroutines.
type Group struct {
	cluster   uint64
	addresses []string
	places    []string
	overTCP   bool
	version   byte
	timeout   time.Duration
	retry     Retry
	notice    func(string)
	spoken    []atomic.Uint32
}

// An Option says how a group is asked.
type Option func(*Group)

// WithVersion asks in a version of the format first, 1 or 2: that of the members' files. Without it, it is 1. Sessions find the right one, and go
// over where the group does. In version 2 a group may have one member, and values have up to 3,000 bytes in place of 1,024.
func WithVersion(version int) Option {
	return func(g *Group) {
		g.version = byte(version)
		if version < 0 || version > 255 {
			g.version = 0
		}
	}
}

// WithTimeout says how long a request waits for its answer, where its context doesn't end sooner: 10 seconds without it.
func WithTimeout(timeout time.Duration) Option { return func(g *Group) { g.timeout = timeout } }

// WithNotice has a line of text given to a function where an address seems to be wrong, or a register has no answer for 0.75 seconds. It is
// called by whoever asks, which waits for it.
func WithNotice(notice func(text string)) Option { return func(g *Group) { g.notice = notice } }

// WithRetry says how a request is asked again while it waits: by [DefaultRetry] without it.
func WithRetry(retry Retry) Option { return func(g *Group) { g.retry = retry } }

// Dial gives the group with a number and the addresses of all its members, in the order that the members know: `HOST:PORT` for UDP, or
// `tcp:HOST:PORT` for TCP. Nothing is resolved or sent before [Group.Register]. What isn't of the form is an [ErrInvalid].
func Dial(cluster uint64, addresses []string, options ...Option) (*Group, error) {
	g := &Group{cluster: cluster, addresses: append([]string(nil), addresses...), version: 1, timeout: defaultTimeout, retry: DefaultRetry}
	for _, option := range options {
		option(g)
	}
	if largestValue[g.version] == 0 {
		return nil, invalid("a version is 1 or 2")
	}
	if fewest := map[byte]int{1: 2, 2: 1}[g.version]; len(addresses) < fewest || len(addresses) > mostMembers {
		return nil, invalid("a group of version %d has %d to %d addresses, not %d", g.version, fewest, mostMembers, len(addresses))
	}
	if g.timeout <= 0 {
		return nil, invalid("a timeout is above 0")
	}
	if err := g.retry.check(); err != nil {
		return nil, err
	}
	var err error
	g.places, g.overTCP, err = readAddresses(addresses)
	if err != nil {
		return nil, err
	}
	g.spoken = make([]atomic.Uint32, len(addresses))
	for place := range g.spoken {
		g.spoken[place].Store(uint32(g.version))
	}
	return g, nil
}

// String tells which group it is.
func (g *Group) String() string {
	return fmt.Sprintf("group %d of version %d at %v", g.cluster, g.version, g.addresses)
}

// Register begins a session, of a client with a random number. The group keeps 32 sessions, in version 2 64; a further one ends the one that was
// used longest ago. So a program should have few, and may use one from several goroutines.
//
// It gives an error of package net where no address can be resolved, and an [ErrUnknown] where no answer came: fewer members run than the
// group needs, messages don't come through, or the number or the addresses are another group's. The error says what was seen. It is an
// [ErrMisconfigured] too, after less than a second, where each address says that it is another member's or another group's.
func (g *Group) Register(ctx context.Context) (*Session, error) {
	var drawn [8]byte
	for {
		if _, err := crypto.Read(drawn[:]); err != nil {
			return nil, notAsked("register", err)
		}
		if client := binary.BigEndian.Uint64(drawn[:]); client != 0 {
			return g.RegisterAs(ctx, client)
		}
	}
}

// RegisterAs is Register of a client with a number that isn't 0. Each session needs a number of its own: one that was used before may be
// answered by an [ErrSessionLost].
func (g *Group) RegisterAs(ctx context.Context, client uint64) (*Session, error) {
	if client == 0 {
		return nil, invalid("a client is a number from 1 to 2^64 - 1")
	}
	within, cancel := context.WithTimeout(ctx, g.timeout)
	defer cancel()
	if err := within.Err(); err != nil {
		return nil, notAsked("register", err)
	}
	link, err := openLink(within, g.places, g.overTCP)
	if err != nil {
		return nil, notAsked("register", err)
	}
	s := &Session{client: client, group: g, link: link, turn: make(chan struct{}, 1)}
	s.asker.link, s.asker.addresses, s.asker.retry, s.asker.notice = link, g.addresses, g.retry, g.notice
	s.asker.draw, s.asker.spoken, s.asker.misplaced = rand.New(rand.NewSource(int64(client))), g.spoken, make([]bool, len(g.addresses))
	if _, err := s.ask(within, Operation{Kind: OperationRegister}); err != nil {
		s.Close()
		return nil, err
	}
	return s, nil
}

// Session is a client's session: its requests are executed one after the other, each at most once. Several goroutines may share it; their
// requests stand in line.
//
// Each request waits until it is answered, its context ends, or the group's timeout is over. It may give, besides what it says itself,
//
//   - [ErrUnknown] where no answer came: the operation may have been executed. The next request first asks for that answer again;
//   - [ErrSessionLost] where the group doesn't go on with the session: register anew;
//   - [ErrInvalid] where a key or a value isn't of its form, [ErrClosed] after Close, and [ErrNotAsked] with the context's error where that
//     ended before the request's turn came: then nothing was sent.
//
// Keys have 1 to 64 bytes and values 1 to 1,024, in version 2 to 3,000, each a visible letter of ASCII (33 to 126).
type Session struct {
	client uint64
	group  *Group
	link   *link
	turn   chan struct{} // full while a request is under way; what stands below is its
	asker  asker
	next   uint64
	open   *request
	lost   *SessionLostError
	end    sync.Once
}

// Client tells the number under which the session was begun.
func (s *Session) Client() uint64 { return s.client }

// String tells whose session it is.
func (s *Session) String() string {
	return fmt.Sprintf("session of client %d at %v", s.client, s.group)
}

// Put gives a key a value. It gives an [ErrFull] where the key is new and the group holds 128 already: then nothing has changed.
func (s *Session) Put(ctx context.Context, key, value string) error {
	operation := Operation{OperationPut, key, value}
	outcome, err := s.do(ctx, operation)
	if err == nil && outcome.Kind == OutcomeFull {
		return &failure{ErrFull, fmt.Sprintf("the group is full: `%v` changed nothing", operation), nil}
	}
	return err
}

// Get gives the value of a key, and whether it is there.
func (s *Session) Get(ctx context.Context, key string) (value string, found bool, err error) {
	outcome, err := s.do(ctx, Operation{Kind: OperationGet, Key: key})
	return outcome.Value, outcome.Kind == OutcomeValue, err
}

// Delete takes a key out, and tells whether it was there. Of several clients that delete a key at the same time one hears that it was.
func (s *Session) Delete(ctx context.Context, key string) (was bool, err error) {
	outcome, err := s.do(ctx, Operation{Kind: OperationDelete, Key: key})
	return outcome.Kind == OutcomeOK, err
}

// Ask asks any operation but a register, and gives its outcome, with its number in the group's list: what Put, Get and Delete are made of.
func (s *Session) Ask(ctx context.Context, operation Operation) (Outcome, error) {
	if operation.Kind < OperationPut || operation.Kind > OperationDelete {
		return Outcome{}, invalid("an operation is a put, a get or a delete")
	}
	return s.do(ctx, operation)
}

// Settle asks once more for the answer of the operation that is pending after an [ErrUnknown], and gives its outcome; nil where none is pending.
func (s *Session) Settle(ctx context.Context) (*Outcome, error) {
	within, cancel := context.WithTimeout(ctx, s.group.timeout)
	defer cancel()
	if err := s.begin(within, "what is pending"); err != nil {
		return nil, err
	}
	defer func() { <-s.turn }()
	if s.open == nil {
		return nil, nil
	}
	outcome, err := s.settle(within)
	if err != nil {
		return nil, err
	}
	return &outcome, nil
}

// Close gives the session's sockets back, and ends a request that is under way, as one of which nothing is known. The group keeps the session
// until newer ones end it.
func (s *Session) Close() error {
	s.end.Do(s.link.close)
	return nil
}

// begin waits for a request's turn. Its error is an ErrNotAsked.
func (s *Session) begin(ctx context.Context, what string) error {
	cause := ctx.Err()
	if cause == nil {
		select {
		case s.turn <- struct{}{}:
		case <-ctx.Done():
			return notAsked(what, ctx.Err())
		case <-s.link.done:
			return notAsked(what, ErrClosed)
		}
		if s.link.isOpen() {
			return nil
		}
		<-s.turn
		cause = ErrClosed
	}
	return notAsked(what, cause)
}

// do asks an operation of its form, within the group's timeout.
func (s *Session) do(ctx context.Context, operation Operation) (Outcome, error) {
	if err := operation.check(s.version()); err != nil {
		return Outcome{}, err
	}
	within, cancel := context.WithTimeout(ctx, s.group.timeout)
	defer cancel()
	return s.ask(within, operation)
}

// version gives that of the group, as far as this session knows.
func (s *Session) version() byte {
	if known := s.asker.version.Load(); known != 0 {
		return byte(known)
	}
	return s.group.version
}

// ask asks under the next number, once nothing is pending.
func (s *Session) ask(ctx context.Context, operation Operation) (Outcome, error) {
	if err := s.begin(ctx, operation.String()); err != nil {
		return Outcome{}, err
	}
	defer func() { <-s.turn }()
	if s.open != nil {
		if _, err := s.settle(ctx); err != nil {
			return Outcome{}, withUnsent(err, operation)
		}
	}
	if s.lost == nil && s.next > lastNumber {
		s.lost = &SessionLostError{Reason: reasonSpent}
	}
	if s.lost != nil {
		return Outcome{}, withUnsent(s.lost, operation)
	}
	s.open = &request{s.group.cluster, s.client, uint32(s.next), operation, s.version()}
	s.next++
	return s.settle(ctx)
}

// settle asks until the open request is answered; then none is open.
func (s *Session) settle(ctx context.Context) (Outcome, error) {
	answer, err := s.asker.ask(ctx, *s.open)
	if err != nil {
		return Outcome{}, err
	}
	operation := s.open.operation
	s.open = nil
	if reason := map[replyKind]string{replyOld: reasonOld, replyGap: reasonGap, replyEvicted: reasonEvicted}[answer.kind]; reason != "" {
		s.lost = &SessionLostError{Reason: reason, Operation: operation}
		return Outcome{}, s.lost
	}
	answer.outcome.Op = answer.op
	return answer.outcome, nil
}

// withUnsent gives an error that also says which operation wasn't asked because of it.
func withUnsent(err error, operation Operation) error {
	switch e := err.(type) {
	case *UnknownError:
		later := *e
		later.Unsent = &operation
		return &later
	case *SessionLostError:
		later := *e
		later.Unsent = &operation
		return &later
	}
	return err
}
