package nozhgiva

import (
	"context"
	"errors"
	"net"
	"strings"
	"sync"
	"testing"
	"time"
)

const (
	soon    = 300 * time.Millisecond // for what isn't to be answered
	later   = 3 * time.Second        // for what is to be seen meanwhile
	surely  = 30 * time.Second       // for what is, also on a slow machine
	cluster = 5
)

var fast = Retry{First: 30 * time.Millisecond, Most: 100 * time.Millisecond, Factor: 1.5, Jitter: 0.5}

// A script gives what a member sends back for a request, one datagram or piece of a stream each; a nil piece ends the stream.
type script func(member int, asked request) [][]byte

// answer gives a member's reply to a request.
func answer(asked request, member int, kind replyKind, view uint32, outcome Outcome) reply {
	said := reply{cluster: asked.cluster, client: asked.client, number: asked.number, replica: byte(member), view: view, kind: kind, version: asked.version}
	copy(said.requestName[:], asked.encode())
	if kind == replyOutcome {
		said.op, said.outcome = 1, outcome
	}
	return said
}

// says is a script whose members all say one thing.
func says(kind replyKind, view uint32) script {
	return func(member int, asked request) [][]byte {
		return [][]byte{answer(asked, member, kind, view, Outcome{}).encode()}
	}
}

func silent(int, request) [][]byte { return nil }

// A state answers as a group does as long as one client asks: each number is executed once. While it is quiet it executes, and its answers are lost.
type state struct {
	mutex    sync.Mutex
	keys     map[string]string
	executed []string
	last     int64
	given    Outcome
	version  byte
	only     bool // hears its version alone from the start
	quiet    bool
}

func newState() *state { return &state{keys: map[string]string{}, last: -1} }

func (s *state) hush(quiet bool) {
	s.mutex.Lock()
	defer s.mutex.Unlock()
	s.quiet = quiet
}

// move has it hear another version from now on.
func (s *state) move(version byte) {
	s.mutex.Lock()
	defer s.mutex.Unlock()
	s.version = version
}

// said tells what was executed, in order.
func (s *state) said() string {
	s.mutex.Lock()
	defer s.mutex.Unlock()
	return strings.Join(s.executed, ", ")
}

func (s *state) script(member int, asked request) [][]byte {
	s.mutex.Lock()
	defer s.mutex.Unlock()
	if asked.version != s.version && (s.only || s.last >= 0) || int64(asked.number) < s.last {
		return nil // a member hears its own version, and nobody waits for the answer to a late copy
	}
	if asked.operation.Key == "version" {
		return [][]byte{answer(asked, member, replyEvicted, 0, Outcome{}).encode()}
	}
	if s.last != int64(asked.number) {
		s.version = asked.version
		s.last, s.given = int64(asked.number), s.execute(asked.operation)
		s.executed = append(s.executed, asked.operation.String())
	}
	if s.quiet {
		return nil
	}
	return [][]byte{answer(asked, member, replyOutcome, 0, s.given).encode()}
}

func (s *state) execute(operation Operation) Outcome {
	value, found := s.keys[operation.Key]
	switch {
	case operation.Kind == OperationRegister:
		return Outcome{Kind: OutcomeSession}
	case operation.Kind == OperationPut && operation.Key == "one-too-many":
		return Outcome{Kind: OutcomeFull}
	case operation.Kind == OperationPut:
		s.keys[operation.Key] = operation.Value
		return Outcome{Kind: OutcomeOK}
	case !found:
		return Outcome{Kind: OutcomeAbsent}
	case operation.Kind == OperationGet:
		return Outcome{Kind: OutcomeValue, Value: value}
	default:
		delete(s.keys, operation.Key)
		return Outcome{Kind: OutcomeOK}
	}
}

// overDatagrams starts members on loopback that answer by a script, until the test ends.
func overDatagrams(t *testing.T, size int, says script) (addresses []string) {
	for member := 0; member < size; member++ {
		socket, err := net.ListenPacket("udp", "127.0.0.1:0")
		if err != nil {
			t.Fatal(err)
		}
		t.Cleanup(func() { socket.Close() })
		addresses = append(addresses, socket.LocalAddr().String())
		go func(member int) {
			buffer := make([]byte, largestMessage)
			for {
				length, from, err := socket.ReadFrom(buffer)
				if err != nil {
					return
				}
				if _, asked, err := decode(buffer[:length]); err == nil {
					for _, piece := range says(member, asked.(request)) {
						socket.WriteTo(piece, from)
					}
				}
			}
		}(member)
	}
	return addresses
}

// overStreams does so over TCP.
func overStreams(t *testing.T, size int, says script) (addresses []string) {
	for member := 0; member < size; member++ {
		listener, err := net.Listen("tcp", "127.0.0.1:0")
		if err != nil {
			t.Fatal(err)
		}
		t.Cleanup(func() { listener.Close() })
		addresses = append(addresses, tcpPrefix+listener.Addr().String())
		go func(member int) {
			for {
				stream, err := listener.Accept()
				if err != nil {
					return
				}
				go serveStream(stream, member, says)
			}
		}(member)
	}
	return addresses
}

func serveStream(stream net.Conn, member int, says script) {
	defer stream.Close()
	for {
		data, err := readMessage(stream)
		if err != nil {
			return
		}
		_, asked, err := decode(data)
		if err != nil {
			return
		}
		for _, piece := range says(member, asked.(request)) {
			if piece == nil {
				return
			}
			stream.Write(piece)
		}
	}
}

// dial gives a group that asks fast.
func dial(t *testing.T, addresses []string, options ...Option) *Group {
	t.Helper()
	group, err := Dial(cluster, addresses, append([]Option{WithTimeout(surely), WithRetry(fast)}, options...)...)
	if err != nil {
		t.Fatal(err)
	}
	return group
}

// register gives a session that the test closes.
func register(t *testing.T, group *Group) *Session {
	t.Helper()
	session, err := group.Register(context.Background())
	if err != nil {
		t.Fatal(err)
	}
	t.Cleanup(func() { session.Close() })
	return session
}

// briefly gives a context that ends soon.
func briefly(t *testing.T) context.Context {
	within, cancel := context.WithTimeout(context.Background(), soon)
	t.Cleanup(cancel)
	return within
}

// wantIs fails the test where an error isn't all of some kinds, or is one of others.
func wantIs(t *testing.T, what string, err error, kinds ...error) {
	t.Helper()
	for _, kind := range []error{ErrUnknown, ErrSessionLost, ErrNotAsked, ErrFull, ErrClosed, ErrInvalid, ErrMisconfigured} {
		wanted := false
		for _, one := range kinds {
			wanted = wanted || one == kind
		}
		if errors.Is(err, kind) != wanted {
			t.Errorf("%s gives %v, of which it's %v that it is `%v`", what, err, !wanted, kind)
		}
	}
}
