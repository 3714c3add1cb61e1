package nozhgiva

import (
	"bytes"
	"context"
	"errors"
	"fmt"
	"net"
	"strings"
	"sync"
	"testing"
	"time"
)

var background = context.Background()

// paths asks each operation once, by a session that answers right.
func paths(t *testing.T, addresses []string, options ...Option) {
	t.Helper()
	session := register(t, dial(t, addresses, options...))
	if err := session.Put(background, "color", "green"); err != nil {
		t.Error(err)
	}
	if value, found, err := session.Get(background, "color"); value != "green" || !found || err != nil {
		t.Error(value, found, err)
	}
	for _, wanted := range []bool{true, false} {
		if was, err := session.Delete(background, "color"); was != wanted || err != nil {
			t.Error(was, err)
		}
	}
	if value, found, err := session.Get(background, "color"); value != "" || found || err != nil {
		t.Error(value, found, err)
	}
	wantIs(t, "a put too many", session.Put(background, "one-too-many", "a-secret"), ErrFull)
}

// Each of these answers right in the end, whatever comes before.
func TestAnswersThatComeThrough(t *testing.T) {
	alone := func(member int, says script) script { // the others redirect
		return func(asked int, r request) [][]byte {
			if asked == member {
				return says(asked, r)
			}
			return [][]byte{answer(r, asked, replyRedirect, uint32(3+member), Outcome{}).encode()}
		}
	}
	var mutex sync.Mutex
	var late []byte
	spoil := func(member int, asked request, right []byte) [][]byte {
		mutex.Lock()
		defer mutex.Unlock()
		flipped := append([]byte(nil), right...)
		flipped[100] ^= 1
		other := asked
		other.client++
		elsewhere := asked
		elsewhere.cluster++
		before := late
		late = right
		flood := [][]byte{right[:len(right)-1], right[:5], {}, flipped, append(right[:len(right):len(right)], 0), before, before, asked.encode(),
			answer(other, member, replyOutcome, 0, Outcome{Kind: OutcomeOK}).encode(), answer(elsewhere, member, replyEvicted, 0, Outcome{}).encode()}
		for count := 0; count < 100; count++ {
			flood = append(flood, bytes.Repeat([]byte{byte(count)}, 300))
		}
		return append(flood, right)
	}
	busy := 0
	table := []struct {
		name  string
		start func(*testing.T, int, script) []string
		says  func(*state) script
	}{
		{"datagrams", overDatagrams, func(s *state) script { return s.script }},
		{"streams", overStreams, func(s *state) script { return s.script }},
		{"one of three leads", overDatagrams, func(s *state) script { return alone(2, s.script) }},
		{"one of three leads, over streams", overStreams, func(s *state) script { return alone(1, s.script) }},
		{"each answer comes in two pieces", overStreams, func(s *state) script {
			return func(member int, asked request) [][]byte {
				var pieces [][]byte
				for _, whole := range s.script(member, asked) {
					pieces = append(pieces, whole[:7], whole[7:])
				}
				return pieces
			}
		}},
		{"each stream ends after an answer", overStreams, func(s *state) script {
			return func(member int, asked request) [][]byte { return append(s.script(member, asked), nil) }
		}},
		{"no message on two streams of three", overStreams, func(s *state) script {
			return func(member int, asked request) [][]byte {
				if member == 2 {
					return s.script(member, asked)
				}
				return [][]byte{make([]byte, 200)}
			}
		}},
		{"two members of three are silent", overDatagrams, func(s *state) script {
			return func(member int, asked request) [][]byte {
				if member == 2 {
					return s.script(member, asked)
				}
				return nil
			}
		}},
		{"one is busy for ever, and one says for ever that itself leads", overDatagrams, func(s *state) script {
			return func(member int, asked request) [][]byte {
				switch member {
				case 0:
					return says(replyBusy, 0)(member, asked)
				case 1:
					return says(replyRedirect, 4)(member, asked)
				}
				return s.script(member, asked)
			}
		}},
		{"busy at first", overDatagrams, func(s *state) script {
			return func(member int, asked request) [][]byte {
				mutex.Lock()
				defer mutex.Unlock()
				if busy++; busy%3 > 0 {
					return says(replyBusy, 0)(member, asked)
				}
				return s.script(member, asked)
			}
		}},
		{"each answer comes behind what is cut, flipped, late, of others and no message", overDatagrams, func(s *state) script {
			return func(member int, asked request) (pieces [][]byte) {
				for _, right := range s.script(member, asked) {
					pieces = append(pieces, spoil(member, asked, right)...)
				}
				return pieces
			}
		}},
	}
	for _, row := range table {
		t.Run(row.name, func(t *testing.T) {
			s := newState()
			paths(t, row.start(t, 3, row.says(s)))
			if said := s.said(); said != "register, put color (5 bytes), get color, delete color, delete color, get color, put one-too-many (8 bytes)" {
				t.Errorf("executed: %s", said)
			}
		})
	}
}

// A group of one, over IPv6 where the machine has it, and values up to 3,000 bytes.
func TestVersion2(t *testing.T) {
	long := strings.Repeat("v", 3000)
	session := register(t, dial(t, overDatagrams(t, 1, newState().script), WithVersion(2)))
	if err := session.Put(background, "long", long); err != nil {
		t.Fatal(err)
	}
	if value, _, err := session.Get(background, "long"); value != long || err != nil {
		t.Error(len(value), err)
	}
	wantIs(t, "3,001 bytes", session.Put(background, "long", long+"v"), ErrInvalid, ErrNotAsked)
}

func TestWhatIsUnknownIsSettledAndExecutedOnce(t *testing.T) {
	s := newState()
	session := register(t, dial(t, overDatagrams(t, 2, s.script)))
	s.hush(true)
	err := session.Put(briefly(t), "color", "green")
	wantIs(t, "a lost put", err, ErrUnknown)
	var unknown *UnknownError
	if !errors.As(err, &unknown) || !errors.Is(err, context.DeadlineExceeded) || !unknown.Timeout() || unknown.Operation != (Operation{OperationPut, "color", "green"}) || unknown.Unsent != nil {
		t.Errorf("%#v", err)
	}
	_, _, err = session.Get(briefly(t), "color")
	wantIs(t, "a get behind it", err, ErrUnknown, ErrNotAsked)
	if !errors.As(err, &unknown) || unknown.Operation.Kind != OperationPut || unknown.Unsent == nil || unknown.Unsent.Kind != OperationGet {
		t.Errorf("%#v", err)
	}
	s.hush(false)
	if outcome, err := session.Settle(background); err != nil || outcome == nil || outcome.Kind != OutcomeOK {
		t.Error(outcome, err)
	}
	if outcome, err := session.Settle(background); outcome != nil || err != nil {
		t.Error(outcome, err)
	}
	s.hush(true)
	wantIs(t, "a second lost put", session.Put(briefly(t), "color", "red"), ErrUnknown)
	s.hush(false)
	if value, _, err := session.Get(background, "color"); value != "red" || err != nil {
		t.Error(value, err)
	}
	if said := s.said(); said != "register, put color (5 bytes), put color (3 bytes), get color" {
		t.Errorf("executed: %s", said)
	}
}

// Over UDP what others send isn't heard, though it may spell an answer to the very request that is open.
func TestStrangersArentHeard(t *testing.T) {
	s := newState()
	session := register(t, dial(t, overDatagrams(t, 2, s.script)))
	stranger, err := net.ListenPacket("udp", "127.0.0.1:0")
	if err != nil {
		t.Fatal(err)
	}
	defer stranger.Close()
	s.hush(true)
	answered := make(chan error)
	go func() { answered <- session.Put(background, "color", "green") }()
	for !strings.Contains(s.said(), "put") {
		time.Sleep(time.Millisecond)
	}
	asked := request{cluster, session.client, 1, Operation{OperationPut, "color", "green"}, 1}
	forged := answer(asked, 0, replyEvicted, lastView, Outcome{}).encode()
	for count := 0; count < 300; count++ {
		for _, place := range session.link.places {
			to := place.(*datagrams).socket.LocalAddr()
			stranger.WriteTo(forged, to)
			stranger.WriteTo(bytes.Repeat([]byte{byte(count)}, 1000), to)
		}
	}
	s.hush(false)
	if err := <-answered; err != nil {
		t.Error(err)
	}
}

func TestALostSessionStaysLost(t *testing.T) {
	for kind, reason := range map[replyKind]string{replyOld: "old", replyGap: "gap", replyEvicted: "evicted"} {
		s, kind := newState(), kind
		session := register(t, dial(t, overDatagrams(t, 2, func(member int, asked request) [][]byte {
			if asked.number < 2 {
				return s.script(member, asked)
			}
			return says(kind, 0)(member, asked)
		})))
		if err := session.Put(background, "color", "green"); err != nil {
			t.Fatal(err)
		}
		_, _, err := session.Get(background, "color")
		wantIs(t, "the get that hears it", err, ErrSessionLost)
		_, _, err = session.Get(background, "size")
		wantIs(t, "a get after it", err, ErrSessionLost, ErrNotAsked)
		var lost *SessionLostError
		if !errors.As(err, &lost) || lost.Reason != reason || lost.Operation.Key != "color" || lost.Unsent.Key != "size" {
			t.Errorf("%v", err)
		}
	}
}

// ofVersion2 is a script of members that hear version 2 alone.
func ofVersion2(member int, asked request) [][]byte {
	if asked.version != 2 {
		return nil
	}
	return says(replyRedirect, 0)(member, asked)
}

// A member that was cut off, and thinks that it leads an earlier view, doesn't know the session. It isn't believed.
func TestWhoWasCutOffIsntBelieved(t *testing.T) {
	s := newState()
	session := register(t, dial(t, overDatagrams(t, 3, func(member int, asked request) [][]byte {
		if member == 2 {
			return [][]byte{answer(asked, member, replyOutcome, 5, s.execute(asked.operation)).encode()}
		}
		return says(map[bool]replyKind{true: replyRedirect, false: replyEvicted}[asked.number == 0], 2)(member, asked)
	})))
	session.asker.first = 0
	if err := session.Put(background, "color", "green"); err != nil {
		t.Error(err)
	}
}

// What an ErrUnknown says of each address, with members that all do the same.
func TestWhatWasSeen(t *testing.T) {
	nobody, err := net.ListenPacket("udp", "127.0.0.1:0")
	if err != nil {
		t.Fatal(err)
	}
	gone := nobody.LocalAddr().String()
	nobody.Close()
	change := func(of func(*reply)) script {
		return func(member int, asked request) [][]byte {
			said := answer(asked, member, replyBusy, 0, Outcome{})
			of(&said)
			return [][]byte{said.encode()}
		}
	}
	table := []struct {
		name   string
		start  func(*testing.T, int, script) []string
		says   script
		sight  Sight
		wanted string
	}{
		{"silent", overDatagrams, silent, Silent, "is silent"},
		{"ports without a member", func(*testing.T, int, script) []string { return []string{gone, gone, gone} }, nil, Failed, "can't be reached (connection refused)"},
		{"streams without a member", func(*testing.T, int, script) []string { return []string{"tcp:" + gone, "tcp:" + gone, "tcp:" + gone} }, nil, Failed, "can't be reached (connection refused)"},
		{"streams that end", overStreams, func(int, request) [][]byte { return [][]byte{nil} }, Ended, "ends the stream without an answer"},
		{"busy", overDatagrams, says(replyBusy, 0), Busy, "is busy"},
		{"redirects", overDatagrams, says(replyRedirect, 7), Redirects, "redirects to member 1 (view 7)"},
		{"another order", overDatagrams, change(func(r *reply) { r.replica = (r.replica + 2) % 3 }), OtherMember, "member 2 answers at place 0"},
		{"another cluster", overDatagrams, change(func(r *reply) { r.cluster = 6 }), OtherCluster, "is of another cluster (6)"},
		{"another version without a primary", overDatagrams, ofVersion2, Redirects, "redirects to member 0 (view 0)"},
		{"another version without a primary, over streams", overStreams, ofVersion2, Redirects, "redirects to member 0 (view 0)"},
		{"no message", overDatagrams, func(int, request) [][]byte { return [][]byte{[]byte("HTTP/1.1 400 Bad Request")} }, NoMessage, "sends what is no message"},
		{"no message on a stream", overStreams, func(int, request) [][]byte { return [][]byte{make([]byte, 200)} }, NoMessage, "sends what is no message"},
	}
	for _, row := range table {
		row := row
		t.Run(row.name, func(t *testing.T) {
			t.Parallel()
			begun := time.Now()
			var said []string
			var when []time.Duration
			notice := func(text string) { said, when = append(said, text), append(when, time.Since(begun)) }
			_, err := dial(t, row.start(t, 3, row.says), WithTimeout(later), WithNotice(notice)).Register(background)
			kinds, hopeless := []error{ErrUnknown}, row.sight == OtherMember || row.sight == OtherCluster
			if hopeless {
				kinds = append(kinds, ErrMisconfigured)
			}
			wantIs(t, "a register", err, kinds...)
			if took := time.Since(begun); !hopeless && took < later || hopeless && took > later/2 {
				t.Errorf("it waited for %v", took)
			}
			if len(said) != 1 && !hopeless || hopeless && row.sight == OtherCluster && len(said) > 0 || !hopeless && !strings.Contains(said[0], row.wanted) {
				t.Errorf("it was told: %v", said)
			}
			if !hopeless && when[0] > time.Second {
				t.Errorf("it was told after %v", when[0])
			}
			var unknown *UnknownError
			if !errors.As(err, &unknown) {
				t.Fatal(err)
			}
			for place, one := range unknown.Seen {
				if one.Sight != row.sight || one.Place != place || one.Asked == 0 {
					t.Errorf("%+v", one)
				}
			}
			if !strings.Contains(err.Error(), row.wanted) {
				t.Errorf("it says: %v", err)
			}
		})
	}
}

// A group of the other version is found within a second, and a session goes over with its group: what is open is executed once.
func TestSessionsGoOver(t *testing.T) {
	for _, start := range []func(*testing.T, int, script) []string{overDatagrams, overStreams} {
		for version := 1; version <= 2; version++ {
			s := newState()
			s.version, s.last = byte(version), -1
			s.only = true
			begun := time.Now()
			register(t, dial(t, start(t, 3, s.script), WithVersion(3-version), WithRetry(DefaultRetry)))
			if took := time.Since(begun); took > time.Second {
				t.Errorf("version %d is found after %v", version, took)
			}
		}
	}
	s := newState()
	s.version, s.only = 1, true
	session := register(t, dial(t, overDatagrams(t, 3, s.script)))
	s.hush(true)
	err := session.Put(briefly(t), "color", "green")
	wantIs(t, "a put", err, ErrUnknown)
	wantIs(t, "a long put", session.Put(background, "long", strings.Repeat("v", 3000)), ErrInvalid, ErrNotAsked)
	s.move(2)
	s.hush(false)
	outcome, err := session.Settle(background)
	if err != nil || outcome.Kind != OutcomeOK || outcome.Op != 1 {
		t.Errorf("%v %v", outcome, err)
	}
	if err := session.Put(background, "long", strings.Repeat("v", 3000)); err != nil {
		t.Error(err)
	}
	if said := s.said(); said != "register, put color (5 bytes), put long (3000 bytes)" {
		t.Error(said)
	}
}

// The outcome of an operation has its number in the group's list.
func TestAnOutcomeHasItsNumber(t *testing.T) {
	session := register(t, dial(t, overDatagrams(t, 2, func(member int, asked request) [][]byte {
		said := answer(asked, member, replyOutcome, 0, Outcome{Kind: map[bool]OutcomeKind{true: OutcomeSession, false: OutcomeOK}[asked.number == 0]})
		said.op = 40 + uint64(asked.number)
		return [][]byte{said.encode()}
	})))
	for wanted := uint64(41); wanted < 44; wanted++ {
		if outcome, err := session.Ask(background, Operation{Kind: OperationPut, Key: "color", Value: "green"}); err != nil || outcome.Op != wanted {
			t.Errorf("%v %v", outcome, err)
		}
	}
	_, err := session.Ask(background, Operation{Kind: OperationRegister})
	wantIs(t, "a register by Ask", err, ErrInvalid, ErrNotAsked)
}

func TestAClosedSession(t *testing.T) {
	for name, start := range map[string]func(*testing.T, int, script) []string{"datagrams": overDatagrams, "streams": overStreams} {
		s := newState()
		session := register(t, dial(t, start(t, 2, s.script)))
		s.hush(true)
		answered := make(chan error)
		go func() { answered <- session.Put(background, "color", "green") }()
		for !strings.Contains(s.said(), "put") {
			time.Sleep(time.Millisecond)
		}
		session.Close()
		session.Close()
		wantIs(t, name+": a put under way", <-answered, ErrUnknown, ErrClosed)
		wantIs(t, name+": a put afterwards", session.Put(background, "color", "green"), ErrNotAsked, ErrClosed)
		_, err := session.Settle(background)
		wantIs(t, name+": settling", err, ErrNotAsked, ErrClosed)
	}
}

func TestContexts(t *testing.T) {
	s := newState()
	group := dial(t, overDatagrams(t, 2, s.script))
	session := register(t, group)
	over, cancel := context.WithCancel(background)
	cancel()
	for what, err := range map[string]error{
		"a put":      session.Put(over, "color", "green"),
		"a register": func() error { _, err := group.Register(over); return err }(),
	} {
		wantIs(t, what, err, ErrNotAsked)
		if !errors.Is(err, context.Canceled) {
			t.Error(what, err)
		}
	}
	s.hush(true)
	stopped, stop := context.WithCancel(background)
	answered := make(chan error, 2)
	go func() { answered <- session.Put(stopped, "color", "green") }()
	for len(session.turn) == 0 {
		time.Sleep(time.Millisecond)
	}
	_, _, err := session.Get(briefly(t), "color") // waits in line all the time
	wantIs(t, "a get in line", err, ErrNotAsked)
	stop()
	err = <-answered
	wantIs(t, "a put that is stopped", err, ErrUnknown)
	if !errors.Is(err, context.Canceled) {
		t.Error(err)
	}
}

func TestGoroutinesStandInLine(t *testing.T) {
	s := newState()
	session := register(t, dial(t, overDatagrams(t, 2, s.script)))
	var all sync.WaitGroup
	for worker := 0; worker < 8; worker++ {
		all.Add(1)
		go func(key string) {
			defer all.Done()
			for count := 0; count < 20; count++ {
				if err := session.Put(background, key, fmt.Sprint(count)); err != nil {
					t.Error(err)
				}
				if value, _, err := session.Get(background, key); value != fmt.Sprint(count) || err != nil {
					t.Error(value, err)
				}
			}
		}(fmt.Sprint("key", worker))
	}
	all.Wait()
}

func TestWhatIsOutOfForm(t *testing.T) {
	good := []string{"127.0.0.1:4000", "127.0.0.1:4001"}
	groups := map[string]error{}
	try := func(name string, addresses []string, options ...Option) {
		_, groups[name] = Dial(cluster, addresses, options...)
	}
	try("one address of version 1", good[:1])
	try("no address", nil, WithVersion(2))
	try("seven addresses", append(append(append([]string(nil), good...), good...), good[0], good[0], good[0]))
	for _, address := range []string{"127.0.0.1", ":1", "a:65536", "a:+1", "a:01", "a:", "[]:1", "a:b", "a:1/b", "/a:1", "a/b:1"} {
		try(address, []string{address, good[0]})
	}
	try("one over TCP", []string{"tcp:127.0.0.1:4000", good[1]})
	try("version 3", good, WithVersion(3))
	try("version 257", good, WithVersion(257))
	try("no timeout", good, WithTimeout(0))
	try("a pause of nothing", good, WithRetry(Retry{}))
	_, groups["client 0"] = dial(t, good).RegisterAs(background, 0)
	session := register(t, dial(t, overDatagrams(t, 2, newState().script)))
	for what, text := range map[string][2]string{
		"an empty key": {"", "v"}, "65 bytes": {strings.Repeat("k", 65), "v"}, "a space": {"a b", "v"}, "no ASCII": {"é", "v"}, "no value": {"k", ""},
		"1,025 bytes": {"k", strings.Repeat("v", 1025)}, "a line feed": {"k", "a\n"}, "a zero": {"k", "\x00"},
	} {
		groups[what] = session.Put(background, text[0], text[1])
	}
	for what, err := range groups {
		wantIs(t, what, err, ErrInvalid, ErrNotAsked)
	}
}

func TestClientsAskAtTheirOwnAddress(t *testing.T) {
	for scheme, wanted := range map[string]bool{"": false, tcpPrefix: true} {
		places, overTCP, err := readAddresses([]string{scheme + "127.0.0.1:4000/127.0.0.2:4001", scheme + "127.0.0.1:4002"})
		if fmt.Sprint(places) != "[127.0.0.2:4001 127.0.0.1:4002]" || overTCP != wanted || err != nil {
			t.Error(places, overTCP, err)
		}
	}
}

func TestAddressesThatDontResolve(t *testing.T) {
	for scheme, start := range map[string]func(*testing.T, int, script) []string{"": overDatagrams, tcpPrefix: overStreams} {
		nowhere := scheme + "no..name:4000" // refused without asking anybody
		_, err := dial(t, []string{nowhere, nowhere}).Register(background)
		var unresolved *net.DNSError
		if wantIs(t, "a register", err, ErrNotAsked); !errors.As(err, &unresolved) {
			t.Errorf("%v", err)
		}
		paths(t, []string{nowhere, start(t, 1, newState().script)[0]}) // the others answer
		_, err = dial(t, []string{nowhere, start(t, 1, silent)[0]}, WithTimeout(later)).Register(background)
		if wantIs(t, "a register", err, ErrUnknown); !strings.Contains(err.Error(), nowhere+" can't be reached") {
			t.Errorf("%v", err)
		}
	}
}

func TestTextsHaveNoValues(t *testing.T) {
	s := newState()
	session := register(t, dial(t, overDatagrams(t, 2, s.script)))
	full := session.Put(background, "one-too-many", "a-secret")
	s.hush(true)
	unknown := session.Put(briefly(t), "color", "a-secret")
	for _, err := range []error{full, unknown, session.Put(briefly(t), "color", "a-secret\n")} {
		if err == nil || strings.Contains(err.Error(), "secret") {
			t.Errorf("%v", err)
		}
	}
	for _, said := range []string{fmt.Sprint(session), fmt.Sprint(dial(t, []string{"[::1]:1", "[::1]:2"}, WithVersion(2)))} {
		if !strings.Contains(said, "group 5 of version") {
			t.Error(said)
		}
	}
}
