package nozhgiva

import (
	"net"
	"sync"
	"testing"
	"time"
)

// A tally counts the requests that come to each member.
type tally struct {
	mutex sync.Mutex
	asked [3]int
}

func (c *tally) of(says script) script {
	return func(member int, asked request) [][]byte {
		c.mutex.Lock()
		c.asked[member]++
		c.mutex.Unlock()
		return says(member, asked)
	}
}

func (c *tally) all() [3]int {
	c.mutex.Lock()
	defer c.mutex.Unlock()
	return c.asked
}

// Pauses that are much longer than these tests may take: what is to be asked at once isn't asked after one.
var slow = Retry{First: surely / 2, Most: surely / 2, Factor: 1}

// A register asks all members at once, and the next request who answered.
func TestWhoIsAsked(t *testing.T) {
	s, count, begun := newState(), &tally{}, time.Now()
	session := register(t, dial(t, overDatagrams(t, 3, count.of(func(member int, asked request) [][]byte {
		if member == 2 {
			return s.script(member, asked)
		}
		return says(replyRedirect, 5)(member, asked)
	})), WithRetry(slow)))
	if err := session.Put(background, "color", "green"); err != nil {
		t.Fatal(err)
	}
	took := time.Since(begun)
	for count.all() != [3]int{1, 1, 2} && time.Since(begun) < surely/4 {
		time.Sleep(rest) // what was sent is on its way
	}
	if asked := count.all(); took > surely/4 || asked != [3]int{1, 1, 2} {
		t.Errorf("it took %v, and %v were asked", took, asked)
	}
}

// Clients that lost their primary at one moment don't come back at one moment.
func TestSessionsRestForTimesOfTheirOwn(t *testing.T) {
	group := dial(t, overDatagrams(t, 2, func(member int, asked request) [][]byte {
		return [][]byte{answer(asked, member, replyOutcome, 0, Outcome{Kind: OutcomeSession}).encode()}
	}))
	if one, other := register(t, group).asker.draw.Float64(), register(t, group).asker.draw.Float64(); one == other {
		t.Errorf("both rest for %v of a pause", one)
	}
}

// Past a port that refuses the next member is asked at once.
func TestPortsThatRefuse(t *testing.T) {
	for scheme, start := range map[string]func(*testing.T, int, script) []string{"": overDatagrams, tcpPrefix: overStreams} {
		nobody, err := net.ListenPacket("udp", "127.0.0.1:0")
		if err != nil {
			t.Fatal(err)
		}
		gone := scheme + nobody.LocalAddr().String()
		nobody.Close()
		begun, addresses := time.Now(), start(t, 1, says(replyOld, 0))
		_, err = dial(t, []string{gone, gone, addresses[0]}, WithRetry(slow)).Register(background)
		wantIs(t, "a register", err, ErrSessionLost)
		if took := time.Since(begun); took > surely/4 {
			t.Errorf("%s: it took %v", gone, took)
		}
	}
}

// While all members redirect in a circle a request asks each once a pause. Pauses are at least half of 30, 45, 67.5, 100, 100 .. milliseconds, so
// three seconds have less than 63 of them.
func TestAGroupWithoutAPrimaryIsntStormed(t *testing.T) {
	count := &tally{}
	addresses := overDatagrams(t, 3, count.of(func(member int, asked request) [][]byte {
		return says(replyRedirect, uint32(member+1))(member, asked)
	}))
	_, err := dial(t, addresses, WithTimeout(later)).Register(background)
	wantIs(t, "a register", err, ErrUnknown)
	if asked := count.all(); asked[0]+asked[1]+asked[2] > 63*3 || asked[2] == 0 {
		t.Errorf("%v were asked", asked)
	}
}

// A stream on which nothing comes back, as after an outage, is begun again.
func TestADeafStreamIsBegunAgain(t *testing.T) {
	listener, err := net.Listen("tcp", "127.0.0.1:0")
	if err != nil {
		t.Fatal(err)
	}
	defer listener.Close()
	go func() {
		deaf, err := listener.Accept()
		if err == nil {
			defer deaf.Close()
		}
		for {
			stream, err := listener.Accept()
			if err != nil {
				return
			}
			go serveStream(stream, 0, newState().script)
		}
	}()
	register(t, dial(t, []string{tcpPrefix + listener.Addr().String()}, WithVersion(2)))
}
