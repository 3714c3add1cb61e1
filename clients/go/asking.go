package nozhgiva

import (
	"context"
	"errors"
	"fmt"
	"math/rand"
	"sync/atomic"
	"time"
)

// look is after how long it is said what was seen so far, where a register has no answer.
const look = 750 * time.Millisecond

// Retry says how long a request waits for an answer before it is sent once more: First, and with each time Factor times as long, Most at most. Of
// each pause a random share, up to Jitter, is left out, so that clients that lost their primary at the same moment don't come back at the same
// moment.
type Retry struct {
	First, Most    time.Duration
	Factor, Jitter float64
}

// DefaultRetry is how a group asks unless it is told otherwise by [WithRetry].
var DefaultRetry = Retry{First: 250 * time.Millisecond, Most: time.Second, Factor: 1.5, Jitter: 0.5}

func (r Retry) check() error {
	if r.First <= 0 || r.Most < r.First || !(r.Factor >= 1) || !(r.Jitter >= 0 && r.Jitter < 1) {
		return invalid("a retry has 0 < First <= Most, 1 <= Factor and 0 <= Jitter < 1")
	}
	return nil
}

// An asker asks a group through a link, the member that answered last first.
type asker struct {
	link      *link
	addresses []string
	retry     Retry
	draw      *rand.Rand // of the session's own seed, so that no two clients rest for the same times
	first     int
	view      uint32          // of the last outcome; a member that answers in an earlier one was cut off, and doesn't know that it leads no more
	version   atomic.Uint32   // of the last outcome, 0 before the first; one of version 2 never goes back
	spoken    []atomic.Uint32 // for each place the version in which it answered last; the sessions of a group share it
	notice    func(string)    // nil where nobody wants to be told
	misplaced []bool          // of which places it was said that another member answers there
}

// versionAt gives the version in which a place is asked.
func (a *asker) versionAt(place int) byte {
	if a.version.Load() == 2 {
		return 2
	}
	return byte(a.spoken[place].Load())
}

// answered notes that an outcome came: the group has its version, and view.
func (a *asker) answered(outcome reply) {
	a.view = outcome.view
	a.version.Store(uint32(outcome.version))
	for place := range a.spoken {
		a.spoken[place].Store(uint32(outcome.version))
	}
}

// A message is what is sent, and its name.
type message struct {
	name name
	data []byte
}

func spell(r request) message {
	m := message{data: r.encode()}
	copy(m.name[:], m.data)
	return m
}

// A search is one request on its way. In each pause each place is asked at most once: the first one, those to which a redirect leads, and the next
// one after a place that can't be reached; a register begins with all. So a group without a primary gets at most as many messages a pause as it
// has members. The next pause begins with the next place, so that no member that is busy or cut off from the others holds the request up for good.
//
// A place that was asked in a pause and is silent is sent a probe of the other version at its end. Where that is answered, the member there has
// gone over: it is asked the same in that version, under the same number, so the request is executed at most once.
type search struct {
	*asker
	request  request
	requests map[byte]message // by the version
	probes   map[byte]message // requests that execute nothing, by the version
	asked    []byte           // in which version a place was asked in this pause, else 0
	waits    []bool           // whether a place was asked and nothing has come since
	target   int              // the place that was asked last
	look     <-chan time.Time // when it is looked at what was seen so far
	seen     []Seen
}

// ask asks until there is a reply that settles the request: an outcome, old, gap or evicted; or an [UnknownError], once the context or the link has
// ended.
func (a *asker) ask(ctx context.Context, r request) (reply, error) {
	s := a.newSearch(r)
	if s.isRegister() {
		timer := time.NewTimer(look)
		defer timer.Stop()
		s.look = timer.C
	}
	defer s.tellMisplaced()
	for length := a.retry.First; ; {
		share := 1 - a.retry.Jitter*a.draw.Float64()
		if answer, over := s.pause(ctx, time.Duration(float64(length)*share)); over != nil {
			return reply{}, &UnknownError{Operation: r.operation, Seen: s.seen, Cause: over}
		} else if answer != nil {
			return *answer, nil
		}
		if length = time.Duration(float64(length) * a.retry.Factor); length > a.retry.Most {
			length = a.retry.Most
		}
	}
}

// newSearch gives a search that has asked nobody yet.
func (a *asker) newSearch(r request) *search {
	size := len(a.addresses)
	s := &search{asker: a, request: r, requests: map[byte]message{r.version: spell(r)}, probes: map[byte]message{}, waits: make([]bool, size), seen: make([]Seen, size)}
	for place, address := range a.addresses {
		s.seen[place].Address, s.seen[place].Place = address, place
	}
	return s
}

// isRegister tells whether it begins a session, so that nothing is known yet of who is there.
func (s *search) isRegister() bool { return s.request.operation.Kind == OperationRegister }

// isHopeless tells whether each address says that it isn't what the group's list says.
func (s *search) isHopeless() bool {
	for _, one := range s.seen {
		if one.Sight != OtherMember && one.Sight != OtherCluster {
			return false
		}
	}
	return true
}

// tell gives a line to who wants to be told.
func (s *search) tell(form string, words ...any) {
	if s.notice != nil {
		s.notice(fmt.Sprintf(form, words...))
	}
}

// tellMisplaced says once of each place that another member answers there.
func (s *search) tellMisplaced() {
	for place, one := range s.seen {
		if one.Sight == OtherMember && !s.misplaced[place] {
			s.misplaced[place] = true
			s.tell("%v (the addresses stand in another order than at the members)", one)
		}
	}
}

// probe asks a place in the other version, by a client that has no session: a member of that version answers it by evicted or redirect.
func (s *search) probe(place int) {
	version := 3 - s.versionAt(place)
	if _, known := s.probes[version]; !known {
		s.probes[version] = spell(request{s.request.cluster, 1 + uint64(s.draw.Int63()), 1, Operation{Kind: OperationGet, Key: "version"}, version})
	}
	s.waits[place] = false
	s.link.places[place].send(s.probes[version].data)
}

// pause asks, and hears for as long as a pause is: a reply that settles the request, or what ended the wait, or neither.
func (s *search) pause(ctx context.Context, length time.Duration) (*reply, error) {
	timer := time.NewTimer(length)
	defer timer.Stop()
	s.begin()
	for {
		select {
		case <-ctx.Done():
			return nil, ctx.Err()
		case <-s.link.done:
			return nil, ErrClosed
		case <-timer.C:
			return nil, nil
		case <-s.look:
			s.look = nil
			if s.isHopeless() {
				return nil, ErrMisconfigured
			}
			s.tell("no answer to `%v` yet; %s", s.request.operation, saidOf(s.seen))
		case came := <-s.link.arrivals:
			if answer := s.hear(came); answer != nil {
				return answer, nil
			}
		}
	}
}

// begin asks the place with which a pause begins: the one that answered last, and in each later pause the next one. A register begins with all.
func (s *search) begin() {
	for place, waits := range s.waits {
		if waits {
			s.probe(place)
		}
	}
	count := 1
	if s.asked != nil {
		s.first = (s.first + 1) % len(s.addresses)
	} else if s.isRegister() {
		count = len(s.addresses)
	}
	s.asked = make([]byte, len(s.addresses))
	for place := s.first; place < s.first+count; place++ {
		s.sendTo(place % len(s.addresses))
	}
}

// sendTo asks a place in its version.
func (s *search) sendTo(place int) { s.send(place, s.versionAt(place)) }

// send asks a place that wasn't asked in this pause, or not in this version.
func (s *search) send(place int, version byte) {
	if s.asked[place] == version {
		return
	}
	if _, known := s.requests[version]; !known {
		again := s.request
		again.version = version
		s.requests[version] = spell(again)
	}
	s.asked[place], s.waits[place], s.target = version, true, place
	s.link.places[place].send(s.requests[version].data)
	s.seen[place].Asked++
	s.note(Seen{Place: place, Sight: Silent})
}

// hear looks at what came: it follows a redirect, goes past a place that can't be reached, notes what was seen, and gives a reply that settles the
// request. All else is dropped.
func (s *search) hear(came arrival) *reply {
	if came.err != nil {
		s.lose(came)
		return nil
	}
	h, message, err := decode(came.data)
	answer, isReply := message.(reply)
	if err != nil {
		s.note(Seen{Place: came.place, Sight: NoMessage})
	} else if h.Cluster != s.request.cluster {
		s.note(Seen{Place: came.place, Sight: OtherCluster, Cluster: h.Cluster})
	} else if isReply {
		return s.heed(came, answer)
	}
	return nil
}

// heed looks at a reply of the group.
func (s *search) heed(came arrival, answer reply) *reply {
	asked, isAsked := s.requests[answer.version]
	probe, isProbed := s.probes[answer.version]
	switch {
	case isProbed && answer.requestName == probe.name:
		s.goOver(came.place, answer)
		return nil
	case !isAsked || answer.requestName != asked.name: // a late answer to an earlier request
		if int(answer.replica) != came.place {
			s.speak(came.place, answer, Seen{})
		}
		return nil
	}
	s.spoken[came.place].Store(uint32(answer.version))
	s.waits[came.place] = false
	switch {
	case answer.kind == replyOutcome && !s.request.operation.gives(answer.outcome.Kind):
	case answer.kind == replyBusy:
		s.speak(came.place, answer, Seen{Sight: Busy})
	case answer.kind == replyRedirect:
		leader := int(answer.view % uint32(len(s.addresses)))
		s.speak(came.place, answer, Seen{Sight: Redirects, View: answer.view, Leader: leader})
		s.send(leader, answer.version)
	case answer.kind != replyOutcome && answer.view < s.view:
	default:
		s.first = came.place
		s.speak(came.place, answer, Seen{Sight: s.seen[came.place].Sight})
		if answer.kind == replyOutcome {
			s.answered(answer)
		}
		return &answer
	}
	return nil
}

// goOver asks a member in the version in which it has answered a probe. Once the group is of version 2, what is left of version 1 isn't asked.
func (s *search) goOver(place int, answer reply) {
	s.spoken[place].Store(uint32(answer.version))
	s.speak(place, answer, Seen{Sight: OtherVersion, Version: int(answer.version)})
	if uint32(answer.version) >= s.version.Load() {
		s.send(place, answer.version)
	}
}

// lose notes that a place can't be reached, and asks the next one at once where that was the last that was asked.
func (s *search) lose(came arrival) {
	sight := Seen{Place: came.place, Sight: Failed, Cause: came.err}
	var bad fault
	if errors.Is(came.err, errEnded) {
		sight = Seen{Place: came.place, Sight: Ended}
	} else if errors.As(came.err, &bad) {
		sight = Seen{Place: came.place, Sight: NoMessage}
	}
	s.note(sight)
	s.waits[came.place] = false
	if next := (s.target + 1) % len(s.addresses); came.place == s.target && s.asked[next] == 0 {
		s.sendTo(next)
	}
}

// speak notes a member's word, or that it is another place's.
func (s *search) speak(place int, answer reply, sight Seen) {
	sight.Place = place
	if int(answer.replica) != place {
		sight = Seen{Place: place, Sight: OtherMember, Member: int(answer.replica)}
	}
	s.note(sight)
}

// note keeps what was seen at a place, where nothing there tells of a wrong configuration.
func (s *search) note(sight Seen) {
	one := &s.seen[sight.Place]
	if one.Sight.isWrong() && !sight.Sight.isWrong() || one.Sight != NotAsked && sight.Sight == Silent {
		return
	}
	sight.Address, sight.Asked = one.Address, one.Asked
	*one = sight
}
