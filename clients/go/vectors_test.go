package nozhgiva

import (
	"bytes"
	"encoding/hex"
	"fmt"
	"math/rand"
	"os"
	"sort"
	"strconv"
	"strings"
	"sync/atomic"
	"testing"
)

// rows gives the fields of each line of a table in clients/vectors.
func rows(t *testing.T, table string, fields int) (all [][]string) {
	t.Helper()
	text, err := os.ReadFile("../vectors/" + table)
	if err != nil {
		t.Fatal(err)
	}
	for _, line := range strings.Split(strings.TrimSuffix(string(text), "\n"), "\n") {
		if strings.HasPrefix(line, "#") {
			continue
		}
		row := strings.Split(line, "\t")
		if len(row) != fields {
			t.Fatalf("%s has a row of %d fields: %s", table, len(row), line)
		}
		all = append(all, row)
	}
	if len(all) < 10 {
		t.Fatalf("%s has %d rows", table, len(all))
	}
	return all
}

func fromHex(t *testing.T, digits string) []byte {
	t.Helper()
	data, err := hex.DecodeString(digits)
	if err != nil {
		t.Fatal(err)
	}
	return data
}

func number(t *testing.T, word string, bits int) uint64 {
	t.Helper()
	number, err := strconv.ParseUint(word, 10, bits)
	if err != nil {
		t.Fatal(err)
	}
	return number
}

// requestIn reads `cluster C client N number Q OPERATION`.
func requestIn(t *testing.T, version byte, words []string) request {
	operation := Operation{Kind: map[string]OperationKind{
		"register": OperationRegister, "put": OperationPut, "get": OperationGet, "del": OperationDelete,
	}[words[6]]}
	rest := append(words[7:], "", "")
	operation.Key, operation.Value = rest[0], rest[1]
	return request{number(t, words[1], 64), number(t, words[3], 64), uint32(number(t, words[5], 32)), operation, version}
}

// messageIn reads the words of a message, and gives it with its bytes.
func messageIn(t *testing.T, text string) (any, []byte) {
	words := strings.Split(text, " ")
	version := byte(number(t, words[2], 8))
	if words[0] == "request" {
		asked := requestIn(t, version, words[3:])
		return asked, asked.encode()
	}
	front, back, _ := strings.Cut(text, " to ")
	asked := requestIn(t, version, strings.Split(back, " "))
	answer := reply{cluster: asked.cluster, client: asked.client, number: asked.number, version: version}
	copy(answer.requestName[:], asked.encode())
	words = strings.Split(front, " ")
	answer.replica, answer.view = byte(number(t, words[4], 8)), uint32(number(t, words[6], 32))
	if words[7] == "op" {
		answer.kind, answer.op = replyOutcome, number(t, words[8], 64)
		answer.outcome.Kind = map[string]OutcomeKind{
			"session": OutcomeSession, "ok": OutcomeOK, "full": OutcomeFull, "absent": OutcomeAbsent, "value": OutcomeValue,
		}[words[9]]
		answer.outcome.Value = strings.Join(words[10:], " ")
	} else {
		answer.kind = map[string]replyKind{
			"old": replyOld, "gap": replyGap, "evicted": replyEvicted, "busy": replyBusy, "redirect": replyRedirect,
		}[words[7]]
	}
	return answer, answer.encode()
}

func TestMessagesOfTheProgram(t *testing.T) {
	for _, table := range []string{"version-1.txt", "version-2.txt"} {
		for _, row := range rows(t, table, 2) {
			said, spelled := messageIn(t, row[0])
			data := fromHex(t, row[1])
			if !bytes.Equal(spelled, data) {
				t.Errorf("%s: spelled as\n%x, and the program has\n%s", row[0], spelled, row[1])
			}
			if _, message, err := decode(data); err != nil || message != said {
				t.Errorf("%s: read as %v, %v", row[0], message, err)
			}
		}
	}
}

func TestBytesThatAreNoMessage(t *testing.T) {
	faults := map[string]fault{
		"Short": faultShort, "BadSum": faultBadSum, "BadCommand": faultBadCommand, "BadVersion": faultBadVersion, "BadSize": faultBadSize,
		"NotZero": faultNotZero, "BodySum": faultBodySum, "Other": faultOtherCommand, "BodyShape": faultBodyShape,
	}
	seen := map[string]bool{}
	for _, row := range rows(t, "bad.txt", 3) {
		seen[row[0]] = true
		if _, message, err := decode(fromHex(t, row[2])); err != error(faults[row[0]]) {
			t.Errorf("%s (%s) gives %v, %v", row[0], row[1], message, err)
		}
	}
	if len(seen) != len(faults) {
		t.Errorf("only the faults %v stand in the table", seen)
	}
}

// toNobody is a link of three places that keeps where something is sent.
type toNobody struct {
	place int
	sent  *[]int
}

func (n toNobody) send([]byte) { *n.sent = append(*n.sent, n.place) }

func TestWhatAMessageSays(t *testing.T) {
	for _, row := range rows(t, "answers.txt", 4) {
		_, asked, err := decode(fromHex(t, row[2]))
		if err != nil {
			t.Fatal(err)
		}
		var sent []int
		l := &link{places: []sender{toNobody{0, &sent}, toNobody{1, &sent}, toNobody{2, &sent}}}
		a := &asker{}
		prepare(a, l)
		s := a.newSearch(asked.(request))
		s.asked = make([]byte, 3)
		answer := s.hear(arrival{place: 0, data: fromHex(t, row[3])})
		word := "dropped"
		switch {
		case answer != nil && answer.kind == replyOutcome:
			word = "answer"
		case answer != nil:
			word = "lost"
		case fmt.Sprint(sent) == "[2]":
			word = "redirect"
		case s.seen[0].Sight == Busy:
			word = "busy"
		}
		if word != row[0] {
			t.Errorf("%s (%s) is taken as %s", row[0], row[1], word)
		}
	}
}

// A play is one row of scenarios.txt on its way.
type play struct {
	*testing.T
	asker
	search *search
	number uint32
	sent   []int
	answer *reply
}

// A stage is a place in a play; probes in the other version don't count.
type stage struct {
	place int
	*play
}

func (s stage) send(data []byte) {
	if bytes.Equal(data, s.search.requests[1].data) {
		s.sent = append(s.sent, s.place)
	}
}

// prepare has an asker ask three members of version 1 through a link.
func prepare(a *asker, l *link) {
	a.link, a.addresses, a.draw = l, make([]string, 3), rand.New(rand.NewSource(1))
	a.spoken, a.misplaced = make([]atomic.Uint32, 3), make([]bool, 3)
	a.spoken[0].Store(1)
	a.spoken[1].Store(1)
	a.spoken[2].Store(1)
}

func newPlay(t *testing.T) *play {
	p := &play{T: t}
	prepare(&p.asker, &link{})
	for place := range p.addresses {
		p.link.places = append(p.link.places, stage{place, p})
	}
	return p
}

// ask begins the next request.
func (p *play) ask() {
	p.number++
	p.search = p.newSearch(request{cluster, 7, p.number, Operation{OperationPut, "color", "green"}, 1})
	p.sent, p.answer = nil, nil
	p.search.begin()
}

// come plays `PLACE KIND VIEW` or `PLACE KIND VIEW as R`.
func (p *play) come(words []string) {
	place, view := int(number(p.T, words[0], 8)), uint32(number(p.T, words[2], 32))
	kind := map[string]replyKind{"ok": replyOutcome, "old": replyOld, "gap": replyGap, "evicted": replyEvicted, "busy": replyBusy, "redirect": replyRedirect}[words[1]]
	said := answer(p.search.request, place, kind, view, Outcome{Kind: OutcomeOK})
	if len(words) > 3 {
		said.replica = byte(number(p.T, words[4], 8))
	}
	p.answer = p.search.hear(arrival{place: place, data: said.encode()})
}

// sends compares the places that were asked with those that have to be, and with those that may be, in parentheses.
func (p *play) sends(places []string) {
	var wanted []int
	for _, text := range places {
		place := int(number(p.T, strings.Trim(text, "()"), 8))
		may := strings.HasPrefix(text, "(")
		if !may || strings.Contains(fmt.Sprint(p.sent), fmt.Sprint(place)) {
			wanted = append(wanted, place)
		}
	}
	sort.Ints(wanted)
	sort.Ints(p.sent)
	if fmt.Sprint(wanted) != fmt.Sprint(p.sent) {
		p.Errorf("sent to %v, not to %v", p.sent, places)
	}
	p.sent = nil
}

func (p *play) step(words []string) {
	switch words[0] {
	case "ask":
		p.ask()
	case "pause":
		if p.answer != nil {
			p.Errorf("a pause ends, and there is %v", p.answer)
		}
		p.search.begin()
	case "sends":
		p.sends(words[1:])
	case "ends", "lost":
		if p.answer == nil || (p.answer.kind == replyOutcome) != (words[0] == "ends") {
			p.Errorf("%s, and there is %v", words[0], p.answer)
		}
	default:
		p.come(words)
	}
}

func TestScenarios(t *testing.T) {
	for _, row := range rows(t, "scenarios.txt", 2) {
		t.Run(row[0], func(t *testing.T) {
			p := newPlay(t)
			for _, step := range strings.Split(row[1], "; ") {
				p.step(strings.Split(step, " "))
			}
		})
	}
}
