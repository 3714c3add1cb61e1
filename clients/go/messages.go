package nozhgiva

import (
	"bytes"
	"crypto/sha256"
	"encoding/binary"
	"fmt"
)

// Sizes and limits of docs/FORMATS.md, in bytes.
const (
	headerSize     = 128
	nameSize       = 16
	largestMessage = 20480
	largestKey     = 64
	firstByte      = 33
	lastByte       = 126
	lastCommand    = 19
	lastView       = 1<<32 - 2
	lastOp         = 1 << 62
)

// largestValue is how many bytes a value has at most, by the version of the format.
var largestValue = map[byte]int{1: 1024, 2: 3000}

// A fault is why bytes are no message for a client: the first that applies, in the order in which they stand here.
type fault string

const (
	faultShort        fault = "fewer bytes than a header has"
	faultBadSum       fault = "the header's name is another"
	faultBadCommand   fault = "no command has this number"
	faultBadVersion   fault = "the version is none that is known"
	faultBadSize      fault = "the size is below a header's or above the largest message's"
	faultNotZero      fault = "the end of the header isn't zero"
	faultBodySum      fault = "the body isn't of the size and the name that the header gives"
	faultOtherCommand fault = "the command is neither a request's nor a reply's"
	faultBodyShape    fault = "fields or body aren't those of a request or a reply"
)

func (f fault) Error() string { return string(f) }

// OperationKind says what is asked.
type OperationKind byte

// The operations.
const (
	OperationRegister OperationKind = 1 + iota
	OperationPut
	OperationGet
	OperationDelete
)

// Operation is what a session asks. Value counts for a put alone, Key for all but a register.
type Operation struct {
	Kind       OperationKind
	Key, Value string
}

// String names the operation and its key; of a value it tells the size alone.
func (o Operation) String() string {
	switch o.Kind {
	case OperationPut:
		return fmt.Sprintf("put %s (%d bytes)", o.Key, len(o.Value))
	case OperationGet:
		return "get " + o.Key
	case OperationDelete:
		return "delete " + o.Key
	default:
		return "register"
	}
}

// gives tells whether an outcome is one that the operation can have.
func (o Operation) gives(outcome OutcomeKind) bool {
	switch o.Kind {
	case OperationPut:
		return outcome == OutcomeOK || outcome == OutcomeFull
	case OperationGet:
		return outcome == OutcomeValue || outcome == OutcomeAbsent
	case OperationDelete:
		return outcome == OutcomeOK || outcome == OutcomeAbsent
	default:
		return outcome == OutcomeSession
	}
}

// check tells what makes an operation one that can't be asked, by an [InvalidError].
func (o Operation) check(version byte) error {
	if o.Kind != OperationRegister {
		if err := checkText("key", o.Key, largestKey); err != nil {
			return err
		}
	}
	if o.Kind == OperationPut {
		return checkText("value", o.Value, largestValue[version])
	}
	return nil
}

func checkText(what, text string, most int) error {
	if len(text) < 1 || len(text) > most {
		return invalid("a %s has 1 to %d bytes, not %d", what, most, len(text))
	}
	for at := 0; at < len(text); at++ {
		if text[at] < firstByte || text[at] > lastByte {
			return invalid("each byte of a %s is a visible letter of ASCII, from %d to %d; byte %d is %d", what, firstByte, lastByte, at, text[at])
		}
	}
	return nil
}

// encode gives the body of a request.
func (o Operation) encode() []byte {
	body := []byte{byte(o.Kind)}
	switch o.Kind {
	case OperationRegister:
		return body
	case OperationPut:
		body = append(body, byte(len(o.Key)), byte(len(o.Value)>>8), byte(len(o.Value)))
		return append(append(body, o.Key...), o.Value...)
	default:
		return append(append(body, byte(len(o.Key))), o.Key...)
	}
}

// decodeOperation gives the operation that a body is.
func decodeOperation(body []byte, version byte) (Operation, error) {
	if len(body) == 0 {
		return Operation{}, faultBodyShape
	}
	operation := Operation{Kind: OperationKind(body[0])}
	switch {
	case operation.Kind == OperationPut && len(body) >= 4 && len(body) >= 4+int(body[1]):
		middle := 4 + int(body[1])
		operation.Key, operation.Value = string(body[4:middle]), string(body[middle:])
		if len(operation.Value) != int(binary.BigEndian.Uint16(body[2:])) {
			return Operation{}, faultBodyShape
		}
	case (operation.Kind == OperationGet || operation.Kind == OperationDelete) && len(body) >= 2 && len(body) == 2+int(body[1]):
		operation.Key = string(body[2:])
	case operation.Kind == OperationRegister && len(body) == 1:
	default:
		return Operation{}, faultBodyShape
	}
	if operation.check(version) != nil {
		return Operation{}, faultBodyShape
	}
	return operation, nil
}

// OutcomeKind says what executing an operation gave.
type OutcomeKind byte

// The outcomes.
const (
	OutcomeSession OutcomeKind = 1 + iota // of a register
	OutcomeOK                             // of a put, or of a delete whose key was there
	OutcomeFull                           // of a put that changed nothing: its key is new, and 128 are held
	OutcomeAbsent                         // of a get or a delete whose key wasn't there
	OutcomeValue                          // of a get
)

// Outcome is what executing an operation gave; Value stands exactly with OutcomeValue. Op is the number in the group's list of operations under
// which it was executed: of two operations the one that was executed later has the greater one.
type Outcome struct {
	Kind  OutcomeKind
	Value string
	Op    uint64
}

func (o Outcome) encode() []byte {
	if o.Kind != OutcomeValue {
		return []byte{byte(o.Kind)}
	}
	return append([]byte{byte(o.Kind), byte(len(o.Value) >> 8), byte(len(o.Value))}, o.Value...)
}

func decodeOutcome(body []byte, version byte) (Outcome, error) {
	if len(body) >= 3 && OutcomeKind(body[0]) == OutcomeValue {
		value := string(body[3:])
		if len(value) == int(binary.BigEndian.Uint16(body[1:])) && checkText("value", value, largestValue[version]) == nil {
			return Outcome{Kind: OutcomeValue, Value: value}, nil
		}
	}
	if len(body) == 1 && body[0] >= byte(OutcomeSession) && body[0] < byte(OutcomeValue) {
		return Outcome{Kind: OutcomeKind(body[0])}, nil
	}
	return Outcome{}, faultBodyShape
}

type name [nameSize]byte

// nameOf gives the name of bytes: the first 16 of their SHA-256.
func nameOf(data []byte) (n name) {
	sum := sha256.Sum256(data)
	copy(n[:], sum[:])
	return n
}

const (
	commandRequest = 4
	commandReply   = 5
)

// A header has its fields in the order in which they stand, numbers with their highest byte first. (They are exported for encoding/binary.)
type header struct {
	Name, Body, Parent, RequestName name
	Cluster, Client                 uint64
	Request, View                   uint32
	Op, Commit                      uint64
	Size                            uint32
	Command, Replica, Version, Kind byte
	Aux                             uint64
	Zeros                           [8]byte
}

// message gives a header's bytes and the body's behind them, once it has set the header's size and names.
func (h header) message(body []byte) []byte {
	h.Body, h.Size = nameOf(body), uint32(headerSize+len(body))
	var data bytes.Buffer
	binary.Write(&data, binary.BigEndian, h) // a bytes.Buffer gives no error, and a header is of a fixed size
	named := nameOf(data.Bytes()[nameSize:])
	copy(data.Bytes(), named[:])
	return append(data.Bytes(), body...)
}

// hasOnly tells whether all fields are zero but those of `fields` and those that always stand.
func (h header) hasOnly(fields header) bool {
	fields.Name, fields.Body, fields.Cluster, fields.Size, fields.Command, fields.Version = h.Name, h.Body, h.Cluster, h.Size, h.Command, h.Version
	return h == fields
}

// headerOf gives the header at the front of bytes, or the first fault of it.
func headerOf(data []byte) (h header, err error) {
	if len(data) < headerSize {
		return h, faultShort
	}
	binary.Read(bytes.NewReader(data), binary.BigEndian, &h) // enough bytes are there
	switch {
	case h.Name != nameOf(data[nameSize:headerSize]):
		return h, faultBadSum
	case h.Command < 1 || h.Command > lastCommand:
		return h, faultBadCommand
	case largestValue[h.Version] == 0:
		return h, faultBadVersion
	case h.Size < headerSize || h.Size > largestMessage:
		return h, faultBadSize
	case h.Zeros != [8]byte{}:
		return h, faultNotZero
	}
	return h, nil
}

// A request is what a client asks; its number is 0 exactly for a register.
type request struct {
	cluster, client uint64
	number          uint32
	operation       Operation
	version         byte
}

func (r request) encode() []byte {
	return header{Cluster: r.cluster, Client: r.client, Request: r.number, Command: commandRequest, Version: r.version}.message(r.operation.encode())
}

func requestOf(h header, body []byte) (request, error) {
	operation, err := decodeOperation(body, h.Version)
	registers := operation.Kind == OperationRegister
	if err != nil || registers != (h.Request == 0) || !h.hasOnly(header{Client: h.Client, Request: h.Request}) {
		return request{}, faultBodyShape
	}
	return request{h.Cluster, h.Client, h.Request, operation, h.Version}, nil
}

// What a reply says of its request.
type replyKind byte

const (
	replyOutcome  replyKind = 1 + iota // it was executed
	replyOld                           // a later request of this client was executed
	replyGap                           // an earlier request of this client is missing
	replyEvicted                       // the client has no session
	replyBusy                          // it can't be taken now
	replyRedirect                      // this member doesn't lead; the one with the number of the view modulo the group's size does
)

// A reply is what a member answers. The outcome, and op, the number under which the request was executed, stand exactly with replyOutcome.
type reply struct {
	cluster, client uint64
	number          uint32
	requestName     name
	replica         byte
	view            uint32
	kind            replyKind
	op              uint64
	outcome         Outcome
	version         byte
}

func (r reply) encode() []byte {
	var body []byte
	if r.kind == replyOutcome {
		body = r.outcome.encode()
	}
	return header{
		Cluster: r.cluster, Client: r.client, Request: r.number, RequestName: r.requestName, Replica: r.replica, View: r.view, Kind: byte(r.kind),
		Op: r.op, Command: commandReply, Version: r.version,
	}.message(body)
}

func replyOf(h header, body []byte) (r reply, err error) {
	r = reply{h.Cluster, h.Client, h.Request, h.RequestName, h.Replica, h.View, replyKind(h.Kind), h.Op, Outcome{}, h.Version}
	fields := header{RequestName: h.RequestName, Client: h.Client, Request: h.Request, Replica: h.Replica, View: h.View, Kind: h.Kind}
	if r.kind == replyOutcome {
		fields.Op = h.Op
		r.outcome, err = decodeOutcome(body, h.Version)
	} else if len(body) > 0 {
		err = faultBodyShape
	}
	if err != nil || r.kind < replyOutcome || r.kind > replyRedirect || !h.hasOnly(fields) || h.View > lastView || h.Op > lastOp {
		return reply{}, faultBodyShape
	}
	return r, nil
}

// decode gives the request or the reply that bytes spell, all of them, or the first fault, whatever they are. The header is given with both.
func decode(data []byte) (h header, message any, err error) {
	if h, err = headerOf(data); err != nil {
		return h, nil, err
	}
	body := data[headerSize:]
	if len(data) != int(h.Size) || h.Body != nameOf(body) {
		return h, nil, faultBodySum
	}
	switch h.Command {
	case commandRequest:
		message, err = requestOf(h, body)
	case commandReply:
		message, err = replyOf(h, body)
	default:
		err = faultOtherCommand
	}
	return h, message, err
}
