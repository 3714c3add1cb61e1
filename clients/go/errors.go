package nozhgiva

import (
	"context"
	"errors"
	"fmt"
	"strings"
)

// What errors.Is finds in the errors of this package. An error may be several of them.
var (
	// ErrUnknown: no answer came in time. The operation may have been executed, may be executed later, or never. See [UnknownError].
	ErrUnknown = errors.New("whether it was executed isn't known")
	// ErrSessionLost: the group doesn't go on with the session. Register anew; whether the operation was executed isn't known. See
	// [SessionLostError].
	ErrSessionLost = errors.New("the session is lost")
	// ErrNotAsked: the operation wasn't sent to anybody, so it isn't executed, now or later.
	ErrNotAsked = errors.New("it wasn't asked")
	// ErrMisconfigured: each address says that it isn't what the group's list says, but another member's or another group's. A register ends so
	// after less than a second, and is an ErrUnknown too.
	ErrMisconfigured = errors.New("the addresses aren't those of the group's members in their order")
	// ErrFull: the put was executed and changed nothing, since its key is new and the group holds as many keys as it can, 128.
	ErrFull = errors.New("the group is full")
	// ErrClosed: the session was closed.
	ErrClosed = errors.New("the session is closed")
	// ErrInvalid: an address, a number, a key or a value isn't of its form. Nothing was sent.
	ErrInvalid = errors.New("not of the form")
)

// UnknownError is an ErrUnknown. The next request of the session first asks for this answer again, under the same number, and so does
// [Session.Settle]; so the operation is executed at most once in its session.
type UnknownError struct {
	// Operation is the one of which it isn't known whether it was executed.
	Operation Operation
	// Unsent is the one that was to be asked after it and wasn't, else nil. Then the error is an ErrNotAsked too.
	Unsent *Operation
	// Seen has what was seen at each address of the group, in their order.
	Seen []Seen
	// Cause is what ended the wait: context.DeadlineExceeded, context.Canceled, ErrClosed or ErrMisconfigured.
	Cause error
}

// Error says what isn't known, why, and what was seen at each address.
func (e *UnknownError) Error() string {
	text := "nozhgiva: no answer (%v): whether `%v` was executed isn't known%s; %s"
	return fmt.Sprintf(text, e.Cause, e.Operation, unsent(e.Unsent), saidOf(e.Seen))
}

// saidOf says what was seen at all addresses, as the end of a sentence.
func saidOf(all []Seen) string {
	hint := " (members don't answer those who ask for another cluster)"
	seen := make([]string, len(all))
	for at, one := range all {
		seen[at] = one.String()
		if one.Sight != Silent {
			hint = ""
		}
	}
	return fmt.Sprintf("seen: %s%s", strings.Join(seen, ", "), hint)
}

// Is tells whether the error is ErrUnknown, or ErrNotAsked where one wasn't.
func (e *UnknownError) Is(target error) bool {
	return target == ErrUnknown || target == ErrNotAsked && e.Unsent != nil
}

// Unwrap gives the cause.
func (e *UnknownError) Unwrap() error { return e.Cause }

// Timeout tells whether time was over, as net.Error does.
func (e *UnknownError) Timeout() bool { return errors.Is(e.Cause, context.DeadlineExceeded) }

func unsent(operation *Operation) string {
	if operation == nil {
		return ""
	}
	return fmt.Sprintf("; `%v` wasn't asked", *operation)
}

// SessionLostError is an ErrSessionLost.
type SessionLostError struct {
	// Reason is `evicted` where the group has no session of this client (it keeps 32, in version 2 64, and a further one ends the one that
	// was used longest ago), `gap` or `old` where somebody else asked under its number, and `spent` where the numbers of its requests are
	// used up.
	Reason string
	// Operation is the one that was answered so; whether it was executed isn't known.
	Operation Operation
	// Unsent is the one that wasn't asked since the session was lost before, else nil. Then the error is an ErrNotAsked too.
	Unsent *Operation
}

// Error says why the session is lost.
func (e *SessionLostError) Error() string {
	if e.Reason == reasonSpent {
		return fmt.Sprintf("nozhgiva: session lost: the numbers of its requests are used up%s", unsent(e.Unsent))
	}
	return fmt.Sprintf("nozhgiva: session lost: %s; whether `%v` was executed isn't known%s", e.Reason, e.Operation, unsent(e.Unsent))
}

// Is tells whether the error is ErrSessionLost, or ErrNotAsked where one wasn't.
func (e *SessionLostError) Is(target error) bool {
	return target == ErrSessionLost || target == ErrNotAsked && e.Unsent != nil
}

// InvalidError is an ErrInvalid, and says what of what isn't of its form.
type InvalidError struct{ what string }

// Error says it.
func (e *InvalidError) Error() string { return "nozhgiva: " + e.what }

// Is tells whether the error is ErrInvalid or, since nothing was sent, ErrNotAsked.
func (e *InvalidError) Is(target error) bool { return target == ErrInvalid || target == ErrNotAsked }

func invalid(form string, words ...any) error { return &InvalidError{fmt.Sprintf(form, words...)} }

// A failure is one of the errors above with words of its own, and may have a cause.
type failure struct {
	kind  error
	text  string
	cause error
}

func (f *failure) Error() string { return "nozhgiva: " + f.text }

func (f *failure) Is(target error) bool { return target == f.kind }

func (f *failure) Unwrap() error { return f.cause }

func notAsked(what string, cause error) error {
	return &failure{ErrNotAsked, fmt.Sprintf("`%s` wasn't asked: %v", what, cause), cause}
}

// Sight is what was seen at an address.
type Sight int

// What may be seen.
const (
	NotAsked     Sight = iota // the request wasn't sent there
	Silent                    // nothing came back
	Failed                    // it can't be reached; Seen.Cause says why, as `connection refused`
	Ended                     // it ended the stream without an answer
	Busy                      // it can't take the request now
	Redirects                 // it says that the member Seen.Leader leads, in Seen.View
	OtherMember               // the member Seen.Member answers at this place: the addresses stand in another order
	OtherCluster              // messages of the group Seen.Cluster come from there
	OtherVersion              // it answers in version Seen.Version, in which it is asked then
	NoMessage                 // what comes from there is no message
)

// isWrong tells whether a sight tells of a wrong configuration.
func (s Sight) isWrong() bool { return s == OtherMember || s == OtherCluster || s == NoMessage }

// Seen is what a request saw at one of the group's addresses. A sight that tells of a wrong configuration stays; of the others it is the last.
type Seen struct {
	Address string
	Place   int // counted from 0
	Asked   int // how often the request was sent there
	Sight   Sight
	Cause   error  // with Failed
	View    uint32 // with Redirects
	Leader  int    // with Redirects
	Member  int    // with OtherMember
	Cluster uint64 // with OtherCluster
	Version int    // with OtherVersion
}

// String says it in words.
func (s Seen) String() string { return s.Address + " " + s.words() }

func (s Seen) words() string {
	switch s.Sight {
	case NotAsked:
		return "wasn't asked"
	case Silent:
		return "is silent"
	case Failed:
		return fmt.Sprintf("can't be reached (%v)", s.Cause)
	case Ended:
		return "ends the stream without an answer"
	case Busy:
		return "is busy"
	case Redirects:
		return fmt.Sprintf("redirects to member %d (view %d)", s.Leader, s.View)
	case OtherMember:
		return fmt.Sprintf("is another member's: member %d answers at place %d", s.Member, s.Place)
	case OtherCluster:
		return fmt.Sprintf("is of another cluster (%d)", s.Cluster)
	case OtherVersion:
		return fmt.Sprintf("is of version %d", s.Version)
	default:
		return "sends what is no message"
	}
}
