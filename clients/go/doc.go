// Package nozhgiva asks a Nozhgiva group: keys and values that a fixed group of replicas keeps, of which some may fail.
//
//	group, err := nozhgiva.Dial(5, []string{"10.0.0.1:4000", "10.0.0.2:4000", "10.0.0.3:4000"})
//	...
//	session, err := group.Register(ctx)
//	...
//	defer session.Close()
//	err = session.Put(ctx, "color", "green")
//	value, found, err := session.Get(ctx, "color")
//	was, err := session.Delete(ctx, "color")
//
// Each request of a session is executed at most once, however often it has to be sent. A request that isn't answered in time gives an error for
// which errors.Is(err, ErrUnknown) holds: it may have been executed, may be executed later, or never. The session goes on asking for that
// answer, under the same number, before its next request or by [Session.Settle]. No request is ever asked again under another session, since
// there it could be executed a second time: where the group gave the session up, the error is [ErrSessionLost], and the program decides.
//
// To get a value, change it and put it back loses the updates of others who do the same. A delete tells whether the key was there, which of
// several clients at the same time only one hears: that is a test-and-set to build a lock from.
package nozhgiva
