package nozhgiva

import (
	"context"
	"errors"
	"io"
	"net"
	"strconv"
	"strings"
	"sync"
	"syscall"
	"time"
)

const (
	tcpPrefix = "tcp:"
	waiting   = 64              // messages that came and weren't looked at; more wait in the system
	patience  = 2 * time.Second // for a stream on which nothing comes back; then it is begun again, so that an outage costs no more
	rest      = 10 * time.Millisecond
)

// An arrival is what comes from a place: a message, or what may be one, or the error that sending there or receiving from there gave.
type arrival struct {
	place int
	data  []byte
	err   error
}

// errEnded says that the other side closed a stream.
var errEnded = errors.New("the stream has ended")

// A link reaches the members of a group, each at its place. It loses what it can't send, as a network does; whoever asks asks again.
type link struct {
	arrivals chan arrival
	done     chan struct{} // closed by close
	end      sync.Once
	cancel   context.CancelFunc
	places   []sender
}

// A sender sends to one place, and has what comes from there given to the link. It doesn't wait.
type sender interface{ send(data []byte) }

// splitAddress reads `HOST:PORT`, where HOST may stand in brackets.
func splitAddress(address string) (hostPort string, err error) {
	colon := strings.LastIndexByte(address, ':')
	if colon > 0 {
		host, port := address[:colon], address[colon+1:]
		if strings.HasPrefix(host, "[") && strings.HasSuffix(host, "]") {
			host = host[1 : len(host)-1]
		}
		number, notNumber := strconv.ParseUint(port, 10, 16)
		if host != "" && notNumber == nil && strconv.FormatUint(number, 10) == port {
			return net.JoinHostPort(host, port), nil
		}
	}
	return "", invalid("an address is HOST:PORT or tcp:HOST:PORT, not %q", address)
}

// askedAt reads `HOST:PORT`, or `OWN/CLIENTS`, two such ones of a member, of which clients ask at the second.
func askedAt(address string) (hostPort string, err error) {
	for _, one := range strings.SplitN(address, "/", 2) {
		if hostPort, err = splitAddress(one); err != nil {
			return "", err
		}
	}
	return hostPort, nil
}

// readAddresses tells the hosts and ports of addresses, and whether they are reached over TCP.
func readAddresses(addresses []string) (places []string, overTCP bool, err error) {
	for at, address := range addresses {
		isTCP := strings.HasPrefix(address, tcpPrefix)
		if at > 0 && isTCP != overTCP {
			return nil, false, invalid("either all addresses begin with %s, or none does", tcpPrefix)
		}
		place, err := askedAt(strings.TrimPrefix(address, tcpPrefix))
		if err != nil {
			return nil, false, err
		}
		places, overTCP = append(places, place), isTCP
	}
	return places, overTCP, nil
}

// openLink opens a link to places. It gives an error of package net where none of the places has a host that can be resolved.
func openLink(ctx context.Context, places []string, overTCP bool) (*link, error) {
	within, cancel := context.WithCancel(context.Background())
	l := &link{arrivals: make(chan arrival, waiting), done: make(chan struct{}), cancel: cancel, places: make([]sender, len(places))}
	opened := make(chan error, len(places))
	for number, address := range places {
		if overTCP {
			s := &streams{link: l, place: number, address: address, outbox: make(chan []byte, 2)}
			l.places[number] = s
			go func() { opened <- s.resolve(ctx) }()
			go s.serve(within)
		} else {
			d := &datagrams{link: l, within: within, place: number, address: address, opening: true}
			l.places[number] = d
			go func() { opened <- d.open(ctx) }()
		}
	}
	failures := 0
	var failure error
	for range places {
		if err := <-opened; err != nil {
			failures, failure = failures+1, err
		}
	}
	if failures == len(places) {
		l.close()
		return nil, failure
	}
	return l, nil
}

// close gives back what the system lent, and ends all that goes on.
func (l *link) close() {
	l.end.Do(func() {
		close(l.done)
		l.cancel()
	})
}

func (l *link) isOpen() bool {
	select {
	case <-l.done:
		return false
	default:
		return true
	}
}

// give hands over what came; false where the link was closed.
func (l *link) give(came arrival) bool {
	select {
	case l.arrivals <- came:
		return true
	case <-l.done:
		return false
	}
}

// causeOf gives the system's own word for an error, as `connection refused`, or that of who resolves names.
func causeOf(err error) error {
	var number syscall.Errno
	var unresolved *net.DNSError
	switch {
	case errors.As(err, &number):
		return number
	case errors.As(err, &unresolved):
		return errors.New(unresolved.Err)
	}
	return err
}

// Datagrams to one place, by a socket that hears from there alone, and is told where nobody listens.
type datagrams struct {
	link    *link
	within  context.Context // ends with the link
	place   int
	address string
	mutex   sync.Mutex
	socket  net.Conn // nil where the host couldn't be resolved so far
	opening bool
}

// open resolves the host and makes the socket.
func (d *datagrams) open(ctx context.Context) error {
	var dialer net.Dialer
	socket, err := dialer.DialContext(ctx, "udp", d.address)
	d.mutex.Lock()
	defer d.mutex.Unlock()
	d.opening = false
	if err != nil {
		return err
	}
	d.socket = socket
	go func() {
		<-d.within.Done()
		socket.Close()
	}()
	go d.receive(socket)
	return nil
}

// openAgain opens once more, where that isn't going on.
func (d *datagrams) openAgain() {
	if !d.opening {
		d.opening = true
		go func() {
			within, cancel := context.WithTimeout(d.within, patience)
			defer cancel()
			d.tell(d.open(within))
		}()
	}
}

// tell hands over an error, where there is one, and nobody has to wait for that.
func (d *datagrams) tell(err error) {
	if err != nil {
		select {
		case d.link.arrivals <- arrival{place: d.place, err: causeOf(err)}:
		default:
		}
	}
}

func (d *datagrams) send(data []byte) {
	d.mutex.Lock()
	defer d.mutex.Unlock()
	if d.socket == nil {
		d.openAgain()
		return
	}
	_, err := d.socket.Write(data)
	if errors.Is(err, syscall.ECONNREFUSED) { // that is said of an earlier datagram, and this one wasn't sent
		_, err = d.socket.Write(data)
	}
	d.tell(err)
}

func (d *datagrams) receive(socket net.Conn) {
	buffer := make([]byte, largestMessage+1)
	for {
		size, err := socket.Read(buffer)
		came := arrival{place: d.place, data: append([]byte(nil), buffer[:size]...)}
		if err != nil {
			if errors.Is(err, net.ErrClosed) {
				return
			}
			came = arrival{place: d.place, err: causeOf(err)}
			time.Sleep(rest) // so that no fault of a socket makes this run hot
		}
		if !d.link.give(came) {
			return
		}
	}
}

// Streams to one place, one at a time: made when something is first sent, and again after it ended.
type streams struct {
	link    *link
	place   int
	address string
	outbox  chan []byte
	mutex   sync.Mutex
	open    net.Conn  // nil where there is none
	heard   time.Time // when something last came on it, or the first was sent on it since
	waits   bool      // whether something was sent since
}

func (s *streams) resolve(ctx context.Context) error {
	host, _, _ := net.SplitHostPort(s.address) // made by net.JoinHostPort
	_, err := net.DefaultResolver.LookupIPAddr(ctx, host)
	return err
}

func (s *streams) send(data []byte) {
	select {
	case s.outbox <- data:
	default: // the one before waits for a stream still
	}
}

// serve sends what is to be sent, until the link is closed.
func (s *streams) serve(within context.Context) {
	for {
		select {
		case data := <-s.outbox:
			err := s.deliver(within, data)
			if err != nil && !s.link.give(arrival{place: s.place, err: causeOf(err)}) {
				return
			}
		case <-within.Done():
			s.drop(s.current())
			return
		}
	}
}

// deliver sends a message on the stream, or on a new one where there is none, or none that is alive.
func (s *streams) deliver(within context.Context, data []byte) error {
	if stream := s.current(); stream != nil {
		if s.write(stream, data) == nil {
			return nil
		}
		s.drop(stream)
	}
	dialer := net.Dialer{Timeout: patience}
	stream, err := dialer.DialContext(within, "tcp", s.address)
	if err != nil {
		return err
	}
	s.mutex.Lock()
	s.open, s.waits = stream, false
	s.mutex.Unlock()
	go s.receive(stream)
	return s.write(stream, data)
}

func (s *streams) current() net.Conn {
	s.mutex.Lock()
	defer s.mutex.Unlock()
	if s.open != nil && s.waits && time.Since(s.heard) > patience {
		s.open.Close()
		s.open = nil
	}
	return s.open
}

func (s *streams) write(stream net.Conn, data []byte) error {
	s.mutex.Lock()
	if !s.waits {
		s.waits, s.heard = true, time.Now()
	}
	s.mutex.Unlock()
	stream.SetWriteDeadline(time.Now().Add(patience))
	_, err := stream.Write(data)
	return err
}

// drop ends a stream, and tells whether it was the one in use.
func (s *streams) drop(stream net.Conn) bool {
	if stream == nil {
		return false
	}
	stream.Close()
	s.mutex.Lock()
	defer s.mutex.Unlock()
	was := s.open == stream
	if was {
		s.open = nil
	}
	return was
}

// receive hands over each message of a stream. One on which something comes that can't be a message is ended.
func (s *streams) receive(stream net.Conn) {
	for {
		data, err := readMessage(stream)
		s.mutex.Lock()
		s.waits = s.waits && err != nil
		s.mutex.Unlock()
		if err == nil && s.link.give(arrival{place: s.place, data: data}) {
			continue
		}
		if s.drop(stream) && err != nil {
			s.link.give(arrival{place: s.place, data: data, err: err})
		}
		return
	}
}

// readMessage gives the next message of a stream; with an error the bytes that begin no message, where some came.
func readMessage(stream io.Reader) ([]byte, error) {
	data := make([]byte, headerSize)
	if _, err := io.ReadFull(stream, data); err != nil {
		return nil, errEnded
	}
	h, err := headerOf(data)
	if err != nil {
		return data, err
	}
	data = append(data, make([]byte, h.Size-headerSize)...)
	if _, err := io.ReadFull(stream, data[headerSize:]); err != nil {
		return nil, errEnded
	}
	return data, nil
}
