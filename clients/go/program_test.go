package nozhgiva

import (
	"context"
	"flag"
	"fmt"
	"net"
	"os"
	"os/exec"
	"path/filepath"
	"strconv"
	"strings"
	"testing"
	"time"
)

// The tests below ask members of the built program: NOZHGIVA_PROGRAM, or crates/vr_app/out/vr_app. Without one they are skipped.

var failover = flag.Duration("failover", 0, "how long a primary is killed each five seconds, with at most two seconds without an answer")

const size = 3

// Running members are processes of the program on this machine, each with a file of its own.
type running struct {
	t         *testing.T
	program   string
	folder    string
	addresses []string
	members   [size]*exec.Cmd
}

func programOrSkip(t *testing.T) string {
	program := os.Getenv("NOZHGIVA_PROGRAM")
	if program == "" {
		program = "../../crates/vr_app/out/vr_app"
	}
	program, err := filepath.Abs(program)
	if err == nil {
		_, err = exec.LookPath(program)
	}
	if err != nil {
		t.Skipf("no program at %s", program)
	}
	return program
}

// freePorts gives ports of a host that were free a moment ago.
func freePorts(t *testing.T, host string) (ports []string) {
	for len(ports) < size {
		held, err := net.Listen("tcp", net.JoinHostPort(host, "0"))
		if err != nil {
			t.Skipf("no address %s: %v", host, err)
		}
		defer held.Close()
		_, port, _ := net.SplitHostPort(held.Addr().String())
		ports = append(ports, net.JoinHostPort(host, port))
	}
	return ports
}

// start starts three members on files made anew.
func start(t *testing.T, scheme, host string, more ...string) *running {
	r := &running{t: t, program: programOrSkip(t)}
	for _, address := range freePorts(t, host) {
		r.addresses = append(r.addresses, scheme+address)
	}
	folder := "" // in memory where the machine has that: these tests are of the client, and needn't wait for a disk
	if _, err := os.Stat("/dev/shm"); err == nil {
		folder = "/dev/shm"
	}
	var err error
	if r.folder, err = os.MkdirTemp(folder, "nozhgiva"); err != nil {
		t.Fatal(err)
	}
	t.Cleanup(r.end)
	for member := range r.members {
		r.begin(member, append([]string{"--fresh"}, more...)...)
	}
	return r
}

func (r *running) begin(member int, more ...string) {
	words := append([]string{"node", strconv.Itoa(cluster), strconv.Itoa(member), filepath.Join(r.folder, strconv.Itoa(member)), "1000000000"}, r.addresses...)
	r.members[member] = exec.Command(r.program, append(words, more...)...)
	if err := r.members[member].Start(); err != nil {
		r.t.Fatal(err)
	}
}

func (r *running) kill(member int) {
	if one := r.members[member]; one != nil {
		one.Process.Kill()
		one.Wait()
		r.members[member] = nil
	}
}

func (r *running) end() {
	for member := range r.members {
		r.kill(member)
	}
	os.RemoveAll(r.folder)
}

func (r *running) group(options ...Option) *Group {
	group, err := Dial(cluster, r.addresses, append([]Option{WithTimeout(2 * surely)}, options...)...)
	if err != nil {
		r.t.Fatal(err)
	}
	return group
}

func TestMembersThatAreKilledInTurn(t *testing.T) {
	table := []struct {
		name, scheme, host string
		version            int
		longest            int
		words              []string
	}{
		{"datagrams", "", "127.0.0.1", 1, 1024, nil},
		{"streams", "tcp:", "127.0.0.1", 1, 1024, nil},
		{"datagrams of version 2 over IPv6", "", "::1", 2, 3000, []string{"--v2"}},
		{"streams of version 2 over IPv6", "tcp:", "::1", 2, 3000, []string{"--v2"}},
	}
	for _, row := range table {
		t.Run(row.name, func(t *testing.T) {
			r := start(t, row.scheme, row.host, row.words...)
			session := register(t, r.group(WithVersion(row.version)))
			for member := 0; member < size; member++ {
				key := fmt.Sprint("key", member)
				value := strings.Repeat(fmt.Sprint(member), row.longest)
				if err := session.Put(background, key, value); err != nil {
					t.Fatal(err)
				}
				r.kill(member)
				if read, _, err := session.Get(background, key); read != value || err != nil {
					t.Fatal(len(read), err)
				}
				if was, err := session.Delete(background, key); !was || err != nil {
					t.Fatal(was, err)
				}
				r.begin(member)
			}
		})
	}
}

// Members don't answer a client of another cluster, and what a client is told says so. One of another version is found.
func TestAnotherVersionOrCluster(t *testing.T) {
	for _, scheme := range []string{"", "tcp:"} {
		r := start(t, scheme, "127.0.0.1")
		register(t, r.group())
		other, err := Dial(cluster+1, r.addresses, WithTimeout(2*time.Second))
		if err != nil {
			t.Fatal(err)
		}
		// One of the members may still be about to open its port.
		for begun := time.Now(); ; {
			_, err = other.Register(background)
			wantIs(t, "a register", err, ErrUnknown)
			if strings.Contains(fmt.Sprint(err), "don't answer those who ask for another cluster") {
				break
			}
			if time.Since(begun) > surely {
				t.Fatal(err)
			}
		}
		session := register(t, r.group(WithVersion(2)))
		wantIs(t, "a long put", session.Put(background, "long", strings.Repeat("v", 3000)), ErrInvalid, ErrNotAsked)
	}
}

// A group is moved to version 2, member by member, while a session deletes keys that it has put: each put and delete is executed once, also the one
// that is open while the group goes over.
func TestAGroupThatIsMoved(t *testing.T) {
	for _, scheme := range []string{"", "tcp:"} {
		r := start(t, scheme, "127.0.0.1")
		session := register(t, r.group())
		last, op := 0, uint64(0)
		for _, member := range []int{2, 1, 0} {
			r.kill(member)
			words := []string{"migrate", strconv.Itoa(cluster), strconv.Itoa(member), strconv.Itoa(size), filepath.Join(r.folder, strconv.Itoa(member))}
			if said, err := exec.Command(r.program, words...).CombinedOutput(); err != nil {
				t.Fatalf("%v: %s", err, said)
			}
			if member == 1 {
				within, cancel := context.WithTimeout(background, time.Second)
				err := session.Put(within, "open", "yes")
				cancel()
				wantIs(t, "a put without a quorum", err, ErrUnknown)
			}
			r.begin(member)
			for end := time.Now().Add(time.Second); time.Now().Before(end); last++ {
				outcome, err := session.Ask(background, Operation{Kind: OperationPut, Key: "last", Value: strconv.Itoa(last)})
				if err != nil || outcome.Op <= op {
					t.Fatalf("%v after %d: %v", outcome, op, err)
				}
				op = outcome.Op
				if was, err := session.Delete(background, "last"); err != nil || !was {
					t.Fatal(was, err)
				}
			}
		}
		if value, _, err := session.Get(background, "open"); err != nil || value != "yes" {
			t.Error(value, err)
		}
		if err := session.Put(background, "long", strings.Repeat("v", 3000)); err != nil {
			t.Error(err)
		}
	}
}

// One session puts and gets, some hundred times a second, for as long as -failover says. Each five seconds the member that answered last is killed,
// and started again a second later, as a keeper does.
func TestFailover(t *testing.T) {
	if *failover == 0 {
		t.SkipNow() // it takes a while
	}
	for scheme, name := range map[string]string{"": "datagrams", "tcp:": "streams"} {
		r := start(t, scheme, "127.0.0.1")
		session := register(t, r.group(WithTimeout(defaultTimeout)))
		answers, kills, longest := 0, 0, time.Duration(0)
		back := make(chan bool, 1)
		back <- true
		for begun, killed := time.Now(), time.Now(); time.Since(begun) < *failover; answers++ {
			if time.Since(killed) > 5*time.Second && <-back {
				killed, kills = time.Now(), kills+1
				member := session.asker.first
				r.kill(member)
				time.AfterFunc(time.Second, func() {
					r.begin(member)
					back <- true
				})
			}
			longest = max(longest, failoverAsk(t, session, answers))
			time.Sleep(10 * time.Millisecond)
		}
		<-back
		t.Logf("over %s: %d answers, %d primaries killed, at most %v without an answer", name, answers, kills, longest)
		if longest > 2*time.Second || kills < int(*failover/(6*time.Second)) {
			t.Errorf("%v without an answer, %d killed", longest, kills)
		}
	}
}

func failoverAsk(t *testing.T, session *Session, count int) time.Duration {
	within, cancel := context.WithTimeout(background, surely)
	defer cancel()
	begun, key := time.Now(), fmt.Sprint("key", count/2%50)
	if count%2 == 0 {
		if err := session.Put(within, key, fmt.Sprint(count)); err != nil {
			t.Fatal(err)
		}
	} else if value, _, err := session.Get(within, key); value != fmt.Sprint(count-1) || err != nil {
		t.Fatal(value, err)
	}
	return time.Since(begun)
}

func max(a, b time.Duration) time.Duration {
	if a > b {
		return a
	}
	return b
}
