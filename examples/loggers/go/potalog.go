// Package potalog writes the log of one process for pota. Each rule of docs/LOGGING.md is one place
// in it, as in ../python/potalog.py, whose stamps it understands.
//
//	log, err := potalog.Open("run", "a", []string{"server", "a", "b"}, potalog.Values{"cs": 0})
//	defer log.Close()
//	stamp := log.Send("server", nil)      // before the message, which carries the stamp
//	log.Receive(stamp, func(first bool) { // around the handler; first is false for a copy
//		log.Set(potalog.Values{"cs": 1})  // belongs to the line of the receipt
//	})
//	log.Set(potalog.Values{"cs": 0})      // outside of a receipt: an event of its own
//
// A folder is one run: a process that finds its log there continues it, as restarted.
package potalog

import (
	"encoding/json"
	"errors"
	"fmt"
	"os"
	"os/signal"
	"path/filepath"
	"regexp"
	"sort"
	"strconv"
	"strings"
	"sync"
	"syscall"
)

// Values has variables of a process with their values: log a truth as 1 or 0.
type Values map[string]int64

// Stamp goes along with a message, as JSON: [sender, number, clock].
type Stamp struct {
	Sender string
	Number uint64
	Clock  []uint32
}

// MarshalJSON spells a stamp as the logger in Python does.
func (s Stamp) MarshalJSON() ([]byte, error) {
	clock := s.Clock
	if clock == nil {
		clock = []uint32{}
	}
	return json.Marshal([]any{s.Sender, s.Number, clock})
}

// UnmarshalJSON reads a stamp of this logger or of the one in Python.
func (s *Stamp) UnmarshalJSON(text []byte) error {
	return json.Unmarshal(text, &[]any{&s.Sender, &s.Number, &s.Clock})
}

type message struct {
	sender string
	number uint64
}

// Log is the log of one process. Its first failure is what Close returns.
type Log struct {
	mu        sync.Mutex
	file      *os.File
	me        string
	at        int
	procs     []string
	variables []string
	clock     []uint32
	clocks    bool
	received  map[message]bool
	held      *event
	err       error
}

// event is an event whose line is held until its variables are set.
type event struct {
	begin  string
	values Values
}

var (
	otherLetter = regexp.MustCompile(`[^A-Za-z0-9_]`)
	firstDigit  = regexp.MustCompile(`^[0-9]`)
)

// NameOf gives node_1 for node-1 and _7 for 7: names have letters, digits and _.
func NameOf(text string) string {
	return firstDigit.ReplaceAllString(otherLetter.ReplaceAllString(text, "_"), "_$0")
}

// WholeLines gives a log to continue: half a line at its end is cut, and its end line removed.
func WholeLines(text string) string {
	text = text[:strings.LastIndexByte(text, '\n')+1]
	if strings.HasSuffix(text, "\nend\n") {
		return text[:len(text)-len("end\n")]
	}
	return text
}

// Open begins or continues the log of the process me in a folder, with vector clocks.
func Open(folder, me string, procs []string, variables Values) (*Log, error) {
	return open(folder, me, procs, variables, true)
}

// OpenWithoutClocks is Open where messages alone tie the processes: they carry a number each.
func OpenWithoutClocks(folder, me string, procs []string, variables Values) (*Log, error) {
	return open(folder, me, procs, variables, false)
}

func open(folder, me string, procs []string, variables Values, clocks bool) (*Log, error) {
	log := &Log{me: NameOf(me), at: -1, clock: make([]uint32, len(procs)), clocks: clocks}
	log.received = map[message]bool{}
	for i, process := range procs {
		log.procs = append(log.procs, NameOf(process))
		if log.procs[i] == log.me {
			log.at = i
		}
	}
	if log.at < 0 {
		return nil, fmt.Errorf("potalog: %s is none of %v", log.me, log.procs)
	}
	for name := range variables {
		log.variables = append(log.variables, name)
	}
	sort.Strings(log.variables)
	return log, log.begin(filepath.Join(folder, log.me+".log"), variables)
}

// begin writes the head of a new log, or continues the one found.
func (log *Log) begin(path string, first Values) error {
	version := 2
	if log.clocks {
		version = 1
	}
	head := fmt.Sprintf("pota-log %d\nprocs %s\n", version, strings.Join(log.procs, " "))
	text, err := os.ReadFile(path)
	if err != nil && !errors.Is(err, os.ErrNotExist) {
		return err
	}
	found := WholeLines(string(text))
	events := log.eventsOf(found)
	if len(events) > 0 && !strings.HasPrefix(found, head) {
		return fmt.Errorf("potalog: %s is a log of another run", path)
	}
	if len(events) == 0 {
		found = head
		if len(first) > 0 {
			found += "vars " + log.me + log.words(first) + "\n"
		}
		if err := os.WriteFile(path, []byte(found), 0o644); err != nil {
			return err
		}
	}
	if err := os.Truncate(path, int64(len(found))); err != nil {
		return err
	}
	log.file, err = os.OpenFile(path, os.O_WRONLY|os.O_APPEND, 0o644)
	if err == nil && len(events) > 0 {
		log.resume(events)
		log.Event(first) // what the restart lost
	}
	return err
}

func (log *Log) eventsOf(found string) [][]string {
	var events [][]string
	for _, line := range strings.Split(found, "\n") {
		if strings.HasPrefix(line, "ev ") {
			events = append(events, strings.Split(line, " "))
		}
	}
	return events
}

// resume takes over the clock and the messages received from the events before a restart.
func (log *Log) resume(events [][]string) {
	for _, words := range events {
		if words[3] == "recv" {
			number, _ := strconv.ParseUint(words[5], 10, 64)
			log.received[message{words[4], number}] = true
		}
	}
	if log.clocks {
		for i, count := range strings.Split(events[len(events)-1][2], ",") {
			number, _ := strconv.ParseUint(count, 10, 32)
			log.clock[i] = uint32(number)
		}
	}
	log.clock[log.at] = uint32(len(events))
}

// words spells values in the order of the variables' names. One that the head lacks is an error.
func (log *Log) words(values Values) string {
	text, count := "", 0
	for _, name := range log.variables {
		if value, is := values[name]; is {
			text, count = text+fmt.Sprintf(" %s=%d", name, value), count+1
		}
	}
	if count < len(values) {
		log.fail(fmt.Errorf("potalog: %v: %s has the variables %v", values, log.me, log.variables))
	}
	return text
}

// fail keeps the first failure.
func (log *Log) fail(err error) {
	if log.err == nil {
		log.err = err
	}
}

// hold begins an event: increments the clock, holds the line until its variables are set.
func (log *Log) hold(kind string, values Values, known []uint32) {
	log.writeHeld()
	clock := append([]uint32(nil), log.clock...)
	if len(known) > 0 && len(known) != len(clock) {
		log.fail(fmt.Errorf("potalog: the clock %v of a run with other processes", known))
		known = nil
	}
	for i, count := range known {
		if count > clock[i] {
			clock[i] = count
		}
	}
	clock[log.at]++
	log.clock = clock
	log.held = &event{fmt.Sprintf("ev %s %s %s", log.me, log.spelled(), kind), Values{}}
	for name, value := range values {
		log.held.values[name] = value
	}
}

func (log *Log) spelled() string {
	if !log.clocks {
		return "~"
	}
	return strings.Trim(strings.ReplaceAll(fmt.Sprint(log.clock), " ", ","), "[]")
}

// writeHeld writes a line at once, with no buffer that a crash would lose.
func (log *Log) writeHeld() {
	if log.held == nil {
		return
	}
	_, err := log.file.WriteString(log.held.begin + log.words(log.held.values) + "\n")
	log.held = nil
	log.fail(err)
}

// Set sets variables at the receipt being handled, or at an event of its own.
func (log *Log) Set(values Values) {
	log.mu.Lock()
	defer log.mu.Unlock()
	if log.held == nil {
		log.hold("int", values, nil)
		log.writeHeld()
		return
	}
	for name, value := range values {
		log.held.values[name] = value
	}
}

// Event is an internal event.
func (log *Log) Event(values Values) { log.EventAfter(nil, values) }

// EventAfter is an internal event behind what Now gave elsewhere: a tie that is no message.
func (log *Log) EventAfter(clock []uint32, values Values) {
	log.mu.Lock()
	defer log.mu.Unlock()
	log.hold("int", values, clock)
	log.writeHeld()
}

// Now is the clock, to pass on where something besides messages ties processes.
func (log *Log) Now() []uint32 {
	log.mu.Lock()
	defer log.mu.Unlock()
	log.writeHeld()
	return log.clock
}

// Send logs a send, before the message goes, and gives its stamp.
func (log *Log) Send(receiver string, values Values) Stamp {
	log.mu.Lock()
	defer log.mu.Unlock()
	number := uint64(log.clock[log.at]) + 1
	log.hold(fmt.Sprintf("send %s %d", NameOf(receiver), number), values, nil)
	log.writeHeld()
	if !log.clocks {
		return Stamp{log.me, number, nil}
	}
	return Stamp{log.me, number, log.clock}
}

// Receive runs the handler of a message, and then writes the receipt with what the handler has set.
// What other goroutines log meanwhile comes behind the receipt: have one at a time handle messages
// and change what is logged.
func (log *Log) Receive(stamp Stamp, handler func(first bool)) {
	log.mu.Lock()
	received := message{stamp.Sender, stamp.Number}
	first := !log.received[received]
	log.received[received] = true
	kind := "int"
	if first {
		kind = fmt.Sprintf("recv %s %d", stamp.Sender, stamp.Number)
	}
	log.hold(kind, nil, stamp.Clock)
	log.mu.Unlock()
	defer func() {
		log.mu.Lock()
		defer log.mu.Unlock()
		log.writeHeld()
	}()
	handler(first)
}

// Close writes the end line, once, and returns the first failure.
func (log *Log) Close() error {
	log.mu.Lock()
	defer log.mu.Unlock()
	if log.file == nil {
		return log.err
	}
	log.writeHeld()
	_, err := log.file.WriteString("end\n")
	if err == nil {
		err = log.file.Close()
	}
	log.file = nil
	log.fail(err)
	return log.err
}

// CloseAtSignals closes the log and exits where the process is told to stop.
func (log *Log) CloseAtSignals() {
	signals := make(chan os.Signal, 1)
	signal.Notify(signals, syscall.SIGTERM, syscall.SIGINT)
	go func() {
		<-signals
		log.Close()
		os.Exit(1)
	}()
}
