package potalog

import (
	"encoding/json"
	"os"
	"os/exec"
	"path/filepath"
	"strings"
	"testing"
)

var procs = []string{"client", "store-1"}

// carried is the stamp as it comes out of a message.
func carried(t *testing.T, stamp Stamp) Stamp {
	t.Helper()
	text, err := json.Marshal(stamp)
	if err != nil {
		t.Fatal(err)
	}
	var read Stamp
	if err := json.Unmarshal(text, &read); err != nil {
		t.Fatal(err)
	}
	return read
}

type opening func(folder, me string, procs []string, variables Values) (*Log, error)

func opened(t *testing.T, open opening, folder, me string, variables Values) *Log {
	t.Helper()
	log, err := open(folder, me, procs, variables)
	if err != nil {
		t.Fatal(err)
	}
	return log
}

// killed leaves a log as a process that is killed while it writes a line.
func killed(t *testing.T, log *Log) {
	t.Helper()
	if _, err := log.file.WriteString("ev store_1 2,"); err != nil {
		t.Fatal(err)
	}
	log.file.Close()
}

// scenario has a message that is lost, a reply out of a handler, a copy, a kill and a restart.
func scenario(t *testing.T, open opening) string {
	folder := t.TempDir()
	client := opened(t, open, folder, "client", Values{"asked": 0, "told": 0})
	store := opened(t, open, folder, "store-1", Values{"kept": 0})
	client.Send("store-1", Values{"asked": 1})
	request := carried(t, client.Send("store-1", Values{"asked": 2}))
	var reply Stamp
	store.Receive(request, func(first bool) {
		if !first {
			t.Error("the first receipt is no copy")
		}
		store.Set(Values{"kept": 1})
		reply = store.Send("client", nil)
		store.Set(Values{"kept": 2})
	})
	client.Receive(carried(t, reply), func(bool) { client.Set(Values{"told": 1}) })
	client.Set(Values{"asked": 0})
	killed(t, store)
	store = opened(t, open, folder, "store-1", Values{"kept": 0})
	store.Receive(request, func(first bool) {
		if first {
			t.Error("a copy behind a restart is told as a copy")
		}
	})
	last := store.Send("client", nil)
	client.Receive(carried(t, last), func(bool) { client.Set(Values{"told": 2}) })
	for _, log := range []*Log{client, store} {
		if err := log.Close(); err != nil {
			t.Error(err)
		}
	}
	return folder
}

func TestScenario(t *testing.T) {
	forms := map[string]opening{"clocks": Open, "no_clocks": OpenWithoutClocks}
	for form, open := range forms {
		folder := scenario(t, open)
		for _, name := range []string{"client.log", "store_1.log"} {
			got, _ := os.ReadFile(filepath.Join(folder, name))
			want, err := os.ReadFile(filepath.Join("..", "scenario", form, name))
			if err != nil || string(got) != string(want) {
				t.Errorf("%s of %s is\n%s", name, form, got)
			}
		}
	}
}

// TestStamp compares stamps with those of the logger in Python.
func TestStamp(t *testing.T) {
	with := opened(t, Open, t.TempDir(), "client", nil)
	without := opened(t, OpenWithoutClocks, t.TempDir(), "client", nil)
	for log, want := range map[*Log]string{with: `["client",1,[1,0]]`, without: `["client",1,[]]`} {
		text, err := json.Marshal(log.Send("store-1", nil))
		if err != nil || string(text) != want {
			t.Errorf("a stamp is %s", text)
		}
	}
}

func TestTie(t *testing.T) {
	folder := t.TempDir()
	client := opened(t, Open, folder, "client", nil)
	store := opened(t, Open, folder, "store-1", Values{"kept": 0})
	client.Event(nil)
	store.EventAfter(client.Now(), Values{"kept": 1})
	store.Close()
	text, _ := os.ReadFile(filepath.Join(folder, "store_1.log"))
	if !strings.Contains(string(text), "\nev store_1 1,1 int kept=1\nend\n") {
		t.Errorf("%s", text)
	}
}

func TestMistakes(t *testing.T) {
	folder := t.TempDir()
	log := opened(t, Open, folder, "client", Values{"asked": 0})
	log.Set(Values{"aksed": 1})
	if log.Close() == nil {
		t.Error("a variable that the head lacks is an error")
	}
	if _, err := Open(folder, "client", []string{"client", "other"}, nil); err == nil {
		t.Error("a log of another run is not continued")
	}
	if _, err := Open(folder, "nobody", procs, nil); err == nil {
		t.Error("a process is one of the run's")
	}
}

func TestAnswers(t *testing.T) {
	pota := os.Getenv("POTA")
	if pota == "" {
		t.Skip("POTA is not set")
	}
	for _, open := range []opening{Open, OpenWithoutClocks} {
		folder := scenario(t, open)
		command := `cat "$1"/*.log | "$2" check --merged 'EF (client.told = 1 & store_1.kept = 0)'`
		said, err := exec.Command("sh", "-c", command, "sh", folder, pota).CombinedOutput()
		if err != nil || !strings.Contains(string(said), "\nverdict true\n") {
			t.Errorf("%v: %s", err, said)
		}
	}
}
