// A client of `refheap serve` in Go. A refusal or a fault is an error with its words; a handle is a number, 0 is null.
//
//	go run refheap.go PATH       a session with the server whose socket is at PATH
package main

import (
	"bufio"
	"bytes"
	"encoding/hex"
	"errors"
	"fmt"
	"net"
	"os"
	"strconv"
	"strings"
	"syscall"
	"time"
)

var words = []string{"", "no memory", "heap full", "no such handle", "handles full", "wrong kind", "no such field", "wrong type", "null", "no such name",
	"names full", "busy", "closed", "no session", "numbers exhausted", "malformed", "too long", "not out", "queue empty", "resources full"}

// Refused says that the heap did not do it; nothing has changed, but that after 2 the heap was collected.
type Refused struct {
	Line   string
	Number int
}

func (r Refused) Error() string {
	if r.Number < 0 || r.Number >= len(words) {
		return fmt.Sprintf("%s: %d", r.Line, r.Number)
	}
	return r.Line + ": " + words[r.Number]
}

// Fault says that a call on a file or a socket failed: `notfound`, `denied` or `other`.
type Fault struct{ Line, Name string }

func (f Fault) Error() string { return f.Line + ": " + f.Name }

// Heap is one session. It is for one goroutine at a time.
type Heap struct {
	connection net.Conn
	replies    *bufio.Reader
}

// Connect connects; where nobody listens yet, it tries again until so much time has passed. The first reply shows that the session has its turn.
func Connect(path string, within time.Duration) (*Heap, error) {
	until := time.Now().Add(within)
	for {
		connection, err := net.Dial("unix", path)
		if err == nil {
			return &Heap{connection, bufio.NewReaderSize(connection, 65536)}, nil
		}
		absent := errors.Is(err, syscall.ENOENT) || errors.Is(err, syscall.ECONNREFUSED)
		if !absent || time.Now().After(until) {
			return nil, err
		}
		time.Sleep(10 * time.Millisecond)
	}
}

// Ahead sends all lines and gives as many replies, as text. A goroutine of its own writes, so any number of lines is right.
func (h *Heap) Ahead(lines ...string) ([]string, error) {
	var text strings.Builder
	for _, line := range lines {
		text.WriteString(line + "\n")
	}
	written := make(chan struct{})
	go func() {
		// Where this fails, what was answered before can still be read; then the reader meets the end.
		_, _ = h.connection.Write([]byte(text.String()))
		close(written)
	}()
	replies := make([]string, 0, len(lines))
	for range lines {
		reply, err := h.replies.ReadString('\n')
		if err != nil {
			h.connection.Close()
			<-written
			return nil, fmt.Errorf("the server ended the session: %w", err)
		}
		replies = append(replies, reply[:len(reply)-1])
	}
	<-written
	return replies, nil
}

// Ask sends one line and gives what its reply says: the words after the first, or the one word, as `ok`, `yes` and `end`.
func (h *Heap) Ask(format string, arguments ...any) (string, error) {
	line := fmt.Sprintf(format, arguments...)
	replies, err := h.Ahead(line)
	if err != nil {
		return "", err
	}
	word, rest, found := strings.Cut(replies[0], " ")
	switch {
	case word == "!":
		number, _ := strconv.Atoi(rest)
		return "", Refused{line, number}
	case word == "fault":
		return "", Fault{line, rest}
	case !found:
		return word, nil
	}
	return rest, nil
}

// Number is Ask for a line that is answered by a number, for instance a handle.
func (h *Heap) Number(format string, arguments ...any) (int, error) {
	text, err := h.Ask(format, arguments...)
	if err != nil {
		return 0, err
	}
	return strconv.Atoi(text)
}

// WriteAll writes all of the data, 200 bytes a line; a short write is continued.
func (h *Heap) WriteAll(guard int, data []byte) error {
	for len(data) > 0 {
		part := data
		if len(part) > 200 {
			part = part[:200]
		}
		taken, err := h.Number("write %d %x", guard, part)
		if err == nil && taken == 0 {
			err = errors.New("nothing was taken")
		}
		if err != nil {
			return err
		}
		data = data[taken:]
	}
	return nil
}

// Close says bye, and closes the connection.
func (h *Heap) Close() error {
	_, _ = h.Ahead("bye")
	return h.connection.Close()
}

func main() {
	if len(os.Args) != 2 {
		fmt.Fprintln(os.Stderr, "usage: refheap PATH, the socket of a server")
		os.Exit(2)
	}
	heap, err := Connect(os.Args[1], time.Second)
	if err == nil {
		err = example(heap, os.Args[1]+".example")
		heap.Close()
	}
	if err != nil {
		fmt.Fprintln(os.Stderr, "refheap:", err)
		os.Exit(1)
	}
}

func example(heap *Heap, path string) (err error) {
	ask := func(format string, arguments ...any) (text string) {
		if err == nil {
			text, err = heap.Ask(format, arguments...)
		}
		return text
	}
	array, thing := ask("array 1000"), ask("new -")
	ask("put %s 999 %s", array, thing)
	fmt.Println("an element of an array:", ask("same %s %s", thing, ask("get %s 999", array)))
	ask("drop %s", array)
	replies, _ := heap.Ahead(strings.Split(strings.Repeat("same 0 0\n", 20000), "\n")[:20000]...)
	fmt.Printf("20000 lines ahead, %d replies\n", strings.Count(strings.Join(replies, " "), "yes"))

	data, back := bytes.Repeat([]byte{0, 7, 14, 255}, 250), []byte{}
	guard, _ := strconv.Atoi(ask("open w %s", path))
	if err == nil {
		err = heap.WriteAll(guard, data)
	}
	ask("close %d", guard)
	reading := ask("open r %s", path)
	for part := ask("read %s 200", reading); err == nil && part != "end"; part = ask("read %s 200", reading) {
		more, _ := hex.DecodeString(part)
		back = append(back, more...)
	}
	fmt.Println("1000 bytes written and read back:", map[bool]string{true: "yes", false: "no"}[bytes.Equal(data, back)])
	os.Remove(path)

	dropped := ask("new -")
	weak := ask("weak %s 0", dropped)
	ask("drop %s", dropped)
	ask("gc")
	fmt.Println("dropped and collected:", ask("refers %s 0", weak))
	_, refused := heap.Ask("get 200 1")
	_, fault := heap.Ask("open r /nowhere/x")
	fmt.Printf("%v\n%v\n", refused, fault)
	return err
}
