// A plain client of bench/outside.py: does what `kubeconv migrate` does where nobody else writes, by the same bytes, and tells what its
// exchanges took alone.
//
//	./plain migrate 127.0.0.1:PORT PATH
//
// PATH is that of a resource, as /apis/example.com/v1/crontabs. Each exchange has a connection of its own: it is connected, the request is
// sent, and the answer read to its end, by calls of the system that wait. What is done between two exchanges isn't counted. Prints how many
// exchanges there were, the seconds that they took, and the seconds of the client's processor time in them.
package main

import (
	"bytes"
	"encoding/json"
	"fmt"
	"net"
	"regexp"
	"runtime"
	"strings"
	"syscall"
	"time"
)

type item struct {
	Metadata struct{ Namespace, Name string }
}

type page struct {
	Items    []json.RawMessage
	Metadata struct{ Continue string }
}

type client struct {
	peer               syscall.SockaddrInet4
	answer             []byte
	exchanges          int
	seconds, processor time.Duration
}

// The processor time of this thread.
func used() time.Duration {
	var usage syscall.Rusage
	try(syscall.Getrusage(1, &usage))
	return time.Duration(usage.Utime.Nano() + usage.Stime.Nano())
}

func (c *client) exchange(asked []byte) {
	peer, err := syscall.Socket(syscall.AF_INET, syscall.SOCK_STREAM|syscall.SOCK_CLOEXEC, 0)
	try(err)
	try(syscall.Connect(peer, &c.peer))
	try(syscall.SetsockoptInt(peer, syscall.IPPROTO_TCP, syscall.TCP_NODELAY, 1))
	for sent := 0; sent < len(asked); {
		count, err := syscall.Write(peer, asked[sent:])
		try(err)
		sent += count
	}
	c.answer = c.answer[:0]
	for count := 1; count > 0; {
		if cap(c.answer)-len(c.answer) < 1<<16 {
			c.answer = append(make([]byte, 0, 2*cap(c.answer)+1<<16), c.answer...)
		}
		count, err = syscall.Read(peer, c.answer[len(c.answer):cap(c.answer)])
		try(err)
		c.answer = c.answer[:len(c.answer)+count]
	}
	try(syscall.Close(peer))
}

// The code and the body of an answer.
func (c *client) ask(method, target string, body []byte) (string, []byte) {
	head := fmt.Sprintf("%s %s HTTP/1.1\r\nHost: kubeconv\r\nContent-Type: application/json\r\nContent-Length: %d\r\nConnection: close\r\n\r\n", method, target, len(body))
	asked := append([]byte(head), body...)
	begin, before := time.Now(), used()
	c.exchange(asked)
	c.seconds += time.Since(begin)
	c.processor += used() - before
	c.exchanges++
	first, rest, _ := bytes.Cut(c.answer, []byte("\r\n\r\n"))
	return strings.Fields(string(first))[1], rest
}

// All bytes but letters and digits, escaped.
func escaped(token string) string {
	return regexp.MustCompile(`[^0-9A-Za-z]`).ReplaceAllStringFunc(token, func(it string) string {
		return "%" + strings.ReplaceAll(fmt.Sprintf("% X", it), " ", "%")
	})
}

func migrate(words []string) {
	runtime.LockOSThread()
	address, err := net.ResolveTCPAddr("tcp4", words[0])
	try(err)
	c := &client{peer: syscall.SockaddrInet4{Port: address.Port}}
	copy(c.peer.Addr[:], address.IP.To4())
	path, more, place := words[1], "", strings.LastIndex(words[1], "/")
	for is_last := false; !is_last; {
		code, body := c.ask("GET", path+"?limit=500"+more, nil)
		if code == "410" {
			more = ""
			continue
		}
		var listed page
		try(json.Unmarshal(body, &listed))
		for _, text := range listed.Items {
			var it item
			try(json.Unmarshal(text, &it))
			target := path[:place] + "/namespaces/" + it.Metadata.Namespace + path[place:] + "/" + it.Metadata.Name
			if code, body := c.ask("PUT", target, text); code != "200" {
				try(fmt.Errorf("a put is answered %s %s", code, body))
			}
		}
		more, is_last = "&continue="+escaped(listed.Metadata.Continue), listed.Metadata.Continue == ""
	}
	fmt.Println(c.exchanges, c.seconds.Seconds(), c.processor.Seconds())
}
