// A client of bench/many.py: so many connections, each of which asks one request after the other and waits for each answer.
//
//	./plain client ADDRESS CONNECTIONS REQUESTS get|create|mix
//
// Says "ready" once each connection has made an object of its own. Then it waits for a line, asks REQUESTS requests in all, and prints the
// seconds that they took, and of the waits for an answer in microseconds the 99th of 100 and the longest. It waits for another line before it
// ends, so that its connections stand until then. A mix is seven gets, two replaces and a create of ten.
package main

import (
	"bufio"
	"fmt"
	"io"
	"net"
	"net/http"
	"os"
	"sort"
	"strconv"
	"strings"
	"sync"
	"time"
)

const crontabs = "/apis/example.com/v1/namespaces/default/crontabs"

type caller struct {
	in           *bufio.Reader
	out          net.Conn
	name, number string
	waits        []time.Duration
}

func body(name, number string) string {
	if number != "" {
		number = `,"resourceVersion":"` + number + `"`
	}
	return `{"apiVersion":"example.com/v1","kind":"CronTab","metadata":{"name":"` + name + `"` + number + `},"host":"localhost","port":"1234","timeoutMillis":3000}`
}

// ask gives the number at which an object is shown, and ends the program where the answer's code isn't the wanted one.
func (c *caller) ask(wanted int, method, at, text string) string {
	length := ""
	if text != "" {
		length = "Content-Length: " + strconv.Itoa(len(text)) + "\r\n"
	}
	_, err := io.WriteString(c.out, method+" "+at+" HTTP/1.1\r\nHost: x\r\n"+length+"\r\n"+text)
	try(err)
	answer, err := http.ReadResponse(c.in, nil)
	try(err)
	came, err := io.ReadAll(answer.Body)
	if err != nil || answer.StatusCode != wanted {
		try(fmt.Errorf("%s %s is answered %d %s", method, at, answer.StatusCode, came))
	}
	_, rest, _ := strings.Cut(string(came), `"resourceVersion":"`)
	number, _, _ := strings.Cut(rest, `"`)
	return number
}

func (c *caller) step(kind string, turn int) {
	start := time.Now()
	switch {
	case kind == "create" || kind == "mix" && turn%10 == 9:
		c.ask(201, "POST", crontabs, body(c.name+"-"+strconv.Itoa(turn), ""))
	case kind == "mix" && turn%5 == 3:
		c.number = c.ask(200, "PUT", crontabs+"/"+c.name, body(c.name, c.number))
	default:
		c.ask(200, "GET", crontabs+"/"+c.name, "")
	}
	c.waits = append(c.waits, time.Since(start))
}

func ask(words []string) {
	address, connections, requests, kind := words[0], number(words[1]), number(words[2]), words[3]
	callers := make([]*caller, connections)
	for i := range callers {
		out, err := net.Dial("tcp", address)
		try(err)
		c := &caller{in: bufio.NewReader(out), out: out, name: "c" + strconv.Itoa(i)}
		c.number = c.ask(201, "POST", crontabs, body(c.name, ""))
		callers[i] = c
	}
	lines := bufio.NewScanner(os.Stdin)
	fmt.Println("ready")
	lines.Scan()
	var all sync.WaitGroup
	start := time.Now()
	for _, c := range callers {
		all.Add(1)
		go func(c *caller) {
			defer all.Done()
			for turn := 0; turn < requests/connections; turn++ {
				c.step(kind, turn)
			}
		}(c)
	}
	all.Wait()
	seconds := time.Since(start).Seconds()
	var waits []time.Duration
	for _, c := range callers {
		waits = append(waits, c.waits...)
	}
	sort.Slice(waits, func(i, j int) bool { return waits[i] < waits[j] })
	fmt.Println(seconds, waits[len(waits)*99/100].Microseconds(), waits[len(waits)-1].Microseconds())
	lines.Scan()
}
