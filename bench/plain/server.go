// A plain server of one custom resource at two versions, to compare `kubeconv pipe` and `kubeconv serve` with: it reads requests from
// standard input, or by `serve` answers many connections by net/http, holds objects at v1 in a map, and answers creates, gets,
// replaces and lists. It promises nothing: no schema, no history, no continue tokens, no migrations, and what v1beta1 can't hold isn't
// kept.
//
//	python3 bench/pipe.py --beside ./plain
//	./plain serve
package main

import (
	"bufio"
	"fmt"
	"io"
	"net/http"
	"os"
	"sort"
	"strconv"
	"strings"
	"sync"
	"time"
)

const group = "/apis/example.com/"

type server struct {
	objects map[string]document
	names   []string
	number  int
	lock    sync.Mutex
}

// The same object at the other version: `host` at v1 is `address` at v1beta1.
func converted(o document, version, from, to string) document {
	copied := with(o, document{"apiVersion": "example.com/" + version})
	if value, has := copied[from]; has {
		delete(copied, from)
		copied[to] = value
	}
	return copied
}

func toHub(o document) document {
	if o["apiVersion"] == "example.com/v1" {
		return o
	}
	return converted(o, "v1", "address", "host")
}

func shown(o document, version string) document {
	if version == "v1" {
		return o
	}
	return converted(o, version, "host", "address")
}

func (s *server) list(version string, limit int) (int, interface{}) {
	sort.Strings(s.names)
	items := make([]document, 0, limit)
	for at := 0; at < len(s.names) && at < limit; at++ {
		items = append(items, shown(s.objects[s.names[at]], version))
	}
	metadata := document{"resourceVersion": strconv.Itoa(s.number)}
	return 200, document{"apiVersion": "example.com/" + version, "kind": "CronTabList", "items": items, "metadata": metadata}
}

func (s *server) write(code int, version, name string, o document) (int, interface{}) {
	metadata, has := o["metadata"].(document)
	if !has || o["apiVersion"] != "example.com/"+version || o["kind"] != "CronTab" {
		return refuse(400, "BadRequest")
	}
	given, _ := metadata["name"].(string)
	if name == "" {
		name = given
	}
	old, stands := s.objects[name]
	if given != name || (code == 201) == stands {
		return refuse(409, "Conflict")
	}
	s.number++
	metadata["namespace"], metadata["generation"] = "default", 1
	metadata["creationTimestamp"] = time.Now().UTC().Format(time.RFC3339)
	metadata["uid"] = fmt.Sprintf("00000000-0000-4000-8000-%012x", s.number)
	if stands {
		before := old["metadata"].(document)
		if number := metadata["resourceVersion"]; number != nil && number != before["resourceVersion"] {
			return refuse(409, "Conflict")
		}
		metadata["creationTimestamp"], metadata["uid"] = before["creationTimestamp"], before["uid"]
	} else {
		s.names = append(s.names, name)
	}
	metadata["resourceVersion"] = strconv.Itoa(s.number)
	s.objects[name] = toHub(o)
	return code, shown(s.objects[name], version)
}

func (s *server) answer(request *http.Request, body []byte) (int, interface{}) {
	parts := strings.Split(strings.TrimPrefix(request.URL.Path, group), "/")
	if len(parts) < 4 || parts[3] != "crontabs" {
		return refuse(404, "NotFound")
	}
	version := parts[0]
	o, _ := read(body).(document)
	s.lock.Lock()
	defer s.lock.Unlock()
	switch {
	case request.Method == "POST":
		return s.write(201, version, "", o)
	case request.Method == "PUT" && len(parts) == 5:
		return s.write(200, version, parts[4], o)
	case len(parts) == 5:
		o, stands := s.objects[parts[4]]
		if !stands {
			return refuse(404, "NotFound")
		}
		return 200, shown(o, version)
	default:
		limit, err := strconv.Atoi(request.URL.Query().Get("limit"))
		if err != nil {
			limit = 500
		}
		return s.list(version, limit)
	}
}

func empty() *server { return &server{objects: map[string]document{}, number: 1} }

func serve(_ []string) { listen(empty().answer) }

// Answers requests from standard input.
func pipe(_ []string) {
	s := empty()
	in, out := bufio.NewReaderSize(os.Stdin, 1<<16), bufio.NewWriterSize(os.Stdout, 1<<16)
	for {
		request, err := http.ReadRequest(in)
		if err != nil {
			return
		}
		body, err := io.ReadAll(request.Body)
		try(err)
		code, value := s.answer(request, body)
		text := spelled(value)
		fmt.Fprintf(out, "HTTP/1.1 %d %s\r\nContent-Type: application/json\r\nContent-Length: %d\r\n\r\n", code, http.StatusText(code), len(text))
		out.Write(text)
		out.Flush()
	}
}
