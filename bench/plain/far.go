// A server of one custom resource by Go's net/http that keeps nothing: bench/outside.py asks it about more objects than a server holds.
//
//	./plain far OBJECTS BYTES
//
// It says at which address it listens. A page has so many of its objects as are asked for, each with a text of so many bytes, which are made
// up as it is answered. A put is answered as one that stores the object anew, and a post as one that creates it, whatever was before.
// GET /told says how many puts and posts came, and how many puts weren't of an object as it was listed.
package main

import (
	"bytes"
	"fmt"
	"net/http"
	"strconv"
	"strings"
	"sync/atomic"
)

const resource = "/apis/example.com/v1/crontabs"

type made struct {
	objects            int
	text               string
	puts, posts, wrong atomic.Int64
}

// The object of this number, at this resource version, by the order of names.
func (s *made) item(number, version int) []byte {
	return []byte(fmt.Sprintf(`{"apiVersion":"example.com/v1","host":"%s","kind":"CronTab","metadata":{"creationTimestamp":"2024-01-01T00:00:00Z","generation":1,`+
		`"name":"o%07d","namespace":"default","resourceVersion":"%d","uid":"00000000-0000-8000-8000-%012d"}}`, s.text, number, version, number))
}

func (s *made) list(limit, begin int) []byte {
	end, token := s.objects, ""
	if begin+limit < end {
		end = begin + limit
		token = strconv.Itoa(end)
	}
	items := make([][]byte, 0, limit)
	for number := begin; number < end; number++ {
		items = append(items, s.item(number, number+1))
	}
	return []byte(fmt.Sprintf(`{"apiVersion":"example.com/v1","items":[%s],"kind":"CronTabList","metadata":{"continue":"%s","resourceVersion":"%d"}}`,
		bytes.Join(items, []byte(",")), token, s.objects))
}

// A put of an object as it was listed.
func (s *made) put(name string, body []byte) []byte {
	s.puts.Add(1)
	at := number(strings.TrimPrefix(name, "o"))
	if !bytes.Equal(body, s.item(at, at+1)) {
		s.wrong.Add(1)
	}
	return s.item(at, s.objects+at+1)
}

func (s *made) post(body []byte) []byte {
	number := s.posts.Add(1)
	more := fmt.Sprintf(`"metadata":{"creationTimestamp":"2024-01-01T00:00:00Z","generation":1,"resourceVersion":"%d","uid":"u%d",`, number, number)
	return bytes.Replace(body, []byte(`"metadata":{`), []byte(more), 1)
}

func (s *made) answer(request *http.Request, body []byte) (int, interface{}) {
	path, query := request.URL.Path, request.URL.Query()
	switch {
	case path == "/told":
		return 200, document{"puts": s.puts.Load(), "posts": s.posts.Load(), "wrong": s.wrong.Load()}
	case path == resource:
		return 200, s.list(number(query.Get("limit")), number(query.Get("continue")))
	case request.Method == "PUT":
		return 200, s.put(path[strings.LastIndex(path, "/")+1:], body)
	default:
		return 201, s.post(body)
	}
}

func far(words []string) {
	listen((&made{objects: number(words[0]), text: strings.Repeat("t", number(words[1]))}).answer)
}
