// A server of one custom resource by Go's net/http, as an API server answers: what is longer than 2,048 bytes comes in chunks, objects
// have managedFields, and continue tokens are of its own form. checks/outside.py asks it:
//
//	./plain keeper MODE OBJECTS BYTES
//
// It says at which address it listens, and holds so many objects, each with a text of so many bytes, in the namespaces `default` and
// `kube-system`. All are stored anew by their next put, as behind a move of the storage version. By their numbers modulo 50 one is
// edited before its first put is looked at, and one deleted; the one of number 721 is edited before each of its first four puts. The
// second page of the first list is answered 410. GET /told says what came, and what of it was wrong. By the MODE `etcd` the namespaces
// are `a-b` and `a`, in the order of their keys in etcd; by `fraction` each object has a number with a fraction; by `cluster` none has a
// namespace; else it is `plain`.
//
// A POST makes a new object of what it gives, behind those before it.
package main

import (
	"encoding/json"
	"fmt"
	"net/http"
	"net/url"
	"reflect"
	"strconv"
	"strings"
	"sync"
)

type object struct {
	namespace, name, text string
	number, puts          int
	isOld, isGone         bool
	// What a POST gave.
	given document
}

type told struct {
	Lists, Gets, Puts, Posts int
	Limits                   []int
	Wrong, Old               []string
}

type keeper struct {
	lock    sync.Mutex
	mode    string
	objects []*object
	number  int
	token   string
	expired bool
	told    told
}

const managed = `[{"apiVersion":"example.com/v1","fieldsType":"FieldsV1","fieldsV1":{"f:spec":{".":{},"f:text":{},"k:{\"name\":\"x\"}":{}}},
	"manager":"kubectl <&> ü","operation":"Update","time":"2024-01-01T00:00:00Z"}]`

// The object as it stands.
func (s *keeper) shown(o *object) document {
	metadata := document{"resourceVersion": strconv.Itoa(o.number), "uid": "u-" + o.name, "generation": 1, "creationTimestamp": "2024-01-01T00:00:00Z"}
	if o.given != nil {
		return with(o.given, document{"metadata": with(metadata, o.given["metadata"].(document))})
	}
	metadata["name"], metadata["managedFields"] = o.name, read([]byte(managed))
	if s.mode != "cluster" {
		metadata["namespace"] = o.namespace
	}
	size := json.Number("9007199254740993")
	if s.mode == "fraction" {
		size = "1.5"
	}
	return document{"apiVersion": "example.com/v1", "kind": "CronTab", "metadata": metadata, "spec": document{"text": o.text, "none": nil, "size": size}}
}

func refuseOf(code int, reason, name string) (int, interface{}) {
	_, refusal := refuse(code, reason)
	return code, with(refusal.(document), document{"details": document{"group": "example.com", "kind": "crontabs", "name": name}})
}

func (s *keeper) isWrong(format string, words ...interface{}) {
	if len(s.told.Wrong) < 20 {
		s.told.Wrong = append(s.told.Wrong, fmt.Sprintf(format, words...))
	}
}

// A token of its own: where the next page begins, in bytes that a query has to escape.
const tokens = "{\"v\":\"meta.k8s.io/v1\",\"start\":\"%d"

func (s *keeper) list(query url.Values) (int, interface{}) {
	s.told.Lists++
	limit, begin := number(query.Get("limit")), 0
	if token := query.Get("continue"); token != "" && token != s.token {
		s.isWrong("a token that wasn't given: %q", token)
	}
	fmt.Sscanf(query.Get("continue"), tokens, &begin)
	if known := s.told.Limits; len(known) == 0 || known[len(known)-1] != limit {
		s.told.Limits = append(known, limit)
	}
	if begin > 0 && !s.expired {
		s.expired = true
		return refuse(410, "Expired")
	}
	items, place := []document{}, begin
	for ; place < len(s.objects) && len(items) < limit; place++ {
		if o := s.objects[place]; !o.isGone {
			items = append(items, s.shown(o))
		}
	}
	metadata := document{"resourceVersion": strconv.Itoa(s.number)}
	s.token = ""
	if place < len(s.objects) {
		s.token = fmt.Sprintf(tokens+"\\u0000\"} &limit=1#+%%41/ü", place)
		metadata["continue"], metadata["remainingItemCount"] = s.token, len(s.objects)-place
	}
	return 200, document{"apiVersion": "example.com/v1", "kind": "CronTabList", "items": items, "metadata": metadata}
}

// What others do to an object before its put is looked at.
func (s *keeper) meddle(at int, o *object) {
	o.puts++
	switch {
	case at%50 == 13:
		o.isGone = true
	case at%50 == 7 && o.puts == 1, at == 721 && o.puts <= 4:
		s.number++
		o.number, o.isOld, o.text = s.number, false, o.text+"x"
	}
}

func (s *keeper) put(at int, o *object, body []byte) (int, interface{}) {
	s.told.Puts++
	given, _ := read(body).(document)
	metadata, _ := given["metadata"].(document)
	before := read(spelled(s.shown(o)))
	s.meddle(at, o)
	if o.isGone {
		return refuseOf(404, "NotFound", o.name)
	}
	if metadata["resourceVersion"] != strconv.Itoa(o.number) {
		return refuseOf(409, "Conflict", o.name)
	}
	if !reflect.DeepEqual(before, read(body)) {
		s.isWrong("%s is put as %.300s", o.name, body)
	}
	if o.isOld {
		s.number++
		o.number, o.isOld = s.number, false
	}
	return 200, s.shown(o)
}

func (s *keeper) post(request *http.Request, namespace string, body []byte) (int, interface{}) {
	s.told.Posts++
	if kind := request.Header.Get("Content-Type"); kind != "application/json" {
		s.isWrong("a post of %q", kind)
	}
	given, _ := read(body).(document)
	metadata, _ := given["metadata"].(document)
	for _, name := range []string{"creationTimestamp", "deletionTimestamp", "generation", "resourceVersion", "uid"} {
		if _, has := metadata[name]; has {
			s.isWrong("a post has %s: %.300s", name, body)
		}
	}
	name, _ := metadata["name"].(string)
	if name == "" || metadata["namespace"] != namespace || given["apiVersion"] != "example.com/v1" {
		return refuseOf(400, "BadRequest", name)
	}
	if _, o := s.find(namespace, name); o != nil && !o.isGone {
		return refuseOf(409, "AlreadyExists", name)
	}
	s.number++
	o := &object{namespace: namespace, name: name, number: s.number, given: given}
	s.objects = append(s.objects, o)
	return 201, s.shown(o)
}

// The newest object of a name, and at which place it is.
func (s *keeper) find(namespace, name string) (int, *object) {
	for at := len(s.objects) - 1; at >= 0; at-- {
		if o := s.objects[at]; o.namespace == namespace && o.name == name {
			return at, o
		}
	}
	return 0, nil
}

// What a request is answered, by its path: /apis/example.com/v1/namespaces/NAMESPACE/crontabs/NAME, or a front of it.
func (s *keeper) answer(request *http.Request, body []byte) (int, interface{}) {
	s.lock.Lock()
	defer s.lock.Unlock()
	path := request.URL.Path
	if path == "/told" {
		s.told.Old = nil
		for _, o := range s.objects {
			if o.isOld && !o.isGone {
				s.told.Old = append(s.told.Old, o.name)
			}
		}
		return 200, spelled(s.told)
	}
	parts := strings.Split(path, "/")
	if path == resource && request.Method == "GET" {
		return s.list(request.URL.Query())
	}
	if len(parts) == 7 && request.Method == "POST" {
		return s.post(request, parts[5], body)
	}
	if len(parts) == 8 {
		if at, o := s.find(parts[5], parts[7]); o != nil && request.Method == "PUT" {
			return s.put(at, o, body)
		} else if o != nil {
			s.told.Gets++
			return 200, s.shown(o)
		}
	}
	s.isWrong("%s %s", request.Method, path)
	return refuse(404, "NotFound")
}

func keep(words []string) {
	s, count, size := &keeper{mode: words[0], number: 1}, number(words[1]), number(words[2])
	namespaces := []string{"default", "kube-system"}
	if s.mode == "etcd" {
		namespaces = []string{"a-b", "a"}
	}
	for at := 0; at < count; at++ {
		s.number++
		o := &object{namespace: namespaces[at*2/count], name: fmt.Sprintf("cron-%06d", at), text: strings.Repeat("t", size), number: s.number, isOld: true}
		s.objects = append(s.objects, o)
	}
	listen(s.answer)
}
