// Programs by Go's net/http, to compare `kubeconv` with and to have it ask others than itself. Each file beside this one is one of them, and
// says what it does:
//
//	go build -o plain bench/plain/*.go
//	./plain serve | pipe | client .. | migrate .. | far .. | keeper .. | converter ..
package main

import (
	"encoding/json"
	"fmt"
	"io"
	"net"
	"net/http"
	"os"
	"strconv"
	"strings"
)

type document = map[string]interface{}

func main() {
	programs := map[string]func([]string){
		"serve": serve, "pipe": pipe, "client": ask, "migrate": migrate, "far": far, "keeper": keep, "converter": convert,
	}
	programs[os.Args[1]](os.Args[2:])
}

func try(err error) {
	if err != nil {
		fmt.Println(err)
		os.Exit(1)
	}
}

// The number that a word is, or nought.
func number(word string) int {
	found, _ := strconv.Atoi(word)
	return found
}

// What a text reads as, its numbers as they are spelled; nil where it is no JSON.
func read(text []byte) interface{} {
	var value interface{}
	decoder := json.NewDecoder(strings.NewReader(string(text)))
	decoder.UseNumber()
	if decoder.Decode(&value) != nil {
		return nil
	}
	return value
}

// The text of a value, which is itself where it is one.
func spelled(value interface{}) []byte {
	if text, is := value.([]byte); is {
		return text
	}
	text, err := json.Marshal(value)
	try(err)
	return text
}

// A copy of a document, with these fields in the place of its own.
func with(given, fields document) document {
	copied := make(document, len(given)+len(fields))
	for _, from := range []document{given, fields} {
		for name, value := range from {
			copied[name] = value
		}
	}
	return copied
}

func refuse(code int, reason string) (int, interface{}) {
	return code, document{"apiVersion": "v1", "kind": "Status", "status": "Failure", "reason": reason, "code": code, "metadata": document{}}
}

// What answers a request with its body, by a code and a value.
type answering func(*http.Request, []byte) (int, interface{})

func (answer answering) ServeHTTP(w http.ResponseWriter, request *http.Request) {
	body, err := io.ReadAll(request.Body)
	if err != nil {
		return
	}
	code, value := answer(request, body)
	w.Header().Set("Content-Type", "application/json")
	w.WriteHeader(code)
	w.Write(spelled(value))
}

// Answers at a port of the system's choice, and says at which address.
func listen(answer answering) {
	listener, err := net.Listen("tcp", "127.0.0.1:0")
	try(err)
	fmt.Println("listening on", listener.Addr())
	try(http.Serve(listener, answer))
}
