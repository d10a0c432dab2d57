// A converter by Go's net/http of the definition of examples/rules/same.json, that answers each review after some milliseconds.
// bench/many.py runs it by --slow:
//
//	./plain converter MILLISECONDS
//
// It says at which address it listens.
package main

import (
	"net/http"
	"strings"
	"time"
)

func convert(words []string) {
	slow := time.Duration(number(words[0])) * time.Millisecond
	listen(func(_ *http.Request, body []byte) (int, interface{}) {
		review, _ := read(body).(document)
		asked, is := review["request"].(document)
		if !is {
			return refuse(400, "BadRequest")
		}
		time.Sleep(slow)
		objects, version := asked["objects"].([]interface{}), strings.TrimPrefix(asked["desiredAPIVersion"].(string), "example.com/")
		for at, object := range objects {
			objects[at] = shown(toHub(object.(document)), version)
		}
		response := document{"uid": asked["uid"], "convertedObjects": objects, "result": document{"status": "Success"}}
		return 200, document{"apiVersion": "apiextensions.k8s.io/v1", "kind": "ConversionReview", "response": response}
	})
}
