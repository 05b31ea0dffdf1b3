// A binding for Go and a program over it: texts of an inbox, with a function of the program. Build and run it by run.sh beside
// this file, which says where the header and the library are.
package main

// #include "fluent_handle.h"
import "C"

import (
	"errors"
	"fmt"
	"runtime"
	"sync"
	"unsafe"
)

// A Function answers a call of a message. Without an answer the call is shown as NAME().
type Function func(positional []string, named map[string]string) (answer string, ok bool)

// A Bundle has the texts of a language. Several goroutines may ask it.
type Bundle struct {
	turn      sync.Mutex
	handle    *C.struct_FluentHandle
	functions map[string]Function
}

func check(status C.uint32_t) error {
	if status == C.FLUENT_READ {
		return nil
	}
	return errors.New(C.GoString(C.fluent_handle_status(status)))
}

// borrowed gives a text to C for the time of a call, which copies what it keeps. An empty text is null.
func borrowed(text string) (*C.char, C.size_t) {
	if len(text) == 0 {
		return nil, 0
	}
	bytes := []byte(text)
	return (*C.char)(unsafe.Pointer(&bytes[0])), C.size_t(len(bytes))
}

// New makes a bundle of a source.
func New(source, locale string, functions map[string]Function) (*Bundle, error) {
	bundle := &Bundle{handle: C.fluent_handle_new(), functions: functions}
	runtime.SetFinalizer(bundle, func(bundle *Bundle) { C.fluent_handle_free(bundle.handle) })
	tag, tagLen := borrowed(locale)
	text, textLen := borrowed(source)
	C.fluent_handle_locale(bundle.handle, tag, tagLen)
	C.fluent_handle_source(bundle.handle, text, textLen)
	for name := range functions {
		bytes, len := borrowed(name)
		C.fluent_handle_function(bundle.handle, bytes, len)
	}
	C.fluent_handle_isolating(bundle.handle, false)
	return bundle, check(C.fluent_handle_make(bundle.handle))
}

func (bundle *Bundle) put(name string, value any) error {
	bytes, len := borrowed(name)
	switch value := value.(type) {
	case int:
		return check(C.fluent_handle_integer(bundle.handle, bytes, len, C.int64_t(value)))
	case float64:
		return check(C.fluent_handle_double(bundle.handle, bytes, len, C.double(value)))
	default:
		text, textLen := borrowed(fmt.Sprint(value))
		return check(C.fluent_handle_string(bundle.handle, bytes, len, text, textLen))
	}
}

// answer answers the call that the message has come to.
func (bundle *Bundle) answer() error {
	var positional []string
	named := map[string]string{}
	count := C.fluent_handle_positional(bundle.handle)
	for index := C.size_t(0); index < count+C.fluent_handle_named(bundle.handle); index++ {
		text := C.GoStringN(C.fluent_handle_given_text(bundle.handle, index), C.int(C.fluent_handle_given_len(bundle.handle, index)))
		if index < count {
			positional = append(positional, text)
		} else {
			named[C.GoString(C.fluent_handle_given_name(bundle.handle, index))] = text
		}
	}
	answer, ok := bundle.functions[C.GoString(C.fluent_handle_called(bundle.handle))](positional, named)
	if !ok {
		return check(C.fluent_handle_answer_nothing(bundle.handle))
	}
	bytes, len := borrowed(answer)
	return check(C.fluent_handle_answer_string(bundle.handle, bytes, len))
}

// Format gives the text of a message, and the lines of the errors in it.
func (bundle *Bundle) Format(id string, arguments map[string]any) (text, problems string, err error) {
	bundle.turn.Lock()
	defer bundle.turn.Unlock()
	for name, value := range arguments {
		if err := bundle.put(name, value); err != nil {
			return "", "", err
		}
	}
	bytes, len := borrowed(id)
	status := C.fluent_handle_format(bundle.handle, bytes, len, nil, 0)
	for status == C.FLUENT_CALL {
		if err := bundle.answer(); err != nil {
			return "", "", err
		}
		status = C.fluent_handle_format(bundle.handle, bytes, len, nil, 0)
	}
	if err := check(status); err != nil {
		return "", "", err
	}
	shown := C.GoStringN(C.fluent_handle_text(bundle.handle), C.int(C.fluent_handle_text_len(bundle.handle)))
	return shown, C.GoString(C.fluent_handle_errors(bundle.handle)), nil
}

const source = `
unread = { $count ->
    [one] { $name } has one message.
   *[other] { $name } has { $count } messages.
}
today = Today is { DATE("2026-11-28", style: "long") }.
`

func main() {
	date := func(positional []string, named map[string]string) (string, bool) {
		return named["style"] + ":" + positional[0], true
	}
	inbox, err := New(source, "pl", map[string]Function{"DATE": date})
	if err != nil {
		panic(err)
	}
	show := func(id string, arguments map[string]any) {
		text, problems, err := inbox.Format(id, arguments)
		if err != nil {
			fmt.Print("nil\t", err, "\n")
		} else {
			fmt.Print(text, "\t", problems, "\n")
		}
	}
	show("unread", map[string]any{"name": "Jane", "count": 1})
	show("unread", map[string]any{"name": "Jane", "count": 1234567.5})
	show("today", nil)
	text, _, _ := inbox.Format("unread", map[string]any{"count": 2})
	fmt.Println(text)
	show("missing", nil)

	// Many goroutines ask one bundle.
	var all sync.WaitGroup
	for each := 0; each < 8; each++ {
		all.Add(1)
		go func(name string) {
			defer all.Done()
			for round := 0; round < 200; round++ {
				if text, _, _ := inbox.Format("unread", map[string]any{"name": name, "count": 1}); text != name+" has one message." {
					panic(text)
				}
			}
		}(fmt.Sprint("Jane ", each))
	}
	all.Wait()
}
