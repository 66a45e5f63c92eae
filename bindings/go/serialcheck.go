// Package serialcheck says whether bytes are one Java object serialization stream that a filter admits. No class is loaded.
//
// It calls the C library by cgo. Only an error of nil is a yes; a refusal is a *Refused.
package serialcheck

/*
#include <serialcheck.h>
*/
import "C"

import (
	"bytes"
	"errors"
	"fmt"
	"os"
	"runtime"
	"strings"
	"sync"
)

// MostText is a bound for the texts of Show and List: that of a small hostile stream can have gigabytes.
const MostText = 1 << 24

// The room in which a text is written first, and what a line, a name or a sentence of the library has at the most.
const (
	firstRoom = 1 << 16
	mostWords = 255
)

// The most bytes of a filter's file.
const mostFile = 1 << 24

var (
	// ErrClosed is the error of a filter or a stream that was closed, or of a stream that has ended.
	ErrClosed = errors.New("serialcheck: closed")
	// ErrMemory is the error where memory ran out.
	ErrMemory = errors.New("serialcheck: out of memory")
)

// Options say how a filter is asked.
type Options struct {
	Strict      bool   // refuse a class that no pattern matches
	Anywhere    bool   // ask about every class name that can be read at any place of the bytes
	NeedPattern bool   // take a filter without a pattern for a faulty one
	Modules     string // a table of lines package=module
}

func (o Options) flags() C.uint32_t {
	var flags C.uint32_t
	if o.Strict {
		flags |= C.SERIALCHECK_STRICT
	}
	if o.Anywhere {
		flags |= C.SERIALCHECK_ANYWHERE
	}
	if o.NeedPattern {
		flags |= C.SERIALCHECK_NEED_PATTERN
	}
	return flags
}

// Counts are those of a stream that is accepted. Its text is the line of the program.
type Counts struct {
	Bytes    uint64 // all bytes of the stream
	Contents uint64 // how many contents are at the top
	Refs     uint64 // references, as maxrefs counts them
	Depth    uint64 // depth, as maxdepth counts it
	Handles  uint64 // how many handles the stream assigns
	answer   C.serialcheck_answer
}

func (c Counts) String() string { return lineOf(&c.answer) }

// Refused is why bytes are no stream that the filter admits. Its text is the line of the program.
type Refused struct {
	Reason  string // a name of docs/REFUSALS.md, such as ClassRejected
	Meaning string // a sentence on the reason, of printable ASCII
	From    uint64 // the offset of the faulty token
	To      uint64 // how many bytes decide: no admitted stream begins with these (of Truncated: all, which are none)
	Whole   uint64 // how many of the bytes are the longest stream that the filter admits, or 0: where to cut
	// Class is the class that was refused, quoted, with letters other than printable ASCII escaped; empty with another reason.
	Class string
	line  string
}

func (r *Refused) Error() string { return r.line }

// Misuse is a faulty filter, table of modules or file of a filter.
type Misuse struct {
	Cause string // a name of SERIALCHECK_CAUSES in serialcheck.h
	At    uint64 // the faulty piece or line, counted from 0
	line  string
}

func (m *Misuse) Error() string { return m.line }

// none is a byte for the calls that get none: the library wants an address.
var none C.uint8_t

// at is where bytes are, and how many.
func at(data []byte) (*C.uint8_t, C.size_t) {
	if len(data) == 0 {
		return &none, 0
	}
	return (*C.uint8_t)(&data[0]), C.size_t(len(data))
}

// words is the text that a call writes into a room of at most so many bytes; empty where there is none.
func words(most int, write func(room *C.uint8_t, length C.size_t, told *C.serialcheck_answer)) string {
	var told C.serialcheck_answer
	room := make([]byte, most)
	where, length := at(room)
	write(where, length, &told)
	if told.status != C.SERIALCHECK_YES {
		return ""
	}
	return string(room[:told.bytes])
}

func lineOf(answer *C.serialcheck_answer) string {
	return strings.TrimRight(words(mostWords, func(room *C.uint8_t, length C.size_t, told *C.serialcheck_answer) {
		C.serialcheck_line(answer, room, length, told)
	}), "\n")
}

// named is the class that an answer says was refused, as a call writes it.
func named(answer *C.serialcheck_answer, write func(room *C.uint8_t, length C.size_t, told *C.serialcheck_answer)) string {
	if answer.status != C.SERIALCHECK_NO || answer.name_to == 0 {
		return ""
	}
	return words(int(6*(answer.name_to-answer.name_from)+2), write)
}

func classOf(answer *C.serialcheck_answer, data []byte) string {
	return named(answer, func(room *C.uint8_t, length C.size_t, told *C.serialcheck_answer) {
		from, count := at(data)
		C.serialcheck_class(from, count, answer, room, length, told)
	})
}

// settled is what an answer says; class is the one that was refused, if one was.
func settled(answer *C.serialcheck_answer, class string) (Counts, error) {
	switch answer.status {
	case C.SERIALCHECK_YES:
		return Counts{uint64(answer.bytes), uint64(answer.contents), uint64(answer.refs), uint64(answer.depth), uint64(answer.handles), *answer}, nil
	case C.SERIALCHECK_NO:
		reason := words(mostWords, func(room *C.uint8_t, length C.size_t, told *C.serialcheck_answer) {
			C.serialcheck_reason_name(answer.reason, room, length, told)
		})
		meaning := words(mostWords, func(room *C.uint8_t, length C.size_t, told *C.serialcheck_answer) {
			C.serialcheck_reason_text(answer.reason, room, length, told)
		})
		return Counts{}, &Refused{reason, meaning, uint64(answer.from), uint64(answer.to), uint64(answer.whole), class, lineOf(answer)}
	case C.SERIALCHECK_MISUSE:
		cause := words(mostWords, func(room *C.uint8_t, length C.size_t, told *C.serialcheck_answer) {
			C.serialcheck_cause_name(answer.reason, room, length, told)
		})
		return Counts{}, &Misuse{cause, uint64(answer.from), lineOf(answer)}
	case C.SERIALCHECK_SPENT:
		return Counts{}, ErrClosed
	case C.SERIALCHECK_NO_MEMORY:
		return Counts{}, ErrMemory
	default:
		return Counts{}, fmt.Errorf("serialcheck: status %d", uint32(answer.status))
	}
}

// Check checks a whole stream under the filter of a text, which is read each time. No other goroutine may change the bytes meanwhile.
func Check(stream []byte, filter string, options Options) (Counts, error) {
	once, err := NewFilter(filter, options)
	if err != nil {
		return Counts{}, err
	}
	defer once.Close()
	return once.Check(stream)
}

// A Filter is read once, for many checks. Any number of goroutines may use it at once.
type Filter struct {
	use    sync.RWMutex // held for writing by Close alone
	handle C.serialcheck_filter
}

type reader func(text *C.uint8_t, length C.size_t, modules *C.uint8_t, modulesLength C.size_t, flags C.uint32_t, answer *C.serialcheck_answer, filter *C.serialcheck_filter)

func newFilter(data []byte, options Options, read reader) (*Filter, error) {
	var answer C.serialcheck_answer
	filter := &Filter{}
	text, length := at(data)
	modules, modulesLength := at([]byte(options.Modules))
	read(text, length, modules, modulesLength, options.flags(), &answer, &filter.handle)
	if _, err := settled(&answer, ""); err != nil {
		return nil, err
	}
	runtime.SetFinalizer(filter, (*Filter).Close)
	return filter, nil
}

// NewFilter reads the text of a filter, as ObjectInputFilter.Config.createFilter takes it (docs/FILTERS.md).
func NewFilter(text string, options Options) (*Filter, error) {
	return newFilter([]byte(text), options, func(text *C.uint8_t, length C.size_t, modules *C.uint8_t, modulesLength C.size_t, flags C.uint32_t, answer *C.serialcheck_answer, filter *C.serialcheck_filter) {
		C.serialcheck_filter_new(text, length, modules, modulesLength, flags, answer, filter)
	})
}

// ReadFilter reads the file of a filter: its lines are pieces, and those that begin with # are none.
func ReadFilter(path string, options Options) (*Filter, error) {
	data, err := os.ReadFile(path)
	if err != nil {
		return nil, err
	}
	if len(data) > mostFile {
		return nil, fmt.Errorf("%s has more than %d bytes", path, mostFile)
	}
	return newFilter(data, options, func(text *C.uint8_t, length C.size_t, modules *C.uint8_t, modulesLength C.size_t, flags C.uint32_t, answer *C.serialcheck_answer, filter *C.serialcheck_filter) {
		C.serialcheck_filter_read(text, length, modules, modulesLength, flags, answer, filter)
	})
}

// Check checks a whole stream. No other goroutine may change the bytes meanwhile: hand on what was checked.
func (f *Filter) Check(stream []byte) (Counts, error) {
	var answer C.serialcheck_answer
	f.use.RLock()
	where, length := at(stream)
	C.serialcheck_filter_check(&f.handle, where, length, &answer)
	f.use.RUnlock()
	runtime.KeepAlive(f)
	return settled(&answer, classOf(&answer, stream))
}

// Stream begins the check of one stream that comes in pieces. The filter may be closed before it.
func (f *Filter) Stream() (*Stream, error) {
	var answer C.serialcheck_answer
	stream := &Stream{}
	f.use.RLock()
	C.serialcheck_stream_new(&f.handle, &answer, &stream.handle)
	f.use.RUnlock()
	runtime.KeepAlive(f)
	if answer.status != C.SERIALCHECK_MORE {
		_, err := settled(&answer, "")
		return nil, err
	}
	runtime.SetFinalizer(stream, (*Stream).Close)
	return stream, nil
}

// Close lets the filter go, once the checks that have begun have ended. Later ones return ErrClosed.
func (f *Filter) Close() error {
	f.use.Lock()
	defer f.use.Unlock()
	C.serialcheck_filter_free(&f.handle)
	return nil
}

// A Stream is the check of one stream that comes in pieces of any sizes. Act on no byte before End has returned no error. One
// goroutine uses it at a time.
type Stream struct {
	handle C.serialcheck_stream
	class  string // the one that was refused
}

// Write takes the next bytes. An error means that a byte of these, or of some before them, decides, whatever comes next.
func (s *Stream) Write(piece []byte) (int, error) {
	var answer C.serialcheck_answer
	where, length := at(piece)
	C.serialcheck_stream_feed(&s.handle, where, length, &answer)
	runtime.KeepAlive(s)
	if answer.status == C.SERIALCHECK_MORE {
		return len(piece), nil
	}
	s.class = named(&answer, func(room *C.uint8_t, length C.size_t, told *C.serialcheck_answer) {
		C.serialcheck_stream_class(&s.handle, room, length, told)
	})
	runtime.KeepAlive(s)
	_, err := settled(&answer, s.class)
	return 0, err
}

// End ends the stream: it returns what a check of all its bytes at once would.
func (s *Stream) End() (Counts, error) {
	var answer C.serialcheck_answer
	C.serialcheck_stream_end(&s.handle, &answer)
	runtime.KeepAlive(s)
	return settled(&answer, s.class)
}

// Close lets the stream go, if it was not ended.
func (s *Stream) Close() error {
	C.serialcheck_stream_free(&s.handle)
	runtime.KeepAlive(s)
	return nil
}

// A Text is that of Show or List: whole lines of printable ASCII.
type Text struct {
	Lines string
	IsCut bool // whether the text goes on
}

func textOf(most int, write func(room *C.uint8_t, length C.size_t, answer *C.serialcheck_answer)) (Text, error) {
	var answer C.serialcheck_answer
	if most < 0 {
		return Text{}, errors.New("serialcheck: a text of less than 0 bytes")
	}
	first := firstRoom
	if most < first {
		first = most
	}
	room := make([]byte, first)
	where, length := at(room)
	write(where, length, &answer)
	if answer.status == C.SERIALCHECK_SMALL && first < most {
		if answer.bytes > 0 {
			most = int(answer.bytes)
		}
		room = make([]byte, most)
		where, length = at(room)
		write(where, length, &answer)
	}
	if answer.status == C.SERIALCHECK_SMALL {
		return Text{string(room[:bytes.LastIndexByte(room, '\n')+1]), true}, nil
	}
	if _, err := settled(&answer, ""); err != nil {
		return Text{}, err
	}
	return Text{string(room[:answer.bytes]), false}, nil
}

// Show is the text of `serialcheck show`, of at most so many bytes (MostText).
func Show(stream []byte, most int) (Text, error) {
	from, count := at(stream)
	return textOf(most, func(room *C.uint8_t, length C.size_t, answer *C.serialcheck_answer) {
		C.serialcheck_show(from, count, C.size_t(most), room, length, answer)
	})
}

// List is the text of `serialcheck list`, of at most so many bytes: a line for each class name, with how often it occurs and what
// a filter with a table of modules says of it, which refuses nothing here.
func List(stream []byte, filter, modules string, most int) (Text, error) {
	from, count := at(stream)
	text, textLength := at([]byte(filter))
	table, tableLength := at([]byte(modules))
	return textOf(most, func(room *C.uint8_t, length C.size_t, answer *C.serialcheck_answer) {
		C.serialcheck_list(from, count, text, textLength, table, tableLength, C.size_t(most), room, length, answer)
	})
}

// Version is the version of the library.
func Version() string {
	version := uint32(C.serialcheck_version())
	return fmt.Sprintf("%d.%d.%d", version>>16, version>>8&255, version&255)
}
