package serialcheck

import (
	"bytes"
	"errors"
	"io"
	"os"
	"os/exec"
	"path/filepath"
	"runtime"
	"strings"
	"sync"
	"testing"
)

// The program whose answers those of the package must be: that of the clone, or the one that PROGRAM names.
func program() string {
	if named := os.Getenv("PROGRAM"); named != "" {
		return named
	}
	return filepath.Join("..", "..", "prebuilt", "serialcheck")
}

// streams are all files of the repository's tests, by their paths.
func streams(t *testing.T) map[string][]byte {
	t.Helper()
	found := map[string][]byte{}
	for _, pattern := range []string{"streams/*.ser", "streams/*/*.ser", "evasions/*.ser"} {
		files, _ := filepath.Glob(filepath.Join("..", "..", "tests", pattern))
		for _, file := range files {
			data, err := os.ReadFile(file)
			if err != nil {
				t.Fatal(err)
			}
			found[file] = data
		}
	}
	if len(found) < 100 {
		t.Fatalf("%d streams", len(found))
	}
	return found
}

// printed is what the program prints, but that a filter has no pattern.
func printed(words ...string) string {
	said, _ := exec.Command(program(), words...).CombinedOutput()
	return strings.ReplaceAll(string(said), "filter has no pattern\n", "")
}

// told is the line of an answer.
func told(counts Counts, err error) string {
	if err != nil {
		return err.Error()
	}
	return counts.String()
}

var settings = []struct {
	text    string
	words   []string
	options Options
}{
	{"", nil, Options{}},
	{"maxdepth=20;java.util.*;java.lang.*;!*", nil, Options{}},
	{"java.util.*;java.lang.*", []string{"--strict"}, Options{Strict: true}},
	{"java.util.*;!*", []string{"--anywhere"}, Options{Anywhere: true}},
}

func TestAnswersAreThoseOfTheProgram(t *testing.T) {
	all := streams(t)
	for _, it := range settings {
		filter, err := NewFilter(it.text, it.options)
		if err != nil {
			t.Fatal(err)
		}
		for file, data := range all {
			scanned, _, _ := strings.Cut(printed(append(append([]string{"scan", "--filter=" + it.text}, it.words...), file)...), "\n")
			wanted := strings.TrimPrefix(scanned, file+": ")
			line := told(filter.Check(data))
			var refused *Refused
			if _, err := filter.Check(data); errors.As(err, &refused) && refused.Class != "" {
				line += " " + refused.Class
			}
			if line != wanted {
				t.Errorf("%s, filter %q: %s, wanted %s", file, it.text, line, wanted)
			}
			if refused != nil && classInPieces(t, filter, data) != refused.Class {
				t.Errorf("%s, filter %q: another class in pieces", file, it.text)
			}
			plain := told(filter.Check(data))
			if once := told(Check(data, it.text, it.options)); once != plain {
				t.Errorf("%s, in one call: %s, wanted %s", file, once, plain)
			}
			if pieces := inPieces(t, filter, data); pieces != plain {
				t.Errorf("%s, in pieces: %s, wanted %s", file, pieces, plain)
			}
		}
		filter.Close()
	}
}

// classInPieces is the class that was refused of bytes that come by 7.
func classInPieces(t *testing.T, filter *Filter, data []byte) string {
	stream, err := filter.Stream()
	if err != nil {
		t.Fatal(err)
	}
	defer stream.Close()
	_, decided := io.CopyBuffer(struct{ io.Writer }{stream}, struct{ io.Reader }{bytes.NewReader(data)}, make([]byte, 7))
	_, last := stream.End()
	var refused, ended *Refused
	if !errors.As(last, &ended) {
		t.Fatalf("the end says %v", last)
	}
	if errors.As(decided, &refused) && refused.Class != ended.Class {
		t.Errorf("a piece names %s, the end %s", refused.Class, ended.Class)
	}
	return ended.Class
}

// inPieces is the answer to bytes that come by 7; a refusal by a piece must be that of the end.
func inPieces(t *testing.T, filter *Filter, data []byte) string {
	stream, err := filter.Stream()
	if err != nil {
		t.Fatal(err)
	}
	defer stream.Close()
	_, decided := io.CopyBuffer(struct{ io.Writer }{stream}, struct{ io.Reader }{bytes.NewReader(data)}, make([]byte, 7))
	counts, err := stream.End()
	if decided != nil && (err == nil || decided.Error() != err.Error()) {
		t.Errorf("a piece says %v, the end %v", decided, err)
	}
	if _, again := stream.End(); again != ErrClosed {
		t.Errorf("a stream that has ended: %v", again)
	}
	return told(counts, err)
}

func TestTextsAreThoseOfTheProgram(t *testing.T) {
	for file, data := range streams(t) {
		for _, it := range []struct {
			words []string
			ask   func() (Text, error)
		}{
			{[]string{"show"}, func() (Text, error) { return Show(data, 1<<26) }},
			{[]string{"list", "--filter=java.util.*;!*"}, func() (Text, error) { return List(data, "java.util.*;!*", "", MostText) }},
		} {
			text, err := it.ask()
			found := text.Lines
			if err != nil {
				found = err.Error() + "\n"
			}
			if wanted := printed(append(it.words, file)...); found != wanted {
				t.Errorf("%s of %s is another", it.words[0], file)
			}
		}
	}
}

func TestATextHasTheWholeLinesThatThereIsRoomFor(t *testing.T) {
	nulls := append([]byte{0xac, 0xed, 0, 5}, bytes.Repeat([]byte{0x70}, 30_000)...)
	whole := "stream version 5\n" + strings.Repeat("null\n", 30_000)
	for _, most := range []int{0, 16, 17, 65_535, 65_536, 65_537, 100_003, len(whole) - 1, len(whole), 1 << 30} {
		text, err := Show(nulls, most)
		wanted, isCut := whole, most < len(whole)
		if isCut {
			wanted = whole[:strings.LastIndexByte(whole[:most], '\n')+1]
		}
		if err != nil || text.Lines != wanted || text.IsCut != isCut {
			t.Errorf("at most %d bytes: %d bytes, %v, %v", most, len(text.Lines), text.IsCut, err)
		}
	}
	if _, err := Show(nulls, -1); err == nil {
		t.Error("a text of less than 0 bytes")
	}
}

func TestWhatARefusalSays(t *testing.T) {
	data := streams(t)[filepath.Join("..", "..", "tests", "streams", "array-list.ser")]
	_, err := Check(data, "!java.**", Options{})
	var refused *Refused
	if !errors.As(err, &refused) {
		t.Fatal(err)
	}
	wanted := Refused{"ClassRejected", "A pattern of the filter rejects this class.", 6, 27, 4, `"java.util.ArrayList"`, "no at 6 to 27: ClassRejected"}
	if *refused != wanted {
		t.Errorf("%+v", *refused)
	}
	if counts, err := Check(data, "", Options{}); err != nil || counts.Bytes != 62 || counts.Contents != 1 || counts.Refs != 3 || counts.Depth != 2 || counts.Handles != 3 {
		t.Errorf("%+v, %v", counts, err)
	}
}

func TestFaults(t *testing.T) {
	file := filepath.Join(t.TempDir(), "filter")
	if err := os.WriteFile(file, []byte("# mine\njava.util.*\n b\n"), 0o600); err != nil {
		t.Fatal(err)
	}
	for wanted, make := range map[string]func() (*Filter, error){
		"filter pattern 1: BadLimit": func() (*Filter, error) { return NewFilter("a;maxdepth=x", Options{}) },
		"modules line 2: BadLine":    func() (*Filter, error) { return NewFilter("a", Options{Modules: "a=b\n\nc"}) },
		"filter has no pattern":      func() (*Filter, error) { return NewFilter("maxdepth=1", Options{NeedPattern: true}) },
		"filter is not text":         func() (*Filter, error) { return NewFilter("\xff", Options{}) },
		"filter line 2: WhiteSpace":  func() (*Filter, error) { return ReadFilter(file, Options{}) },
		"no such file or directory":  func() (*Filter, error) { return ReadFilter(file+"-not-there", Options{}) },
	} {
		if filter, err := make(); filter != nil || err == nil || !strings.HasSuffix(err.Error(), wanted) {
			t.Errorf("%v, wanted %s", err, wanted)
		}
	}
	var misuse *Misuse
	if _, err := List(nil, "maxdept=1", "", 9); !errors.As(err, &misuse) || misuse.Cause != "UnknownLimit" || misuse.At != 0 {
		t.Errorf("%v", err)
	}
	filter, _ := NewFilter("", Options{})
	stream, _ := filter.Stream()
	filter.Close()
	filter.Close()
	if _, err := filter.Check(nil); err != ErrClosed {
		t.Errorf("a closed filter: %v", err)
	}
	if _, err := filter.Stream(); err != ErrClosed {
		t.Errorf("a stream of a closed filter: %v", err)
	}
	if _, err := stream.Write([]byte{0xac, 0xed, 0, 5}); err != nil {
		t.Errorf("a stream that was begun before: %v", err)
	}
	stream.Close()
	if _, err := stream.Write(nil); err != ErrClosed {
		t.Errorf("a closed stream: %v", err)
	}
	if version := printed("--version"); version != "serialcheck "+Version()+"\n" {
		t.Errorf("%s, and the program is %s", Version(), version)
	}
}

func TestOneFilterInManyGoroutines(t *testing.T) {
	all := streams(t)
	filter, _ := NewFilter("java.util.*;java.lang.*;!*", Options{Anywhere: true})
	wanted := map[string]string{}
	for file, data := range all {
		wanted[file] = told(filter.Check(data))
	}
	var group sync.WaitGroup
	for worker := 0; worker < 8; worker++ {
		group.Add(1)
		go func() {
			defer group.Done()
			for file, data := range all {
				if line := told(filter.Check(data)); line != wanted[file] {
					t.Errorf("%s: %s, wanted %s", file, line, wanted[file])
				}
			}
		}()
	}
	group.Wait()
	for turn := 0; turn < 1000; turn++ { // what is forgotten is let go
		NewFilter("java.util.*", Options{})
		filter.Stream()
	}
	runtime.GC()
	filter.Close()
}

func BenchmarkCheck(b *testing.B) {
	data := []byte{0xac, 0xed, 0, 5, 0x74, 0, 3, 'a', 'b', 'c', 0x70, 0x71, 0, 0x7e, 0, 0}
	filter, _ := NewFilter("maxbytes=1000000;java.util.*;java.lang.*;!*", Options{})
	for turn := 0; turn < b.N; turn++ {
		filter.Check(data)
	}
}
