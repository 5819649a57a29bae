package fmp4

import (
	"bytes"
	"errors"
	"io"
	"os"
	"testing"
	"testing/iotest"
)

// given is a stream and its cut by two samples, which c/tests/all_tests makes by the program.
func given(t *testing.T) (stream, want []byte) { return givenAs(t, "FMP4_WANT") }

// givenAs is the stream and another cut of it.
func givenAs(t *testing.T, name string) (stream, want []byte) {
	stream, err := os.ReadFile(os.Getenv("FMP4_STREAM"))
	if err != nil {
		t.Skip("FMP4_STREAM names no stream")
	}
	want, err = os.ReadFile(os.Getenv(name))
	if err != nil {
		t.Fatal(err)
	}
	return stream, want
}

func TestWriter(t *testing.T) {
	stream, want := given(t)
	for _, size := range []int{1, 188, 1316, 65536, len(stream)} {
		var out bytes.Buffer
		w, err := NewWriter(&out, Cut{Samples: 2})
		if err != nil {
			t.Fatal(err)
		}
		for at := 0; at < len(stream); at += size {
			end := at + size
			if end > len(stream) {
				end = len(stream)
			}
			if n, err := w.Write(stream[at:end]); n != end-at || err != nil {
				t.Fatal(n, err)
			}
		}
		if err := w.Close(); err != nil {
			t.Fatal(err)
		}
		if !bytes.Equal(out.Bytes(), want) {
			t.Fatalf("by %d bytes: %d bytes of output, not those of the program", size, out.Len())
		}
		if w.Report().Samples == 0 {
			t.Fatal("no samples are counted")
		}
	}
}

// Each call comes from another goroutine.
func TestGoroutines(t *testing.T) {
	stream, want := given(t)
	var out bytes.Buffer
	w, err := NewWriter(&out, Cut{Samples: 2})
	if err != nil {
		t.Fatal(err)
	}
	for at := 0; at < len(stream); at += 1000 {
		end := at + 1000
		if end > len(stream) {
			end = len(stream)
		}
		done := make(chan error)
		go func() { _, err := w.Write(stream[at:end]); done <- err }()
		if err := <-done; err != nil {
			t.Fatal(err)
		}
	}
	if err := w.Close(); err != nil || !bytes.Equal(out.Bytes(), want) {
		t.Fatal(err, out.Len())
	}
}

func TestReader(t *testing.T) {
	stream, want := given(t)
	for _, from := range []io.Reader{bytes.NewReader(stream), iotest.OneByteReader(bytes.NewReader(stream)),
		iotest.DataErrReader(bytes.NewReader(stream))} {
		r, err := NewReader(from, Cut{Samples: 2})
		if err != nil {
			t.Fatal(err)
		}
		out, err := io.ReadAll(r)
		if err != nil || !bytes.Equal(out, want) {
			t.Fatal(err, len(out))
		}
		if err := r.Close(); err != nil {
			t.Fatal(err)
		}
	}
}

// By 100 ms, as c/tests/all_tests has the program cut it.
// silent is a reader that gives nothing from some byte on.
type silent struct{ io.Reader }

func (s silent) Read(p []byte) (int, error) {
	n, err := s.Reader.Read(p)
	if err == io.EOF {
		err = nil
	}
	return n, err
}

// A reader that gives nothing for good is given up, and the output of what it gave was read; one that gives nothing now and
// then isn't.
func TestSilentReader(t *testing.T) {
	stream, want := given(t)
	for _, length := range []int{0, 100, len(stream) / 2} {
		r, err := NewReader(silent{bytes.NewReader(stream[:length])}, Cut{Samples: 2})
		if err != nil {
			t.Fatal(err)
		}
		out, err := io.ReadAll(r)
		if err != io.ErrNoProgress || !bytes.HasPrefix(want, out) || length > 1000 && len(out) < 1000 {
			t.Fatal(length, len(out), err)
		}
		r.Close()
	}
	r, err := NewReader(&halting{bytes.NewReader(stream), 0}, Cut{Samples: 2})
	if err != nil {
		t.Fatal(err)
	}
	if out, err := io.ReadAll(r); err != nil || !bytes.Equal(out, want) {
		t.Fatal(len(out), err)
	}
	r.Close()
}

// halting gives nothing but each fiftieth time.
type halting struct {
	io.Reader
	reads int
}

func (h *halting) Read(p []byte) (int, error) {
	if h.reads++; h.reads%50 != 0 {
		return 0, nil
	}
	return h.Reader.Read(p)
}

// A buffer of no bytes is passed over: with it no output could be taken.
func TestEmptyBuffer(t *testing.T) {
	stream, want := given(t)
	var out bytes.Buffer
	w, err := NewWriter(&out, Cut{Samples: 2, Room: 4096, Limit: 1 << 20})
	if err != nil {
		t.Fatal(err)
	}
	w.Buffer(nil)
	w.Buffer([]byte{})
	if _, err := w.Write(stream); err != nil {
		t.Fatal(err)
	}
	if err := w.Close(); err != nil || !bytes.Equal(out.Bytes(), want) {
		t.Fatal(out.Len(), err)
	}
}

func TestDuration(t *testing.T) {
	stream, want := givenAs(t, "FMP4_WANT_BY_TIME")
	r, err := NewReader(bytes.NewReader(stream), Cut{DurationMS: 100, Flags: Keyframes})
	if err != nil {
		t.Fatal(err)
	}
	defer r.Close()
	if out, err := io.ReadAll(r); err != nil || !bytes.Equal(out, want) {
		t.Fatal(err, len(out))
	}
}

func TestErrors(t *testing.T) {
	stream, _ := given(t)
	if _, err := NewWriter(io.Discard, Cut{}); err == nil || err.Error() != "FMP4_BAD_SAMPLES" {
		t.Fatal(err)
	}
	if _, err := NewWriter(io.Discard, Cut{Samples: 2, Flags: Sync | Keyframes}); err == nil || err.Error() != "FMP4_BAD_FLAGS" {
		t.Fatal(err)
	}
	var fault *Fault
	w, _ := NewWriter(io.Discard, Cut{Samples: 2})
	w.Write(stream[:len(stream)-1])
	if err := w.Close(); !errors.As(err, &fault) || fault.Rule != "Truncated" || len(fault.Box) != 4 {
		t.Fatal(err)
	}
	// A box of four zero bytes has a type, and one whose header is cut off has none.
	for wrong, box := range map[string]string{"\x00\x00\x00\x07\x00\x00\x00\x00": "\x00\x00\x00\x00", "\x00\x00\x00": ""} {
		w, _ = NewCheck(0)
		w.Write([]byte(wrong))
		if err := w.Close(); !errors.As(err, &fault) || fault.Box != box {
			t.Fatal(err)
		}
	}
	r, _ := NewReader(bytes.NewReader(stream[:len(stream)-1]), Cut{Samples: 2})
	if _, err := io.ReadAll(r); !errors.As(err, &fault) || fault.Rule != "Truncated" {
		t.Fatal(err)
	}
	r.Close()
	r, _ = NewReader(iotest.TimeoutReader(bytes.NewReader(stream)), Cut{Samples: 2})
	if _, err := io.ReadAll(r); err != iotest.ErrTimeout && len(stream) > 65536 {
		t.Fatal(err)
	}
	r.Close()
	w, _ = NewWriter(iotest.TruncateWriter(io.Discard, 10), Cut{Samples: 2})
	w.Close()
}

// picky refuses a Write of no bytes, and each from some number of bytes on.
type picky struct {
	got, most int
	t         *testing.T
}

var errFull = errors.New("full")

func (p *picky) Write(b []byte) (int, error) {
	if len(b) == 0 {
		p.t.Fatal("no bytes are written below")
	}
	if p.got+len(b) > p.most {
		return 0, errFull
	}
	p.got += len(b)
	return len(b), nil
}

// Nothing is written below where no output came, and an error of the writer below stays.
func TestBelow(t *testing.T) {
	stream, want := given(t)
	below := &picky{most: len(want), t: t}
	w, _ := NewWriter(below, Cut{Samples: 2})
	for i := range stream {
		if _, err := w.Write(stream[i : i+1]); err != nil {
			t.Fatal(err)
		}
	}
	if err := w.Close(); err != nil || below.got != len(want) {
		t.Fatal(err, below.got)
	}
	below = &picky{most: 1000, t: t}
	w, _ = NewWriter(below, Cut{Samples: 2})
	w.Buffer(make([]byte, 100))
	if _, err := w.Write(stream); err != errFull {
		t.Fatal(err)
	}
	if n, err := w.Write(stream); n != 0 || err != errFull {
		t.Fatal(n, err)
	}
	if err := w.Close(); err != errFull {
		t.Fatal(err)
	}
}

// Checks, listings and records beside each other.
func TestListings(t *testing.T) {
	stream, _ := given(t)
	check, err := NewCheck(0)
	if err != nil {
		t.Fatal(err)
	}
	var lines bytes.Buffer
	list, err := NewList(&lines, Fragments, 0, 0)
	if err != nil {
		t.Fatal(err)
	}
	var seen []Fragment
	records, err := NewRecords(func(f Fragment) error { seen = append(seen, f); return nil }, 0, 0)
	if err != nil {
		t.Fatal(err)
	}
	for _, w := range []io.WriteCloser{check, list, records} {
		if n, err := w.Write(stream); n != len(stream) || err != nil {
			t.Fatal(n, err)
		}
	}
	if totals, err := check.Totals(); err != nil || totals.Samples == 0 {
		t.Fatal(totals, err)
	}
	if takes, err := check.SetLimit(1); err != nil || takes == 0 {
		t.Fatal(takes, err)
	}
	for _, w := range []io.Closer{check, list, records} {
		if err := w.Close(); err != nil {
			t.Fatal(err)
		}
	}
	var samples uint64
	for _, f := range seen {
		samples += uint64(f.Samples)
	}
	if len(seen) == 0 || bytes.Count(lines.Bytes(), []byte("fragment=")) != len(seen) || samples != check.Report().Samples {
		t.Fatal(len(seen), samples, lines.String())
	}
	if check.Report() != records.Report() || check.Report() != list.Report() {
		t.Fatal(check.Report(), records.Report(), list.Report())
	}
}

func TestReset(t *testing.T) {
	stream, want := given(t)
	var one, two bytes.Buffer
	w, _ := NewWriter(&one, Cut{Samples: 2})
	w.Write(stream[:1000])
	if err := w.Reset(&two); err != nil {
		t.Fatal(err)
	}
	w.Write(stream)
	if err := w.Close(); err != nil || !bytes.Equal(two.Bytes(), want) {
		t.Fatal(err, two.Len())
	}
}
