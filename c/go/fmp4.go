// Package fmp4 cuts the fragments of a fragmented MP4 stream into shorter ones, checks such a stream, or lists it, by
// libfmp4. Build libfmp4 first (make lib), and set CGO_CFLAGS and CGO_LDFLAGS where it isn't installed. A module that uses
// the package names its folder, as by
//
//	go mod edit -require cannirupo.example/fmp4@v0.2.0 -replace cannirupo.example/fmp4=../fmp4/c/go
//
// Streams share nothing: each may be used in any goroutine, in one at a time.
package fmp4

// #cgo LDFLAGS: -lfmp4
// #include <fmp4.h>
import "C"

import (
	"errors"
	"fmt"
	"io"
	"unsafe"
)

// Flags of a Cut.
const (
	Index     = 1 // an sidx before the fragments that each run is cut into
	Sync      = 2 // a fragment also ends before a sync sample
	Keyframes = 4 // only before one whose predecessor in the run isn't one; not with Sync
)

// A Listing is what NewList lists.
type Listing uint32

// The lines of `fmp4 samples`, `fmp4 fragments` and `fmp4 boxes`.
const (
	Samples   Listing = 1
	Fragments Listing = 2
	Boxes     Listing = 4
)

// Of a limit or a room that is 0.
const (
	defaultLimit = 2 << 20
	defaultRoom  = 1 << 20
)

// Output is gathered in so many bytes.
const outBytes = 16384

// After so many reads in a row that give nothing, a reader is given up.
const mostEmpty = 100

// Cut says how a stream is cut: into fragments of at most Samples samples (0 with DurationMS: 1,000,000), Bytes bytes of
// media and DurationMS milliseconds (0: any number). Limit is the most bytes that the stream may take, Room of them for
// the output; 0 is 2 MiB and 1 MiB.
type Cut struct {
	Samples    uint32
	Bytes      uint64
	Flags      uint32
	Limit      uint64
	Room       uint
	DurationMS uint32
}

// Report is what was counted of a stream.
type Report struct {
	Fragments, Samples, MediaBytes, Peak uint64
}

// Fragment is a track fragment (traf) of a stream: its moof, its times and its samples. Size is 2^64 - 1 where the mdat
// goes to the end of the stream. Times are ticks, of which Timescale are a second.
type Fragment struct {
	Offset, Size, DecodeTime, Duration, MediaBytes uint64
	Sequence, Track, Timescale, Samples            uint32
	IsSync                                         bool   // whether it begins with a sync sample
	Syncs                                          uint32 // how many of its samples are sync samples
	TrackEnd                                       uint64 // when its track ended before: DecodeTime less it is the gap
	Earliest                                       int64  // its least composition time, less DecodeTime
	Handler                                        uint32 // the handler_type of its track, 'vide' as 0x76696465; 0 if it has none
	Entries                                        uint32 // how many sample entries its track has
}

// Fault is an error of the stream: the rule that it breaks, the type of the box at fault, empty where it isn't known,
// and the offset of that box in the stream.
type Fault struct {
	Number uint32
	Rule   string
	Box    string
	Offset uint64
}

func (f *Fault) Error() string {
	return fmt.Sprintf("fmp4: %d %s in %s at %d", f.Number, f.Rule, f.Box, f.Offset)
}

// Answer is an error that isn't the stream's, by its number in fmp4.h.
type Answer uint32

func (a Answer) Error() string {
	return C.GoString(C.fmp4_answer_text(C.uint32_t(a)))
}

// stream is an open stream of the library.
type stream struct {
	it     C.struct_fmp4_stream
	report C.struct_fmp4_report
}

func or(value, instead uint64) uint64 {
	if value == 0 {
		return instead
	}
	return value
}

func (s *stream) open(cut Cut) error {
	by := C.struct_fmp4_cut{samples: C.uint32_t(cut.Samples), duration_ms: C.uint32_t(cut.DurationMS),
		bytes: C.uint64_t(cut.Bytes), flags: C.uint32_t(cut.Flags)}
	room := or(uint64(cut.Room), defaultRoom)
	return s.err(C.fmp4_cut_open(&s.it, &by, C.uint64_t(or(cut.Limit, defaultLimit)), C.size_t(room)))
}

func (s *stream) list(listing uint32, limit uint64, room uint) error {
	return s.err(C.fmp4_list_open(&s.it, C.enum_fmp4_listing(listing), C.uint64_t(or(limit, defaultLimit)), C.size_t(or(uint64(room), defaultRoom))))
}

func pointer(p []byte) *C.uint8_t {
	if len(p) == 0 {
		return nil
	}
	return (*C.uint8_t)(unsafe.Pointer(&p[0]))
}

// feed says how much of the input was taken, and how much output was given.
func (s *stream) feed(input, out []byte) (taken, given int, answer C.uint32_t) {
	var t, g C.size_t
	answer = C.fmp4_feed_take_any(&s.it, pointer(input), C.size_t(len(input)), &t, pointer(out), C.size_t(len(out)), &g)
	if answer == C.FMP4_FAULT {
		C.fmp4_totals(&s.it, &s.report)
	}
	return int(t), int(g), answer
}

func (s *stream) take(out []byte) int {
	var n C.size_t
	C.fmp4_take_any(&s.it, pointer(out), C.size_t(len(out)), &n)
	return int(n)
}

func (s *stream) counted() Report {
	r := &s.report
	return Report{uint64(r.fragments), uint64(r.samples), uint64(r.media_bytes), uint64(r.peak)}
}

// Totals says what was counted so far, and after the end what was counted there.
func (s *stream) Totals() (Report, error) {
	err := s.err(C.fmp4_totals(&s.it, &s.report))
	return s.counted(), err
}

// SetLimit sets the most bytes that the stream may take, but no fewer than it takes now, and says how many these are.
func (s *stream) SetLimit(limit uint64) (uint64, error) {
	var takes C.uint64_t
	err := s.err(C.fmp4_set_limit(&s.it, C.uint64_t(limit), &takes))
	return uint64(takes), err
}

// err is the error of an answer, none where all is well.
func (s *stream) err(answer C.uint32_t) error {
	if answer == C.FMP4_OK {
		return nil
	}
	if answer != C.FMP4_FAULT {
		return Answer(answer)
	}
	fault := &Fault{uint32(s.report.rule), C.GoString(C.fmp4_rule_text(s.report.rule)), "", uint64(s.report.offset)}
	if kind := uint32(s.report.box_type); s.report.has_box_type != 0 {
		fault.Box = string([]byte{byte(kind >> 24), byte(kind >> 16), byte(kind >> 8), byte(kind)})
	}
	return fault
}

// Writer cuts, lists or checks what is written to it, and writes the output to another writer. Close it, or what it has
// allocated isn't freed.
type Writer struct {
	stream
	to     io.Writer
	out    []byte
	failed error
}

// NewWriter opens a stream that is cut, and whose output is written to a writer.
func NewWriter(to io.Writer, cut Cut) (*Writer, error) {
	w := &Writer{to: to, out: make([]byte, outBytes)}
	if err := w.open(cut); err != nil {
		return nil, err
	}
	return w, nil
}

// NewList opens a stream that is listed. Its lines are written to a writer.
func NewList(to io.Writer, listing Listing, limit uint64, room uint) (*Writer, error) {
	w := &Writer{to: to, out: make([]byte, outBytes)}
	if err := w.list(uint32(listing), limit, room); err != nil {
		return nil, err
	}
	return w, nil
}

// NewCheck opens a stream that is only checked, and has no output.
func NewCheck(limit uint64) (*Writer, error) {
	w := &Writer{}
	if err := w.err(C.fmp4_check_open(&w.it, C.uint64_t(or(limit, defaultLimit)))); err != nil {
		return nil, err
	}
	return w, nil
}

// Buffer has output gathered in a buffer of the caller's, before the first Write. One of no bytes is passed over.
func (w *Writer) Buffer(out []byte) {
	if len(out) > 0 {
		w.out = out
	}
}

// hand writes output below, if there is some. An error stays.
func (w *Writer) hand(out []byte) error {
	if w.failed == nil && len(out) > 0 {
		_, w.failed = w.to.Write(out)
	}
	return w.failed
}

// Write feeds the next bytes of the stream, and writes the output that they determine. Where the stream breaks a rule,
// all output before that was written, and the error is a *Fault. An error of the writer below stays: each later call
// answers it.
func (w *Writer) Write(p []byte) (int, error) {
	fed := 0
	for w.failed == nil {
		taken, given, answer := w.feed(p[fed:], w.out)
		fed += taken
		if err := w.hand(w.out[:given]); err != nil {
			return fed, err
		}
		switch {
		case given > 0 && given == len(w.out) || answer == C.FMP4_FULL:
		case answer != C.FMP4_OK:
			return fed, w.err(answer)
		case fed == len(p):
			return fed, nil
		}
	}
	return fed, w.failed
}

// Close ends the stream, writes what is left of its output, and frees it. The error is nil only where the stream breaks
// no rule and all was written.
func (w *Writer) Close() error {
	answer := C.fmp4_finish(&w.it, &w.report)
	for len(w.out) > 0 && w.failed == nil {
		given := w.take(w.out)
		if given == 0 {
			break
		}
		w.hand(w.out[:given])
	}
	C.fmp4_close(&w.it)
	if w.failed != nil {
		return w.failed
	}
	return w.err(answer)
}

// Reset begins another stream, in the same way and for another writer. What waits of the one before is lost, and so is
// an error of its writer.
func (w *Writer) Reset(to io.Writer) error {
	w.to, w.failed = to, nil
	return w.err(C.fmp4_reset(&w.it))
}

// Report says what was counted, after Close.
func (w *Writer) Report() Report { return w.counted() }

// Records hands each track fragment of a stream to a function. Close it, or what it has allocated isn't freed.
type Records struct {
	stream
	each   func(Fragment) error
	failed error
}

// NewRecords opens a stream of which each track fragment is handed to a function, when the header of its mdat came.
func NewRecords(each func(Fragment) error, limit uint64, room uint) (*Records, error) {
	r := &Records{each: each}
	if err := r.list(C.FMP4_RECORDS, limit, room); err != nil {
		return nil, err
	}
	return r, nil
}

// hand hands on the fragments that wait.
func (r *Records) hand() error {
	var f C.struct_fmp4_fragment
	for r.failed == nil && C.fmp4_next_fragment(&r.it, &f) == C.FMP4_OK {
		r.failed = r.each(Fragment{uint64(f.offset), uint64(f.size), uint64(f.decode_time), uint64(f.duration), uint64(f.media_bytes),
			uint32(f.sequence), uint32(f.track), uint32(f.timescale), uint32(f.samples), f.is_sync == 1,
			uint32(f.syncs), uint64(f.track_end), int64(f.earliest), uint32(f.handler), uint32(f.entries)})
	}
	return r.failed
}

// Write feeds the next bytes of the stream. Where it breaks a rule, all fragments before that were handed on, and the
// error is a *Fault. An error of the function stays.
func (r *Records) Write(p []byte) (int, error) {
	fed := 0
	for r.failed == nil {
		var taken C.size_t
		answer := C.fmp4_feed_any(&r.it, pointer(p[fed:]), C.size_t(len(p)-fed), &taken)
		fed += int(taken)
		if err := r.hand(); err != nil {
			return fed, err
		}
		if answer == C.FMP4_FAULT {
			C.fmp4_totals(&r.it, &r.report)
		}
		if answer != C.FMP4_OK && answer != C.FMP4_FULL {
			return fed, r.err(answer)
		}
		if fed == len(p) {
			return fed, nil
		}
	}
	return fed, r.failed
}

// Close ends the stream and frees it. The error is nil only where the stream breaks no rule and the function had none.
func (r *Records) Close() error {
	answer := C.fmp4_finish(&r.it, &r.report)
	C.fmp4_close(&r.it)
	if r.failed != nil {
		return r.failed
	}
	return r.err(answer)
}

// Report says what was counted, after Close.
func (r *Records) Report() Report { return r.counted() }

// Reader reads the recut stream of another reader. Close it, or what it has allocated isn't freed.
type Reader struct {
	stream
	from  io.Reader
	input []byte
	rest  []byte
	empty int // reads in a row that gave nothing
	ended bool
	err_  error
}

// NewReader opens a stream that is read from a reader.
func NewReader(from io.Reader, cut Cut) (*Reader, error) {
	r := &Reader{from: from, input: make([]byte, outBytes)}
	if err := r.open(cut); err != nil {
		return nil, err
	}
	return r, nil
}

// Read gives output, as soon as the bytes that were read determine some. At the end the error is io.EOF only where the
// stream breaks no rule, else a *Fault, with all output before it given. A reader that gives nothing and no error a hundred
// times in a row is given up with io.ErrNoProgress, as bufio does.
func (r *Reader) Read(p []byte) (int, error) {
	if len(p) == 0 {
		return 0, nil
	}
	for {
		if r.ended {
			if n := r.take(p); n > 0 {
				return n, nil
			}
			return 0, r.err_
		}
		taken, given, answer := r.feed(r.rest, p)
		r.rest = r.rest[taken:]
		if answer != C.FMP4_OK && answer != C.FMP4_FULL {
			r.ended, r.err_ = true, r.err(answer)
		}
		if given > 0 {
			return given, nil
		}
		if len(r.rest) == 0 && !r.ended {
			r.more()
		}
	}
}

// more reads more of the stream, or ends it.
func (r *Reader) more() {
	n, err := r.from.Read(r.input)
	r.rest = r.input[:n]
	if n > 0 {
		r.empty = 0
		return
	}
	if err == nil {
		if r.empty++; r.empty < mostEmpty {
			return
		}
		err = io.ErrNoProgress
	}
	r.ended, r.err_ = true, err
	if errors.Is(err, io.EOF) {
		if fault := r.err(C.fmp4_finish(&r.it, &r.report)); fault != nil {
			r.err_ = fault
		}
	}
}

// Close frees the stream. Output that wasn't read is lost.
func (r *Reader) Close() error {
	C.fmp4_close(&r.it)
	return nil
}

// Report says what was counted, after Read has answered io.EOF.
func (r *Reader) Report() Report { return r.counted() }
