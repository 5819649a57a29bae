package main

import (
	"context"
	"errors"
	"math/bits"
	"sync"
	"time"
)

// Of so many of the last segments the parts are listed.
const segmentsWithParts = 3

var errTooLarge = errors.New("a segment has more bytes than a stream may keep")

// part is some fragments of a segment. Its bytes are only ever added to, so a slice of them stays what it is.
type part struct {
	bytes   []byte
	time    uint64 // when the first sample begins of the track that measures, in ticks
	ticks   uint64 // how long its whole fragments of this track last
	isTimed bool   // a fragment of this track has begun
	isSync  bool   // and it begins with a sync sample
	isWhole bool
	sound   int           // how many of the bytes are whole fragments
	grown   chan struct{} // is closed when it grows or becomes whole
}

// segment is some parts, and begins with a sync sample where the stream has one in time.
type segment struct {
	number  int
	run     *run
	isFirst bool // of its run
	parts   []*part
	isWhole bool
}

// run is what one request sent: an init segment, and what follows it.
type run struct {
	number  int
	init    []byte
	tracks  []track
	measure track
	first   *uint64 // when the first sample of the track begins that measures
	begun   time.Time
}

// channel is the stream of one name. What its clients see of it is under the lock.
type channel struct {
	options *options
	name    string

	lock     sync.Mutex
	changed  chan struct{} // is closed when a part or segment is listed, or the stream ends
	segments []*segment    // of the window, without gaps
	next     int           // the number of the next segment
	dropped  int           // how many discontinuities have left the window
	runs     int
	held     int // the bytes of the window
	isFed    bool
	hasEnded bool
	ending   *time.Timer
	text     []byte // the playlist, until something changes
}

func newChannel(o *options, name string) *channel {
	return &channel{options: o, name: name, changed: make(chan struct{})}
}

// micros is a time in millionths of a second, rounded down, and the most there are where it has more.
func micros(ticks, timescale uint64) uint64 {
	high, low := bits.Mul64(ticks, 1_000_000)
	if high >= timescale {
		return 1<<63 - 1
	}
	out, _ := bits.Div64(high, low, timescale)
	return out
}

// lasts is how long so many ticks last from a time on, in millionths: sums of it don't drift.
func lasts(time, ticks, timescale uint64) uint64 {
	return micros(time+ticks, timescale) - micros(time, timescale)
}

func (s *segment) ticks() (sum uint64) {
	for _, p := range s.parts {
		sum += p.ticks
	}
	return sum
}

// micros is how long it lasts, in millionths of a second.
func (s *segment) micros() uint64 {
	if len(s.parts) == 0 {
		return 0
	}
	return lasts(s.parts[0].time, s.ticks(), s.run.measure.timescale)
}

func (s *segment) size() (sum int) {
	for _, p := range s.parts {
		sum += len(p.bytes)
	}
	return sum
}

// wholeParts are the parts that are listed.
func (s *segment) wholeParts() []*part {
	n := len(s.parts)
	if n > 0 && !s.parts[n-1].isWhole {
		n--
	}
	return s.parts[:n]
}

// wake wakes all who wait, since something is listed; under the lock.
func (c *channel) wake() {
	close(c.changed)
	c.changed, c.text = make(chan struct{}), nil
}

func (p *part) wake() {
	close(p.grown)
	p.grown = make(chan struct{})
}

// await waits until something holds, which is seen under the lock: whether it did before the time was over.
func (c *channel) await(ctx context.Context, limit time.Duration, holds func() bool) bool {
	timer := time.NewTimer(limit)
	defer timer.Stop()
	for {
		c.lock.Lock()
		done, changed := holds(), c.changed
		c.lock.Unlock()
		if done {
			return true
		}
		select {
		case <-changed:
		case <-ctx.Done():
			return false
		case <-timer.C:
			return false
		}
	}
}

// last is the segment that is written, if there is one.
func (c *channel) last() *segment {
	if len(c.segments) == 0 {
		return nil
	}
	return c.segments[len(c.segments)-1]
}

// begin takes the stream for a request that sends it. It can be one only.
func (c *channel) begin() bool {
	c.lock.Lock()
	defer c.lock.Unlock()
	if c.isFed {
		return false
	}
	c.isFed, c.hasEnded = true, false
	if c.ending != nil {
		c.ending.Stop()
	}
	return true
}

// beginRun begins what a request sends: the init segment is known. The first video track measures, or the first.
func (c *channel) beginRun(init []byte) *run {
	c.lock.Lock()
	defer c.lock.Unlock()
	tracks := tracksOf(init)
	r := &run{number: c.runs, init: init, tracks: tracks, measure: tracks[0], begun: time.Now()}
	for i := len(tracks) - 1; i >= 0; i-- {
		if tracks[i].handler == "vide" {
			r.measure = tracks[i]
		}
	}
	c.runs++
	return r
}

// beginSegment ends the segment before, and drops those that the window hasn't.
func (c *channel) beginSegment(r *run) *segment {
	c.lock.Lock()
	defer c.lock.Unlock()
	last := c.last()
	if last != nil {
		last.isWhole = true
	}
	s := &segment{number: c.next, run: r, isFirst: last == nil || last.run != r}
	c.segments = append(c.segments, s)
	c.next++
	c.dropOld()
	c.wake()
	return s
}

// dropOld drops the first segments, while those after them last for the window, or take too much memory.
func (c *channel) dropOld() {
	var sum uint64
	for _, s := range c.segments {
		sum += s.micros()
	}
	for len(c.segments) > 2 {
		first := c.segments[0]
		rest := sum - first.micros()
		if rest < uint64(c.options.window.Microseconds()) && c.held <= c.options.memory {
			return
		}
		sum = rest
		for _, p := range first.parts {
			c.held -= cap(p.bytes)
		}
		if first.isFirst && first.run.number > 0 {
			c.dropped++
		}
		c.segments[0] = nil
		c.segments = c.segments[1:]
	}
}

// beginPart begins a part of the segment that is written.
func (c *channel) beginPart(s *segment) *part {
	c.lock.Lock()
	defer c.lock.Unlock()
	p := &part{grown: make(chan struct{})}
	s.parts = append(s.parts, p)
	c.wake()
	return p
}

// setTime says with what a part begins, once it is known.
func (c *channel) setTime(r *run, p *part, time uint64, isSync bool) {
	c.lock.Lock()
	defer c.lock.Unlock()
	if r.first == nil {
		r.first = &time
	}
	if !p.isTimed {
		p.isTimed, p.time, p.isSync = true, time, isSync
	}
}

// add adds bytes to the part that is written.
func (c *channel) add(p *part, bytes []byte) error {
	c.lock.Lock()
	defer c.lock.Unlock()
	before := cap(p.bytes)
	p.bytes = append(p.bytes, bytes...)
	c.held += cap(p.bytes) - before
	if c.held > c.options.memory {
		c.dropOld()
	}
	if c.held > c.options.memory {
		return errTooLarge
	}
	p.wake()
	return nil
}

// addFragment counts a fragment that is whole, and of which the track that measures lasts so long.
func (c *channel) addFragment(p *part, ticks uint64) {
	c.lock.Lock()
	defer c.lock.Unlock()
	p.ticks += ticks
	p.sound = len(p.bytes)
}

// endPart lists a part.
func (c *channel) endPart(p *part) {
	c.lock.Lock()
	defer c.lock.Unlock()
	p.isWhole = true
	p.wake()
	c.wake()
}

// endRun ends what a request sent. What isn't whole is dropped of it. A stream that was broken off may come again for a
// while, and ends after it.
func (c *channel) endRun(isOver bool, forget func()) {
	c.lock.Lock()
	defer c.lock.Unlock()
	c.isFed = false
	c.settle()
	if isOver {
		c.finish(forget)
	} else {
		c.ending = time.AfterFunc(c.options.linger, func() { c.end(forget) })
	}
	c.wake()
}

// settle leaves whole fragments alone of the segment that was written, under the lock.
func (c *channel) settle() {
	last := c.last()
	if last == nil || last.isWhole {
		return
	}
	if n := len(last.parts); n > 0 && !last.parts[n-1].isWhole {
		p := last.parts[n-1]
		p.bytes, p.isWhole = p.bytes[:p.sound:p.sound], true
		if p.ticks == 0 {
			last.parts = last.parts[:n-1]
		}
		p.wake()
	}
	last.isWhole = true
	if len(last.parts) == 0 {
		c.segments, c.next = c.segments[:len(c.segments)-1], c.next-1
	}
}

// finish says that nothing comes any more, under the lock. Who asks has a window's time for what there is.
func (c *channel) finish(forget func()) {
	c.hasEnded = true
	c.ending = time.AfterFunc(c.options.window, forget)
}

// end ends a stream that nobody sends.
func (c *channel) end(forget func()) {
	c.lock.Lock()
	defer c.lock.Unlock()
	if !c.isFed && !c.hasEnded {
		c.finish(forget)
		c.wake()
	}
}
