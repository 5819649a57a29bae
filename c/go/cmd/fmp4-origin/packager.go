package main

import (
	"errors"
	"math"

	"cannirupo.example/fmp4"
)

// The most bytes between two fragments, with a moof whose mdat hasn't come.
const mostBetween = 4 << 20

var errBetween = errors.New("too many bytes before a fragment")

// packager is written the recut stream of one request, and hands it to a channel in parts and segments.
//
// A part has fragments that last for at most the target together, or one. A segment begins with a fragment that begins with
// a sync sample, once the segment before has lasted for its target. The first video track measures, or the first track; what
// lies before a fragment of it goes with it. Where the stream has one track, a part ends with the last fragment that one
// more of its length would not fit after; where it has several, when the next fragment of the track comes.
type packager struct {
	to      *channel
	records *fmp4.Records
	known   []fmp4.Fragment // of moofs whose end wasn't handed on
	rest    []byte          // bytes that weren't
	at      uint64          // where these begin in the stream
	isBegun bool            // the first of the known was begun
	run     *run
	segment *segment // that is written
	part    *part    // that is written
}

func newPackager(to *channel) (*packager, error) {
	p := &packager{to: to}
	records, err := fmp4.NewRecords(func(f fmp4.Fragment) error {
		p.known = append(p.known, f)
		return nil
	}, 0, 0)
	p.records = records
	return p, err
}

// Write takes the next bytes of the recut stream.
func (p *packager) Write(bytes []byte) (int, error) {
	if _, err := p.records.Write(bytes); err != nil {
		return 0, err
	}
	p.rest = append(p.rest, bytes...)
	if err := p.hand(); err != nil {
		return 0, err
	}
	if len(p.rest) > mostBetween {
		return 0, errBetween
	}
	return len(bytes), nil
}

// Close says that the stream has ended: an mdat to its end is whole.
func (p *packager) Close() error {
	err := p.records.Close()
	if err == nil && p.isBegun {
		p.finish()
	}
	return err
}

// hand hands on the bytes of fragments that are known.
func (p *packager) hand() error {
	handed := 0
	for len(p.known) > 0 {
		if p.run == nil {
			handed = int(p.known[0].Offset)
			p.beginRun(p.rest[:handed])
		}
		if !p.isBegun {
			p.begin()
		}
		n, left := len(p.rest)-handed, end(p.known[0])-p.at
		if left < uint64(n) {
			n = int(left)
		}
		if err := p.to.add(p.part, p.rest[handed:handed+n]); err != nil {
			return err
		}
		handed, p.at = handed+n, p.at+uint64(n)
		if uint64(n) < left {
			break
		}
		p.finish()
	}
	p.rest = append(p.rest[:0], p.rest[handed:]...)
	return nil
}

// end is where a fragment ends in the stream: as far as can be, where its mdat goes to the end.
func end(f fmp4.Fragment) uint64 {
	if f.Size > math.MaxUint64-f.Offset {
		return math.MaxUint64
	}
	return f.Offset + f.Size
}

// measured is the fragment of the track that measures in the moof that comes first, if it has samples.
func (p *packager) measured() *fmp4.Fragment {
	for i := range p.known {
		f := &p.known[i]
		if f.Offset == p.known[0].Offset && f.Track == p.run.measure.id && f.Samples > 0 {
			return f
		}
	}
	return nil
}

// begin begins the first of the known fragments.
func (p *packager) begin() {
	p.isBegun = true
	f := p.measured()
	if p.part != nil && p.part.isTimed && f != nil && (p.beginsSegment(f) || p.fills(f)) {
		p.endPart()
	}
	if p.part == nil {
		if p.segment == nil || f != nil && p.beginsSegment(f) {
			p.segment = p.to.beginSegment(p.run)
		}
		p.part = p.to.beginPart(p.segment)
	}
	if f != nil {
		p.to.setTime(p.run, p.part, f.DecodeTime, f.IsSync)
	}
}

// finish counts the first of the known fragments, which was handed on.
func (p *packager) finish() {
	f, offset := p.measured(), p.known[0].Offset
	var ticks uint64
	if f != nil {
		ticks = f.Duration
	}
	p.to.addFragment(p.part, ticks)
	if f != nil && len(p.run.tracks) == 1 && p.fills(f) {
		p.endPart()
	}
	for len(p.known) > 0 && p.known[0].Offset == offset {
		p.known = p.known[1:]
	}
	p.isBegun = false
}

func (p *packager) endPart() {
	p.to.endPart(p.part)
	p.part = nil
}

// beginsSegment is whether a fragment begins a segment.
func (p *packager) beginsSegment(f *fmp4.Fragment) bool {
	lasts := micros(p.segment.ticks(), p.run.measure.timescale)
	return f.IsSync && lasts >= uint64(p.to.options.segment.Microseconds())
}

// fills is whether the part would last for more than its target with one more fragment of this length.
func (p *packager) fills(f *fmp4.Fragment) bool {
	lasts := micros(p.part.ticks+f.Duration, p.run.measure.timescale)
	return lasts > uint64(p.to.options.part.Microseconds())
}

// beginRun begins with the init segment, which is all before the first moof.
func (p *packager) beginRun(init []byte) {
	p.at = uint64(len(init))
	p.run = p.to.beginRun(append([]byte(nil), init...))
}
