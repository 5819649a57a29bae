package main

import (
	"bytes"
	"fmt"
	"sort"
	"strings"
	"time"
)

// seconds writes millionths of a second.
func seconds(micros uint64) string {
	return fmt.Sprintf("%d.%06d", micros/1_000_000, micros%1_000_000)
}

// whole is a number of millionths in whole seconds, rounded to the nearest.
func whole(micros uint64) uint64 { return (micros + 500_000) / 1_000_000 }

// most are the durations that no part, and no segment, of the window passes.
func (c *channel) most() (part, segment uint64) {
	part, segment = uint64(c.options.part.Microseconds()), whole(uint64(c.options.segment.Microseconds()))
	if segment == 0 {
		segment = 1
	}
	for _, s := range c.segments {
		for _, p := range s.wholeParts() {
			if n := lasts(p.time, p.ticks, s.run.measure.timescale); n > part {
				part = n
			}
		}
		if s.isWhole && whole(s.micros()) > segment {
			segment = whole(s.micros())
		}
	}
	return part, segment
}

// playlist is the media playlist (RFC 8216bis), but for the reports of other renditions; under the lock.
func (c *channel) playlist() []byte {
	if c.text == nil {
		var out bytes.Buffer
		c.writeHead(&out)
		for i, s := range c.segments {
			c.writeSegment(&out, s, i+segmentsWithParts >= len(c.segments))
		}
		switch last := c.last(); {
		case c.hasEnded:
			out.WriteString("#EXT-X-ENDLIST\n")
		case last != nil && !last.isWhole:
			fmt.Fprintf(&out, "#EXT-X-PRELOAD-HINT:TYPE=PART,URI=\"%s\"\n", partName(last.number, len(last.wholeParts())))
		}
		c.text = out.Bytes()
	}
	return c.text
}

func (c *channel) writeHead(out *bytes.Buffer) {
	part, segment := c.most()
	first, areSync := c.next, true
	if len(c.segments) > 0 {
		first = c.segments[0].number
	}
	for _, s := range c.segments {
		parts := s.wholeParts()
		areSync = areSync && (len(parts) == 0 || parts[0].isSync)
	}
	fmt.Fprintf(out, "#EXTM3U\n#EXT-X-VERSION:9\n#EXT-X-TARGETDURATION:%d\n", segment)
	fmt.Fprintf(out, "#EXT-X-SERVER-CONTROL:CAN-BLOCK-RELOAD=YES,PART-HOLD-BACK=%s\n", seconds(3*part))
	fmt.Fprintf(out, "#EXT-X-PART-INF:PART-TARGET=%s\n#EXT-X-MEDIA-SEQUENCE:%d\n", seconds(part), first)
	fmt.Fprintf(out, "#EXT-X-DISCONTINUITY-SEQUENCE:%d\n", c.dropped)
	if areSync {
		out.WriteString("#EXT-X-INDEPENDENT-SEGMENTS\n")
	}
}

func (c *channel) writeSegment(out *bytes.Buffer, s *segment, hasParts bool) {
	parts := s.wholeParts()
	if len(parts) == 0 {
		return
	}
	if s.isFirst && s.run.number > 0 {
		out.WriteString("#EXT-X-DISCONTINUITY\n")
	}
	if s.isFirst || s == c.segments[0] {
		fmt.Fprintf(out, "#EXT-X-MAP:URI=\"%s\"\n", initName(s.run.number))
	}
	for i, p := range parts {
		if !hasParts {
			break
		}
		independent := ""
		if p.isSync {
			independent = ",INDEPENDENT=YES"
		}
		n := lasts(p.time, p.ticks, s.run.measure.timescale)
		fmt.Fprintf(out, "#EXT-X-PART:DURATION=%s,URI=\"%s\"%s\n", seconds(n), partName(s.number, i), independent)
	}
	if s.isWhole {
		fmt.Fprintf(out, "#EXTINF:%s,\n%s\n", seconds(s.micros()), segmentName(s.number))
	}
}

func initName(run int) string          { return fmt.Sprintf("init%d.mp4", run) }
func segmentName(number int) string    { return fmt.Sprintf("s%d.m4s", number) }
func partName(number, part int) string { return fmt.Sprintf("s%d.p%d.m4s", number, part) }

// with is a list with one more, if it hasn't that.
func with(list []string, one string) []string {
	for _, it := range list {
		if it == one {
			return list
		}
	}
	return append(list, one)
}

// report is what another playlist says of this one, empty where nothing is listed or nothing comes any more.
func (c *channel) report() string {
	c.lock.Lock()
	defer c.lock.Unlock()
	if c.hasEnded {
		return ""
	}
	for i := len(c.segments) - 1; i >= 0; i-- {
		if n := len(c.segments[i].wholeParts()); n > 0 {
			return fmt.Sprintf("#EXT-X-RENDITION-REPORT:URI=\"../%s/index.m3u8\",LAST-MSN=%d,LAST-PART=%d\n", c.name, c.segments[i].number, n-1)
		}
	}
	return ""
}

// rate is how many bits a second the whole segments of the window have at most, and together.
func (c *channel) rate() (peak, mean uint64) {
	var size, time uint64
	for _, s := range c.segments {
		if n := s.micros(); n > 0 && s.isWhole {
			size, time = size+uint64(s.size()), time+n
			if rate := uint64(s.size()) * 8_000_000 / n; rate > peak {
				peak = rate
			}
		}
	}
	if time > 0 {
		mean = size * 8_000_000 / time
	}
	return peak, mean
}

// rendition is what the list of all streams says of one.
type rendition struct {
	name          string
	peak, mean    uint64
	codecs        []string // nil where one isn't known
	width, height int
	isSound       bool
}

// rendition says what there is, once a segment is whole.
func (c *channel) rendition() (r rendition, is bool) {
	c.lock.Lock()
	defer c.lock.Unlock()
	if len(c.segments) == 0 {
		return r, false
	}
	run := c.last().run
	r = rendition{name: c.name, isSound: true}
	r.peak, r.mean = c.rate()
	areKnown := true
	for _, t := range run.tracks {
		if t.handler == "vide" && r.isSound {
			r.width, r.height, r.isSound = t.width, t.height, false
		}
		areKnown = areKnown && t.codec != ""
		r.codecs = with(r.codecs, t.codec)
	}
	if !areKnown {
		r.codecs = nil
	}
	return r, r.peak > 0
}

// multivariant is the playlist of all renditions. Those of sound alone are for those with pictures, where there are such.
func multivariant(all []rendition) string {
	sort.Slice(all, func(i, j int) bool { return all[i].name < all[j].name })
	out, hasPictures, sound := "#EXTM3U\n#EXT-X-VERSION:9\n#EXT-X-INDEPENDENT-SEGMENTS\n", false, rendition{}
	for _, r := range all {
		hasPictures = hasPictures || !r.isSound
	}
	for _, r := range all {
		if !r.isSound || !hasPictures {
			continue
		}
		isDefault := "NO"
		if sound.name == "" {
			isDefault = "YES"
		}
		out += fmt.Sprintf("#EXT-X-MEDIA:TYPE=AUDIO,GROUP-ID=\"sound\",NAME=\"%s\",DEFAULT=%s,AUTOSELECT=YES,URI=\"%s/index.m3u8\"\n", r.name, isDefault, r.name)
		if r.peak > sound.peak {
			sound.name, sound.peak = r.name, r.peak
		}
		if r.mean > sound.mean {
			sound.mean = r.mean
		}
		for _, codec := range r.codecs {
			sound.codecs = with(sound.codecs, codec)
		}
	}
	for _, r := range all {
		if r.isSound && hasPictures {
			continue
		}
		out += fmt.Sprintf("#EXT-X-STREAM-INF:BANDWIDTH=%d,AVERAGE-BANDWIDTH=%d", r.peak+sound.peak, r.mean+sound.mean)
		if r.width > 0 {
			out += fmt.Sprintf(",RESOLUTION=%dx%d", r.width, r.height)
		}
		if r.codecs != nil {
			out += fmt.Sprintf(",CODECS=\"%s\"", strings.Join(append(r.codecs, sound.codecs...), ","))
		}
		if sound.name != "" {
			out += ",AUDIO=\"sound\""
		}
		out += fmt.Sprintf("\n%s/index.m3u8\n", r.name)
	}
	return out
}

// manifest is that of DASH (ISO/IEC 23009-1) of a stream of one track, under the lock.
func (c *channel) manifest(now time.Time) string {
	first := c.segments[0].run
	begun := first.begun.UTC()
	peak, _ := c.rate()
	head := fmt.Sprintf(`type="dynamic" availabilityStartTime="%s" publishTime="%s" minimumUpdatePeriod="PT%sS" timeShiftBufferDepth="PT%sS"`,
		begun.Format(time.RFC3339Nano), now.UTC().Format(time.RFC3339), seconds(uint64(c.options.part.Microseconds())),
		seconds(uint64(c.options.window.Microseconds())))
	if c.hasEnded {
		var sum uint64
		for _, s := range c.segments {
			sum += s.micros()
		}
		head = fmt.Sprintf(`type="static" mediaPresentationDuration="PT%sS"`, seconds(sum))
	}
	out := fmt.Sprintf("<?xml version=\"1.0\" encoding=\"UTF-8\"?>\n<MPD xmlns=\"urn:mpeg:dash:schema:mpd:2011\" profiles=\"urn:mpeg:dash:profile:isoff-live:2011\" %s minBufferTime=\"PT%sS\">\n",
		head, seconds(uint64(c.options.segment.Microseconds())))
	for at := 0; at < len(c.segments); {
		end := at
		for end < len(c.segments) && c.segments[end].run == c.segments[at].run {
			end++
		}
		out += c.period(c.segments[at:end], begun, peak)
		at = end
	}
	return out + "</MPD>\n"
}

// period is what a manifest says of the segments of a run.
func (c *channel) period(segments []*segment, begun time.Time, peak uint64) string {
	r, start := segments[0].run, time.Duration(0)
	offset := *r.first
	if c.hasEnded {
		offset = segments[0].parts[0].time
	} else {
		start = r.begun.Sub(begun)
	}
	mime := "video/mp4"
	if r.measure.handler == "soun" {
		mime = "audio/mp4"
	}
	attributes := ""
	if r.measure.codec != "" {
		attributes += fmt.Sprintf(" codecs=\"%s\"", r.measure.codec)
	}
	if r.measure.width > 0 {
		attributes += fmt.Sprintf(" width=\"%d\" height=\"%d\"", r.measure.width, r.measure.height)
	}
	at := fmt.Sprintf(" start=\"PT%sS\"", seconds(uint64(start.Microseconds())))
	if c.hasEnded && segments[0] != c.segments[0] {
		at = ""
	}
	out := fmt.Sprintf("<Period id=\"%d\"%s>\n<AdaptationSet mimeType=\"%s\" segmentAlignment=\"true\">\n<Representation id=\"%s\" bandwidth=\"%d\"%s>\n",
		r.number, at, mime, c.name, peak, attributes)
	out += fmt.Sprintf("<SegmentTemplate timescale=\"%d\" startNumber=\"%d\" presentationTimeOffset=\"%d\" initialization=\"%s\" media=\"s$Number$.m4s\">\n<SegmentTimeline>\n",
		r.measure.timescale, segments[0].number, offset, initName(r.number))
	for _, s := range segments {
		if s.isWhole {
			out += fmt.Sprintf("<S t=\"%d\" d=\"%d\"/>\n", s.parts[0].time, s.ticks())
		}
	}
	return out + "</SegmentTimeline>\n</SegmentTemplate>\n</Representation>\n</AdaptationSet>\n</Period>\n"
}
