package main

import (
	"io"
	"net"
	"net/http"
	"sort"
	"strconv"
	"time"
)

// Replies are sent in such pieces.
const pieceBytes = 64 << 10

// serveFile answers for a file of a stream.
func (o *origin) serveFile(w http.ResponseWriter, r *http.Request, c *channel, file string) {
	if file == "index.m3u8" {
		o.servePlaylist(w, r, c)
		return
	}
	if file == "index.mpd" {
		o.serveManifest(w, c)
		return
	}
	if found := inits.FindStringSubmatch(file); found != nil {
		c.serveInit(w, r, numberOf(found[1]))
		return
	}
	found := segments.FindStringSubmatch(file)
	if found == nil {
		refuse(w, http.StatusNotFound, "no such file")
		return
	}
	if found[2] == "" {
		c.serveSegment(w, r, numberOf(found[1]))
	} else {
		c.servePart(w, r, numberOf(found[1]), numberOf(found[2]))
	}
}

// numberOf is the number of at most nine digits.
func numberOf(digits string) int {
	n, _ := strconv.Atoi(digits)
	return n
}

// asksFor reads _HLS_msn and _HLS_part: -1 where one isn't there.
func asksFor(r *http.Request) (segment, part int, isGood bool) {
	segment, part = -1, -1
	for key, to := range map[string]*int{"_HLS_msn": &segment, "_HLS_part": &part} {
		if text := r.URL.Query().Get(key); text != "" {
			n, err := strconv.ParseUint(text, 10, 31)
			if err != nil {
				return 0, 0, false
			}
			*to = int(n)
		}
	}
	return segment, part, part < 0 || segment >= 0
}

// lists is whether the playlist has a segment, or a part of it, or a later one; under the lock. A part after the last of a
// segment is the first of the next.
func (c *channel) lists(segment, part int) bool {
	if c.hasEnded {
		return true
	}
	for i := len(c.segments) - 1; i >= 0 && c.segments[i].number >= segment; i-- {
		s := c.segments[i]
		n := len(s.wholeParts())
		if s.number > segment && n > 0 || s.number == segment && (part < 0 && s.isWhole || part >= 0 && n > part) {
			return true
		}
	}
	return false
}

// servePlaylist answers at once, or when the playlist has what is asked for.
func (o *origin) servePlaylist(w http.ResponseWriter, r *http.Request, c *channel) {
	segment, part, isGood := asksFor(r)
	limit := 3 * o.options.segment
	c.lock.Lock()
	next, hasEnded := c.next, c.hasEnded
	c.lock.Unlock()
	if !isGood || segment > next+1 && !hasEnded {
		refuse(w, http.StatusBadRequest, "no such _HLS_msn and _HLS_part")
		return
	}
	if !c.await(r.Context(), limit, func() bool { return len(c.segments) > 0 && c.lists(segment, part) }) {
		refuse(w, http.StatusServiceUnavailable, "nothing has come for a while")
		return
	}
	reports := o.reports(c)
	c.lock.Lock()
	text := append([]byte(nil), c.playlist()...)
	hasEnded = c.hasEnded
	c.lock.Unlock()
	if !hasEnded {
		text = append(text, reports...)
	}
	kept := o.options.part
	if segment >= 0 {
		kept = o.options.segment
	}
	age(w, kindOfPlaylist, kept)
	w.Header().Set("Content-Length", strconv.Itoa(len(text)))
	w.Write(text)
}

// reports are what a playlist says of the others.
func (o *origin) reports(of *channel) (out string) {
	all := o.all()
	sort.Slice(all, func(i, j int) bool { return all[i].name < all[j].name })
	for _, c := range all {
		if c != of {
			out += c.report()
		}
	}
	return out
}

func (o *origin) serveManifest(w http.ResponseWriter, c *channel) {
	c.lock.Lock()
	text := ""
	if s := c.segments; len(s) > 0 && s[0].isWhole && len(s[0].run.tracks) == 1 {
		text = c.manifest(time.Now())
	}
	c.lock.Unlock()
	if text == "" {
		refuse(w, http.StatusNotFound, "a manifest is of a stream of one track that has a segment")
		return
	}
	age(w, kindOfManifest, o.options.part)
	w.Write([]byte(text))
}

func (c *channel) serveInit(w http.ResponseWriter, r *http.Request, number int) {
	c.lock.Lock()
	var init []byte
	for _, s := range c.segments {
		if s.run.number == number {
			init = s.run.init
		}
	}
	c.lock.Unlock()
	if init == nil {
		refuse(w, http.StatusNotFound, "no such init segment")
		return
	}
	age(w, kindOfMedia, c.options.window)
	spans{init}.serve(w, r)
}

// spans are bytes that follow one another, and that don't change.
type spans [][]byte

func (s spans) ReadAt(to []byte, at int64) (read int, err error) {
	for _, span := range s {
		if at < int64(len(span)) {
			n := copy(to[read:], span[at:])
			read, at = read+n, at+int64(n)
		}
		if read == len(to) {
			return read, nil
		}
		at -= int64(len(span))
	}
	return read, io.EOF
}

// serve sends them, or the range of them that is asked for.
func (s spans) serve(w http.ResponseWriter, r *http.Request) {
	size := 0
	for _, span := range s {
		size += len(span)
	}
	http.ServeContent(w, r, "", time.Time{}, io.NewSectionReader(s, 0, int64(size)))
}

// segment is one of the window, under the lock.
func (c *channel) segment(number int) *segment {
	if len(c.segments) == 0 || number < c.segments[0].number || number > c.last().number {
		return nil
	}
	return c.segments[number-c.segments[0].number]
}

// servePart sends a part. One that is being written is sent as it grows, and one that is announced once it begins.
func (c *channel) servePart(w http.ResponseWriter, r *http.Request, number, index int) {
	var p *part
	isThere := c.await(r.Context(), 3*c.options.segment, func() bool {
		s := c.segment(number)
		switch {
		case s != nil && index < len(s.parts):
			p = s.parts[index]
		case s == nil || s.isWhole || c.hasEnded || index > len(s.parts):
		default:
			return false
		}
		return true
	})
	if !isThere || p == nil {
		refuse(w, http.StatusNotFound, "no such part")
		return
	}
	age(w, kindOfMedia, c.options.window)
	c.lock.Lock()
	bytes, isWhole := p.bytes, p.isWhole
	c.lock.Unlock()
	if isWhole {
		spans{bytes}.serve(w, r)
		return
	}
	c.sendPart(w, r, p)
}

// serveSegment sends the parts of a segment, one after another.
func (c *channel) serveSegment(w http.ResponseWriter, r *http.Request, number int) {
	c.lock.Lock()
	s := c.segment(number)
	isWhole, whole := s != nil && s.isWhole, spans(nil)
	for i := 0; isWhole && i < len(s.parts); i++ {
		whole = append(whole, s.parts[i].bytes)
	}
	c.lock.Unlock()
	if s == nil {
		refuse(w, http.StatusNotFound, "no such segment")
		return
	}
	age(w, kindOfMedia, c.options.window)
	if isWhole {
		whole.serve(w, r)
		return
	}
	for i := 0; ; i++ {
		var p *part
		if !c.await(r.Context(), c.options.silence, func() bool {
			if i < len(s.parts) {
				p = s.parts[i]
			}
			return p != nil || s.isWhole
		}) {
			panic(http.ErrAbortHandler)
		}
		if p == nil {
			return
		}
		c.sendPart(w, r, p)
	}
}

// sendPart sends a part as it grows. If its stream breaks off in it, the reply does so too.
func (c *channel) sendPart(w http.ResponseWriter, r *http.Request, p *part) {
	timer := time.NewTimer(c.options.silence)
	defer timer.Stop()
	for at := 0; r.Method == http.MethodGet; {
		c.lock.Lock()
		size, isWhole, grown := len(p.bytes), p.isWhole, p.grown
		if at > size {
			c.lock.Unlock()
			panic(http.ErrAbortHandler)
		}
		more := p.bytes[at:size]
		c.lock.Unlock()
		if _, err := w.Write(more); err != nil {
			panic(http.ErrAbortHandler)
		}
		w.(http.Flusher).Flush()
		at = size
		if isWhole {
			return
		}
		select {
		case <-grown:
		case <-r.Context().Done():
			panic(http.ErrAbortHandler)
		case <-timer.C:
			panic(http.ErrAbortHandler)
		}
	}
}

// reply is a reply whose client has some time for each piece of it.
type reply struct {
	http.ResponseWriter
	conn     net.Conn
	patience time.Duration
}

func (w reply) WriteHeader(status int) {
	w.conn.SetWriteDeadline(time.Now().Add(w.patience))
	w.ResponseWriter.WriteHeader(status)
}

func (w reply) Write(bytes []byte) (written int, err error) {
	for len(bytes) > 0 && err == nil {
		n := len(bytes)
		if n > pieceBytes {
			n = pieceBytes
		}
		w.conn.SetWriteDeadline(time.Now().Add(w.patience))
		n, err = w.ResponseWriter.Write(bytes[:n])
		written, bytes = written+n, bytes[n:]
	}
	return written, err
}

func (w reply) Flush() { w.ResponseWriter.(http.Flusher).Flush() }
