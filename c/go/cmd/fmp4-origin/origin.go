package main

import (
	"crypto/subtle"
	"errors"
	"fmt"
	"io"
	"log"
	"net"
	"net/http"
	"regexp"
	"strconv"
	"strings"
	"sync"
	"time"

	"cannirupo.example/fmp4"
)

// The most that the boxes of a stream may take, and what waits of its output: for the cut, and for its list of fragments.
const (
	streamLimit = 2 << 20
	streamRoom  = 1 << 20
)

// How much of a stream is read at once.
const inputBytes = 64 << 10

var (
	names    = regexp.MustCompile(`^[A-Za-z0-9_-]{1,64}$`)
	inits    = regexp.MustCompile(`^init(\d{1,9})\.mp4$`)
	segments = regexp.MustCompile(`^s(\d{1,9})(?:\.p(\d{1,9}))?\.m4s$`)
)

// origin has the channels by their names.
type origin struct {
	options  *options
	lock     sync.Mutex
	channels map[string]*channel
	closing  chan struct{}
}

func newOrigin(o *options) *origin {
	return &origin{options: o, channels: map[string]*channel{}, closing: make(chan struct{})}
}

// end has all streams end.
func (o *origin) end() {
	close(o.closing)
	for _, c := range o.all() {
		c.end(func() {})
	}
}

func (o *origin) all() (all []*channel) {
	o.lock.Lock()
	defer o.lock.Unlock()
	for _, c := range o.channels {
		all = append(all, c)
	}
	return all
}

func (o *origin) channel(name string) *channel {
	o.lock.Lock()
	defer o.lock.Unlock()
	return o.channels[name]
}

// take is the channel of a name for a request that sends its stream, or the status that refuses it.
func (o *origin) take(name string) (*channel, int) {
	o.lock.Lock()
	defer o.lock.Unlock()
	c := o.channels[name]
	if c == nil {
		if len(o.channels) >= o.options.streams {
			return nil, http.StatusServiceUnavailable
		}
		c = newChannel(o.options, name)
		o.channels[name] = c
	}
	if !c.begin() {
		return nil, http.StatusConflict
	}
	return c, 0
}

// forget drops a channel that has ended, unless it is sent again.
func (o *origin) forget(c *channel) {
	o.lock.Lock()
	defer o.lock.Unlock()
	c.lock.Lock()
	defer c.lock.Unlock()
	if !c.isFed && c.hasEnded {
		delete(o.channels, c.name)
	}
}

func refuse(w http.ResponseWriter, status int, why string) {
	w.Header().Set("Cache-Control", "no-store")
	http.Error(w, why, status)
}

// refuseStream refuses a request that sends a stream. The server reads no more of its body, for which it would wait.
func refuseStream(w reply, status int, why string) {
	w.conn.SetReadDeadline(time.Unix(1, 0))
	refuse(w, status, why)
}

// ServeHTTP answers PUT /NAME and POST /NAME, which send a stream, and GET and HEAD of what is made of them.
func (o *origin) ServeHTTP(to http.ResponseWriter, r *http.Request) {
	w := reply{to, r.Context().Value(connection{}).(net.Conn), o.options.patience}
	w.Header().Set("Access-Control-Allow-Origin", "*")
	name, file, isIn := strings.Cut(strings.TrimPrefix(r.URL.Path, "/"), "/")
	switch r.Method {
	case http.MethodPut, http.MethodPost:
		if isIn || !names.MatchString(name) {
			refuseStream(w, http.StatusNotFound, "a stream has a name of at most 64 letters, digits, _ and -")
			return
		}
		if !o.mayFeed(r) {
			w.Header().Set("WWW-Authenticate", "Bearer")
			refuseStream(w, http.StatusUnauthorized, "who sends a stream has to know the token")
			return
		}
		o.feed(w, r, name)
	case http.MethodGet, http.MethodHead:
		if !isIn && name == "index.m3u8" {
			o.serveList(w)
			return
		}
		if c := o.channel(name); c != nil && isIn {
			o.serveFile(w, r, c, file)
			return
		}
		refuse(w, http.StatusNotFound, "no such stream")
	default:
		w.Header().Set("Allow", "GET, HEAD, PUT, POST")
		refuse(w, http.StatusMethodNotAllowed, "GET, HEAD, PUT and POST alone")
	}
}

// mayFeed is whether a request has the token, as a bearer's or as a password.
func (o *origin) mayFeed(r *http.Request) bool {
	if o.options.token == "" {
		return true
	}
	given := strings.TrimPrefix(r.Header.Get("Authorization"), "Bearer ")
	if _, password, is := r.BasicAuth(); is {
		given = password
	}
	return subtle.ConstantTimeCompare([]byte(given), []byte(o.options.token)) == 1
}

// feed takes a stream, until it ends, breaks off or is at fault.
func (o *origin) feed(w reply, r *http.Request, name string) {
	c, status := o.take(name)
	if c == nil {
		refuseStream(w, status, map[int]string{http.StatusServiceUnavailable: "too many streams", http.StatusConflict: "this stream is being sent"}[status])
		return
	}
	report, err := o.cut(r, c)
	isClosing := false
	select {
	case <-o.closing:
		isClosing = true
	default:
	}
	c.endRun(err == nil || isClosing, func() { o.forget(c) })
	log.Printf("%s: %d fragments, %d samples, %d bytes of media: %v", name, report.Fragments, report.Samples, report.MediaBytes, err)
	var fault *fmp4.Fault
	switch {
	case err == nil:
		fmt.Fprintf(w, "fragments=%d samples=%d bytes=%d\n", report.Fragments, report.Samples, report.MediaBytes)
	case errors.As(err, &fault):
		refuseStream(w, http.StatusUnprocessableEntity, fault.Error())
	case errors.Is(err, errTooLarge) || errors.Is(err, errBetween):
		refuseStream(w, http.StatusRequestEntityTooLarge, err.Error())
	case isClosing:
		refuseStream(w, http.StatusServiceUnavailable, "the origin ends")
	default:
		refuseStream(w, http.StatusBadRequest, err.Error())
	}
}

// cut cuts what a request sends, and has it packaged.
func (o *origin) cut(r *http.Request, c *channel) (report fmp4.Report, err error) {
	packager, err := newPackager(c)
	if err != nil {
		return report, err
	}
	cut := fmp4.Cut{DurationMS: uint32(o.options.part.Milliseconds()), Flags: fmp4.Keyframes, Limit: streamLimit, Room: streamRoom}
	writer, err := fmp4.NewWriter(packager, cut)
	if err != nil {
		packager.Close()
		return report, err
	}
	err = o.read(r, writer)
	if failed := writer.Close(); err == nil {
		err = failed
	}
	if failed := packager.Close(); err == nil {
		err = failed
	}
	return writer.Report(), err
}

// read reads a request's body to its end. A body that says nothing for too long is broken off.
func (o *origin) read(r *http.Request, to io.Writer) error {
	conn := r.Context().Value(connection{}).(net.Conn)
	input, over := make([]byte, inputBytes), make(chan struct{})
	defer close(over)
	go func() {
		select {
		case <-o.closing:
			conn.SetReadDeadline(time.Unix(1, 0))
		case <-over:
		}
	}()
	for {
		select {
		case <-o.closing:
			return io.ErrUnexpectedEOF
		default:
			conn.SetReadDeadline(time.Now().Add(o.options.silence))
		}
		n, err := r.Body.Read(input)
		if _, failed := to.Write(input[:n]); failed != nil {
			return failed
		}
		if errors.Is(err, io.EOF) {
			conn.SetReadDeadline(time.Time{})
			return nil
		}
		if err != nil {
			return err
		}
	}
}

// age has an answer kept for so long.
func age(w http.ResponseWriter, kind string, limit time.Duration) {
	w.Header().Set("Content-Type", kind)
	w.Header().Set("Cache-Control", "max-age="+strconv.Itoa(int((limit+time.Second-1)/time.Second)))
}

const (
	kindOfPlaylist = "application/vnd.apple.mpegurl"
	kindOfManifest = "application/dash+xml"
	kindOfMedia    = "video/mp4"
)

func (o *origin) serveList(w http.ResponseWriter) {
	var all []rendition
	for _, c := range o.all() {
		if r, is := c.rendition(); is {
			all = append(all, r)
		}
	}
	if len(all) == 0 {
		refuse(w, http.StatusNotFound, "no stream has a segment")
		return
	}
	age(w, kindOfPlaylist, o.options.segment)
	io.WriteString(w, multivariant(all))
}
