package main

import (
	"bytes"
	"context"
	"encoding/binary"
	"fmt"
	"io"
	"net"
	"net/http"
	"os"
	"regexp"
	"strings"
	"sync"
	"testing"
	"time"
)

// given is a stream of one track of sound, and its cut by 100 ms, which c/tests/all_tests makes by the program, without the
// mfra that ends it.
func given(t *testing.T) (stream, want []byte) {
	stream, err := os.ReadFile(os.Getenv("FMP4_STREAM"))
	if err != nil {
		t.Skip("FMP4_STREAM names no stream")
	}
	want, err = os.ReadFile(os.Getenv("FMP4_WANT_BY_TIME"))
	if err != nil {
		t.Fatal(err)
	}
	for _, b := range boxesOf(want) {
		if b.kind == "mfra" {
			want = want[:b.start]
		}
	}
	return stream, want
}

// A box at the top: its type, and where it begins and ends.
type box struct {
	kind       string
	start, end int
}

func boxesOf(stream []byte) (all []box) {
	for at := 0; at+8 <= len(stream); {
		size := int(binary.BigEndian.Uint32(stream[at:]))
		all = append(all, box{string(stream[at+4 : at+8]), at, at + size})
		at += size
	}
	return all
}

// started is an origin that listens, until the test ends.
type started struct {
	*testing.T
	url  string
	stop func()
	done chan struct{}
	err  error
}

func start(t *testing.T, words ...string) *started { return startWith(t, 10*time.Second, words...) }

func startWith(t *testing.T, patience time.Duration, words ...string) *started {
	o, err := asked(append([]string{"-part", "100ms", "-segment", "1s", "-window", "1h", "-linger", "1h"}, words...))
	if err != nil {
		t.Fatal(err)
	}
	o.patience = patience
	listener, err := net.Listen("tcp", "127.0.0.1:0")
	if err != nil {
		t.Fatal(err)
	}
	ctx, stop := context.WithCancel(context.Background())
	s := &started{t, "http://" + listener.Addr().String(), stop, make(chan struct{}), nil}
	go func() {
		s.err = serve(ctx, listener, newOrigin(o))
		close(s.done)
	}()
	t.Cleanup(func() {
		stop()
		<-s.done
	})
	return s
}

// ask makes a request, and returns its status and body, and the error of a body that breaks off.
func (s *started) ask(method, path string, body io.Reader, headers ...string) (int, string, error) {
	s.Helper()
	request, err := http.NewRequest(method, s.url+path, body)
	if err != nil {
		s.Fatal(err)
	}
	for i := 0; i < len(headers); i += 2 {
		request.Header.Set(headers[i], headers[i+1])
	}
	response, err := http.DefaultClient.Do(request)
	if err != nil {
		return 0, "", err
	}
	defer response.Body.Close()
	text, err := io.ReadAll(response.Body)
	return response.StatusCode, string(text), err
}

// get is what a path has.
func (s *started) get(path string) string {
	s.Helper()
	status, text, err := s.ask("GET", path, nil)
	if status != 200 || err != nil {
		s.Fatal(path, status, text, err)
	}
	return text
}

// pushed is a stream that is sent piece by piece.
type pushed struct {
	*io.PipeWriter
	done   chan struct{}
	status int
	text   string
}

func (s *started) push(path string) *pushed {
	from, to := io.Pipe()
	p := &pushed{PipeWriter: to, done: make(chan struct{})}
	go func() {
		p.status, p.text, _ = s.ask("PUT", path, from)
		from.CloseWithError(io.ErrClosedPipe)
		close(p.done)
	}()
	return p
}

// soon waits until something holds.
func (s *started) soon(what string, holds func() bool) {
	s.Helper()
	for end := time.Now().Add(5 * time.Second); !holds(); time.Sleep(5 * time.Millisecond) {
		if time.Now().After(end) {
			s.Fatal(what)
		}
	}
}

var uris = regexp.MustCompile(`URI="([^"]*)"`)

// files are the names of a playlist's init segment, segments and parts.
func files(playlist string) (init string, segments, parts []string) {
	for _, line := range strings.Split(playlist, "\n") {
		switch {
		case strings.HasPrefix(line, "#EXT-X-MAP:"):
			init = uris.FindStringSubmatch(line)[1]
		case strings.HasPrefix(line, "#EXT-X-PART:"):
			parts = append(parts, uris.FindStringSubmatch(line)[1])
		case line != "" && line[0] != '#':
			segments = append(segments, line)
		}
	}
	return init, segments, parts
}

// joined is the init segment and what follows it.
func (s *started) joined(path string, names ...string) string {
	s.Helper()
	var out strings.Builder
	for _, name := range names {
		out.WriteString(s.get(path + "/" + name))
	}
	return out.String()
}

// Segments are the program's cut, and parts are the segments. No part is longer than its target, nor shorter than it less
// a frame of 1024 samples, but for the last of a segment.
func TestSegmentsAreTheCut(t *testing.T) {
	stream, want := given(t)
	s := start(t)
	if status, text, _ := s.ask("PUT", "/sound", bytes.NewReader(stream)); status != 200 || !strings.HasPrefix(text, "fragments=") {
		t.Fatal(status, text)
	}
	playlist := s.get("/sound/index.m3u8")
	init, segments, parts := files(playlist)
	if len(segments) < 3 || len(parts) < 20 || !strings.HasSuffix(playlist, "#EXT-X-ENDLIST\n") {
		t.Fatal(playlist)
	}
	if got := s.joined("/sound", append([]string{init}, segments...)...); got != string(want) {
		t.Fatalf("%d bytes, not the %d of the program", len(got), len(want))
	}
	for _, segment := range segments[len(segments)-segmentsWithParts:] {
		var of []string
		for _, part := range parts {
			if strings.HasPrefix(part, strings.TrimSuffix(segment, "m4s")) {
				of = append(of, part)
			}
		}
		if len(of) == 0 || s.joined("/sound", of...) != s.get("/sound/"+segment) {
			t.Fatal(segment, of)
		}
	}
	for i, found := range regexp.MustCompile(`#EXT-X-PART:DURATION=([0-9.]+)`).FindAllStringSubmatch(playlist, -1) {
		var lasts float64
		fmt.Sscan(found[1], &lasts)
		if isLast := i+1 == len(parts) || strings.Contains(parts[i+1], ".p0."); lasts > 0.1 || lasts < 0.1-1024./44100-1e-6 && !isLast {
			t.Fatal(parts[i], lasts)
		}
	}
}

// A request for a part is answered when it is there, and one for an announced part has its bytes as they come.
func TestPartsAreAwaited(t *testing.T) {
	stream, want := given(t)
	s := startWith(t, 250*time.Millisecond)
	p := s.push("/live")
	first, second, moofs := 0, 0, 0
	for _, b := range boxesOf(want) {
		if b.kind == "mdat" {
			if moofs++; moofs == 1 {
				first = b.end
			} else if moofs == 2 {
				second = b.end
			}
		}
	}
	begun := 0
	for _, b := range boxesOf(stream) {
		if b.kind == "mdat" && begun == 0 {
			begun = b.start + 100
		}
	}
	p.Write(stream[:begun])
	type answer struct {
		text string
		at   time.Time
	}
	asked := func(path string) chan answer {
		out := make(chan answer, 1)
		go func() {
			status, text, err := s.ask("GET", path, nil)
			out <- answer{fmt.Sprint(status, err, text), time.Now()}
		}()
		return out
	}
	s.soon("no stream", func() bool { status, _, _ := s.ask("GET", "/live/init0.mp4", nil); return status == 200 })
	playlist, hinted := asked("/live/index.m3u8?_HLS_msn=0&_HLS_part=1"), asked("/live/s0.p1.m4s")
	growing, first0, whole := asked("/live/s0.p0.m4s"), asked("/live/index.m3u8?_HLS_msn=0&_HLS_part=0"), asked("/live/index.m3u8?_HLS_msn=0")
	select {
	case got := <-playlist:
		t.Fatal("before there is a part:", got.text)
	case got := <-first0:
		t.Fatal("before there is the first part:", got.text)
	case got := <-whole:
		t.Fatal("before there is a segment:", got.text)
	case <-time.After(300 * time.Millisecond):
	}
	p.Write(stream[begun : begun+900])
	got := <-playlist
	if !strings.Contains(got.text, "s0.p1.m4s") || !strings.HasPrefix(got.text, "200") {
		t.Fatal(got.text)
	}
	if got := (<-growing).text; !strings.HasPrefix(got, "200 <nil>") || !strings.HasSuffix(string(want[:first]), strings.TrimPrefix(got, "200 <nil>")) {
		t.Fatalf("a part that grows for longer than a client has for a piece: %.40q", got)
	}
	if got := (<-hinted).text; got != "200<nil>"+string(want[first:second]) && got != "200 <nil>"+string(want[first:second]) {
		t.Fatalf("another part: %.40q", got)
	}
	select {
	case got := <-whole:
		t.Fatal("before there is a segment:", got.text)
	case <-time.After(100 * time.Millisecond):
	}
	p.Write(stream[begun+900:])
	p.Close()
	if got := <-whole; !strings.Contains(got.text, "\ns0.m4s\n") {
		t.Fatal(got.text)
	}
	<-p.done
	if p.status != 200 {
		t.Fatal(p.status, p.text)
	}
	if status, text, _ := s.ask("GET", "/live/index.m3u8?_HLS_msn=99", nil); status != 200 || !strings.Contains(text, "ENDLIST") {
		t.Fatal("after the end:", status)
	}
}

// What is refused, and why.
func TestRefusals(t *testing.T) {
	stream, _ := given(t)
	s := start(t, "-streams", "2")
	p := s.push("/one")
	p.Write(stream[:len(stream)/2])
	s.soon("no playlist", func() bool { status, _, _ := s.ask("GET", "/one/index.m3u8", nil); return status == 200 })
	other := s.push("/two")
	other.Write(stream[:len(stream)/2])
	s.soon("no stream", func() bool { status, _, _ := s.ask("GET", "/two/index.m3u8", nil); return status == 200 })
	long := strings.Repeat("x", 65)
	for _, it := range []struct {
		method, path string
		status       int
	}{
		{"PUT", "/one", 409}, {"PUT", "/three", 503}, {"PUT", "/" + long, 404}, {"PUT", "/a/b", 404}, {"PUT", "/..%2fa", 404},
		{"PUT", "/a.m4s", 404}, {"PUT", "/", 404}, {"DELETE", "/one", 405}, {"GET", "/", 404}, {"GET", "/one", 404},
		{"GET", "/one/../../etc/passwd", 404}, {"GET", "/one/%2e%2e/x", 404}, {"GET", "/one/s.m4s", 404}, {"GET", "/one/s99.m4s", 404},
		{"GET", "/one/s0.p99.m4s", 404}, {"GET", "/one/init7.mp4", 404}, {"GET", "/one/s00000000000000000001.m4s", 404},
		{"GET", "/one/index.m3u8?_HLS_part=1", 400}, {"GET", "/one/index.m3u8?_HLS_msn=x", 400}, {"GET", "/one/index.m3u8?_HLS_msn=-1", 400},
		{"GET", "/one/index.m3u8?_HLS_msn=999", 400}, {"HEAD", "/one/index.m3u8", 200}, {"HEAD", "/one/s0.m4s", 200}, {"HEAD", "/one/s0.p0.m4s", 200},
	} {
		if status, text, _ := s.ask(it.method, it.path, nil); status != it.status {
			t.Errorf("%s %s: %d %.80q, not %d", it.method, it.path, status, text, it.status)
		}
	}
	if status, _, _ := s.ask("GET", "/one/index.m3u8", nil, "X-Long", strings.Repeat("x", 1<<16)); status != 431 {
		t.Error("long headers:", status)
	}
	p.Close()
	<-p.done
	s.isRefusedAtOnce("PUT /one HTTP/1.1\r\nHost: x\r\nTransfer-Encoding: chunked\r\n\r\n8\r\n\x00\x00\x00\x07junk\r\n", "422")
	s.isRefusedAtOnce("PUT /two HTTP/1.1\r\nHost: x\r\nTransfer-Encoding: chunked\r\n\r\n", "409")
	for _, line := range []string{"GET /one/index.m3u8", "PUT /one"} {
		s.sendsWithoutEnd(line, map[string]string{"GET /one/index.m3u8": "200", "PUT /one": "413"}[line])
	}
}

// isRefusedAtOnce sends a request whose body doesn't end, and then nothing.
func (s *started) isRefusedAtOnce(text, status string) {
	s.Helper()
	conn, err := net.Dial("tcp", strings.TrimPrefix(s.url, "http://"))
	if err != nil {
		s.Fatal(err)
	}
	defer conn.Close()
	conn.SetDeadline(time.Now().Add(2 * time.Second))
	io.WriteString(conn, text)
	answer := make([]byte, 12)
	if _, err := io.ReadFull(conn, answer); string(answer) != "HTTP/1.1 "+status {
		s.Errorf("%.20q: %q, %v", text, answer, err)
	}
}

// sendsWithoutEnd sends zeros for ever in the body of a request: it is answered, and its connection closed.
func (s *started) sendsWithoutEnd(line, status string) {
	s.Helper()
	conn, err := net.Dial("tcp", strings.TrimPrefix(s.url, "http://"))
	if err != nil {
		s.Fatal(err)
	}
	defer conn.Close()
	conn.SetDeadline(time.Now().Add(10 * time.Second))
	fmt.Fprintf(conn, "%s HTTP/1.1\r\nHost: x\r\nTransfer-Encoding: chunked\r\n\r\n", line)
	answer := make(chan string, 1)
	go func() {
		text := make([]byte, 12)
		io.ReadFull(conn, text)
		answer <- string(text)
	}()
	zeros := append(append([]byte("10000\r\n"), make([]byte, 1<<16)...), "\r\n"...)
	for sent := 0; err == nil && sent < 1<<30; sent += 1 << 16 {
		_, err = conn.Write(zeros)
	}
	if text := <-answer; err == nil || text != "HTTP/1.1 "+status {
		s.Errorf("%s without end: %q, and %v", line, text, err)
	}
}

// An end has all playlists end, and all requests, within a second.
func TestEnds(t *testing.T) {
	stream, _ := given(t)
	s := start(t)
	p := s.push("/live")
	p.Write(stream[:len(stream)/2])
	s.soon("no playlist", func() bool { status, _, _ := s.ask("GET", "/live/s0.m4s", nil); return status == 200 })
	var waiting sync.WaitGroup
	texts := make([]string, 20)
	for i := range texts {
		waiting.Add(1)
		go func(i int) {
			defer waiting.Done()
			_, texts[i], _ = s.ask("GET", "/live/index.m3u8?_HLS_msn="+fmt.Sprint(strings.Count(s.get("/live/index.m3u8"), "#EXTINF")+1), nil)
		}(i)
	}
	time.Sleep(200 * time.Millisecond)
	begun := time.Now()
	s.stop()
	waiting.Wait()
	<-s.done
	if s.err != nil || time.Since(begun) > time.Second {
		t.Fatal(s.err, time.Since(begun))
	}
	for _, text := range texts {
		if !strings.HasSuffix(text, "#EXT-X-ENDLIST\n") {
			t.Fatal(text)
		}
	}
}

// Who doesn't know the token sends nothing; who does, as a bearer or by a password, does.
func TestToken(t *testing.T) {
	stream, _ := given(t)
	file := t.TempDir() + "/token"
	os.WriteFile(file, []byte("secret\n"), 0o600)
	s := start(t, "-token", file)
	for status, headers := range map[int][]string{
		401: {"Authorization", "Bearer secre"}, 200: {"Authorization", "Bearer secret"},
	} {
		if got, text, _ := s.ask("PUT", "/live", bytes.NewReader(stream), headers...); got != status {
			t.Fatal(headers, got, text)
		}
	}
	if status, _, _ := s.ask("PUT", "/live", bytes.NewReader(stream), "Authorization", "Basic dTpzZWNyZXQ="); status != 200 {
		t.Fatal("a password:", status)
	}
	if status, _, _ := s.ask("PUT", "/live", bytes.NewReader(stream)); status != 401 {
		t.Fatal("no token:", status)
	}
	s.get("/live/index.m3u8")
}

// Clients that say nothing, and those that take nothing, are left.
func TestSlowClients(t *testing.T) {
	stream, _ := given(t)
	s := startWith(t, 200*time.Millisecond, "-silence", "300ms")
	if status, text, _ := s.ask("PUT", "/live", bytes.NewReader(stream)); status != 200 {
		t.Fatal(status, text)
	}
	for _, words := range []string{"", "GET /live/s0.m4s HTTP/1.1\r\n", strings.Repeat("GET /live/s0.m4s HTTP/1.1\r\nHost: x\r\n\r\n", 6000)} {
		conn, err := net.Dial("tcp", strings.TrimPrefix(s.url, "http://"))
		if err != nil {
			t.Fatal(err)
		}
		conn.(*net.TCPConn).SetReadBuffer(4096)
		conn.Write([]byte(words))
		time.Sleep(600 * time.Millisecond)
		conn.SetReadDeadline(time.Now().Add(5 * time.Second))
		if _, err := io.Copy(io.Discard, conn); err != nil && strings.Contains(err.Error(), "timeout") {
			t.Fatalf("%.20q: %v", words, err)
		}
		conn.Close()
	}
	p := s.push("/silent")
	p.Write(stream[:1000])
	select {
	case <-p.done:
	case <-time.After(3 * time.Second):
		t.Fatal("a stream that says nothing isn't broken off")
	}
}

// A codec that ffmpeg doesn't spell out: Main profile, level 3.1, by a record that is laid out by hand.
func TestHEVC(t *testing.T) {
	record := []byte{1, 1, 0x60, 0, 0, 0, 0xb0, 0, 0, 0, 0, 0, 93}
	if got := codecOf("hvc1", "hvcC", record); got != "hvc1.1.6.L93.B0" {
		t.Fatal(got)
	}
}
