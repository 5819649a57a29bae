package main

import (
	"bytes"
	"fmt"
	"io"
	"strings"
	"testing"
	"time"

	"cannirupo.example/fmp4"
)

// A stream at fault is refused by its rule, box and offset, and one that is cut off in a moof. What came before stays.
func TestFaults(t *testing.T) {
	stream, want := given(t)
	moof := box{}
	for _, b := range boxesOf(stream) {
		if b.kind == "moof" {
			moof = b
		}
	}
	junk := append(append([]byte(nil), stream[:moof.start]...), bytes.Repeat([]byte{0, 0, 0, 7, 'm', 'o', 'o', 'f'}, 1000)...)
	for name, it := range map[string]struct {
		stream []byte
		rule   string
	}{"short": {stream[:moof.start+20], "Truncated"}, "junk": {junk, "BadSize"}} {
		s := start(t)
		status, text, _ := s.ask("PUT", "/"+name, bytes.NewReader(it.stream))
		if status != 422 || !strings.Contains(text, it.rule+" in moof at "+fmt.Sprint(moof.start)) {
			t.Fatal(name, status, text)
		}
		init, segments, _ := files(s.get("/" + name + "/index.m3u8"))
		if got := s.joined("/"+name, append([]string{init}, segments...)...); !strings.HasPrefix(string(want), got) || len(got) < len(want)/2 {
			t.Fatalf("%s: %d bytes, not a prefix of %d", name, len(got), len(want))
		}
	}
}

// A stream that is broken off within a moof or an mdat keeps its whole fragments, and goes on after a discontinuity.
func TestBrokenOff(t *testing.T) {
	stream, want := given(t)
	s := start(t)
	p := s.push("/live")
	p.Write(stream[:len(stream)*2/3])
	s.soon("no segment", func() bool { status, _, _ := s.ask("GET", "/live/s0.m4s", nil); return status == 200 })
	p.CloseWithError(io.ErrUnexpectedEOF)
	<-p.done
	s.soon("it isn't broken off", func() bool { return !strings.Contains(s.get("/live/index.m3u8"), "PRELOAD-HINT") })
	before := s.get("/live/index.m3u8")
	init, segments, _ := files(before)
	got := s.joined("/live", append([]string{init}, segments...)...)
	if !strings.HasPrefix(string(want), got) || strings.Contains(before, "ENDLIST") {
		t.Fatal(before)
	}
	kinds := boxesOf([]byte(got))
	if last := kinds[len(kinds)-1]; last.kind != "mdat" || last.end != len(got) {
		t.Fatal("it doesn't end with a fragment")
	}
	if status, text, _ := s.ask("PUT", "/live", bytes.NewReader(stream)); status != 200 {
		t.Fatal(status, text)
	}
	after := s.get("/live/index.m3u8")
	first, second, is := strings.Cut(after, "#EXT-X-DISCONTINUITY\n")
	if _, begun, _ := files(first); !is || strings.Join(begun, " ") != strings.Join(segments, " ") {
		t.Fatal(after)
	}
	init, segments, _ = files(second)
	if init != "init1.mp4" || s.joined("/live", append([]string{init}, segments...)...) != string(want) {
		t.Fatal("the second isn't the cut:", second)
	}
}

// Two origins that are fed the same serve the same, whatever the pieces were.
func TestOriginsAgree(t *testing.T) {
	stream, _ := given(t)
	var texts []string
	for _, size := range []int{1316, 50000} {
		s := start(t)
		p := s.push("/live")
		for at := 0; at < len(stream); at += size {
			end := at + size
			if end > len(stream) {
				end = len(stream)
			}
			p.Write(stream[at:end])
		}
		p.Close()
		<-p.done
		playlist := s.get("/live/index.m3u8")
		init, segments, parts := files(playlist)
		texts = append(texts, playlist+s.joined("/live", append(append([]string{init}, segments...), parts...)...))
	}
	if texts[0] != texts[1] {
		t.Fatal("they differ")
	}
}

// Of a stream the window is kept, by time and by bytes, and numbers go on.
func TestWindow(t *testing.T) {
	stream, _ := given(t)
	for _, words := range [][]string{{"-window", "2s"}, {"-memory", "1048576", "-window", "1h"}} {
		s := start(t, words...)
		for i := 0; i < 60; i++ {
			if status, text, _ := s.ask("PUT", "/live", bytes.NewReader(stream)); status != 200 {
				t.Fatal(status, text)
			}
		}
		playlist := s.get("/live/index.m3u8")
		_, segments, _ := files(playlist)
		var first, dropped int
		fmt.Sscan(strings.SplitAfter(playlist, "#EXT-X-MEDIA-SEQUENCE:")[1], &first)
		fmt.Sscan(strings.SplitAfter(playlist, "#EXT-X-DISCONTINUITY-SEQUENCE:")[1], &dropped)
		if first < 10 || dropped+strings.Count(playlist, "#EXT-X-DISCONTINUITY\n") != 59 || segments[0] != segmentName(first) {
			t.Fatal(words, playlist)
		}
		if status, _, _ := s.ask("GET", "/live/"+segmentName(first-1), nil); status != 404 {
			t.Fatal("an old segment is kept")
		}
		sum := 0
		for _, name := range segments {
			sum += len(s.get("/live/" + name))
		}
		if sum > 1<<20 {
			t.Fatal(words, "keeps", sum)
		}
	}
}

// What is whole of a part that is broken off is listed, and no byte more.
func TestBrokenOffWithinAPart(t *testing.T) {
	_, want := given(t)
	s := start(t, "-part", "300ms")
	var ends []int
	for _, b := range boxesOf(want) {
		if b.kind == "mdat" {
			ends = append(ends, b.end)
		}
	}
	p := s.push("/live")
	p.Write(want[:ends[7]+220])
	s.soon("no part", func() bool {
		_, text, _ := s.ask("GET", "/live/index.m3u8", nil)
		return strings.Contains(text, "s0.p1.m4s")
	})
	time.Sleep(100 * time.Millisecond)
	p.CloseWithError(io.ErrUnexpectedEOF)
	<-p.done
	s.soon("it isn't broken off", func() bool { return !strings.Contains(s.get("/live/index.m3u8"), "PRELOAD-HINT") })
	init, _, parts := files(s.get("/live/index.m3u8"))
	if got := s.joined("/live", append([]string{init}, parts...)...); len(parts) != 3 || got != string(want[:ends[7]]) {
		t.Fatalf("%d parts, %d bytes, not %d", len(parts), len(got), ends[7])
	}
}

// Each playlist reports the others that go on, and the list of streams has all.
func TestRenditions(t *testing.T) {
	stream, _ := given(t)
	s := start(t)
	first, second := s.push("/a"), s.push("/b")
	first.Write(stream[:len(stream)/2])
	second.Write(stream[:len(stream)/3])
	for _, name := range []string{"a", "b"} {
		s.soon("no segment", func() bool {
			_, text, _ := s.ask("GET", "/"+name+"/index.m3u8", nil)
			return strings.Contains(text, "s1.p0.m4s")
		})
	}
	begun := time.Now()
	if status, _, _ := s.ask("GET", "/a/s0.p12.m4s", nil); status != 404 || time.Since(begun) > time.Second {
		t.Fatal("a part that its segment ended before:", status, time.Since(begun))
	}
	report := "#EXT-X-RENDITION-REPORT:URI=\"../b/index.m3u8\",LAST-MSN=1,LAST-PART="
	if text := s.get("/a/index.m3u8"); !strings.Contains(text, report) || strings.Contains(text, "../a/") {
		t.Fatal(text)
	}
	text := s.get("/index.m3u8")
	if strings.Count(text, "#EXT-X-STREAM-INF:BANDWIDTH=") != 2 || strings.Count(text, "CODECS=\"mp4a.40.2\"") != 2 || !strings.HasSuffix(text, "\na/index.m3u8\n") && !strings.HasSuffix(text, "\nb/index.m3u8\n") {
		t.Fatal(text)
	}
	second.Write(stream[len(stream)/3:])
	second.Close()
	<-second.done
	if text := s.get("/a/index.m3u8"); strings.Contains(text, "RENDITION-REPORT") {
		t.Fatal("one that has ended is reported:", text)
	}
}

// Streams of sound alone are a group for those with pictures.
func TestSoundIsAGroup(t *testing.T) {
	got := multivariant([]rendition{
		{name: "v", peak: 1000, mean: 900, codecs: []string{"avc1.64000c"}, width: 320, height: 180},
		{name: "s", peak: 100, mean: 90, codecs: []string{"mp4a.40.2"}, isSound: true},
	})
	want := "#EXTM3U\n#EXT-X-VERSION:9\n#EXT-X-INDEPENDENT-SEGMENTS\n" +
		"#EXT-X-MEDIA:TYPE=AUDIO,GROUP-ID=\"sound\",NAME=\"s\",DEFAULT=YES,AUTOSELECT=YES,URI=\"s/index.m3u8\"\n" +
		"#EXT-X-STREAM-INF:BANDWIDTH=1100,AVERAGE-BANDWIDTH=990,RESOLUTION=320x180,CODECS=\"avc1.64000c,mp4a.40.2\",AUDIO=\"sound\"\nv/index.m3u8\n"
	if got != want {
		t.Fatal(got)
	}
}

// A part of a stream of one track is listed with its last byte, before anything comes of the next.
func TestPartsEndWithTheirLastByte(t *testing.T) {
	_, want := given(t)
	s := start(t)
	p := s.push("/live")
	for _, b := range boxesOf(want) {
		if b.kind == "mdat" {
			p.Write(want[:b.end])
			break
		}
	}
	s.soon("the part isn't listed", func() bool {
		_, text, _ := s.ask("GET", "/live/index.m3u8?_HLS_msn=0&_HLS_part=0", nil)
		return strings.Contains(text, "s0.p0.m4s\",INDEPENDENT=YES\n")
	})
}

// A segment begins with a sync sample, once the one before has lasted, and has no more bytes than a stream may keep.
func TestSegments(t *testing.T) {
	c := newChannel(&options{memory: 1 << 20, window: time.Hour, segment: 5 * time.Second}, "x")
	r := c.beginRun(nil)
	s := c.beginSegment(r)
	first := c.beginPart(s)
	p := &packager{to: c, run: r, segment: s}
	for ticks, begins := range map[uint64]bool{4: false, 5: true} {
		first.ticks = ticks
		if p.beginsSegment(&fmp4.Fragment{IsSync: false}) || p.beginsSegment(&fmp4.Fragment{IsSync: true}) != begins {
			t.Fatal(ticks)
		}
	}
	if err := c.add(first, make([]byte, 1<<19)); err != nil {
		t.Fatal(err)
	}
	if err := c.add(first, make([]byte, 1<<20)); err != errTooLarge {
		t.Fatal(err)
	}
}
