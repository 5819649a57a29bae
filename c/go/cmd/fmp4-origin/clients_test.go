package main

import (
	"crypto/sha256"
	"encoding/hex"
	"fmt"
	"hash"
	"io"
	"net"
	"net/http"
	"os"
	"regexp"
	"strconv"
	"strings"
	"sync"
	"testing"
	"time"
)

var listed = regexp.MustCompile(`#EXT-X-PART:.*URI="(s(\d+)\.p(\d+)\.m4s)"`)

// client reads a playlist as low-latency HLS has it, and each part as it is listed: in order, and once.
type client struct {
	http          *http.Client
	url           string
	segment, part int // the next
	first         int
	sums          []hash.Hash // of each segment since the first
	parts, late   int         // how many parts it took, and how many segments whose parts were no longer listed
}

func (c *client) get(path string) (string, error) {
	response, err := c.http.Get(c.url + path)
	if err != nil {
		return "", err
	}
	defer response.Body.Close()
	text, err := io.ReadAll(response.Body)
	if err == nil && response.StatusCode != 200 {
		err = fmt.Errorf("%s: %d %s", path, response.StatusCode, text)
	}
	return string(text), err
}

// catchUp fetches the segments whose parts are no longer listed.
func (c *client) catchUp(first string) error {
	for oldest, _ := strconv.Atoi(first); c.sums != nil && c.segment < oldest; c.late++ {
		text, err := c.get("/" + segmentName(c.segment))
		if err != nil {
			return err
		}
		sum := sha256.New()
		io.WriteString(sum, text)
		c.sums = append(c.sums[:c.segment-c.first], sum)
		c.segment, c.part = c.segment+1, 0
	}
	return nil
}

// take fetches the parts that are new in a playlist.
func (c *client) take(playlist string) error {
	all := listed.FindAllStringSubmatch(playlist, -1)
	if len(all) > 0 {
		if err := c.catchUp(all[0][2]); err != nil {
			return err
		}
	}
	for _, found := range all {
		segment, _ := strconv.Atoi(found[2])
		part, _ := strconv.Atoi(found[3])
		if c.sums == nil {
			c.first, c.segment, c.part = segment, segment, part
			if part != 0 {
				return fmt.Errorf("a segment begins with part %d", part)
			}
		}
		if segment < c.segment || segment == c.segment && part < c.part {
			continue
		}
		isNext := segment == c.segment && part == c.part || segment == c.segment+1 && part == 0
		if !isNext {
			return fmt.Errorf("%s after part %d of %d", found[1], c.part-1, c.segment)
		}
		text, err := c.get("/" + found[1])
		if err != nil {
			return err
		}
		if part == 0 {
			c.sums = append(c.sums, sha256.New())
		}
		io.WriteString(c.sums[len(c.sums)-1], text)
		c.segment, c.part, c.parts = segment, part+1, c.parts+1
	}
	return nil
}

// run reads until the stream ends.
func (c *client) run() error {
	path := "/index.m3u8"
	for {
		playlist, err := c.get(path)
		if err != nil {
			return err
		}
		if err := c.take(playlist); err != nil {
			return err
		}
		if strings.HasSuffix(playlist, "#EXT-X-ENDLIST\n") {
			return nil
		}
		path = fmt.Sprintf("/index.m3u8?_HLS_msn=%d&_HLS_part=%d", c.segment, c.part)
	}
}

// check compares what a client got with the segments of the last playlist.
func (c *client) check(whole map[int]string) error {
	seen := 0
	for i, sum := range c.sums {
		if want, is := whole[c.first+i]; is {
			seen++
			if want != hex.EncodeToString(sum.Sum(nil)) {
				return fmt.Errorf("segment %d differs", c.first+i)
			}
		}
	}
	if seen == 0 || seen < len(c.sums)-1 {
		return fmt.Errorf("%d of %d segments are compared", seen, len(c.sums))
	}
	return nil
}

// runClients has so many clients read a stream to its end, and compares.
func runClients(t *testing.T, url string, count int) {
	transport := &http.Transport{MaxIdleConnsPerHost: count}
	clients, errs := make([]client, count), make([]error, count)
	var all sync.WaitGroup
	for i := range clients {
		clients[i] = client{http: &http.Client{Transport: transport}, url: url}
		all.Add(1)
		go func(i int) {
			defer all.Done()
			errs[i] = clients[i].run()
		}(i)
	}
	all.Wait()
	last, err := clients[0].get("/index.m3u8")
	if err != nil {
		t.Fatal(err)
	}
	_, names, _ := files(last)
	whole := map[int]string{}
	for _, name := range names {
		text, err := clients[0].get("/" + name)
		if err != nil {
			t.Fatal(err)
		}
		sum, number := sha256.Sum256([]byte(text)), 0
		fmt.Sscanf(name, "s%d.m4s", &number)
		whole[number] = hex.EncodeToString(sum[:])
	}
	parts, late := 0, 0
	for i := range clients {
		if errs[i] == nil {
			errs[i] = clients[i].check(whole)
		}
		if errs[i] != nil {
			t.Errorf("client %d: %v", i, errs[i])
		}
		parts, late = parts+clients[i].parts, late+clients[i].late
	}
	fmt.Printf("%d clients, %d parts, each in order and once, and %d segments of late clients\n", count, parts, late)
}

// Clients get each part in order and once: those of the origin that FMP4_ORIGIN names, or of one that the test starts.
func TestClients(t *testing.T) {
	count := 50
	if text := os.Getenv("FMP4_CLIENTS"); text != "" {
		count, _ = strconv.Atoi(text)
	}
	if url := os.Getenv("FMP4_ORIGIN"); url != "" {
		runClients(t, url, count)
		return
	}
	stream, _ := given(t)
	s := start(t, "-segment", "500ms")
	p := s.push("/live")
	p.Write(stream[:2000])
	go func() {
		for at := 2000; at < len(stream); at += 500 {
			end := at + 500
			if end > len(stream) {
				end = len(stream)
			}
			p.Write(stream[at:end])
			time.Sleep(50 * time.Millisecond)
		}
		p.Close()
	}()
	s.soon("no playlist", func() bool { status, _, _ := s.ask("GET", "/live/index.m3u8", nil); return status == 200 })
	runClients(t, s.url+"/live", count)
}

// over is a reply over a connection, without headers.
type over struct {
	http.ResponseWriter
	net.Conn
}

func (o over) Write(bytes []byte) (int, error) { return o.Conn.Write(bytes) }

// A client has some time for each piece of a reply, and no more, also where nothing but the piece is written.
func TestPatience(t *testing.T) {
	for _, reads := range []bool{false, true} {
		to, from := net.Pipe()
		w, result := reply{over{nil, to}, to, 200 * time.Millisecond}, make(chan error, 1)
		go func() {
			_, err := w.Write(make([]byte, 3*pieceBytes))
			result <- err
		}()
		piece := make([]byte, pieceBytes)
		for i := 0; reads && i < 3; i++ {
			time.Sleep(100 * time.Millisecond)
			io.ReadFull(from, piece)
		}
		select {
		case err := <-result:
			if reads != (err == nil) {
				t.Error("reads:", reads, err)
			}
		case <-time.After(2 * time.Second):
			t.Error("a client that takes nothing is waited for")
		}
		to.Close()
		from.Close()
	}
}
