// fmp4-origin takes live streams of fragmented MP4 by HTTP, and serves each as low-latency HLS and as DASH. docs/ORIGIN.md
// says what it answers, and what it holds.
package main

import (
	"context"
	"errors"
	"flag"
	"fmt"
	"log"
	"net"
	"net/http"
	"os"
	"os/signal"
	"strings"
	"sync"
	"syscall"
	"time"
)

// options are what the origin was started with.
type options struct {
	listen                                 string
	part, segment, window, silence, linger time.Duration
	memory                                 int // the most bytes of a stream's window
	streams, clients                       int
	token                                  string
	patience                               time.Duration // what a client has for a request's headers, and for a piece of its reply
}

// The most that the headers of a request may have, in bytes.
const headerBytes = 16 << 10

// How long a connection is kept between two requests.
const idleTime = 60 * time.Second

// How long requests go on once the origin ends.
const endTime = 800 * time.Millisecond

func asked(words []string) (*options, error) {
	o, token := &options{patience: 10 * time.Second}, ""
	flags := flag.NewFlagSet("fmp4-origin", flag.ContinueOnError)
	flags.StringVar(&o.listen, "listen", "127.0.0.1:8080", "the `address` to listen at")
	flags.DurationVar(&o.part, "part", 333*time.Millisecond, "how long a part lasts at most")
	flags.DurationVar(&o.segment, "segment", 2*time.Second, "after which a sync sample begins a segment")
	flags.DurationVar(&o.window, "window", 30*time.Second, "how much of a stream is kept")
	flags.DurationVar(&o.silence, "silence", 30*time.Second, "after which a stream that sends nothing is broken off")
	flags.DurationVar(&o.linger, "linger", 10*time.Second, "how long a stream that was broken off may come again before it ends")
	flags.IntVar(&o.memory, "memory", 64<<20, "the most `bytes` of a stream that are kept")
	flags.IntVar(&o.streams, "streams", 16, "the most streams at a time")
	flags.IntVar(&o.clients, "clients", 4096, "the most connections at a time")
	flags.StringVar(&token, "token", "", "a `file` with the token that who sends a stream has to know")
	if err := flags.Parse(words); err != nil {
		return nil, err
	}
	if flags.NArg() > 0 {
		return nil, fmt.Errorf("%s: not an option", flags.Arg(0))
	}
	if o.part < time.Millisecond || o.segment < o.part || o.window < o.segment || o.memory < 1<<20 || o.streams < 1 || o.clients < 1 {
		return nil, errors.New("a part lasts for a millisecond at the least, a segment for a part, a window for a segment; 1 MiB of memory, a stream and a client are the least")
	}
	if token == "" {
		return o, nil
	}
	text, err := os.ReadFile(token)
	if o.token = strings.TrimSpace(string(text)); err == nil && o.token == "" {
		err = fmt.Errorf("%s: has no token", token)
	}
	return o, err
}

// connection is the key of a request's connection in its context.
type connection struct{}

// limited is a listener with at most so many connections: others wait until one is closed.
type limited struct {
	net.Listener
	free chan struct{}
}

func (l limited) Accept() (net.Conn, error) {
	l.free <- struct{}{}
	conn, err := l.Listener.Accept()
	if err != nil {
		<-l.free
		return nil, err
	}
	return &counted{Conn: conn, free: l.free}, nil
}

// counted is a connection that is counted until it is closed.
type counted struct {
	net.Conn
	free chan struct{}
	once sync.Once
}

func (c *counted) Close() error {
	c.once.Do(func() { <-c.free })
	return c.Conn.Close()
}

func newServer(o *origin) *http.Server {
	return &http.Server{
		Handler:           o,
		ReadHeaderTimeout: o.options.patience,
		IdleTimeout:       idleTime,
		MaxHeaderBytes:    headerBytes,
		ConnContext: func(ctx context.Context, conn net.Conn) context.Context {
			return context.WithValue(ctx, connection{}, conn)
		},
	}
}

// serve serves until the context is done. Then all streams end, and requests have a moment for what is left.
func serve(ctx context.Context, listener net.Listener, o *origin) error {
	server, failed := newServer(o), make(chan error, 1)
	go func() { failed <- server.Serve(limited{listener, make(chan struct{}, o.options.clients)}) }()
	select {
	case err := <-failed:
		return err
	case <-ctx.Done():
	}
	o.end()
	last, cancel := context.WithTimeout(context.Background(), endTime)
	defer cancel()
	if server.Shutdown(last) != nil {
		server.Close()
	}
	return nil
}

func main() {
	asked, err := asked(os.Args[1:])
	if errors.Is(err, flag.ErrHelp) {
		return
	}
	if err != nil {
		fmt.Fprintln(os.Stderr, "fmp4-origin:", err)
		os.Exit(64)
	}
	listener, err := net.Listen("tcp", asked.listen)
	if err != nil {
		log.Fatal(err)
	}
	log.Printf("listening at %s", listener.Addr())
	ctx, stop := signal.NotifyContext(context.Background(), syscall.SIGTERM, os.Interrupt)
	defer stop()
	if err := serve(ctx, listener, newOrigin(asked)); err != nil {
		log.Fatal(err)
	}
}
