package main

import (
	"encoding/binary"
	"fmt"
	"math/bits"
	"regexp"
	"strings"
)

// Types that may be a part of a playlist.
var kinds = regexp.MustCompile("^[A-Za-z0-9-]{4}$")

// track is what a playlist says of a track of a moov.
type track struct {
	id            uint32
	handler       string
	timescale     uint64
	codec         string // as in RFC 6381; empty where it isn't known
	width, height int
}

// each calls a function for each box in some bytes, ISO/IEC 14496-12, 4.2, with what follows its header.
func each(bytes []byte, do func(kind string, body []byte)) {
	for len(bytes) >= 8 {
		size, header := uint64(binary.BigEndian.Uint32(bytes)), uint64(8)
		if size == 1 && len(bytes) >= 16 {
			size, header = binary.BigEndian.Uint64(bytes[8:]), 16
		}
		if size == 0 {
			size = uint64(len(bytes))
		}
		if size < header || size > uint64(len(bytes)) {
			return
		}
		do(string(bytes[4:8]), bytes[header:size])
		bytes = bytes[size:]
	}
}

// within calls a function for each box of a kind that is in others, one in the other.
func within(bytes []byte, path string, do func(body []byte)) {
	kind, rest, isNested := strings.Cut(path, "/")
	each(bytes, func(found string, body []byte) {
		switch {
		case found != kind:
		case isNested:
			within(body, rest, do)
		default:
			do(body)
		}
	})
}

// after is what comes after the version and flags of a box and so many bytes more: less in version 0.
func after(body []byte, zero, one int) []byte {
	skipped := 4 + zero
	if len(body) > 0 && body[0] == 1 {
		skipped = 4 + one
	}
	if len(body) < skipped {
		return nil
	}
	return body[skipped:]
}

func number(body []byte) uint32 {
	if len(body) < 4 {
		return 0
	}
	return binary.BigEndian.Uint32(body)
}

// tracksOf are the tracks of an init segment, in the order of its moov; one of which nothing is known if it has none.
func tracksOf(init []byte) (tracks []track) {
	within(init, "moov/trak", func(trak []byte) {
		t := track{timescale: 1}
		within(trak, "tkhd", func(body []byte) { t.id = number(after(body, 8, 16)) })
		within(trak, "mdia/mdhd", func(body []byte) {
			if n := number(after(body, 8, 16)); n > 0 {
				t.timescale = uint64(n)
			}
		})
		within(trak, "mdia/hdlr", func(body []byte) {
			if len(body) >= 12 {
				t.handler = string(body[8:12])
			}
		})
		within(trak, "mdia/minf/stbl/stsd", func(body []byte) {
			each(after(body, 4, 4), func(kind string, entry []byte) {
				if t.codec == "" {
					t.setEntry(kind, entry)
				}
			})
		})
		tracks = append(tracks, t)
	})
	if len(tracks) == 0 {
		tracks = []track{{timescale: 1}}
	}
	return tracks
}

// setEntry takes what a sample entry says: ISO/IEC 14496-12, 12.1.3 and 12.2.3.
func (t *track) setEntry(kind string, entry []byte) {
	inner := 28
	if t.handler == "vide" {
		inner = 78
	}
	if len(entry) < inner || !kinds.MatchString(kind) {
		return
	}
	if t.handler == "vide" {
		t.width = int(binary.BigEndian.Uint16(entry[24:]))
		t.height = int(binary.BigEndian.Uint16(entry[26:]))
	}
	each(entry[inner:], func(found string, body []byte) {
		if codec := codecOf(kind, found, body); codec != "" {
			t.codec = codec
		}
	})
}

// codecOf is the codec of a sample entry by a box in it, empty where that isn't known.
func codecOf(kind, found string, body []byte) string {
	switch {
	case found == "avcC" && len(body) >= 4:
		return fmt.Sprintf("%s.%02x%02x%02x", kind, body[1], body[2], body[3])
	case found == "hvcC" && len(body) >= 13:
		return hevc(kind, body)
	case found == "av1C" && len(body) >= 3:
		return av1(body)
	case found == "vpcC" && len(body) >= 7:
		return fmt.Sprintf("%s.%02d.%02d.%02d", kind, body[4], body[5], body[6]>>4)
	case found == "esds":
		return mpeg4(body)
	case found == "dOps":
		return "opus"
	case found == "dfLa":
		return "flac"
	case found == "dac3":
		return "ac-3"
	case found == "dec3":
		return "ec-3"
	}
	return ""
}

// hevc is a codec by its hvcC: ISO/IEC 14496-15, annex E.
func hevc(kind string, body []byte) string {
	tier := "L"
	if body[1]&0x20 != 0 {
		tier = "H"
	}
	space := []string{"", "A", "B", "C"}[body[1]>>6]
	out := fmt.Sprintf("%s.%s%d.%X.%s%d", kind, space, body[1]&0x1f, bits.Reverse32(number(body[2:])), tier, body[12])
	constraints := body[6:12]
	for len(constraints) > 0 && constraints[len(constraints)-1] == 0 {
		constraints = constraints[:len(constraints)-1]
	}
	for _, b := range constraints {
		out += fmt.Sprintf(".%X", b)
	}
	return out
}

// av1 is a codec by its av1C.
func av1(body []byte) string {
	tier, depth := "M", 8
	if body[2]&0x80 != 0 {
		tier = "H"
	}
	if body[2]&0x40 != 0 {
		depth = 10
		if body[2]&0x20 != 0 {
			depth = 12
		}
	}
	return fmt.Sprintf("av01.%d.%02d%s.%02d", body[1]>>5, body[1]&0x1f, tier, depth)
}

// mpeg4 is a codec by its esds: the object type, and that of the audio (ISO/IEC 14496-1, 7.2.6; 14496-3, 1.6.2).
func mpeg4(body []byte) string {
	object, audio := -1, -1
	descriptors(after(body, 0, 0), 3, func(tag byte, body []byte) {
		switch {
		case tag == 4 && len(body) > 0:
			object = int(body[0])
		case tag == 5 && len(body) > 1:
			audio = int(body[0] >> 3)
			if audio == 31 {
				audio = 32 + int(body[0]&7)<<3 + int(body[1]>>5)
			}
		}
	})
	switch {
	case object < 0:
		return ""
	case object == 0x40 && audio >= 0:
		return fmt.Sprintf("mp4a.40.%d", audio)
	}
	return fmt.Sprintf("mp4a.%02X", object)
}

// descriptors calls a function for each descriptor in some bytes, and for those in it, as deep as they are here.
func descriptors(bytes []byte, depth int, do func(tag byte, body []byte)) {
	for len(bytes) >= 2 && depth > 0 {
		tag, size, at := bytes[0], 0, 1
		for at < len(bytes) {
			at++
			size = size<<7 | int(bytes[at-1]&0x7f)
			if bytes[at-1]&0x80 == 0 || at == 5 {
				break
			}
		}
		if size > len(bytes)-at {
			return
		}
		body := bytes[at : at+size]
		do(tag, body)
		switch {
		case tag == 3 && len(body) >= 3:
			descriptors(body[3:], depth-1, do)
		case tag == 4 && len(body) >= 13:
			descriptors(body[13:], depth-1, do)
		}
		bytes = bytes[at+size:]
	}
}
