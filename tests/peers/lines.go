// What inserts and look-ups cost in two libraries of Go: lines [KEYS [ROUNDS [WORD]]], in those with
// the word in their names.
//
// blobloom keeps all bits of a key in one line of the cache, and takes hashes; willf/bloom takes
// bytes, here the eight of each hash. Both have ten bits a key and seven hashes, and get the hashes
// of hashes.c, whose rows these are like.
package main

import (
	"encoding/binary"
	"fmt"
	"os"
	"strconv"
	"strings"
	"time"

	"github.com/greatroar/blobloom"
	"github.com/willf/bloom"
)

const (
	block  = 1024
	hashes = 7
)

type row struct {
	library, call string
	make          func([]uint64) int
	first         uint64
	best          time.Duration
	found         int
}

func spread(number uint64) uint64 {
	word := number + 0x9e3779b97f4a7c15
	word = (word ^ word>>30) * 0xbf58476d1ce4e5b9
	word = (word ^ word>>27) * 0x94d049bb133111eb
	return word ^ word>>31
}

// Makes the calls of this many keys. Hashes are made in blocks, which isn't timed.
func (it *row) measure(keys uint64) {
	var room [block]uint64
	var spent time.Duration
	it.found = 0
	for at := uint64(0); at < keys; {
		count := 0
		for ; count < block && at < keys; at++ {
			room[count] = spread(it.first + at)
			count++
		}
		began := time.Now()
		it.found += it.make(room[:count])
		spent += time.Since(began)
	}
	if it.best == 0 || spent < it.best {
		it.best = spent
	}
}

func number(at int, otherwise uint64) uint64 {
	if len(os.Args) <= at {
		return otherwise
	}
	value, err := strconv.ParseUint(os.Args[at], 10, 64)
	if err != nil || value == 0 {
		os.Exit(2)
	}
	return value
}

func main() {
	keys, rounds := number(1, 1000000), number(2, 3)
	word := ""
	if len(os.Args) > 3 {
		word = os.Args[3]
	}
	lines := blobloom.New(keys*10, hashes)
	words := bloom.New(uint(keys*10), hashes)
	insert := func(some []uint64) int {
		for _, hash := range some {
			lines.Add(hash)
		}
		return 0
	}
	lookUp := func(some []uint64) int {
		found := 0
		for _, hash := range some {
			if lines.Has(hash) {
				found++
			}
		}
		return found
	}
	var text [8]byte
	insertBytes := func(some []uint64) int {
		for _, hash := range some {
			binary.LittleEndian.PutUint64(text[:], hash)
			words.Add(text[:])
		}
		return 0
	}
	lookUpBytes := func(some []uint64) int {
		found := 0
		for _, hash := range some {
			binary.LittleEndian.PutUint64(text[:], hash)
			if words.Test(text[:]) {
				found++
			}
		}
		return found
	}
	rows := []*row{
		{library: "blobloom", call: "insert", make: insert},
		{library: "blobloom", call: "hit", make: lookUp},
		{library: "blobloom", call: "miss", make: lookUp, first: keys},
		{library: "willf", call: "insert", make: insertBytes},
		{library: "willf", call: "hit", make: lookUpBytes},
		{library: "willf", call: "miss", make: lookUpBytes, first: keys},
	}
	for round := uint64(0); round < rounds; round++ {
		lines.Clear()
		words.ClearAll()
		for _, it := range rows {
			if strings.Contains(it.library, word) {
				it.measure(keys)
			}
		}
	}
	fmt.Printf("%-14s %-6s %9s %11s %9s\n", "library", "call", "keys", "nanoseconds", "true")
	for _, it := range rows {
		if !strings.Contains(it.library, word) {
			continue
		}
		fmt.Printf("%-14s %-6s %9d %11.2f %9d\n", it.library, it.call, keys,
			float64(it.best.Nanoseconds())/float64(keys), it.found)
		if it.call == "hit" && uint64(it.found) != keys {
			os.Exit(1)
		}
	}
}
