// The workloads of src/main.rs on goroutines and channels without a buffer: workloads NAME SCALE prints the rendezvous that it
// made and the nanoseconds that they took. A nack is a channel that is closed.
package main

import (
	"fmt"
	"os"
	"strconv"
	"sync"
	"time"
)

func runAll(works []func()) {
	var left sync.WaitGroup
	left.Add(len(works))
	for _, work := range works {
		go func(work func()) {
			defer left.Done()
			work()
		}(work)
	}
	left.Wait()
}

func times(rounds int, work func()) func() {
	return func() {
		for n := 0; n < rounds; n++ {
			work()
		}
	}
}

func pingPong(rounds int) int {
	to, back := make(chan uint64), make(chan uint64)
	var value uint64
	runAll([]func(){
		times(rounds, func() { to <- value; value = <-back }),
		times(rounds, func() { back <- <-to + 1 }),
	})
	return 2 * rounds
}

func ring(rounds int) int {
	first := make(chan uint64)
	from := first
	var works []func()
	for n := 1; n < 64; n++ {
		own, to := from, make(chan uint64)
		works = append(works, times(rounds, func() { to <- <-own + 1 }))
		from = to
	}
	var value uint64
	runAll(append(works, times(rounds, func() { first <- value; value = <-from })))
	return 64 * rounds
}

func pairs(rounds, count int) int {
	var works []func()
	for n := 0; n < count; n++ {
		channel := make(chan uint64)
		works = append(works, times(rounds, func() { channel <- 7 }), times(rounds, func() { <-channel }))
	}
	runAll(works)
	return count * rounds
}

func fanIn(rounds, width int) int {
	const senders = 62
	var works []func()
	channels := make([]chan uint64, 2*width)
	for n := range channels {
		channels[n] = make(chan uint64)
	}
	for receiver := 0; receiver < 2; receiver++ {
		c := channels[width*receiver : width*(receiver+1)]
		works = append(works, times(rounds*senders/2, func() {
			if width == 4 {
				select {
				case <-c[0]:
				case <-c[1]:
				case <-c[2]:
				case <-c[3]:
				}
				return
			}
			select {
			case <-c[0]:
			case <-c[1]:
			case <-c[2]:
			case <-c[3]:
			case <-c[4]:
			case <-c[5]:
			case <-c[6]:
			case <-c[7]:
			}
		}))
	}
	for n := 0; n < senders; n++ {
		to := channels[width*(n%2)+n/2%width]
		works = append(works, times(rounds, func() { to <- 7 }))
	}
	runAll(works)
	return rounds * senders
}

type request struct {
	reply chan uint64
	gone  chan struct{}
}

func nacks(rounds int) int {
	var works []func()
	for n := 0; n < 32; n++ {
		reply, requests, other := make(chan uint64), make(chan request), make(chan uint64)
		works = append(works, times(rounds, func() {
			gone := make(chan struct{})
			requests <- request{reply, gone}
			select {
			case <-reply:
			case <-other:
				close(gone)
			}
		}), times(rounds, func() {
			asked := <-requests
			other <- 9
			select {
			case asked.reply <- 7:
			case <-asked.gone:
			}
		}))
	}
	runAll(works)
	return 32 * 3 * rounds
}

func main() {
	scale, _ := strconv.Atoi(os.Args[2])
	begun := time.Now()
	var made int
	switch os.Args[1] {
	case "ping_pong":
		made = pingPong(512 * scale)
	case "ring":
		made = ring(512 * scale)
	case "two":
		made = pairs(1000*scale, 2)
	case "pairs":
		made = pairs(1000*scale, 32)
	case "fan_in":
		made = fanIn(33*scale, 4)
	case "fan_in_8":
		made = fanIn(33*scale, 8)
	case "nacks":
		made = nacks(64 * scale)
	}
	fmt.Println(made, time.Since(begun).Nanoseconds())
}
