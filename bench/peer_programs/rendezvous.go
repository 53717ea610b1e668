// The workloads of bench/workload on goroutines and unbuffered channels, for bench/peers.
package main

import (
	"os"
	"strconv"
	"sync"
)

// all runs the functions as goroutines, and waits for them.
func all(tasks []func()) {
	var left sync.WaitGroup
	left.Add(len(tasks))
	for _, task := range tasks {
		task := task
		go func() {
			task()
			left.Done()
		}()
	}
	left.Wait()
}

func channels(count int) []chan int {
	made := make([]chan int, count)
	for n := range made {
		made[n] = make(chan int)
	}
	return made
}

func pairs(rounds int) {
	var tasks []func()
	for _, channel := range channels(32) {
		channel := channel
		tasks = append(tasks, func() {
			for i := 0; i < rounds; i++ {
				channel <- i
			}
		}, func() {
			for i := 0; i < rounds; i++ {
				<-channel
			}
		})
	}
	all(tasks)
}

func ring(rounds int) {
	made := channels(64)
	tasks := []func(){func() {
		for i := 0; i < rounds; i++ {
			made[0] <- 1
			<-made[63]
		}
	}}
	for p := 1; p < 64; p++ {
		from, to := made[p-1], made[p]
		tasks = append(tasks, func() {
			for i := 0; i < rounds; i++ {
				to <- <-from
			}
		})
	}
	all(tasks)
}

func pingpong(rounds int) {
	ping, pong := make(chan int), make(chan int)
	all([]func(){func() {
		for i := 0; i < rounds; i++ {
			ping <- 1
			<-pong
		}
	}, func() {
		for i := 0; i < rounds; i++ {
			pong <- <-ping
		}
	}})
}

// fanin has 62 senders on four channels, and two receivers that choose among these.
func fanin(rounds int) {
	made := channels(4)
	var tasks []func()
	for p := 0; p < 62; p++ {
		channel := made[p%4]
		tasks = append(tasks, func() {
			for i := 0; i < rounds; i++ {
				channel <- i
			}
		})
	}
	receive := func() {
		for i := 0; i < 31*rounds; i++ {
			select {
			case <-made[0]:
			case <-made[1]:
			case <-made[2]:
			case <-made[3]:
			}
		}
	}
	all(append(tasks, receive, receive))
}

// starts starts 63 goroutines that do nothing, and waits for their ends.
func starts(rounds int) {
	tasks := make([]func(), 63)
	for p := range tasks {
		tasks[p] = func() {}
	}
	for i := 0; i < rounds; i++ {
		all(tasks)
	}
}

func main() {
	rounds, err := strconv.Atoi(os.Args[2])
	if err != nil {
		panic(err)
	}
	switch os.Args[1] {
	case "pairs", "pairs_split":
		pairs(rounds)
	case "ring":
		ring(rounds)
	case "pingpong":
		pingpong(rounds)
	case "fanin":
		fanin(rounds)
	case "starts":
		starts(rounds)
	}
}
