// PAIRS ROUNDS PROCESSORS: Go's channel without a buffer.
package main

import (
	"fmt"
	"os"
	"runtime"
	"strconv"
	"sync"
	"time"
)

func main() {
	pairs, _ := strconv.Atoi(os.Args[1])
	n, _ := strconv.Atoi(os.Args[2])
	procs, _ := strconv.Atoi(os.Args[3])
	runtime.GOMAXPROCS(procs)
	var wg sync.WaitGroup
	start := time.Now()
	for i := 0; i < pairs; i++ {
		c := make(chan uint64)
		wg.Add(2)
		go func() { for i := 0; i < n; i++ { c <- uint64(i) }; wg.Done() }()
		go func() { var s uint64; for i := 0; i < n; i++ { s += <-c }; wg.Done() }()
	}
	wg.Wait()
	fmt.Printf("%.0f\n", float64(time.Since(start).Nanoseconds())/float64(n*pairs))
}
