// Goroutines, channels, interfaces, maps, a switch with many cases, and a panic that is recovered.
package main

import (
	"bufio"
	"fmt"
	"os"
	"sort"
	"strings"
)

type step interface{ apply(uint32) uint32 }
type add uint32
type turn uint32

func (a add) apply(x uint32) uint32  { return x + uint32(a) }
func (t turn) apply(x uint32) uint32 { return x<<uint32(t) | x>>(32-uint32(t)) }

func stepOf(letter byte) step {
	switch letter % 13 {
	case 0:
		return add(7)
	case 1:
		return turn(3)
	case 2:
		return add(9)
	case 3:
		return turn(5)
	case 4:
		return add(11)
	case 5:
		return turn(7)
	case 6:
		return add(13)
	case 7:
		return turn(9)
	case 8:
		return add(1)
	case 9:
		return turn(1)
	}
	panic("no step")
}

func mark(word string, to chan<- string) {
	x := uint32(1)
	defer func() {
		if fault := recover(); fault != nil {
			to <- fmt.Sprintf("%-12s %v", word, fault)
		}
	}()
	for at := 0; at < len(word); at++ {
		x = stepOf(word[at]).apply(x)
	}
	to <- fmt.Sprintf("%-12s %08x", word, x)
}

func main() {
	in, told, count, lines := bufio.NewScanner(os.Stdin), make(chan string), 0, map[string]int{}
	for in.Scan() {
		for _, word := range strings.Fields(in.Text()) {
			go mark(word, told)
			count++
		}
	}
	for at := 0; at < count; at++ {
		lines[<-told]++
	}
	all := make([]string, 0, len(lines))
	for line, times := range lines {
		all = append(all, fmt.Sprintf("%s %d", line, times))
	}
	sort.Strings(all)
	fmt.Println(strings.Join(all, "\n"))
	os.Exit(count % 100)
}
