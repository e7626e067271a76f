// A server of HTTP and eight clients of it, in one process.
package main

import (
	"fmt"
	"io"
	"net/http"
	"net/http/httptest"
	"sync"
)

func main() {
	var calls sync.WaitGroup
	var lock sync.Mutex
	sum := 0
	server := httptest.NewServer(http.HandlerFunc(func(w http.ResponseWriter, r *http.Request) {
		fmt.Fprintf(w, "%d", len(r.URL.Path))
	}))
	for i := 0; i < 8; i++ {
		calls.Add(1)
		go func(number int) {
			defer calls.Done()
			for j := 0; j < 20; j++ {
				answer, err := http.Get(fmt.Sprintf("%s/%d/%d", server.URL, number, j))
				if err != nil {
					panic(err)
				}
				text, _ := io.ReadAll(answer.Body)
				answer.Body.Close()
				lock.Lock()
				sum += len(text)
				lock.Unlock()
			}
		}(i)
	}
	calls.Wait()
	server.Close()
	fmt.Println(sum)
}
