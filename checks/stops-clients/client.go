// client PORT OTHER COUNT: so many calls on grpc-go, 32 at a time, to the server on PORT; where it is unavailable, to the one on OTHER.
//
// Says `begun` once some were answered, and last how many were.
package main

import (
	"context"
	"fmt"
	"os"
	"strconv"
	"sync"
	"sync/atomic"
	"time"

	"google.golang.org/grpc"
	"google.golang.org/grpc/codes"
	"google.golang.org/grpc/encoding"
	"google.golang.org/grpc/status"
)

const (
	path   = "/grpc.testing.TestService/EmptyCall"
	atOnce = 32
	limit  = 30 * time.Second
)

// A message as its bytes stand in the stream.
type codec struct{}

func (codec) Marshal(value interface{}) ([]byte, error) { return *value.(*[]byte), nil }

func (codec) Unmarshal(data []byte, value interface{}) error {
	*value.(*[]byte) = append([]byte(nil), data...)
	return nil
}

func (codec) Name() string { return "proto" }

// Whether a call is answered, by the first of the servers that is available.
func isAnswered(connections []*grpc.ClientConn) bool {
	for _, connection := range connections {
		ctx, cancel := context.WithTimeout(context.Background(), limit)
		var request, got []byte
		err := connection.Invoke(ctx, path, &request, &got)
		cancel()
		if err == nil {
			return len(got) == 0
		}
		if status.Code(err) != codes.Unavailable {
			fmt.Fprintln(os.Stderr, "a call failed:", err)
			return false
		}
	}
	return false
}

func main() {
	encoding.RegisterCodec(codec{})
	count, _ := strconv.Atoi(os.Args[3])
	var connections []*grpc.ClientConn
	for _, port := range os.Args[1:3] {
		connection, err := grpc.Dial("127.0.0.1:"+port, grpc.WithInsecure(), grpc.WithBlock(), grpc.WithTimeout(limit))
		if err != nil {
			fmt.Println(err)
			os.Exit(1)
		}
		connections = append(connections, connection)
	}
	var begun, answered int64
	var workers sync.WaitGroup
	for i := 0; i < atOnce; i++ {
		workers.Add(1)
		go func() {
			defer workers.Done()
			for atomic.AddInt64(&begun, 1) <= int64(count) {
				if isAnswered(connections) && atomic.AddInt64(&answered, 1) == int64(count/4) {
					fmt.Println("begun")
				}
			}
		}()
	}
	workers.Wait()
	for _, connection := range connections {
		connection.Close()
	}
	fmt.Println("answered", answered)
}
