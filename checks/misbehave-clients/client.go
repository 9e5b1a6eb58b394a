// Command client PORT [COUNT [SECONDS]]: calls on grpc-go against the server on this port of 127.0.0.1, whatever comes of them.
//
// A call of UnaryCall as in large_unary, then as many more at once (one, if nothing is said). Prints the status of each, and closes
// the channel so many seconds (one) after the last.
package main

import (
	"bytes"
	"context"
	"encoding/binary"
	"fmt"
	"os"
	"strconv"
	"time"

	"google.golang.org/grpc"
	"google.golang.org/grpc/status"
)

const limit = 25 * time.Second

// Messages are bytes.
type codec struct{}

func (codec) Marshal(message interface{}) ([]byte, error) { return *message.(*[]byte), nil }

func (codec) Unmarshal(content []byte, message interface{}) error {
	*message.(*[]byte) = append([]byte(nil), content...)
	return nil
}

func (codec) Name() string { return "proto" }

func varint(value uint64) []byte {
	text := make([]byte, binary.MaxVarintLen64)
	return text[:binary.PutUvarint(text, value)]
}

func block(field uint64, content []byte) []byte {
	return append(append(varint(field<<3|2), varint(uint64(len(content)))...), content...)
}

var (
	request = append(append(varint(2<<3), varint(314159)...), block(3, block(2, make([]byte, 271828)))...)
	reply   = block(1, block(2, make([]byte, 314159)))
)

func call(channel *grpc.ClientConn) string {
	ctx, cancel := context.WithTimeout(context.Background(), limit)
	defer cancel()
	var came []byte
	err := channel.Invoke(ctx, "/grpc.testing.TestService/UnaryCall", &request, &came)
	if err != nil {
		return status.Code(err).String() + " " + status.Convert(err).Message()
	}
	if !bytes.Equal(came, reply) {
		return "OK with another reply"
	}
	return "OK"
}

func main() {
	count, seconds := 1, 1
	if len(os.Args) > 2 {
		count, _ = strconv.Atoi(os.Args[2])
	}
	if len(os.Args) > 3 {
		seconds, _ = strconv.Atoi(os.Args[3])
	}
	channel, err := grpc.Dial("127.0.0.1:"+os.Args[1], grpc.WithInsecure(),
		grpc.WithDefaultCallOptions(grpc.ForceCodec(codec{})))
	if err != nil {
		fmt.Println(err)
		os.Exit(1)
	}
	defer channel.Close()
	fmt.Println(call(channel))
	time.Sleep(100 * time.Millisecond)
	answers := make(chan string)
	for i := 0; i < count; i++ {
		go func() { answers <- call(channel) }()
	}
	for i := 0; i < count; i++ {
		fmt.Println(<-answers)
	}
	time.Sleep(time.Duration(seconds) * time.Second)
}
