// client PORT: the fourteen interop cases on grpc-go, against the server on this port of 127.0.0.1.
//
// Prints `case NAME ok`, or `case NAME failed` and why. Exits with 1 where a case failed.
package main

import (
	"bytes"
	"context"
	"encoding/binary"
	"fmt"
	"io"
	"os"
	"time"

	"google.golang.org/grpc"
	"google.golang.org/grpc/codes"
	"google.golang.org/grpc/encoding"
	"google.golang.org/grpc/metadata"
	"google.golang.org/grpc/status"
)

const (
	service  = "/grpc.testing.TestService/"
	limit    = 30 * time.Second
	initial  = "x-grpc-test-echo-initial"
	trailing = "x-grpc-test-echo-trailing-bin"
	special  = "\t\ntest with whitespace\r\nand Unicode BMP \u263a and non-BMP \U0001f608\t\n"
)

// A message as its bytes stand in the stream.
type message []byte

type codec struct{}

func (codec) Marshal(value interface{}) ([]byte, error) { return *value.(*message), nil }

func (codec) Unmarshal(data []byte, value interface{}) error {
	*value.(*message) = append(message(nil), data...)
	return nil
}

func (codec) Name() string { return "proto" }

func number(field, value uint64) message {
	if value == 0 {
		return nil
	}
	return binary.AppendUvarint(binary.AppendUvarint(nil, field<<3), value)
}

func block(field uint64, content message) message {
	head := binary.AppendUvarint(binary.AppendUvarint(nil, field<<3|2), uint64(len(content)))
	return append(head, content...)
}

func payload(field, size uint64) message { return block(field, block(2, make([]byte, size))) }

func asked(code uint64, text string) message {
	return block(7, append(number(1, code), block(2, message(text))...))
}

func simpleRequest(size, body uint64) message { return append(number(2, size), payload(3, body)...) }

func outputRequest(sizes []uint64, body uint64) (request message) {
	for _, size := range sizes {
		request = append(request, block(2, number(1, size))...)
	}
	return append(request, payload(3, body)...)
}

// Whether these are the bytes of a response with a body of so many zeros, in the server's canonical spelling.
func needResponse(got message, size uint64) error {
	wanted := payload(1, size)
	if size == 0 {
		wanted = block(1, nil)
	}
	return need(bytes.Equal(got, wanted), "a response of %d bytes, and not one with a body of %d zeros", len(got), size)
}

func need(holds bool, why string, values ...interface{}) error {
	if holds {
		return nil
	}
	return fmt.Errorf(why, values...)
}

func needStatus(err error, code codes.Code, text string) error {
	got := status.Convert(err)
	if got.Code() != code {
		return fmt.Errorf("status %v (%q), and not %v", got.Code(), got.Message(), code)
	}
	return need(got.Message() == text || text == "*", "message %q, and not %q", got.Message(), text)
}

// The first of these that isn't nil.
func first(faults ...error) error {
	for _, it := range faults {
		if it != nil {
			return it
		}
	}
	return nil
}

type caller struct {
	connection *grpc.ClientConn
	context    context.Context
}

func (it caller) unary(path string, request message, options ...grpc.CallOption) (got message, err error) {
	err = it.connection.Invoke(it.context, path, &request, &got, options...)
	return got, err
}

func (it caller) stream(method string, requests ...message) (grpc.ClientStream, error) {
	description := &grpc.StreamDesc{ClientStreams: true, ServerStreams: true}
	stream, err := it.connection.NewStream(it.context, description, service+method)
	for _, request := range requests {
		if err == nil {
			request := request
			err = stream.SendMsg(&request)
		}
	}
	return stream, err
}

// Sends the end, and reads the responses and the end, nil where the status is OK.
func finish(stream grpc.ClientStream) (got []message, err error) {
	if err = stream.CloseSend(); err != nil {
		return nil, err
	}
	for {
		var one message
		if err = stream.RecvMsg(&one); err == io.EOF {
			return got, nil
		} else if err != nil {
			return got, err
		}
		got = append(got, one)
	}
}

// All responses of a call with these requests have bodies of these sizes.
func answers(it caller, method string, requests []message, sizes []uint64) error {
	stream, err := it.stream(method, requests...)
	if err != nil {
		return err
	}
	got, err := finish(stream)
	if err == nil {
		err = need(len(got) == len(sizes), "%d responses, and not %d", len(got), len(sizes))
	}
	for i := 0; err == nil && i < len(got); i++ {
		err = needResponse(got[i], sizes[i])
	}
	return err
}

func emptyUnary(it caller) error {
	got, err := it.unary(service+"EmptyCall", nil)
	return first(err, need(len(got) == 0, "a response of %d bytes", len(got)))
}

func largeUnary(it caller) error {
	got, err := it.unary(service+"UnaryCall", simpleRequest(314159, 271828))
	return first(err, needResponse(got, 314159))
}

func clientStreaming(it caller) error {
	stream, err := it.stream("StreamingInputCall", payload(1, 27182), payload(1, 8), payload(1, 1828), payload(1, 45904))
	if err != nil {
		return err
	}
	got, err := finish(stream)
	wanted := number(1, 27182+8+1828+45904)
	return first(err, need(len(got) == 1 && bytes.Equal(got[0], wanted), "%x, and not %x", got, wanted))
}

func serverStreaming(it caller) error {
	sizes := []uint64{31415, 9, 2653, 58979}
	return answers(it, "StreamingOutputCall", []message{outputRequest(sizes, 0)}, sizes)
}

func pingPong(it caller) error {
	stream, err := it.stream("FullDuplexCall")
	if err != nil {
		return err
	}
	for _, pair := range [][2]uint64{{31415, 27182}, {9, 8}, {2653, 1828}, {58979, 45904}} {
		request := outputRequest([]uint64{pair[0]}, pair[1])
		var got message
		if err := first(stream.SendMsg(&request), stream.RecvMsg(&got)); err != nil {
			return err
		}
		if err := needResponse(got, pair[0]); err != nil {
			return err
		}
	}
	got, err := finish(stream)
	return first(err, need(len(got) == 0, "%d responses too many", len(got)))
}

func emptyStream(it caller) error { return answers(it, "FullDuplexCall", nil, nil) }

func needEchoes(head, trailers metadata.MD) error {
	return first(
		need(fmt.Sprint(head[initial]) == "[test_initial_metadata_value]", "%s: %q", initial, head[initial]),
		need(fmt.Sprint(trailers[trailing]) == "[\xab\xab\xab]", "%s: %q", trailing, trailers[trailing]))
}

func customMetadata(it caller) error {
	it.context = metadata.AppendToOutgoingContext(it.context, initial, "test_initial_metadata_value", trailing, "\xab\xab\xab")
	var head, trailers metadata.MD
	got, err := it.unary(service+"UnaryCall", simpleRequest(314159, 271828), grpc.Header(&head), grpc.Trailer(&trailers))
	if err := first(err, needResponse(got, 314159), needEchoes(head, trailers)); err != nil {
		return err
	}
	stream, err := it.stream("FullDuplexCall", outputRequest([]uint64{314159}, 271828))
	if err != nil {
		return err
	}
	all, err := finish(stream)
	if err := first(err, need(len(all) == 1, "%d responses", len(all))); err != nil {
		return err
	}
	head, err = stream.Header()
	return first(err, needResponse(all[0], 314159), needEchoes(head, stream.Trailer()))
}

func statusCodeAndMessage(it caller) error {
	const text = "test status message"
	_, err := it.unary(service+"UnaryCall", asked(2, text))
	if err := needStatus(err, codes.Unknown, text); err != nil {
		return err
	}
	stream, err := it.stream("FullDuplexCall", asked(2, text))
	if err != nil {
		return err
	}
	got, err := finish(stream)
	return first(needStatus(err, codes.Unknown, text), need(len(got) == 0, "%d responses", len(got)))
}

func specialStatusMessage(it caller) error {
	_, err := it.unary(service+"UnaryCall", asked(2, special))
	return needStatus(err, codes.Unknown, special)
}

func unimplementedMethod(it caller) error {
	_, err := it.unary(service+"UnimplementedCall", nil)
	return needStatus(err, codes.Unimplemented, "*")
}

func unimplementedService(it caller) error {
	_, err := it.unary("/grpc.testing.UnimplementedService/UnimplementedCall", nil)
	return needStatus(err, codes.Unimplemented, "*")
}

func cancelAfterBegin(it caller) error {
	var cancel context.CancelFunc
	it.context, cancel = context.WithCancel(it.context)
	stream, err := it.stream("StreamingInputCall")
	time.Sleep(20 * time.Millisecond)
	cancel()
	if err != nil {
		return err
	}
	var got message
	return needStatus(stream.RecvMsg(&got), codes.Canceled, "*")
}

func cancelAfterFirstResponse(it caller) error {
	var cancel context.CancelFunc
	it.context, cancel = context.WithCancel(it.context)
	defer cancel()
	stream, err := it.stream("FullDuplexCall", outputRequest([]uint64{31415}, 27182))
	if err != nil {
		return err
	}
	var got, more message
	if err := first(stream.RecvMsg(&got), needResponse(got, 31415)); err != nil {
		return err
	}
	cancel()
	return needStatus(stream.RecvMsg(&more), codes.Canceled, "*")
}

func timeoutOnSleepingServer(it caller) error {
	var cancel context.CancelFunc
	it.context, cancel = context.WithTimeout(it.context, time.Millisecond)
	defer cancel()
	stream, err := it.stream("FullDuplexCall", payload(3, 27182))
	if err == nil || err == io.EOF {
		var got message
		err = stream.RecvMsg(&got)
	}
	return needStatus(err, codes.DeadlineExceeded, "*")
}

var cases = []struct {
	name string
	run  func(caller) error
}{
	{"empty_unary", emptyUnary},
	{"large_unary", largeUnary},
	{"client_streaming", clientStreaming},
	{"server_streaming", serverStreaming},
	{"ping_pong", pingPong},
	{"empty_stream", emptyStream},
	{"custom_metadata", customMetadata},
	{"status_code_and_message", statusCodeAndMessage},
	{"special_status_message", specialStatusMessage},
	{"unimplemented_method", unimplementedMethod},
	{"unimplemented_service", unimplementedService},
	{"cancel_after_begin", cancelAfterBegin},
	{"cancel_after_first_response", cancelAfterFirstResponse},
	{"timeout_on_sleeping_server", timeoutOnSleepingServer},
}

func main() {
	encoding.RegisterCodec(codec{})
	connection, err := grpc.Dial("127.0.0.1:"+os.Args[1], grpc.WithInsecure(), grpc.WithBlock(), grpc.WithTimeout(limit))
	if err != nil {
		fmt.Println(err)
		os.Exit(1)
	}
	exit := 0
	for _, it := range cases {
		ctx, cancel := context.WithTimeout(context.Background(), limit)
		if err := it.run(caller{connection, ctx}); err != nil {
			fmt.Printf("case %s failed %v\n", it.name, err)
			exit = 1
		} else {
			fmt.Printf("case %s ok\n", it.name)
		}
		cancel()
	}
	os.Exit(exit)
}
