// server PORT-FILE: grpc.testing.TestService on grpc-go, on a free port of 127.0.0.1, whose number it writes to a file.
package main

import (
	"context"
	"encoding/binary"
	"fmt"
	"io"
	"log"
	"net"
	"os"

	"google.golang.org/grpc"
	"google.golang.org/grpc/codes"
	"google.golang.org/grpc/encoding"
	"google.golang.org/grpc/metadata"
	"google.golang.org/grpc/status"
)

// A message as its bytes stand in the stream.
type message []byte

type codec struct{}

func (codec) Marshal(value interface{}) ([]byte, error) { return *value.(*message), nil }

func (codec) Unmarshal(data []byte, value interface{}) error {
	*value.(*message) = append(message(nil), data...)
	return nil
}

func (codec) Name() string { return "proto" }

type field struct {
	number, value uint64
	bytes         []byte
}

// The fields of a message, each a number or bytes behind their length.
func fieldsOf(data []byte) (fields []field) {
	next := func() uint64 {
		value, length := binary.Uvarint(data)
		data = data[length:]
		return value
	}
	for len(data) > 0 {
		tag := next()
		it := field{number: tag >> 3, value: next()}
		if tag&7 == 2 {
			it.bytes, data = data[:it.value], data[it.value:]
		}
		fields = append(fields, it)
	}
	return fields
}

// The last value of a field, or nothing.
func last(data []byte, number uint64) (found field) {
	for _, it := range fieldsOf(data) {
		if it.number == number {
			found = it
		}
	}
	return found
}

func block(number uint64, content []byte) []byte {
	head := binary.AppendUvarint(binary.AppendUvarint(nil, number<<3|2), uint64(len(content)))
	return append(head, content...)
}

// A response with a payload of so many zero bytes.
func reply(size uint64) *message {
	it := message(block(1, block(2, make([]byte, size))))
	return &it
}

// The status that a request asks for.
func judge(request message) error {
	asked := last(request, 7).bytes
	return status.Error(codes.Code(last(asked, 1).value), string(last(asked, 2).bytes))
}

// What a call asks to be echoed: in the response's head, and in its trailers.
func echoes(ctx context.Context) (head, trailers metadata.MD) {
	asked, _ := metadata.FromIncomingContext(ctx)
	head, trailers = metadata.MD{}, metadata.MD{}
	head.Append("x-grpc-test-echo-initial", asked["x-grpc-test-echo-initial"]...)
	trailers.Append("x-grpc-test-echo-trailing-bin", asked["x-grpc-test-echo-trailing-bin"]...)
	return head, trailers
}

func empty(context.Context, message) (*message, error) { return &message{}, nil }

func unary(_ context.Context, request message) (*message, error) {
	return reply(last(request, 2).value), judge(request)
}

func sumUp(stream grpc.ServerStream) error {
	sum := 0
	for {
		var request message
		if err := stream.RecvMsg(&request); err == io.EOF {
			it := message(binary.AppendUvarint([]byte{1 << 3}, uint64(sum)))
			return stream.SendMsg(&it)
		} else if err != nil {
			return err
		}
		sum += len(last(last(request, 1).bytes, 2).bytes)
	}
}

// Answers each request of a stream with the responses that it asks for, or the status.
func replies(stream grpc.ServerStream) error {
	head, trailers := echoes(stream.Context())
	if err := stream.SetHeader(head); err != nil {
		return err
	}
	stream.SetTrailer(trailers)
	for {
		var request message
		if err := stream.RecvMsg(&request); err == io.EOF {
			return nil
		} else if err != nil {
			return err
		}
		if err := judge(request); err != nil {
			return err
		}
		for _, it := range fieldsOf(request) {
			if it.number != 2 {
				continue
			}
			if err := stream.SendMsg(reply(last(it.bytes, 1).value)); err != nil {
				return err
			}
		}
	}
}

func unaryMethod(name string, answer func(context.Context, message) (*message, error)) grpc.MethodDesc {
	handler := func(_ interface{}, ctx context.Context, read func(interface{}) error, _ grpc.UnaryServerInterceptor) (interface{}, error) {
		var request message
		if err := read(&request); err != nil {
			return nil, err
		}
		head, trailers := echoes(ctx)
		if err := grpc.SetHeader(ctx, head); err != nil {
			return nil, err
		}
		if err := grpc.SetTrailer(ctx, trailers); err != nil {
			return nil, err
		}
		return answer(ctx, request)
	}
	return grpc.MethodDesc{MethodName: name, Handler: handler}
}

func streamMethod(name string, answer func(grpc.ServerStream) error) grpc.StreamDesc {
	handler := func(_ interface{}, stream grpc.ServerStream) error { return answer(stream) }
	return grpc.StreamDesc{StreamName: name, Handler: handler, ServerStreams: true, ClientStreams: true}
}

func main() {
	encoding.RegisterCodec(codec{})
	listener, err := net.Listen("tcp", "127.0.0.1:0")
	if err != nil {
		log.Fatal(err)
	}
	server := grpc.NewServer()
	server.RegisterService(&grpc.ServiceDesc{
		ServiceName: "grpc.testing.TestService",
		HandlerType: (*interface{})(nil),
		Methods:     []grpc.MethodDesc{unaryMethod("EmptyCall", empty), unaryMethod("UnaryCall", unary)},
		Streams: []grpc.StreamDesc{
			streamMethod("StreamingInputCall", sumUp),
			streamMethod("StreamingOutputCall", replies),
			streamMethod("FullDuplexCall", replies),
		},
	}, nil)
	port := fmt.Sprintf("%d\n", listener.Addr().(*net.TCPAddr).Port)
	if err := os.WriteFile(os.Args[1], []byte(port), 0o644); err != nil {
		log.Fatal(err)
	}
	log.Fatal(server.Serve(listener))
}
