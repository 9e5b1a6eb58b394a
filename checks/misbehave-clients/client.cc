// client PORT [COUNT]: calls on grpc C++ against the server on this port of 127.0.0.1, whatever comes of them.
//
// A call of UnaryCall as in large_unary, then as many more at once (one, if nothing is said). Prints the status of each.
//
//     g++ -O1 -std=c++17 client.cc -o client $(pkg-config --cflags --libs grpc++) -lpthread
#include <grpcpp/generic/generic_stub.h>
#include <grpcpp/grpcpp.h>

#include <chrono>
#include <cstdlib>
#include <iostream>
#include <memory>
#include <string>
#include <thread>
#include <vector>

static std::string varint(unsigned value) {
  std::string text;
  for (; value > 127; value >>= 7) text += static_cast<char>((value & 127) | 128);
  return text + static_cast<char>(value);
}

static std::string block(unsigned field, const std::string& content) {
  return varint(field << 3 | 2) + varint(content.size()) + content;
}

static std::string bytes_of(const grpc::ByteBuffer& buffer) {
  std::vector<grpc::Slice> slices;
  std::string text;
  if (!buffer.Dump(&slices).ok()) return text;
  for (const auto& slice : slices) text.append(reinterpret_cast<const char*>(slice.begin()), slice.size());
  return text;
}

static std::string call(grpc::GenericStub& stub) {
  static const std::string request = varint(2 << 3) + varint(314159) + block(3, block(2, std::string(271828, 0)));
  static const std::string wanted = block(1, block(2, std::string(314159, 0)));
  grpc::ClientContext context;
  context.set_deadline(std::chrono::system_clock::now() + std::chrono::seconds(25));
  grpc::CompletionQueue queue;
  grpc::Slice slice(request);
  grpc::ByteBuffer asked(&slice, 1), came;
  grpc::Status status;
  auto reader = stub.PrepareUnaryCall(&context, "/grpc.testing.TestService/UnaryCall", asked, &queue);
  reader->StartCall();
  reader->Finish(&came, &status, nullptr);
  void* tag;
  bool ok;
  queue.Next(&tag, &ok);
  if (!status.ok()) return std::to_string(status.error_code()) + " " + status.error_message();
  return bytes_of(came) == wanted ? "OK" : "OK with another reply";
}

int main(int argc, char** argv) {
  int count = argc > 2 ? std::atoi(argv[2]) : 1;
  int seconds = argc > 3 ? std::atoi(argv[3]) : 1;
  grpc::ChannelArguments arguments;
  arguments.SetInt("grpc.enable_http_proxy", 0);
  arguments.SetInt("grpc.use_local_subchannel_pool", 1);
  grpc::GenericStub stub(
      grpc::CreateCustomChannel("127.0.0.1:" + std::string(argv[1]), grpc::InsecureChannelCredentials(), arguments));
  std::cout << call(stub) << std::endl;
  std::this_thread::sleep_for(std::chrono::milliseconds(100));
  std::vector<std::string> answers(count);
  std::vector<std::thread> threads;
  for (auto& answer : answers) threads.emplace_back([&stub, &answer] { answer = call(stub); });
  for (auto& thread : threads) thread.join();
  for (const auto& answer : answers) std::cout << answer << std::endl;
  std::this_thread::sleep_for(std::chrono::seconds(seconds));
}
