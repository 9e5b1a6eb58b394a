// Closed-loop load generator for grpc.testing.TestService over cleartext HTTP/2 (prior knowledge),
// on libnghttp2, one thread. Counts are fixed and bounded; every reply is checked (status, message
// count and length). Prints `begin`, `end` around what is measured, then one JSON line. It survives GOAWAY code 0: calls at or below its last id
// finish, refused ones are made again on a new connection.
//
// usage: load HOST:PORT METRIC [--calls N] [--conc C] [--per-conn N] [--window BYTES] [--warm N]
//                [--trips N] [--msgs N] [--size BYTES] [--secs S]
// METRIC: empty_unary, large_unary, server_streaming, client_streaming, ping_pong, churn, idle, big_unary
#include <arpa/inet.h>
#include <errno.h>
#include <fcntl.h>
#include <netinet/in.h>
#include <netinet/tcp.h>
#include <nghttp2/nghttp2.h>
#include <poll.h>
#include <stdarg.h>
#include <stdio.h>
#include <stdlib.h>
#include <string.h>
#include <sys/resource.h>
#include <sys/socket.h>
#include <time.h>
#include <unistd.h>

#include <algorithm>
#include <map>
#include <memory>
#include <string>
#include <vector>

using std::string;

static uint64_t Now() {
  timespec t;
  clock_gettime(CLOCK_MONOTONIC, &t);
  return uint64_t(t.tv_sec) * 1000000000u + t.tv_nsec;
}
[[noreturn]] static void Die(const char* f, ...) {
  va_list a;
  va_start(a, f);
  char b[400];
  vsnprintf(b, sizeof b, f, a);
  va_end(a);
  for (char* p = b; *p; p++)
    if (*p == '"' || *p == '\\') *p = '\'';
  printf("{\"error\": \"%s\"}\n", b);
  exit(1);
}

// Options.
static sockaddr_in addr;
static string authority, metric;
static long calls = 0, conc = 1, per_conn = 4000, window = 1 << 20, warm = -1, trips = 1000, msgs = 64,
            msg_size = 1 << 20;
static double secs = 2;

// Protobuf and length prefix, by hand.
static void Varint(string& s, uint64_t v) {
  while (v >= 128) s += char(v | 128), v >>= 7;
  s += char(v);
}
static string Bytes(int field, const string& b) {
  string s;
  Varint(s, field * 8 + 2), Varint(s, b.size());
  return s + b;
}
static string Int(int field, uint64_t v) {
  string s;
  Varint(s, field * 8), Varint(s, v);
  return s;
}
static string Framed(const string& m) {
  string s(5, '\0');
  for (int i = 0; i < 4; i++) s[1 + i] = char(m.size() >> (24 - 8 * i));
  return s + m;
}
static string Payload(int field, size_t n) { return Bytes(field, n ? Bytes(2, string(n, '\0')) : string()); }
static size_t ReplyLen(size_t n) { return Payload(1, n).size(); }  // SimpleResponse, StreamingOutputCallResponse

struct Conn;
struct Call {
  Conn* conn = nullptr;
  int32_t id = 0;
  uint64_t start = 0, mark = 0;
  string out;  // request bytes not yet sent
  size_t pos = 0;
  bool half_close = true, failed_http = false, grpc_seen = false;
  int status = -1;
  string message;
  // Length-prefixed reading.
  uint8_t pre[5];
  unsigned npre = 0;
  uint64_t left = 0, cur = 0, got = 0, bytes = 0;
};

struct Job {  // what is to be done; the handlers below fill it
  string path, request;
  size_t reply_len = 0;
  uint64_t replies = 1;
};
static Job job;

struct Conn {
  int fd = -1;
  nghttp2_session* s = nullptr;
  long opened = 0;
  bool draining = false, dead = false;
  std::map<int32_t, Call*> live;
  string obuf;
  size_t opos = 0;
};
static std::vector<std::unique_ptr<Conn>> conns;
static Conn* cur = nullptr;
static std::vector<uint64_t> lat;
static uint64_t done_calls = 0, retries = 0, goaways = 0, connects = 0, errors = 0, reply_bytes = 0;
static string first_error;
static uint64_t progress;
static std::vector<Call*> again;       // calls to be made anew
static std::vector<Call*> finished;    // closed calls, handled after the session callbacks
static void (*on_message)(Call*) = nullptr;

static void Error(const string& why) {
  if (!errors++) first_error = why;
  if (errors > 10) Die("%s (and %lu more)", first_error.c_str(), (unsigned long)errors - 1);
}

static ssize_t ReadBody(nghttp2_session*, int32_t, uint8_t* buf, size_t len, uint32_t* flags,
                        nghttp2_data_source* src, void*) {
  Call* c = (Call*)src->ptr;
  size_t n = std::min(len, c->out.size() - c->pos);
  memcpy(buf, c->out.data() + c->pos, n);
  c->pos += n;
  if (c->pos == c->out.size()) {
    if (c->half_close)
      *flags |= NGHTTP2_DATA_FLAG_EOF;
    else if (n == 0)
      return NGHTTP2_ERR_DEFERRED;
  }
  return n;
}
static int OnHeader(nghttp2_session* s, const nghttp2_frame* f, const uint8_t* name, size_t nlen, const uint8_t* val,
                    size_t vlen, uint8_t, void*) {
  Call* c = (Call*)nghttp2_session_get_stream_user_data(s, f->hd.stream_id);
  if (!c) return 0;
  if (nlen == 11 && !memcmp(name, "grpc-status", 11)) c->status = atoi(string((char*)val, vlen).c_str());
  if (nlen == 12 && !memcmp(name, "grpc-message", 12)) c->message.assign((char*)val, vlen);
  if (nlen == 7 && !memcmp(name, ":status", 7) && (vlen != 3 || memcmp(val, "200", 3))) c->failed_http = true;
  return 0;
}
static int OnData(nghttp2_session* s, uint8_t, int32_t id, const uint8_t* d, size_t n, void*) {
  Call* c = (Call*)nghttp2_session_get_stream_user_data(s, id);
  if (!c) return 0;
  c->bytes += n;
  while (n) {
    if (c->npre < 5) {
      c->pre[c->npre++] = *d++, n--;
      if (c->npre < 5) continue;
      if (c->pre[0]) Error("compressed flag in a reply");
      c->cur = c->left = uint64_t(c->pre[1]) << 24 | c->pre[2] << 16 | c->pre[3] << 8 | c->pre[4];
    }
    size_t k = std::min<uint64_t>(n, c->left);
    c->left -= k, d += k, n -= k;
    if (!c->left) {
      c->npre = 0, c->got++;
      if (c->cur != job.reply_len) Error("reply of " + std::to_string(c->cur) + " bytes");
      if (on_message) on_message(c);
    }
  }
  return 0;
}
static int OnFrame(nghttp2_session*, const nghttp2_frame* f, void* u) {
  if (f->hd.type == NGHTTP2_GOAWAY) {
    Conn* k = (Conn*)u;
    goaways++;
    k->draining = true;
    if (f->goaway.error_code) Error("GOAWAY code " + std::to_string(f->goaway.error_code));
  }
  return 0;
}
static int OnClose(nghttp2_session*, int32_t id, uint32_t code, void* u) {
  Conn* k = (Conn*)u;
  auto it = k->live.find(id);
  if (it == k->live.end()) return 0;
  Call* c = it->second;
  k->live.erase(it);
  if (code == NGHTTP2_REFUSED_STREAM) {
    retries++;
    again.push_back(c);
    return 0;
  }
  if (code != 0) Error("stream " + std::to_string(id) + " closed with code " + std::to_string(code));
  finished.push_back(c);
  return 0;
}
static int OnNotSend(nghttp2_session*, const nghttp2_frame* f, int, void* u) {
  Conn* k = (Conn*)u;
  auto it = k->live.find(f->hd.stream_id);
  if (f->hd.type == NGHTTP2_HEADERS && it != k->live.end()) {
    retries++;
    again.push_back(it->second);
    k->live.erase(it);
    k->draining = true;
  }
  return 0;
}

static nghttp2_session_callbacks* Callbacks() {
  static nghttp2_session_callbacks* cb = nullptr;
  if (!cb) {
    nghttp2_session_callbacks_new(&cb);
    nghttp2_session_callbacks_set_on_header_callback(cb, OnHeader);
    nghttp2_session_callbacks_set_on_data_chunk_recv_callback(cb, OnData);
    nghttp2_session_callbacks_set_on_frame_recv_callback(cb, OnFrame);
    nghttp2_session_callbacks_set_on_stream_close_callback(cb, OnClose);
    nghttp2_session_callbacks_set_on_frame_not_send_callback(cb, OnNotSend);
  }
  return cb;
}

static Conn* Open() {
  auto k = std::make_unique<Conn>();
  k->fd = socket(AF_INET, SOCK_STREAM, 0);
  if (k->fd < 0 || connect(k->fd, (sockaddr*)&addr, sizeof addr)) Die("connect: %s", strerror(errno));
  int one = 1;
  setsockopt(k->fd, IPPROTO_TCP, TCP_NODELAY, &one, sizeof one);
  fcntl(k->fd, F_SETFL, O_NONBLOCK);
  nghttp2_session_client_new(&k->s, Callbacks(), k.get());
  nghttp2_settings_entry e[] = {{NGHTTP2_SETTINGS_ENABLE_PUSH, 0},
                                {NGHTTP2_SETTINGS_INITIAL_WINDOW_SIZE, uint32_t(window)}};
  nghttp2_submit_settings(k->s, 0, e, 2);
  nghttp2_session_set_local_window_size(k->s, 0, 0, window);
  connects++;
  conns.push_back(std::move(k));
  return conns.back().get();
}

static void Shut(Conn* k) {
  nghttp2_session_del(k->s);
  close(k->fd);
  if (cur == k) cur = nullptr;
  for (auto it = conns.begin(); it != conns.end(); ++it)
    if (it->get() == k) {
      conns.erase(it);
      return;
    }
}

static nghttp2_nv Nv(const char* n, const string& v) {
  return nghttp2_nv{(uint8_t*)n, (uint8_t*)v.data(), strlen(n), v.size(), NGHTTP2_NV_FLAG_NONE};
}
static void Submit(Call* c) {
  static const string post = "POST", http = "http", te = "trailers", ct = "application/grpc";
  if (cur && (cur->draining || cur->dead || (per_conn && cur->opened >= per_conn))) cur->draining = true, cur = nullptr;
  if (!cur) cur = Open();
  c->conn = cur;
  c->pos = c->npre = 0, c->left = c->got = c->bytes = 0, c->status = -1, c->failed_http = false;
  c->message.clear();
  if (!c->start) c->start = c->mark = Now();
  nghttp2_nv h[] = {Nv(":method", post), Nv(":scheme", http),     Nv(":path", job.path),
                    Nv(":authority", authority), Nv("te", te), Nv("content-type", ct)};
  nghttp2_data_provider p;
  p.source.ptr = c;
  p.read_callback = ReadBody;
  c->id = nghttp2_submit_request(cur->s, nullptr, h, sizeof h / sizeof *h, &p, c);
  if (c->id < 0) Die("submit: %s", nghttp2_strerror(c->id));
  cur->live[c->id] = c;
  cur->opened++;
}

static void Fail(Conn* k, const char* why) {
  k->dead = true;
  if (k->live.size() && !k->draining) Error(string("connection ") + why + " with live calls");
  for (auto& x : k->live) retries++, again.push_back(x.second);
  if (retries > 100000) Die("too many retries");
  k->live.clear();
}
static void Write(Conn* k) {
  for (;;) {
    while (k->obuf.size() - k->opos < 65536) {
      const uint8_t* d;
      ssize_t n = nghttp2_session_mem_send(k->s, &d);
      if (n < 0) Die("mem_send: %s", nghttp2_strerror(n));
      if (n == 0) break;
      k->obuf.append((const char*)d, n);
    }
    if (k->opos == k->obuf.size()) {
      k->obuf.clear(), k->opos = 0;
      return;
    }
    ssize_t n = send(k->fd, k->obuf.data() + k->opos, k->obuf.size() - k->opos, MSG_NOSIGNAL);
    if (n < 0) {
      if (errno == EAGAIN) return;
      return Fail(k, strerror(errno));
    }
    k->opos += n;
    if (k->opos > (1 << 20)) k->obuf.erase(0, k->opos), k->opos = 0;
    progress = Now();
  }
}
static void Read(Conn* k) {
  static uint8_t buf[262144];
  for (;;) {
    ssize_t n = recv(k->fd, buf, sizeof buf, 0);
    if (n < 0 && errno == EAGAIN) return;
    if (n <= 0) return Fail(k, n ? strerror(errno) : "closed by the server");
    progress = Now();
    ssize_t r = nghttp2_session_mem_recv(k->s, buf, n);
    if (r < 0) Die("mem_recv: %s", nghttp2_strerror(r));
    if (n < (ssize_t)sizeof buf) return;
  }
}
// One turn: write, wait, read, write.
static void Turn(int ms = 100) {
  static std::vector<pollfd> p;
  p.clear();
  for (size_t i = 0; i < conns.size();) {
    Conn* k = conns[i].get();
    if (!k->dead) Write(k);
    if (k->dead || (k->draining && k->live.empty() && k != cur)) {
      Shut(k);
      continue;
    }
    if (k->draining && k->live.empty() && k == cur) {
      Shut(k);
      continue;
    }
    p.push_back({k->fd, short(POLLIN | (k->opos < k->obuf.size() ? POLLOUT : 0)), 0});
    i++;
  }
  if (p.empty() || again.size() || finished.size()) ms = 0;
  poll(p.data(), p.size(), ms);
  for (size_t i = 0; i < p.size(); i++)
    if (p[i].revents) {
      Conn* k = conns[i].get();
      Read(k);
      if (!k->dead) Write(k);
    }
  if (Now() - progress > 20000000000u) Die("no progress for 20 s (%lu calls done)", (unsigned long)done_calls);
}

static void Check(Call* c) {
  if (c->failed_http || c->status != 0)
    Error("grpc-status " + std::to_string(c->status) + " '" + c->message + "'");
  else if (c->got != job.replies || c->npre)
    Error(std::to_string(c->got) + " replies of " + std::to_string(job.replies));
}

// n calls, conc at a time, each with job.request and half-close.
static void Loop(long n, bool keep) {
  std::vector<std::unique_ptr<Call>> pool;
  long started = 0, done = 0;
  for (long i = 0; i < std::min(conc, n); i++) {
    pool.push_back(std::make_unique<Call>());
    pool.back()->out = job.request;
    Submit(pool.back().get());
    started++;
  }
  while (done < n) {
    Turn();
    std::vector<Call*> a, f;
    a.swap(again), f.swap(finished);
    for (Call* c : a) Submit(c);
    for (Call* c : f) {
      Check(c);
      reply_bytes += c->bytes;
      if (keep) lat.push_back(Now() - c->start);
      done++, done_calls++;
      if (started < n) c->start = 0, Submit(c), started++;
    }
  }
}

static uint64_t trips_left = 0;
static string trip;
static bool keep_trips = false;
static void PingPong(Call* c) {
  uint64_t t = Now();
  if (keep_trips) lat.push_back(t - c->mark);
  c->mark = t;
  if (trips_left == 0)
    c->half_close = true;
  else
    trips_left--, c->out = trip, c->pos = 0;
  nghttp2_session_resume_data(c->conn->s, c->id);
}
static void OneByteTrips(long n, bool keep) {  // one call of n round trips
  Call c;
  job.path = "/grpc.testing.TestService/FullDuplexCall";
  trip = Framed(Bytes(2, Int(1, 1)) + Payload(3, 1));
  job.reply_len = ReplyLen(1), job.replies = n;
  c.out = trip, c.half_close = false;
  trips_left = n - 1, keep_trips = keep, on_message = PingPong;
  Submit(&c);
  while (finished.empty()) {
    Turn();
    if (again.size()) again.clear(), Die("ping_pong call refused");
  }
  finished.clear();
  Check(&c);
  on_message = nullptr;
  done_calls++;
}
static void Gap(Call* c) {  // time between messages
  uint64_t t = Now();
  lat.push_back(t - c->mark);
  c->mark = t;
}

static uint64_t t0, t1;
static double cpu0, cpu1;
static double Cpu() {
  rusage u;
  getrusage(RUSAGE_SELF, &u);
  return u.ru_utime.tv_sec + u.ru_stime.tv_sec + (u.ru_utime.tv_usec + u.ru_stime.tv_usec) / 1e6;
}
// The caller reads the server's CPU time at these two lines.
static void Begin() { printf("begin\n"), fflush(stdout), cpu0 = Cpu(), t0 = Now(); }
static void End() { t1 = Now(), cpu1 = Cpu(), printf("end\n"), fflush(stdout); }

int main(int argc, char** argv) {
  if (argc < 3) return fprintf(stderr, "usage: load HOST:PORT METRIC [options]\n"), 2;
  authority = argv[1], metric = argv[2];
  size_t colon = authority.rfind(':');
  addr.sin_family = AF_INET;
  if (colon == string::npos || inet_pton(AF_INET, authority.substr(0, colon).c_str(), &addr.sin_addr) != 1)
    Die("HOST must be a numeric IPv4 address");
  addr.sin_port = htons(atoi(authority.c_str() + colon + 1));
  for (int i = 3; i + 1 < argc; i += 2) {
    string o = argv[i];
    long v = atol(argv[i + 1]);
    if (o == "--calls") calls = v;
    else if (o == "--conc") conc = v;
    else if (o == "--per-conn") per_conn = v;
    else if (o == "--window") window = v;
    else if (o == "--warm") warm = v;
    else if (o == "--trips") trips = v;
    else if (o == "--msgs") msgs = v;
    else if (o == "--size") msg_size = v;
    else if (o == "--secs") secs = atof(argv[i + 1]);
    else Die("unknown option %s", o.c_str());
  }
  if (conc < 1 || conc > 64) Die("--conc is 1 to 64");
  progress = Now();
  double mb = 0;  // megabytes of bodies moved
  uint64_t ops = 0;
  const char* unit = "calls";
  const string base = "/grpc.testing.TestService/";
  if (metric == "empty_unary" || metric == "large_unary" || metric == "big_unary") {
    double per_call = 0;
    if (metric == "empty_unary")
      job = {base + "EmptyCall", Framed(""), 0, 1};
    else if (metric == "large_unary")
      job = {base + "UnaryCall", Framed(Int(2, 314159) + Payload(3, 271828)), ReplyLen(314159), 1}, per_call = 585987;
    else
      job = {base + "UnaryCall", Framed(Int(2, 4000000)), ReplyLen(4000000), 1}, per_call = 4000000;
    if (!calls) calls = metric == "empty_unary" ? 8000 : metric == "large_unary" ? 200 : 20;
    if (warm) Loop(warm > 0 ? warm : std::max(conc, calls / 20), false);
    Begin();
    Loop(calls, true);
    End();
    ops = calls, mb = per_call * calls / 1e6;
  } else if (metric == "server_streaming") {  // `calls` calls of `msgs` replies of `msg_size` bytes; latency: gap between replies
    if (!calls) calls = 2;
    string req;
    for (long i = 0; i < msgs; i++) req += Bytes(2, Int(1, msg_size));
    job = {base + "StreamingOutputCall", Framed(req), ReplyLen(msg_size), uint64_t(msgs)};
    conc = 1;
    if (warm) Loop(1, false);
    on_message = Gap;
    Begin();
    Loop(calls, false);
    End();
    ops = calls * msgs, mb = double(ops) * msg_size / 1e6, unit = "messages";
  } else if (metric == "client_streaming") {  // one call, `msgs` requests of `msg_size` bytes
    if (!calls) calls = 2;
    string one = Framed(Payload(1, msg_size)), req;
    for (long i = 0; i < msgs; i++) req += one;
    if (uint64_t(msgs) * msg_size > 2147483647u) Die("sum is out of range");
    job = {base + "StreamingInputCall", req, Int(1, uint64_t(msgs) * msg_size).size(), 1};
    conc = 1;
    Begin();
    Loop(calls, true);
    End();
    ops = calls * msgs, mb = double(ops) * msg_size / 1e6, unit = "messages";
  } else if (metric == "ping_pong") {  // `calls` calls of `trips` round trips of one-byte bodies
    if (!calls) calls = 4;
    if (warm) OneByteTrips(100, false);
    Begin();
    for (long i = 0; i < calls; i++) OneByteTrips(trips, true);
    End();
    ops = calls * trips, unit = "round trips";
  } else if (metric == "churn") {  // connect, one EmptyCall, close
    if (!calls) calls = 500;
    job = {base + "EmptyCall", Framed(""), 0, 1};
    conc = 1;
    auto once = [&](bool keep) {
      uint64_t t = Now();
      Loop(1, false);
      nghttp2_session_terminate_session(cur->s, 0);
      Write(cur);
      if (cur) Shut(cur);
      if (keep) lat.push_back(Now() - t);
    };
    for (long i = 0; warm && i < calls / 20 + 1; i++) once(false);
    Begin();
    for (long i = 0; i < calls; i++) once(true);
    End();
    ops = calls, unit = "connections";
  } else if (metric == "idle") {  // `conc` live FullDuplexCalls, each after one trip, left alone for `secs`
    std::vector<Call> all(conc);
    job = {base + "FullDuplexCall", "", ReplyLen(1), 1};
    static uint64_t replies;
    on_message = [](Call*) { replies++; };
    for (auto& c : all) c.out = Framed(Bytes(2, Int(1, 1))), c.half_close = false, Submit(&c);
    while (replies < uint64_t(conc)) Turn();
    Begin();
    while (Now() - t0 < secs * 1e9) progress = Now(), Turn(50);
    End();
    for (auto& c : all) c.half_close = true, nghttp2_session_resume_data(c.conn->s, c.id);
    while (finished.size() < size_t(conc)) Turn();
    for (Call* c : finished) Check(c);
    ops = conc, unit = "calls";
  } else {
    Die("unknown metric %s", metric.c_str());
  }
  while (conns.size()) {
    Conn* k = conns.back().get();
    if (!k->dead) nghttp2_session_terminate_session(k->s, 0), Write(k);
    Shut(k);
  }
  std::sort(lat.begin(), lat.end());
  auto pct = [&](double q) { return lat.empty() ? 0.0 : lat[size_t(q * (lat.size() - 1))] / 1e3; };
  double s = (t1 - t0) / 1e9;
  printf("{\"metric\": \"%s\", \"conc\": %ld, \"unit\": \"%s\", \"ops\": %lu, \"seconds\": %.6f, \"per_second\": %.2f, "
         "\"mb_per_second\": %.2f, \"p50_us\": %.1f, \"p99_us\": %.1f, \"connects\": %lu, \"goaways\": %lu, "
         "\"retries\": %lu, \"errors\": %lu, \"first_error\": \"%s\", \"client_cpu_s\": %.3f}\n",
         metric.c_str(), conc, unit, (unsigned long)ops, s, ops / s, mb / s, pct(.5), pct(.99), (unsigned long)connects,
         (unsigned long)goaways, (unsigned long)retries, (unsigned long)errors, first_error.c_str(),
         cpu1 - cpu0);
  return errors ? 1 : 0;
}
