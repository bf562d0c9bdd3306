#!/usr/bin/env bash
# wrong.sh: run.sh is given small modules that are wrong and must say why; and two that are right, which it must let pass.
set -euo pipefail
cd "$(dirname "$0")"
room=$(mktemp -d)
trap 'rm -rf "$room"' EXIT
n=0
limit=$(awk '$1 == "#define" && $2 == "TENAHVAR_STACK" { print $3 }' ../../include/tenahvar.h)

# held STATUS TEXT: run.sh ends with STATUS and says TEXT of the module that it is given here.
held() {
    { echo 'target triple = "x86_64-unknown-linux-gnu"'; cat; } >"$room/module.ll"
    status=0
    ./run.sh "$room/module.ll" >"$room/said" 2>&1 || status=$?
    { [ "$status" -eq "$1" ] && grep -qF -- "$2" "$room/said"; } && { n=$((n + 1)); return; }
    cat "$room/module.ll" "$room/said"
    echo "stack: run.sh ended with $status, and should end with $1 and say: $2"
    exit 1
}

# A function that calls itself, even where the compiler makes a loop of it.
held 1 "the module as written: recursion: f > f" <<'LL'
define i32 @f(i32 %n, i32 %sum) {
  %last = icmp eq i32 %n, 0
  br i1 %last, label %end, label %more
end:
  ret i32 %sum
more:
  %less = sub i32 %n, 1
  %next = add i32 %sum, %n
  %r = tail call i32 @f(i32 %less, i32 %next)
  ret i32 %r
}
LL

# Two functions that call each other.
held 1 "the module as written: recursion: even > odd > even" <<'LL'
define i1 @even(i32 %n) {
  %last = icmp eq i32 %n, 0
  br i1 %last, label %yes, label %more
yes:
  ret i1 true
more:
  %less = sub i32 %n, 1
  %r = call i1 @"odd"(i32 %less)
  ret i1 %r
}
define internal i1 @odd(i32 %n) {
  %less = sub i32 %n, 1
  %r = tail call i1 @even(i32 %less)
  ret i1 %r
}
LL

# A function that calls itself by another name.
held 1 "f calls g, which is no function of the module" <<'LL'
@g = internal alias void (), ptr @f
define void @f() {
  call void @g()
  ret void
}
LL

# Calls of a function that is not named: by an argument, as the last thing, from a table, by a number.
held 1 "f makes an indirect call" <<'LL'
define i32 @f(ptr %p) {
  %r = call i32 %p(i32 1)
  %s = add i32 %r, 1
  ret i32 %s
}
LL
held 1 "f makes an indirect call" <<'LL'
define void @f(ptr %p) {
  musttail call void %p(ptr %p)
  ret void
}
LL
held 1 "f makes an indirect call" <<'LL'
@table = internal constant [2 x ptr] [ptr @a, ptr @b]
define internal i32 @a() {
  ret i32 1
}
define internal i32 @b() {
  ret i32 2
}
define i32 @f(i64 %i) {
  %place = getelementptr [2 x ptr], ptr @table, i64 0, i64 %i
  %p = load ptr, ptr %place
  %r = call noundef i32 %p()
  ret i32 %r
}
LL
held 1 "f makes an indirect call" <<'LL'
define void @f() {
  call void inttoptr (i64 4096 to ptr)()
  ret void
}
LL

# What lies outside the module is not known.
held 1 "f calls sort, which is no function of the module" <<'LL'
declare void @sort(ptr)
define void @f(ptr %p) {
  call void @sort(ptr %p)
  ret void
}
LL
held 1 "f calls fmodf, which is no function of the module" <<'LL'
define float @f(float %x, float %y) {
  %r = frem float %x, %y
  ret float %r
}
LL
held 1 "f has assembly" <<'LL'
define void @f() {
  call void asm sideeffect "call f", ""()
  ret void
}
LL

# Frames that are too large, by themselves or together, or of no fixed size. One that just fits is right.
frame() {
    echo "define void @f(i64 %i) {
  %room = alloca [$1 x i8]
  %place = getelementptr i8, ptr %room, i64 %i
  store volatile i8 1, ptr %place
  ret void
}"
}
address=8
held 0 "no recursion among 1 functions; at most $limit bytes (TENAHVAR_STACK $limit): f" < <(frame $((limit - address)))
held 1 "too deep; at most $((limit + address)) bytes (TENAHVAR_STACK $limit): f" < <(frame "$limit")
held 1 "(TENAHVAR_STACK $limit): f > g" <<LL
define internal void @g(i64 %i) noinline {
  %room = alloca [$((limit / 2)) x i8]
  %place = getelementptr i8, ptr %room, i64 %i
  store volatile i8 1, ptr %place
  ret void
}
define void @f(i64 %i) {
  %room = alloca [$((limit / 2)) x i8]
  %place = getelementptr i8, ptr %room, i64 %i
  store volatile i8 1, ptr %place
  call void @g(i64 %i)
  store volatile i8 1, ptr %place
  ret void
}
LL
# The prover's modules have each large frame touched as it is taken: in steps, which are followed, or, where it is far too large, in a loop.
touched() {
    echo "declare ptr @memcpy(ptr, ptr, i64)
define void @f(ptr %p, i64 %i) \"probe-stack\"=\"inline-asm\" \"stack-probe-size\"=\"3072\" {
  %room = alloca [$1 x i8]
  %r = call ptr @memcpy(ptr %room, ptr %p, i64 $1)
  %place = getelementptr i8, ptr %room, i64 %i
  %s = load volatile i8, ptr %place
  ret void
}"
}
held 0 "at most $((limit - address)) bytes (TENAHVAR_STACK $limit): f > memcpy" < <(touched $((limit - 4 * address)))
held 1 "too deep; at most $((limit + address)) bytes (TENAHVAR_STACK $limit): f > memcpy" < <(touched $((limit - 2 * address)))
held 1 "the machine code: f holds" < <(touched 60000)
held 1 "f has a frame whose size varies: dynamic" <<'LL'
define void @f(i64 %n) {
  %room = alloca i8, i64 %n
  store volatile i8 1, ptr %room
  ret void
}
LL
held 1 "f moves the stack pointer in a way that is not followed here" <<'LL'
define void @f() {
  %room = alloca i8, align 64
  store volatile i8 1, ptr %room
  ret void
}
LL

# Nothing to look at.
held 1 "there is no function" </dev/null
held 1 "the module exports no function" <<'LL'
@llvm.used = appending global [1 x ptr] [ptr @f], section "llvm.metadata"
define internal void @f() {
  ret void
}
LL

# A right module with a table of jumps, arguments on the stack, a call as the last thing and memcpy.
held 0 "f > a::last > a::eight > memcpy" <<'LL'
declare ptr @memcpy(ptr, ptr, i64)
define i64 @"a::eight"(i64 %a, i64 %b, i64 %c, i64 %d, i64 %e, i64 %f, i64 %g, ptr %p) noinline {
  %room = alloca [16 x i64]
  %r = call ptr @memcpy(ptr %room, ptr %p, i64 %g)
  %place = getelementptr i64, ptr %room, i64 %a
  %s = load volatile i64, ptr %place
  ret i64 %s
}
define internal i64 @"a::last"(i64 %a, ptr %p) noinline {
  %s = call i64 @"a::eight"(i64 %a, i64 1, i64 2, i64 3, i64 4, i64 5, i64 %a, ptr %p)
  %t = add i64 %s, %a
  ret i64 %t
}
define i64 @f(i64 %a, ptr %p) {
  switch i64 %a, label %other [ i64 0, label %zero
    i64 1, label %one
    i64 2, label %two
    i64 3, label %three
    i64 4, label %four ]
zero:
  %z = call i64 @"a::eight"(i64 %a, i64 1, i64 2, i64 3, i64 4, i64 5, i64 6, ptr %p)
  %y = mul i64 %z, 3
  ret i64 %y
one:
  %x = tail call i64 @"a::last"(i64 5, ptr %p)
  ret i64 %x
two:
  store volatile i64 1, ptr %p
  ret i64 77
three:
  %w = call i64 @"a::last"(i64 9, ptr %p)
  %v = add i64 %w, 1
  ret i64 %v
four:
  store volatile i64 4, ptr %p
  br label %three
other:
  ret i64 0
}
LL
echo "stack: run.sh says what is right of $n small modules"
