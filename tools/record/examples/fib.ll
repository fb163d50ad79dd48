; A recursion that lli compiles and tells gdb of, deep enough to be stopped in.
define i64 @fib(i64 %n) {
  %small = icmp ult i64 %n, 2
  br i1 %small, label %end, label %more
more:
  %a = sub i64 %n, 1
  %b = sub i64 %n, 2
  %x = call i64 @fib(i64 %a)
  %y = call i64 @fib(i64 %b)
  %s = add i64 %x, %y
  ret i64 %s
end:
  ret i64 %n
}
define i32 @main() {
  %x = call i64 @fib(i64 60)
  ret i32 0
}
