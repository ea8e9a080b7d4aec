define void @g(i64 %a, i64 %b, i64 %c, i64 %d, i64 %e, i64 %f) {
...
entry:
ret void
}
define i64 @main() {
entry:
ret i64 0
}
