@a = global [4 x i64] zeroinitializer
define i64 @g(i64 %n, i64 %m, ptr noalias dereferenceable(16) %p) {
...
entry:
%r = add i64 %n, %m
ret i64 %r
}
define void @h(i64 %n) {
entry:
ret void
}
define i64 @main() {
entry:
ret i64 0
}
