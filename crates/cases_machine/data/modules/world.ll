@a = global [4 x i64] zeroinitializer
@b = global [2 x i64] zeroinitializer
define i64 @f(i64 %x) {
entry:
ret i64 %x
}
define void @put(ptr noalias dereferenceable(16) %p, ptr noalias dereferenceable(8) %q) {
entry:
ret void
}
define i64 @main(i64 %n) {
entry:
...
}
