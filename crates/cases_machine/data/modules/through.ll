@a = global [1 x i64] zeroinitializer
@b = global [1 x i64] zeroinitializer
define void @inner() {
;! reads @b 0 1
entry:
ret void
}
define void @outer(ptr noalias dereferenceable(8) %p) {
entry:
call void @inner()
ret void
}
define i64 @main() {
entry:
call void @outer(ptr @a)
ret i64 0
}
