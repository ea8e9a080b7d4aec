define void @one(ptr noalias dereferenceable(16) %p) {
entry:
ret void
}
define void @two(ptr noalias dereferenceable(8) %p, ptr noalias dereferenceable(16) %q) {
entry:
call void @one(ptr %q)
ret void
}
define i64 @main() {
entry:
%x = alloca i64
%y = alloca [2 x i64]
call void @two(ptr %x, ptr %y)
ret i64 0
}
