define void @put(ptr noalias dereferenceable(8) %p) {
entry:
store i64 1, ptr %p
ret void
}
define i64 @main(i64 %n) {
entry:
%x = alloca i64
store i64 %n, ptr %x
call void @put(ptr %x)
ret i64 %n
}
