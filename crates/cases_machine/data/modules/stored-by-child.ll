define i64 @main(i64 %n) {
entry:
%x = alloca i64
%s = call token @llvm.syncregion.start()
%t = call token @llvm.syncregion.start()
detach within %s, label %d, label %c
d:
store i64 %n, ptr %x
reattach within %s, label %c
c:
sync within %s, label %j
j:
%y = load i64, ptr %x
ret i64 %y
}
