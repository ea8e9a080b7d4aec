define i64 @main(i64 %n) {
entry:
%s = call token @llvm.syncregion.start()
%t = call token @llvm.syncregion.start()
%k = icmp eq i64 %n, 0
detach within %s, label %d, label %c
d:
reattach within %s, label %c
c:
sync within %s, label %j
j:
br label %e
e:
ret i64 %n
}
