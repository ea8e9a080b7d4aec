@a = global [2 x i64] zeroinitializer
define i64 @main() {
;! writes @a 0 2
entry:
%s = call token @llvm.syncregion.start()
detach within %s, label %d, label %c
d:
;! foot writes @a 0 1
store i64 1, ptr @a
reattach within %s, label %c
c:
;! pending %s writes @a 0 1
%q = getelementptr inbounds i64, ptr @a, i64 1
store i64 2, ptr %q
sync within %s, label %j
j:
%x = load i64, ptr @a
ret i64 %x
}
