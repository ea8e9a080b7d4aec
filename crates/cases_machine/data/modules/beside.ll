@a = global [4 x i64] zeroinitializer
define i64 @main(i64 %n) {
;! writes @a 0 4
entry:
%s = call token @llvm.syncregion.start()
detach within %s, label %d, label %c
d:
;

reattach within %s, label %c
c:
;

sync within %s, label %j
j:
ret i64 0
}
