@a = global [4 x i64] zeroinitializer
define i64 @main(i64 %n) {
;! writes @a 0 4
entry:
%s = call token @llvm.syncregion.start()
detach within %s, label %d, label %c
d:
;! foot writes @a 0 2
%t = call token @llvm.syncregion.start()
detach within %t, label %e, label %f
e:
;! foot writes @a 0 1
store i64 %n, ptr @a
reattach within %t, label %f
f:
;! pending %t writes @a 0 1
sync within %t, label %g
g:
reattach within %s, label %c
c:
;! pending %s writes @a 0 2
sync within %s, label %h
h:
ret i64 0
}
