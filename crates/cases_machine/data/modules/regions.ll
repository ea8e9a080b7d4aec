@a = global [4 x i64] zeroinitializer
define i64 @main(i64 %n) {
;! writes @a 0 4
entry:
%s = call token @llvm.syncregion.start()
%t = call token @llvm.syncregion.start()
detach within %s, label %d, label %c
d:
;! foot writes @a 0 1
reattach within %s, label %c
c:
;! pending %s writes @a 0 1
detach within %t, label %e, label %f
e:
;! foot writes @a 1 2
reattach within %t, label %f
f:
;! pending %s writes @a 0 1
;! pending %t writes @a 1 2
sync within %s, label %g
g:
;! pending %t writes @a 1 2
store i64 %n, ptr @a
sync within %t, label %h
h:
ret i64 0
}
