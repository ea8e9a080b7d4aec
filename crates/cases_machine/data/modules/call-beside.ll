@a = global [4 x i64] zeroinitializer
@b = global [2 x i64] zeroinitializer
define void @fill(ptr noalias dereferenceable(16) %p, i64 %k) {
;! requires %k >= 0
;! requires %k <= 3
;! writes %p 0 2
;! reads @a %k %k+1
entry:
ret void
}
define i64 @main(i64 %n) {
;! writes @b 0 2
;! writes @a 0 4
entry:
%s = call token @llvm.syncregion.start()
detach within %s, label %d, label %c
d:
;! foot writes @a 1 2
reattach within %s, label %c
c:
;! pending %s writes @a 1 2
call void @fill(ptr @b, i64 2)
sync within %s, label %j
j:
ret i64 0
}
