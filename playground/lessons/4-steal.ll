; The child stores to one cell, and the parent to the other one.
@a = global [2 x i64] zeroinitializer
define i64 @main(i64 %n) {
;! writes @a 0 2
;! budget 0 14
entry:
;! left 0 14
%s = call token @llvm.syncregion.start()
detach within %s, label %d, label %c
d:
;! left 0 3
;! foot writes @a 0 1
%p = getelementptr inbounds i64, ptr @a, i64 0
store i64 %n, ptr %p
reattach within %s, label %c
c:
;! pending %s writes @a 0 1
;! left 0 9
%q = getelementptr inbounds i64, ptr @a, i64 1
store i64 %n, ptr %q
sync within %s, label %j
j:
;! left 0 6
%u = getelementptr inbounds i64, ptr @a, i64 0
%x = load i64, ptr %u
%v = getelementptr inbounds i64, ptr @a, i64 1
%y = load i64, ptr %v
%t = add i64 %x, %y
ret i64 %t
}
