@a = global [1 x i64] zeroinitializer
define i64 @main(i64 %n) {
;! requires 0 <= %n
;! requires %n <= 100
;! writes @a 0 1
;! budget 0 9
entry:
;! left 0 9
%s = call token @llvm.syncregion.start()
detach within %s, label %d, label %c
d:
;! left 0 2
;! foot writes @a 0 1
store i64 5, ptr @a
reattach within %s, label %c
c:
;! pending %s writes @a 0 1
;! left 0 5
sync within %s, label %j
j:
;! left 0 4
%x = load i64, ptr @a
%y = add i64 %x, %n
ret i64 %y
}
