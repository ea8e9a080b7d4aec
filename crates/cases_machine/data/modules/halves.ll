@a = global [64 x i64] zeroinitializer
define void @fill(ptr noalias dereferenceable(512) %p, i64 %lo, i64 %hi) {
;! requires %lo >= 0
;! requires %lo <= %hi
;! requires %hi <= 64
;! writes %p %lo %hi
entry:
%s = call token @llvm.syncregion.start()
%n = sub nsw i64 %hi, %lo
;! shows %n <= %hi
;! shows %n <= 64
%c = icmp sle i64 %n, 1
br i1 %c, label %small, label %large
small:
ret void
large:
;! keeps %lo >= 0
;! keeps %n >= 2
;! keeps %hi <= 64
;! keeps %lo+%n <= %hi
;! keeps %hi <= %lo+%n
;! keeps %n <= 64
%h = sdiv i64 %n, 2
;! shows %h <= %n
;! shows %h <= 64
;! shows %lo+%h <= %hi
;! shows %lo <= %hi
;! shows %lo <= 64
%m = add nsw i64 %lo, %h
;! shows %m <= %hi
;! shows %lo <= %m
detach within %s, label %left, label %right
left:
;! keeps %lo >= 0
;! keeps %lo <= %m
;! keeps %m <= 64
;! foot writes %p %lo %m
call void @fill(ptr %p, i64 %lo, i64 %m)
reattach within %s, label %right
right:
;! keeps %m >= 0
;! keeps %lo <= %m
;! keeps %m <= %hi
;! keeps %hi <= 64
;! pending %s writes %p %lo %m
call void @fill(ptr %p, i64 %m, i64 %hi)
sync within %s, label %done
done:
ret void
}
define i64 @main() {
;! writes @a 0 64
entry:
call void @fill(ptr @a, i64 0, i64 64)
ret i64 0
}
