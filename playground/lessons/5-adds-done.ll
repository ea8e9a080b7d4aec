; Each child adds its number to one cell.
@a = global [1 x i64] zeroinitializer
define i64 @main(i64 %n) {
;! requires %n >= 0
;! requires %n <= 64
;! writes @a 0 1
;! budget 0 582
entry:
;! left 0 9*%n+6
%s = call token @llvm.syncregion.start()
br label %head
head:
;! keeps %i >= 0
;! keeps %i <= %n
;! keeps %n <= 64
;! pending %s adds @a 0 1
;! left 0 9*%n-9*%i+4
%i = phi i64 [ 0, %entry ], [ %k, %next ]
%c = icmp slt i64 %i, %n
br i1 %c, label %fork, label %done
fork:
;! keeps %i >= 0
;! keeps %i <= 63
;! keeps %i+1 <= %n
;! keeps %n <= 64
;! pending %s adds @a 0 1
;! left 0 9*%n-9*%i+2
detach within %s, label %body, label %next
body:
;! keeps %i >= 0
;! keeps %i <= 63
;! left 0 4
;! foot adds @a 0 1
atomicrmw add ptr @a, i64 %i seq_cst
reattach within %s, label %next
next:
;! keeps %i >= 0
;! keeps %i+1 <= %n
;! keeps %n <= 64
;! pending %s adds @a 0 1
;! left 0 9*%n-9*%i-3
%k = add nsw i64 %i, 1
br label %head
done:
;! pending %s adds @a 0 1
;! left 0 2
sync within %s, label %out
out:
;! left 0 1
ret i64 %n
}
