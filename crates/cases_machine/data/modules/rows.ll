@a = global [64 x i64] zeroinitializer
define i64 @main() {
;! writes @a 0 64
entry:
%s = call token @llvm.syncregion.start()
br label %head
head:
;! keeps %r >= 0
;! pending %s writes @a 0 8*%r
%r = phi i64 [ 0, %entry ], [ %k, %next ]
%c = icmp slt i64 %r, 8
br i1 %c, label %fork, label %done
fork:
;! keeps %r >= 0
;! keeps %r <= 7
;! pending %s writes @a 0 8*%r
detach within %s, label %body, label %next
body:
;! keeps %r >= 0
;! keeps %r <= 7
;! foot writes @a 8*%r 8*%r+8
;! shows 8*%r >= 0
;! shows 8*%r <= 56
%i = mul nsw i64 %r, 8
%p = getelementptr inbounds i64, ptr @a, i64 %i
store i64 %r, ptr %p
reattach within %s, label %next
next:
;! keeps %r >= 0
;! keeps %r <= 7
;! pending %s writes @a 0 8*%r+8
%k = add nsw i64 %r, 1
br label %head
done:
;! pending %s writes @a 0 8*%r
sync within %s, label %out
out:
ret i64 0
}
