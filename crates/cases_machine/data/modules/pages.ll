@a = global [32769 x i64] zeroinitializer
define i64 @main() {
;! writes @a 0 32769
;! budget 0 3595
entry:
;! left 0 3595
br label %head
head:
;! keeps %i >= 0
;! keeps %i <= 513
;! left 0 3594-7*%i
%i = phi i64 [ 0, %entry ], [ %k, %body ]
%c = icmp slt i64 %i, 513
br i1 %c, label %body, label %out
body:
;! keeps %i >= 0
;! keeps %i <= 512
;! left 0 3592-7*%i
%j = mul nsw i64 %i, 64
;! shows 64*%i >= 0
;! shows 64*%i <= 32768
%p = getelementptr inbounds i64, ptr @a, i64 %j
store i64 1, ptr %p
%k = add nsw i64 %i, 1
br label %head
out:
;! left 0 1
ret i64 0
}
