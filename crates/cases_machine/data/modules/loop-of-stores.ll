@a = global [257 x i64] zeroinitializer
define i64 @main() {
;! writes @a 0 257
;! budget 0 1546
entry:
;! left 0 1546
br label %head
head:
;! keeps %i >= 0
;! keeps %i <= 257
;! left 0 1545-6*%i
%i = phi i64 [ 0, %entry ], [ %k, %body ]
%c = icmp slt i64 %i, 257
br i1 %c, label %body, label %out
body:
;! keeps %i >= 0
;! keeps %i <= 256
;! left 0 1543-6*%i
%p = getelementptr inbounds i64, ptr @a, i64 %i
store i64 1, ptr %p
%k = add nsw i64 %i, 1
br label %head
out:
;! left 0 1
ret i64 0
}
