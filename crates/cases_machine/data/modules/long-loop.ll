define i64 @main(i64 %n) {
;! requires %n >= 0
;! requires %n <= 100000
;! budget 0 400005
entry:
;! left 0 4*%n+5
%z = add nsw i64 %n, 0
br label %head
head:
;! keeps %i >= 0
;! keeps %i <= %n
;! keeps %n <= 100000
;! left 0 4*%n-4*%i+3
%i = phi i64 [ 0, %entry ], [ %k, %body ]
%c = icmp slt i64 %i, %n
br i1 %c, label %body, label %out
body:
;! keeps %i >= 0
;! keeps %i+1 <= %n
;! keeps %n <= 100000
;! left 0 4*%n-4*%i+1
%k = add nsw i64 %i, 1
br label %head
out:
;! left 0 1
ret i64 %z
}
