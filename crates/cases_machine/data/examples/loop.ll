define i64 @main(i64 %n) { ; refused, 701 at line 12: too many rounds
;! requires %n >= 0
;! requires %n <= 100
;! budget 0 11
entry:
;! left 0 11
br label %head
head:
;! keeps %i >= 0
;! keeps %i <= 100
;! keeps %n <= 100
;! left 0 10-3*%i
%i = phi i64 [ 0, %entry ], [ %k, %head ]
%k = add nsw i64 %i, 1
%c = icmp slt i64 %k, %n
br i1 %c, label %head, label %out
out:
;! left 0 7-3*%i
ret i64 %i
}
