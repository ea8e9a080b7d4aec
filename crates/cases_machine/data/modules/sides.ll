define i64 @main(i64 %a, i64 %b) {
;! budget 0 3
entry:
;! left 0 3
%c = icmp slt i64 %a, %b
br i1 %c, label %t, label %f
t:
;! keeps %a+1 <= %b
;! left 0 1
ret i64 %a
f:
;! keeps %a >= %b
;! left 0 1
ret i64 %b
}
