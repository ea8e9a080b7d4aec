define i64 @main(i64 %n) {
;! budget 0 2
entry:
;! left 0 2
switch i64 %n, label %o [ i64 7, label %a ]
a:
;! keeps %n >= 7
;! keeps %n <= 7
;! left 0 1
ret i64 %n
o:
;! left 0 1
ret i64 0
}
