define i64 @main(i64 %n) {
;! measure 0 max 2
;! budget 1 2
entry:
;! left 0 2
%r = add i64 %n, 1
ret i64 %r
}
